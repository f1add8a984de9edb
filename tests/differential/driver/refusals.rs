//! Document 01's numbered answers, and which refusal from 1 to 9 a case gets.
use crate::case::{Call::*, Case};

pub const DONE: u32 = 0;
pub const EMPTY: u32 = 1;
pub const SIZE: u32 = 2;
pub const NODE: u32 = 3;
pub const NUMBER: u32 = 4;
pub const ROOM: u32 = 5;
pub const DAMPING: u32 = 6;
pub const ROUNDS: u32 = 7;
pub const START: u32 = 8;
pub const LENGTH: u32 = 9;
pub const PATHS: u32 = 10;
pub const UNSETTLED: u32 = 11;
pub const TEXT: u32 = 12;

/// The first refusal from 1 to 9 in document 01's order, or DONE.
pub fn refusal(case: &Case) -> u32 {
    let (g, n) = (&*case.graph, case.graph.nodes);
    let m = g.m();
    if n > 4096 || m > 32768 || g.to.len() != m || g.weight.len() != m {
        return SIZE;
    }
    if n == 0 && case.call.needs_nodes() {
        return EMPTY;
    }
    let outside = |&v: &u32| v as usize >= n;
    if g.from.iter().any(outside) || g.to.iter().any(outside) || case.call == Survey && case.option >= n as u64 {
        return NODE;
    }
    let given = case.call.takes_vector() && case.given != 0;
    if case.call.iterates() {
        let mut read = g.weight.clone();
        read.push(case.settings.tolerance);
        if case.call != Eigenvector {
            read.push(case.settings.damping);
        }
        if given {
            read.extend(&case.vector);
        }
        if !read.iter().all(|x| x.is_finite()) {
            return NUMBER;
        }
    }
    if case.call == Personalized {
        if case.settings.damping <= 0.0 || case.settings.damping >= 1.0 {
            return DAMPING;
        }
        if case.settings.limit == 0 {
            return ROUNDS;
        }
    }
    if given && case.vector.len() != n {
        return LENGTH;
    }
    if case.call == Pagerank && given && n > 0 && total(&case.vector).abs() < 1e-9 {
        return START;
    }
    let short = |have: &[usize], need: &[usize]| have.iter().zip(need).any(|(have, need)| have < need);
    if short(&case.rooms, &g.needs(case.call, case.option)) || case.call.works() && short(&case.work, &g.front()) {
        return ROOM;
    }
    DONE
}

pub fn total(vector: &[f64]) -> f64 {
    vector.iter().fold(0.0, |sum, x| sum + x)
}
