//! What a call must leave: refusals by document 01's table, scores and rounds from the Rust, the survey from its definition.
use crate::case::{Call, Case, Lists, Outcome};
use graphina::core::types::{BaseGraph, Directed, GraphConstructor, NodeId, NodeMap, Undirected};
use graphina::centrality as rust;
pub use crate::refusals::*;
use Call::*;

/// Rounds after which a run that has not settled counts as endless: a larger limit is then not compared.
const ENDLESS: u64 = 4096;

/// Neighbour entries in document 01's order: newest first, edges that leave, then, undirected, edges that enter.
pub fn rows(g: &Lists) -> Vec<Vec<usize>> {
    let mut rows = vec![Vec::new(); g.nodes];
    for i in (0..g.m()).rev() {
        rows[g.from[i] as usize].push(g.to[i] as usize);
    }
    if g.directed == 0 {
        for i in (0..g.m()).rev() {
            if g.from[i] != g.to[i] {
                rows[g.to[i] as usize].push(g.from[i] as usize);
            }
        }
    }
    rows
}

/// Distances and path counts from a start; nothing if a count exceeds 2^53.
fn survey(rows: &[Vec<usize>], start: usize) -> Option<(Vec<u32>, Vec<u64>)> {
    let mut distance = vec![u32::MAX; rows.len()];
    let mut count = vec![0u64; rows.len()];
    (distance[start], count[start]) = (0, 1);
    let (mut level, mut hops) = (vec![start], 0);
    while !level.is_empty() {
        hops += 1;
        let mut next = Vec::new();
        for &v in &level {
            for &w in &rows[v] {
                if distance[w] == u32::MAX {
                    distance[w] = hops;
                    next.push(w);
                }
                if distance[w] == hops {
                    count[w] += count[v];
                    if count[w] > 1 << 53 {
                        return None;
                    }
                }
            }
        }
        level = next;
    }
    Some((distance, count))
}

/// The Rust's graph, made of the lists.
pub enum Built {
    Directed(BaseGraph<(), f64, Directed>),
    Undirected(BaseGraph<(), f64, Undirected>),
}

macro_rules! on {
    ($built:expr, $g:ident => $body:expr) => {
        match $built {
            Built::Directed($g) => $body,
            Built::Undirected($g) => $body,
        }
    };
}

impl Built {
    pub fn of(g: &Lists) -> Built {
        if g.directed != 0 {
            Built::Directed(BaseGraph::of(g.nodes, &g.from, &g.to, &g.weight))
        } else {
            Built::Undirected(BaseGraph::of(g.nodes, &g.from, &g.to, &g.weight))
        }
    }
}

fn dense(n: usize, map: &NodeMap<f64>) -> Vec<f64> {
    assert_eq!(map.len(), n);
    (0..n).map(|v| map[&NodeId::of(v)]).collect()
}

/// What the case must leave, and nothing where a round limit is too large to wait for.
pub fn expected(case: &Case, built: &mut Option<Built>) -> Option<Outcome> {
    let refusal = refusal(case);
    if refusal != DONE {
        return Some(Outcome::refused(refusal));
    }
    let built = built.get_or_insert_with(|| Built::of(&case.graph));
    on!(built, g => done(case, g))
}

fn done<Ty: GraphConstructor<(), f64>>(case: &Case, g: &BaseGraph<(), f64, Ty>) -> Option<Outcome> {
    let (lists, n) = (&*case.graph, case.graph.nodes);
    let normalized = case.option != 0;
    Some(match case.call {
        Degree => Outcome::scores(dense(n, &rust::degree::degree_centrality(g).unwrap())),
        InDegree => Outcome::scores(dense(n, &rust::degree::in_degree_centrality(g).unwrap())),
        OutDegree => Outcome::scores(dense(n, &rust::degree::out_degree_centrality(g).unwrap())),
        Survey => match survey(&rows(lists), case.option as usize) {
            Some((r32, r64)) => Outcome { r32, r64, ..Outcome::default() },
            None => Outcome::refused(PATHS),
        },
        Betweenness | EdgeBetweenness if !countable(lists) => Outcome::refused(PATHS),
        Betweenness => Outcome::scores(dense(n, &rust::betweenness::betweenness_centrality(g, normalized).unwrap())),
        EdgeBetweenness => {
            let pairs = rust::betweenness::edge_betweenness_centrality(g, normalized).unwrap();
            let total = |u: &u32, v: &u32| pairs[&(NodeId::of(*u as usize), NodeId::of(*v as usize))];
            let forward = lists.from.iter().zip(&lists.to).map(|(u, v)| total(u, v)).collect();
            let back = if lists.directed != 0 {
                Vec::new()
            } else {
                lists.from.iter().zip(&lists.to).map(|(u, v)| total(v, u)).collect()
            };
            Outcome { rf: forward, rb: back, ..Outcome::default() }
        }
        // the Rust walks as often as its limit says; nothing is reached after n hops
        LocalReaching => {
            let hops = (case.option as usize).min(n);
            Outcome::scores(dense(n, &rust::other::local_reaching_centrality(g, hops).unwrap()))
        }
        GlobalReaching => Outcome::scores(dense(n, &rust::other::global_reaching_centrality(g).unwrap())),
        Voterank => {
            let r32: Vec<u32> = rust::other::voterank(g, case.option as usize).iter().map(|v| v.index() as u32).collect();
            Outcome { elected: r32.len(), r32, ..Outcome::default() }
        }
        Laplacian => Outcome::scores(dense(n, &rust::other::laplacian_centrality(g).unwrap())),
        Pagerank | Personalized if n == 0 => settled(Vec::new(), 0),
        Pagerank => ranked(case, |limit| pagerank(case, g, limit))?,
        Personalized => ranked(case, |limit| personalized(case, g, limit))?,
        Eigenvector => converged(case, |limit| {
            let scores = rust::eigenvector::eigenvector_centrality(g, limit, case.settings.tolerance);
            scores.ok().map(|map| dense(n, &map))
        })?,
        Katz => converged(case, |limit| {
            let beta = |v: NodeId| case.vector[v.index()];
            let beta = if case.given != 0 { Some(&beta as &dyn Fn(NodeId) -> f64) } else { None };
            let scores = rust::katz::katz_centrality(g, case.settings.damping, beta, limit, case.settings.tolerance);
            scores.ok().map(|map| dense(n, &map))
        })?,
    })
}

/// No path count from any start exceeds 2^53.
fn countable(g: &Lists) -> bool {
    // a count is at most the product of the edges between levels, which is below 2^53 for 100 edges (3^33 * 1)
    if g.m() <= 100 {
        return true;
    }
    let rows = rows(g);
    (0..g.nodes).all(|start| survey(&rows, start).is_some())
}

fn settled(rf: Vec<f64>, rounds: u64) -> Outcome {
    Outcome { rf, rounds, settled: 1, ..Outcome::default() }
}

fn pagerank<Ty: GraphConstructor<(), f64>>(case: &Case, g: &BaseGraph<(), f64, Ty>, limit: usize) -> Vec<f64> {
    let n = case.graph.nodes;
    let start: Option<NodeMap<f64>> =
        (case.given != 0).then(|| case.vector.iter().enumerate().map(|(v, x)| (NodeId::of(v), *x)).collect());
    let settings = case.settings;
    dense(n, &rust::pagerank::pagerank(g, settings.damping, limit, settings.tolerance, start.as_ref()).unwrap())
}

/// The state after `limit` rounds. The Rust refuses a limit of 0: its state then is the personalization itself.
fn personalized<Ty: GraphConstructor<(), f64>>(case: &Case, g: &BaseGraph<(), f64, Ty>, limit: usize) -> Vec<f64> {
    let n = case.graph.nodes;
    let vector = (case.given != 0).then(|| case.vector.clone());
    if limit == 0 {
        let sum = vector.as_deref().map_or(0.0, total);
        return match vector {
            Some(vector) if sum > 0.0 => vector.iter().map(|x| x / sum).collect(),
            _ => vec![1.0 / n as f64; n],
        };
    }
    let settings = case.settings;
    rust::personalized_pagerank::personalized_page_rank(g, vector, settings.damping, settings.tolerance, limit).unwrap()
}

/// Rounds and state of a PageRank, which stops by itself but does not say when: the rule held by round k exactly when it
/// holds between the states that the Rust gives with the limits k-1 and k.
fn ranked(case: &Case, state: impl Fn(usize) -> Vec<f64>) -> Option<Outcome> {
    let enough = case.settings.tolerance * case.graph.nodes as f64;
    let stopped = |k: u64| {
        let (before, after) = (state(k as usize - 1), state(k as usize));
        before.iter().zip(&after).fold(0.0, |sum, (a, b)| sum + (a - b).abs()) < enough
    };
    let limit = case.settings.limit;
    match first(limit, stopped) {
        First::At(k) => Some(settled(state(k as usize), k)),
        First::Never => Some(Outcome { rounds: limit, ..Outcome::scores(state(limit as usize)) }),
        First::Endless => None,
    }
}

/// Rounds and state of a measure that fails where its limit is too small.
fn converged(case: &Case, scores: impl Fn(usize) -> Option<Vec<f64>>) -> Option<Outcome> {
    if let Some(rf) = scores(0) {
        return Some(settled(rf, 0));
    }
    match first(case.settings.limit, |k| scores(k as usize).is_some()) {
        First::At(k) => Some(settled(scores(k as usize).unwrap(), k)),
        First::Never => Some(Outcome::refused(UNSETTLED)),
        First::Endless => None,
    }
}

enum First {
    At(u64),
    Never,
    Endless,
}

/// The first k from 1 to limit at which a rule holds that goes on holding once it does.
fn first(limit: u64, holds: impl Fn(u64) -> bool) -> First {
    let mut below = 0;
    let mut at = 1;
    loop {
        if at > limit {
            at = limit;
        }
        if at == below {
            return First::Never;
        }
        if holds(at) {
            break;
        }
        if at > ENDLESS && at < limit {
            return First::Endless;
        }
        below = at;
        at *= 2;
    }
    while at - below > 1 {
        let middle = below + (at - below) / 2;
        if holds(middle) {
            at = middle;
        } else {
            below = middle;
        }
    }
    First::At(at)
}

/// Document 01's neighbour order and list order against the Rust's graph.
pub fn orders_agree(lists: &Lists) -> bool {
    let own = rows(lists);
    on!(Built::of(lists), g => {
        let rows_agree = (0..lists.nodes).all(|v| g.neighbors(NodeId::of(v)).map(|w| w.index()).eq(own[v].iter().copied()));
        let edges: Vec<(usize, usize, u64)> = g.edges().map(|(u, v, w)| (u.index(), v.index(), w.to_bits())).collect();
        let listed = (0..lists.m()).map(|i| (lists.from[i] as usize, lists.to[i] as usize, lists.weight[i].to_bits()));
        rows_agree && listed.eq(edges)
    })
}

/// Where document 01 and the Rust both refuse, the Rust must: EMPTY, DAMPING, ROUNDS, LENGTH (personalized) and START.
pub fn rust_refuses_too(case: &Case, answer: u32) -> bool {
    let applies = match case.call {
        Betweenness | EdgeBetweenness => answer == EMPTY,
        Personalized => [EMPTY, DAMPING, ROUNDS, LENGTH].contains(&answer),
        Pagerank => answer == START,
        _ => false,
    };
    if !applies {
        return true;
    }
    let built = if answer == EMPTY { Built::of(&Lists { nodes: 0, directed: case.graph.directed, from: vec![], to: vec![], weight: vec![] }) } else { Built::of(&case.graph) };
    let (s, given) = (case.settings, case.given != 0);
    on!(&built, g => match case.call {
        Betweenness => rust::betweenness::betweenness_centrality(g, case.option != 0).is_err(),
        EdgeBetweenness => rust::betweenness::edge_betweenness_centrality(g, case.option != 0).is_err(),
        Personalized => {
            let vector = given.then(|| case.vector.clone());
            rust::personalized_pagerank::personalized_page_rank(g, vector, s.damping, s.tolerance, s.limit as usize).is_err()
        }
        _ => {
            let start: NodeMap<f64> = case.vector.iter().enumerate().map(|(v, x)| (NodeId::of(v), *x)).collect();
            rust::pagerank::pagerank(g, s.damping, 1, s.tolerance, Some(&start)).is_err()
        }
    })
}
