//! Random calls and damaged jobs through the C interface. Every slice ends, or begins, at a page that can be neither read nor written, with guard
//! bytes at its other end. Checked: the answer is the first refusal of document 01's table or none applies; no byte changes that may not; inputs
//! stay as they were; a refused job has exactly its two lines. `tests/fuzz/run` builds it and says how it is called.
#[path = "../differential/driver/case.rs"]
mod case;
#[path = "../differential/driver/graphs.rs"]
mod graphs;
#[path = "../differential/driver/job.rs"]
mod job;
#[path = "../differential/driver/library.rs"]
mod library;
#[path = "../differential/driver/refusals.rs"]
mod refusals;

/// What `job` asks for: here only refusals are known.
mod expected {
    use crate::case::{Case, Outcome};
    pub use crate::refusals::*;

    pub fn expected(case: &Case, _: &mut Option<()>) -> Option<Outcome> {
        let answer = refusal(case);
        (answer != DONE).then(|| Outcome::refused(answer))
    }
}

use case::{Call, Call::*, Case, Lists, CALLS};
use graphs::Dice;
use library::{Graph, Work};
use refusals::{refusal, DONE, PATHS, ROOM, UNSETTLED};
use std::rc::Rc;
use std::time::Instant;

const PAGE: usize = 1 << 16;
const ROOM_BYTES: usize = 1 << 20;
const GUARD: usize = 64;

extern "C" {
    fn mmap(at: *mut u8, len: usize, prot: i32, flags: i32, fd: i32, from: i64) -> *mut u8;
    fn mprotect(at: *mut u8, len: usize, prot: i32) -> i32;
}

/// Memory between two pages that nothing may touch.
struct Fence {
    start: *mut u8,
    /// Where the lent bytes stand, and a copy of them and of the guard bytes beside them.
    at: usize,
    copy: Vec<u8>,
    guard: usize,
}

impl Fence {
    fn new() -> Fence {
        unsafe {
            let all = mmap(std::ptr::null_mut(), ROOM_BYTES + 2 * PAGE, 0, 0x22, -1, 0);
            assert!(all as isize != -1, "no memory");
            let start = all.add(PAGE);
            assert!(mprotect(start, ROOM_BYTES, 3) == 0, "no memory");
            Fence { start, at: 0, copy: Vec::new(), guard: 0 }
        }
    }

    fn bytes(&self, at: usize, len: usize) -> &mut [u8] {
        unsafe { std::slice::from_raw_parts_mut(self.start.add(at), len) }
    }

    /// Lends `len` bytes at either end, with these contents or any.
    fn lend(&mut self, dice: &mut Dice, len: usize, contents: Option<&[u8]>) {
        let last = dice.once_in(2);
        self.at = if last { ROOM_BYTES - len } else { 0 };
        self.guard = if last { self.at - GUARD } else { len };
        let mut word = dice.word() | 1;
        for byte in self.bytes(self.at, len).iter_mut().chain(self.bytes(self.guard, GUARD).iter_mut()) {
            word = word.wrapping_mul(6364136223846793005).wrapping_add(1442695040888963407);
            *byte = (word >> 56) as u8;
        }
        if let Some(contents) = contents {
            self.bytes(self.at, len).copy_from_slice(contents);
        }
        self.copy = [&*self.bytes(self.at, len), self.bytes(self.guard, GUARD)].concat();
    }

    fn slice<T>(&self) -> &'static mut [T] {
        let (size, len) = (std::mem::size_of::<T>(), self.copy.len() - GUARD);
        unsafe { std::slice::from_raw_parts_mut(self.start.add(self.at) as *mut T, len / size) }
    }

    /// From byte `open` on everything is as it was, and before it, if `zero`, every byte is 0.
    fn holds(&self, open: usize, zero: bool) -> bool {
        let len = self.copy.len() - GUARD;
        let now = self.bytes(self.at, len);
        now[open.min(len)..] == self.copy[open.min(len)..len]
            && self.bytes(self.guard, GUARD) == &self.copy[len..]
            && (!zero || now[..open.min(len)].iter().all(|b| *b == 0))
    }
}

fn as_bytes<T>(xs: &[T]) -> &[u8] {
    unsafe { std::slice::from_raw_parts(xs.as_ptr() as *const u8, std::mem::size_of_val(xs)) }
}

/// What a call said: its answer and how many results it wrote where that is not fixed (VoteRank).
fn call(case: &Case, f: &[Fence]) -> (u32, usize) {
    let g = Graph { nodes: case.graph.nodes, directed: case.graph.directed, from: f[0].slice(), to: f[1].slice(), weight: f[2].slice() };
    let w = Work { w32: f[8].slice(), w64: f[9].slice(), wf: f[10].slice() };
    let (vector, r32, r64, rf, rb) = (f[3].slice(), f[4].slice(), f[5].slice(), f[6].slice(), f[7].slice());
    let (option, s) = (case.option as usize, case.settings);
    let plain = |answer| (answer, usize::MAX);
    match case.call {
        Degree => plain(library::degree(g, rf)),
        InDegree => plain(library::in_degree(g, rf)),
        OutDegree => plain(library::out_degree(g, rf)),
        Survey => plain(library::survey(g, option, r32, r64, w)),
        Betweenness => plain(library::betweenness(g, case.option as u32, rf, w)),
        EdgeBetweenness => plain(library::edge_betweenness(g, case.option as u32, rf, rb, w)),
        LocalReaching => plain(library::local_reaching(g, option, rf, w)),
        GlobalReaching => plain(library::global_reaching(g, rf, w)),
        Voterank => {
            let e = library::voterank(g, option, r32, w);
            (e.answer, e.elected)
        }
        Laplacian => plain(library::laplacian(g, rf, w)),
        Pagerank => plain(library::pagerank(g, s, case.given, vector, rf, w).answer),
        Personalized => plain(library::personalized_pagerank(g, s, case.given, vector, rf, w).answer),
        Eigenvector => plain(library::eigenvector(g, s, rf, w).answer),
        Katz => plain(library::katz(g, s, case.given, vector, rf, w).answer),
    }
}

/// A chain of doubled steps: 2^steps paths to its end.
fn doubled(steps: usize) -> Lists {
    let from: Vec<u32> = (0..2 * steps as u32).map(|i| i / 2).collect();
    let to = from.iter().map(|v| v + 1).collect();
    Lists { nodes: steps + 1, directed: 1, weight: vec![1.0; from.len()], from, to }
}

/// A case with slices of odd and unequal lengths.
fn odd_case(dice: &mut Dice, call: Call) -> Case {
    let mut g = if dice.once_in(300) { doubled(51 + dice.below(5)) } else { graphs::random(dice) };
    if dice.once_in(10) {
        for ends in [&mut g.from, &mut g.to] {
            ends.truncate(dice.below(ends.len() + 1));
        }
    }
    let mut case = graphs::random_case(dice, call, &Rc::new(g));
    case.settings.limit = case.settings.limit.min(300);
    if dice.once_in(6) {
        case.rooms = [0; 4].map(|_| dice.below(60));
    }
    if dice.once_in(6) {
        case.work = [0; 3].map(|_| dice.below(400));
    }
    case
}

/// Runs one call, and says what is wrong with it.
fn try_call(dice: &mut Dice, call_: Call, f: &mut [Fence]) -> (u32, Option<String>) {
    let case = odd_case(dice, call_);
    let g = &*case.graph;
    let [r32, r64, rf, rb] = case.rooms;
    let [a, b, c] = case.work;
    f[0].lend(dice, 4 * g.from.len(), Some(as_bytes(&g.from)));
    f[1].lend(dice, 4 * g.to.len(), Some(as_bytes(&g.to)));
    f[2].lend(dice, 8 * g.weight.len(), Some(as_bytes(&g.weight)));
    f[3].lend(dice, 8 * case.vector.len(), Some(as_bytes(&case.vector)));
    for (k, len) in [4 * r32, 8 * r64, 8 * rf, 8 * rb, 4 * a, 8 * b, 8 * c].into_iter().enumerate() {
        f[4 + k].lend(dice, len, None);
    }
    let want = refusal(&case);
    let (answer, elected) = call(&case, f);
    let late = matches!(case.call, Betweenness | EdgeBetweenness | Survey) && answer == PATHS
        || matches!(case.call, Eigenvector | Katz) && answer == UNSETTLED;
    if want != answer && !(want == DONE && late) {
        return (answer, Some(format!("answer {answer}, document 01's table gives {want}: {case:?}")));
    }
    // how much of each result slice may have been written
    let mut open = if answer == DONE { g.needs(case.call, case.option) } else { [0; 4] };
    if case.call == Voterank && answer == DONE {
        open[0] = elected;
    }
    let front = if case.call.works() && want == DONE { g.front() } else { [0; 3] };
    let sizes = [4, 8, 8, 8];
    let kept = (0..4).all(|k| f[k].holds(0, false))
        && (0..4).all(|k| f[4 + k].holds(open[k] * sizes[k], false))
        && (0..3).all(|k| f[8 + k].holds(front[k] * sizes[k], true));
    (answer, (!kept).then(|| format!("a byte changed that may not, answer {answer}: {case:?}")))
}

fn calls(count: usize, seed: u64) -> u64 {
    let mut dice = Dice(seed);
    let mut f: Vec<Fence> = (0..11).map(|_| Fence::new()).collect();
    let (mut answers, mut wrong, start) = ([0u64; 13], 0, Instant::now());
    for i in 0..count {
        let (answer, fault) = try_call(&mut dice, CALLS[i % CALLS.len()].0, &mut f);
        answers[answer.min(12) as usize] += 1;
        if let Some(fault) = fault {
            wrong += 1;
            if wrong <= 10 {
                println!("{fault}");
            }
        }
    }
    let said: Vec<String> = answers.iter().enumerate().filter(|(_, k)| **k > 0).map(|(a, k)| format!("{a}: {k}")).collect();
    println!("{count} random calls of {} exports, seed {seed}, {} s; answers {}; {wrong} wrong", CALLS.len(), start.elapsed().as_secs(), said.join(", "));
    wrong
}

/// Damages a text: bytes changed, removed, put in or repeated, lines exchanged, the end cut off.
fn damage(dice: &mut Dice, text: &mut Vec<u8>) {
    for _ in 0..1 + dice.below(3) {
        if text.is_empty() {
            return;
        }
        let (i, k) = (dice.below(text.len()), dice.below(text.len()));
        let byte = dice.pick(&[b'0', b'9', b'a', b'F', b'=', b',', b'\n', b'\r', b' ', b'-', 0, 0xff, b'1', b'g']);
        match dice.below(8) {
            0 => text[i] = byte,
            1 => text[i] ^= 1 << dice.below(8),
            2 => drop(text.remove(i)),
            3 => text.insert(i, byte),
            4 => text.truncate(i),
            5 => text.swap(i, k),
            6 => {
                let part = text[i.min(k)..i.max(k)].to_vec();
                text.splice(i..i, part);
            }
            _ => {
                let mut lines: Vec<Vec<u8>> = text.split_inclusive(|b| *b == b'\n').map(Vec::from).collect();
                let (a, b) = (dice.below(lines.len()), dice.below(lines.len()));
                lines.swap(a, b);
                *text = lines.concat();
            }
        }
    }
}

/// A job text, mostly damaged.
fn odd_text(dice: &mut Dice) -> Vec<u8> {
    let (_, call) = dice.pick(&job::MEASURES);
    let mut g = graphs::random(dice);
    let m = g.from.len().min(g.to.len()).min(g.weight.len());
    (g.from.truncate(m), g.to.truncate(m), g.weight.truncate(m));
    let mut case = graphs::random_case(dice, call, &Rc::new(g));
    case.settings.limit = case.settings.limit.min(300);
    if !call.iterates() || call == Eigenvector {
        case.settings.damping = 0.0;
    }
    let mut text = job::text_of(&case).into_bytes();
    if !dice.once_in(6) {
        damage(dice, &mut text);
    }
    if dice.once_in(2000) {
        text.resize(49150 + dice.below(5), b'x');
    }
    text
}

fn try_job(dice: &mut Dice, f: &mut [Fence]) -> Option<(bool, Option<String>)> {
    let text = odd_text(dice);
    let want = job::answer_to(&text);
    let lines = String::from_utf8_lossy(&text);
    let rounds = lines.lines().find_map(|l| l.strip_prefix("rounds=")).and_then(|r| r.parse::<u64>().ok()).unwrap_or(0);
    if want.is_none() && rounds > 300 {
        return None;
    }
    let room = if dice.once_in(20) { dice.below(40000) } else { 32768 };
    f[0].lend(dice, text.len(), Some(&text));
    f[1].lend(dice, room, None);
    let said = library::run(f[0].slice(), f[1].slice());
    let written = &f[1].slice::<u8>()[..said.length.min(room)];
    let good = match (&want, said.answer) {
        (_, ROOM) => room < 32768 && said.length == 0,
        (Some((_, want)), DONE) => written == want.as_bytes(),
        (None, DONE) => {
            written.starts_with(lines.lines().next().unwrap().as_bytes()) && written.ends_with(b"\n") || matches!(written, b"answer=10\nline=0\n" | b"answer=11\nline=0\n")
        }
        _ => false,
    };
    let kept = f[0].holds(0, false) && f[1].holds(if said.answer == DONE { said.length } else { 0 }, false) && said.length <= room;
    let fault = (!good || !kept).then(|| format!("{said:?}, room {room}, kept {kept}: {lines:?} gave {:?}", String::from_utf8_lossy(written)));
    Some((want.is_some(), fault))
}

fn jobs(count: usize, seed: u64) -> u64 {
    let mut dice = Dice(seed);
    let mut f: Vec<Fence> = (0..2).map(|_| Fence::new()).collect();
    let (mut refused, mut done, mut left, mut wrong, start) = (0, 0, 0, 0, Instant::now());
    for _ in 0..count {
        match try_job(&mut dice, &mut f) {
            None => left += 1,
            Some((known, fault)) => {
                if known { refused += 1 } else { done += 1 }
                if let Some(fault) = fault {
                    wrong += 1;
                    if wrong <= 10 {
                        println!("{fault}");
                    }
                }
            }
        }
    }
    println!(
        "{count} job texts, seed {seed}, {} s; {refused} refused as document 01 has it, {done} scored, {left} left out (more than 300 rounds); {wrong} wrong",
        start.elapsed().as_secs()
    );
    wrong
}

fn main() {
    let args: Vec<String> = std::env::args().collect();
    let [_, mode, count, seed] = &args[..] else { panic!("fuzz calls|jobs COUNT SEED") };
    let (count, seed) = (count.parse().unwrap(), seed.parse().unwrap());
    let wrong = match mode.as_str() {
        "calls" => calls(count, seed),
        _ => jobs(count, seed),
    };
    std::process::exit((wrong > 0) as i32);
}
