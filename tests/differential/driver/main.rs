//! Compares the library with the unchanged Rust (graphina), call by call and bit by bit. `tests/differential/run` builds it
//! and says what the modes are for.
mod case;
mod differences;
mod expected;
mod graphs;
mod job;
mod lend;
mod library;
mod limits;
mod list;
mod refusals;
mod sample;

use case::{Case, Lists, CALLS};
use expected::{orders_agree, rust_refuses_too, Built};
use graphs::Dice;
use std::collections::{BTreeMap, BTreeSet};
use std::io::Write;
use std::rc::Rc;
use std::time::Instant;

/// What was compared, and what disagreed.
pub struct Tally {
    calls: BTreeSet<String>,
    graphs: u64,
    cases: u64,
    skipped: u64,
    wrong: u64,
    answers: BTreeMap<(&'static str, u32), u64>,
    said: Instant,
}

const MOST_SHOWN: u64 = 10;

impl Tally {
    fn new(calls: &str) -> Tally {
        let calls = calls.split(',').map(String::from).collect();
        Tally { calls, graphs: 0, cases: 0, skipped: 0, wrong: 0, answers: BTreeMap::new(), said: Instant::now() }
    }

    fn has(&self, name: &str) -> bool {
        self.calls.contains(name)
    }

    fn graph(&mut self, what: &str) {
        self.graphs += 1;
        if self.said.elapsed().as_secs() >= 5 {
            self.said = Instant::now();
            eprintln!("  {what}: {} graphs, {} calls compared, {} wrong", self.graphs, self.cases, self.wrong);
        }
    }

    fn wrong(&mut self, text: String) {
        self.wrong += 1;
        if self.wrong <= MOST_SHOWN {
            println!("WRONG {text}");
        }
        if self.wrong == MOST_SHOWN {
            println!("(no more are shown)");
        }
    }

    /// Compares one case; `built` keeps the Rust's graph for the next case on it.
    pub fn case(&mut self, case: &Case, built: &mut Option<Built>) {
        if !self.has(case.call.name()) {
            return;
        }
        let Some(want) = expected::expected(case, built) else {
            self.skipped += 1;
            return;
        };
        if !rust_refuses_too(case, want.answer) {
            self.wrong(format!("{}: the Rust does not refuse where document 01 does: {case:?}", case.call.name()));
        }
        self.cases += 1;
        *self.answers.entry((case.call.name(), want.answer)).or_default() += 1;
        if let Err(text) = lend::check(case, &want, self.cases) {
            let mut record = list::call_record(case, &want);
            record.truncate(2000);
            self.wrong(format!("{}: {text}\n  record {}", case.call.name(), record.trim_end()));
        }
    }

    /// Compares one job text.
    pub fn job(&mut self, text: &[u8]) {
        let Some((answer, want)) = job::answer_to(text) else {
            self.skipped += 1;
            return;
        };
        if self.has("run") {
            *self.answers.entry(("run", answer)).or_default() += 1;
        }
        self.job_answer(text, want.as_bytes());
    }

    fn job_answer(&mut self, text: &[u8], want: &[u8]) {
        if !self.has("run") {
            return;
        }
        self.cases += 1;
        let mut output = vec![0xa5u8; 32768 + 64];
        let said = library::run(text, &mut output);
        let (got, rest) = output.split_at(said.length.min(output.len()));
        if said.answer != 0 || got != want || rest.iter().any(|b| *b != 0xa5) {
            let got = String::from_utf8_lossy(got);
            let shown = String::from_utf8_lossy(&text[..text.len().min(1500)]);
            self.wrong(format!("run: {said:?}\n--- job\n{shown}\n--- got\n{got}\n--- want\n{}", String::from_utf8_lossy(want)));
        }
    }

    fn report(&self, what: &str, started: Instant) -> bool {
        print!("{what}: {} graphs, {} calls compared, {} disagreements", self.graphs, self.cases, self.wrong);
        if self.skipped > 0 {
            print!(", {} endless ones left out", self.skipped);
        }
        println!(" ({:.1} s)", started.elapsed().as_secs_f64());
        std::io::stdout().flush().unwrap();
        self.wrong == 0
    }
}

/// Document 01's neighbour order and list order, on small and random graphs.
fn neighbours(count: u64, seed: u64) -> bool {
    let (mut tried, mut wrong) = (0, 0);
    let mut visit = |lists: Lists| {
        tried += 1;
        if !orders_agree(&lists) {
            wrong += 1;
        }
    };
    for nodes in 0..=3 {
        graphs::each_small(nodes, 4, &mut visit);
    }
    let mut dice = Dice(seed);
    for _ in 0..count {
        let nodes = 1 + dice.below(30);
        let m = dice.below(4 * nodes);
        let directed = dice.below(2) as u32;
        visit(graphs::uniform(&mut dice, nodes, m, directed));
    }
    println!("neighbours: {tried} graphs, {wrong} not in document 01's order");
    wrong == 0
}

fn small(t: &mut Tally, edges: usize) {
    for nodes in 0..=3 {
        graphs::each_small(nodes, edges, |lists| {
            t.graph("small");
            let (graph, mut built) = (Rc::new(lists), None);
            graphs::each_case(&graph, |case| t.case(&case, &mut built));
        });
    }
}

fn random(t: &mut Tally, count: u64, seed: u64) {
    for i in 0..count {
        let mut dice = Dice(seed.wrapping_add(i.wrapping_mul(0x5851_f42d_4c95_7f2d)));
        let (graph, mut built) = (Rc::new(graphs::random(&mut dice)), None);
        t.graph("random");
        for (call, _) in CALLS {
            let case = graphs::random_case(&mut dice, call, &graph);
            t.case(&case, &mut built);
        }
    }
}

fn full(t: &mut Tally, count: u64, seed: u64) {
    for i in 0..count {
        let mut dice = Dice(seed + i);
        let make = if i % 2 == 0 { graphs::uniform } else { graphs::preferential };
        let (graph, mut built) = (Rc::new(make(&mut dice, 4096, 32768, (i / 2 % 2) as u32)), None);
        for case in sample::full_size(&mut dice, &graph) {
            t.graph("full size");
            t.graphs -= 1;
            t.case(&case, &mut built);
        }
        t.graphs += 1;
    }
}

/// Document 01's example, which the driver's own reader and writer must give too.
const EXAMPLE: [&str; 2] = [
    "measure=betweenness\nkind=undirected\nnodes=3\noption=0\nrounds=0\nfactor=0000000000000000\n\
     tolerance=0000000000000000\nedges=2\nedge=0,1,3ff0000000000000\nedge=1,2,3ff0000000000000\n",
    "measure=betweenness\nanswer=0\nnodes=3\nrounds=0\nsettled=none\nscore=0,0000000000000000\n\
     score=1,3ff0000000000000\nscore=2,0000000000000000\n",
];

fn jobs(t: &mut Tally, count: u64, seed: u64) {
    assert_eq!(job::answer_to(EXAMPLE[0].as_bytes()).unwrap().1, EXAMPLE[1]);
    t.job_answer(EXAMPLE[0].as_bytes(), EXAMPLE[1].as_bytes());
    for i in 0..count {
        let mut dice = Dice(seed ^ i << 20);
        t.graph("jobs");
        let text = sample::job_text(&mut dice);
        t.job(&text);
    }
}

/// Roots against the processor's, which are IEEE 754's; absolute values and maxima too.
fn roots(t: &mut Tally, count: u64, seed: u64) {
    let mut dice = Dice(seed);
    let ends = [0.0, 1.0, 2.0, 4.0, f64::MAX, f64::MIN_POSITIVE, 5e-324, f64::INFINITY, f64::NAN];
    let mut tried: Vec<f64> = ends.iter().flat_map(|x| [*x, -*x]).collect();
    tried.extend((0..4200).map(|n| n as f64));
    let same = |a: f64, b: f64| a.to_bits() == b.to_bits() || a.is_nan() && b.is_nan();
    let check = |t: &mut Tally, x: f64, y: f64| {
        t.cases += 1;
        if t.has("sqrt") && !same(library::sqrt(x), x.sqrt()) {
            t.wrong(format!("sqrt of {:016x}", x.to_bits()));
        }
        if t.has("abs") && !same(library::abs(x), x.abs()) {
            t.wrong(format!("abs of {:016x}", x.to_bits()));
        }
        if t.has("max") && x < y && (!same(library::max(x, y), y) || !same(library::max(y, x), y)) {
            t.wrong(format!("max of {:016x} and {:016x}", x.to_bits(), y.to_bits()));
        }
    };
    for x in tried {
        check(t, x, 1.5);
    }
    for _ in 0..count {
        let (x, y) = (f64::from_bits(dice.word()), f64::from_bits(dice.word()));
        check(t, x, y);
        let k = dice.word() >> 32;
        check(t, (k * k) as f64, y);
    }
}

/// Replays stored records of both kinds of list, without the Rust.
fn replay(t: &mut Tally, bytes: &[u8]) {
    let number = |s: &[u8]| std::str::from_utf8(s).unwrap().parse::<usize>().expect("a length");
    let mut rest = bytes;
    while !rest.is_empty() {
        let digits = number(&rest[..5]);
        if rest[5] == b'\n' {
            let record = std::str::from_utf8(&rest[6..6 + digits]).unwrap();
            rest = &rest[6 + digits..];
            if record.starts_with('#') {
                continue;
            }
            let (case, want) = list::read_call(record);
            if !t.has(case.call.name()) {
                continue;
            }
            t.cases += 1;
            if let Err(text) = lend::check(&case, &want, t.cases) {
                t.wrong(format!("{}: {text}\n  record {}", case.call.name(), record.trim_end()));
            }
        } else {
            let length = number(&rest[6..11]);
            let (text, answer) = (&rest[12..12 + digits], &rest[12 + digits..12 + digits + length]);
            rest = &rest[12 + digits + length..];
            if length > 0 {
                t.job_answer(text, answer);
            }
        }
    }
}

fn main() {
    let words: Vec<String> = std::env::args().skip(1).collect();
    let word = |key: &str| words.iter().position(|w| w == key).map(|i| words[i + 1].as_str());
    let get = |key: &str, other: u64| word(key).map_or(other, |w| w.parse().expect("a number"));
    let (count, seed) = (get("--count", 1000), get("--seed", 1));
    let started = Instant::now();
    // the calls to compare; unless named, all of them
    let mut t = Tally::new(word("--calls").unwrap_or(env!("MEADOWRUT_CALLS")));
    let mode = words.first().map(String::as_str).unwrap_or("");
    match mode {
        "neighbours" => std::process::exit(!neighbours(count, seed) as i32),
        "small" => small(&mut t, get("--edges", 4) as usize),
        "random" => random(&mut t, count, seed),
        "limits" => limits::run(&mut t),
        "differences" => differences::run(&mut t),
        "full" => full(&mut t, count, seed),
        "jobs" => jobs(&mut t, count, seed),
        "roots" => roots(&mut t, count, seed),
        "replay" => replay(&mut t, &std::fs::read(&words[1]).expect("a list")),
        "list-calls" => return sample::list_calls(seed),
        "list-jobs" => return sample::list_jobs(seed),
        _ => {
            eprintln!("modes: neighbours small random limits differences full jobs roots replay list-calls list-jobs");
            std::process::exit(2);
        }
    }
    if words.iter().any(|w| w == "--answers") {
        for ((call, answer), count) in &t.answers {
            println!("  {call} answer {answer}: {count}");
        }
    }
    std::process::exit(!t.report(mode, started) as i32);
}
