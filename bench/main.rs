//! Times every call of the library and of the unchanged Rust in one process, alternating, and checks that both give the
//! same bits. `bench/run` builds and starts it.
#[allow(dead_code)]
#[path = "../tests/differential/driver/case.rs"]
mod case;
#[allow(dead_code)]
#[path = "../tests/differential/driver/graphs.rs"]
mod graphs;
#[allow(dead_code)]
#[path = "../tests/differential/driver/library.rs"]
mod library;

use case::{Call, Call::*, Lists, CALLS};
use graphina::centrality as rust;
use graphina::core::types::{BaseGraph, Directed, GraphConstructor, NodeId, NodeMap, Undirected};
use graphs::Dice;
use library::{Graph, Settings, Work};
use std::hint::black_box;
use std::time::{Duration, Instant};

/// What both sides are asked: raw scores, three hops, n seeds, 100 rounds that never settle (PageRanks) or rounds to a
/// tolerance of 1e-6 (eigenvector, Katz).
fn option(call: Call, n: usize) -> u64 {
    match call {
        LocalReaching => 3,
        Voterank => n as u64,
        _ => 0,
    }
}

fn settings(call: Call) -> Settings {
    match call {
        Pagerank | Personalized => Settings { damping: 0.85, tolerance: 0.0, limit: 100 },
        Katz => Settings { damping: 0.005, tolerance: 1e-6, limit: 1000 },
        _ => Settings { damping: 0.0, tolerance: 1e-6, limit: 1000 },
    }
}

/// Slices as a user would keep them: made and cleared once, lent again for each call.
pub struct Slices {
    r32: Vec<u32>,
    r64: Vec<u64>,
    rf: Vec<f64>,
    rb: Vec<f64>,
    w32: Vec<u32>,
    w64: Vec<u64>,
    wf: Vec<f64>,
}

impl Slices {
    fn of(g: &Lists) -> Slices {
        let (n, room, [a, b, c]) = (g.nodes, g.nodes.max(g.m()), g.front());
        Slices {
            r32: vec![0; n],
            r64: vec![0; n],
            rf: vec![0.0; room],
            rb: vec![0.0; room],
            w32: vec![0; a],
            w64: vec![0; b],
            wf: vec![0.0; c],
        }
    }
}

/// What a side did: its answer, its rounds if it says them, and the bits of its results.
#[derive(PartialEq, Debug)]
struct Did {
    answer: u32,
    results: Vec<u64>,
}

fn bits(scores: &[f64]) -> Vec<u64> {
    scores.iter().map(|x| if x.is_nan() { 0x7ff8_0000_0000_0000 } else { x.to_bits() }).collect()
}

/// One call of the library; returns its answer, its rounds and how many results it has.
fn ours(call: Call, l: &Lists, s: &mut Slices) -> (u32, u64, usize) {
    let g = Graph { nodes: l.nodes, directed: l.directed, from: &l.from, to: &l.to, weight: &l.weight };
    let w = Work { w32: &mut s.w32, w64: &mut s.w64, wf: &mut s.wf };
    let (n, m, o, set) = (l.nodes, l.m(), option(call, l.nodes) as usize, settings(call));
    let plain = |answer| (answer, 0, n);
    let report = |r: library::Report| (r.answer, r.rounds, n);
    match call {
        Degree => plain(library::degree(g, &mut s.rf)),
        InDegree => plain(library::in_degree(g, &mut s.rf)),
        OutDegree => plain(library::out_degree(g, &mut s.rf)),
        Survey => plain(library::survey(g, o, &mut s.r32, &mut s.r64, w)),
        Betweenness => plain(library::betweenness(g, 0, &mut s.rf, w)),
        EdgeBetweenness => (library::edge_betweenness(g, 0, &mut s.rf, &mut s.rb, w), 0, m),
        LocalReaching => plain(library::local_reaching(g, o, &mut s.rf, w)),
        GlobalReaching => plain(library::global_reaching(g, &mut s.rf, w)),
        Voterank => {
            let e = library::voterank(g, o, &mut s.r32, w);
            (e.answer, 0, e.elected)
        }
        Laplacian => plain(library::laplacian(g, &mut s.rf, w)),
        Pagerank => report(library::pagerank(g, set, 0, &[], &mut s.rf, w)),
        Personalized => report(library::personalized_pagerank(g, set, 0, &[], &mut s.rf, w)),
        Eigenvector => report(library::eigenvector(g, set, &mut s.rf, w)),
        Katz => report(library::katz(g, set, 0, &[], &mut s.rf, w)),
    }
}

fn ours_did(call: Call, l: &Lists, s: &Slices, answer: u32, count: usize) -> Did {
    let results = match call {
        _ if answer != 0 => Vec::new(),
        Voterank => s.r32[..count].iter().map(|v| *v as u64).collect(),
        EdgeBetweenness if l.directed == 0 => [bits(&s.rf[..count]), bits(&s.rb[..count])].concat(),
        _ => bits(&s.rf[..count]),
    };
    Did { answer, results }
}

/// What the Rust returns, kept as it is: turning it into slices is not part of a call.
enum Returned {
    Map(NodeMap<f64>),
    Pairs(std::collections::HashMap<(NodeId, NodeId), f64>),
    Nodes(Vec<NodeId>),
    Scores(Vec<f64>),
    Unsettled,
}

fn theirs<Ty: GraphConstructor<(), f64>>(call: Call, g: &BaseGraph<(), f64, Ty>) -> Returned {
    let (n, s) = (g.node_count(), settings(call));
    let (o, limit) = (option(call, n) as usize, s.limit as usize);
    use Returned::*;
    match call {
        Degree => Map(rust::degree::degree_centrality(g).unwrap()),
        InDegree => Map(rust::degree::in_degree_centrality(g).unwrap()),
        OutDegree => Map(rust::degree::out_degree_centrality(g).unwrap()),
        Betweenness => Map(rust::betweenness::betweenness_centrality(g, false).unwrap()),
        EdgeBetweenness => Pairs(rust::betweenness::edge_betweenness_centrality(g, false).unwrap()),
        LocalReaching => Map(rust::other::local_reaching_centrality(g, o).unwrap()),
        GlobalReaching => Map(rust::other::global_reaching_centrality(g).unwrap()),
        Voterank => Nodes(rust::other::voterank(g, o)),
        Laplacian => Map(rust::other::laplacian_centrality(g).unwrap()),
        Pagerank => Map(rust::pagerank::pagerank(g, s.damping, limit, s.tolerance, None).unwrap()),
        Personalized => {
            Scores(rust::personalized_pagerank::personalized_page_rank(g, None, s.damping, s.tolerance, limit).unwrap())
        }
        Eigenvector => rust::eigenvector::eigenvector_centrality(g, limit, s.tolerance).map_or(Unsettled, Map),
        Katz => rust::katz::katz_centrality(g, s.damping, None, limit, s.tolerance).map_or(Unsettled, Map),
        Survey => unreachable!("the Rust has no survey"),
    }
}

fn theirs_did(returned: Returned, l: &Lists) -> Did {
    let total = |pairs: &std::collections::HashMap<(NodeId, NodeId), f64>, from: &[u32], to: &[u32]| {
        let ends = from.iter().zip(to).map(|(u, v)| (NodeId::of(*u as usize), NodeId::of(*v as usize)));
        ends.map(|pair| pairs[&pair].to_bits()).collect::<Vec<u64>>()
    };
    let results = match returned {
        Returned::Map(map) => bits(&(0..l.nodes).map(|v| map[&NodeId::of(v)]).collect::<Vec<f64>>()),
        Returned::Pairs(pairs) if l.directed != 0 => total(&pairs, &l.from, &l.to),
        Returned::Pairs(pairs) => [total(&pairs, &l.from, &l.to), total(&pairs, &l.to, &l.from)].concat(),
        Returned::Nodes(nodes) => nodes.iter().map(|v| v.index() as u64).collect(),
        Returned::Scores(scores) => bits(&scores),
        Returned::Unsettled => return Did { answer: 11, results: Vec::new() },
    };
    Did { answer: 0, results }
}

pub enum Built {
    Directed(BaseGraph<(), f64, Directed>),
    Undirected(BaseGraph<(), f64, Undirected>),
}

fn build(l: &Lists) -> Built {
    if l.directed != 0 {
        Built::Directed(BaseGraph::of(l.nodes, &l.from, &l.to, &l.weight))
    } else {
        Built::Undirected(BaseGraph::of(l.nodes, &l.from, &l.to, &l.weight))
    }
}

fn theirs_on(call: Call, built: &Built) -> Returned {
    match built {
        Built::Directed(g) => theirs(call, g),
        Built::Undirected(g) => theirs(call, g),
    }
}

/// The time that the processor spent in this thread: other programs on the machine count less than on a clock.
fn spent() -> Duration {
    #[repr(C)]
    struct Time {
        seconds: i64,
        nanoseconds: i64,
    }
    extern "C" {
        fn clock_gettime(clock: i32, time: *mut Time) -> i32;
    }
    const THREAD: i32 = 3;
    let mut time = Time { seconds: 0, nanoseconds: 0 };
    assert_eq!(unsafe { clock_gettime(THREAD, &mut time) }, 0);
    Duration::new(time.seconds as u64, time.nanoseconds as u32)
}

fn timed<T>(f: impl FnOnce() -> T) -> (Duration, T) {
    let started = spent();
    let result = black_box(f());
    (spent() - started, result)
}

/// Best times of both sides, alternating, from the first ones on; short calls are repeated within a measurement, one that
/// takes a second is measured only twice, and one that takes four seconds on a directed graph once.
fn race(call: Call, l: &Lists, built: &Built, s: &mut Slices, first: (Duration, Duration), budget: Duration) -> (f64, f64) {
    let (mut best_ours, mut best_theirs) = (first.0.as_secs_f64(), first.1.as_secs_f64());
    let repeat = |once: Duration| (Duration::from_millis(2).as_nanos() / once.as_nanos().max(1)).clamp(1, 1000) as u32;
    let (often_ours, often_theirs) = (repeat(first.0), repeat(first.1));
    let least = match (first.0 + first.1).as_secs() {
        0 => 3,
        1..=3 => 1,
        _ => (l.directed == 0) as u32,
    };
    let started = Instant::now();
    let mut turns = 0;
    while turns < least || turns < 50 && started.elapsed() < budget {
        let (time, _) = timed(|| (0..often_ours).for_each(|_| { black_box(ours(call, l, s)); }));
        best_ours = best_ours.min(time.as_secs_f64() / often_ours as f64);
        let (time, _) = timed(|| (0..often_theirs).for_each(|_| drop(black_box(theirs_on(call, built)))));
        best_theirs = best_theirs.min(time.as_secs_f64() / often_theirs as f64);
        turns += 1;
    }
    (best_ours, best_theirs)
}

/// What the ratio to the Rust is to reach at least, on the graphs of 4,096 nodes and 32,768 edges.
fn bar(call: Call) -> f64 {
    match call {
        LocalReaching | GlobalReaching | Voterank => 4.0,
        Pagerank | Personalized | Eigenvector | Katz => 1.5,
        _ => 3.0,
    }
}

/// igraph's times on a graph, in seconds, as `bench/run --igraph` left them.
fn igraph(name: &str) -> Vec<(String, f64)> {
    let text = std::fs::read_to_string(format!("target/differential/igraph-{name}")).unwrap_or_default();
    let row = |line: &str| line.split_once(' ').map(|(call, time)| (call.to_string(), time.parse().expect("a time")));
    text.lines().filter_map(row).collect()
}

/// The graphs, by name.
fn named(name: &str) -> Lists {
    let mut dice = Dice(2026);
    let list = |nodes: usize, ends: Vec<(usize, usize)>| Lists {
        nodes,
        directed: 0,
        from: ends.iter().map(|e| e.0 as u32).collect(),
        to: ends.iter().map(|e| e.1 as u32).collect(),
        weight: vec![1.0; ends.len()],
    };
    match name {
        "uniform" => graphs::uniform(&mut dice, 4096, 32768, 0),
        "uniform-directed" => graphs::uniform(&mut dice, 4096, 32768, 1),
        "preferential" => graphs::preferential(&mut dice, 4096, 32768, 0),
        "preferential-directed" => graphs::preferential(&mut dice, 4096, 32768, 1),
        "small" => graphs::uniform(&mut dice, 512, 1024, 0),
        "counted" => graphs::uniform(&mut dice, 512, 4096, 0),
        "chain" => list(4096, (0..4095).map(|v| (v, v + 1)).collect()),
        "star" => list(4096, (1..4096).map(|v| (0, v)).collect()),
        // 28 by 28: the path counts between its corners stay below 2^53
        "grid" => {
            let right = (0..784).filter(|v| v % 28 != 27).map(|v| (v, v + 1));
            let down = (0..784 - 28).map(|v| (v, v + 28));
            list(784, right.chain(down).collect())
        }
        _ => panic!("no graph {name}"),
    }
}

const FULL: [&str; 4] = ["uniform", "uniform-directed", "preferential", "preferential-directed"];
const OTHERS: [&str; 4] = ["small", "chain", "star", "grid"];

fn present(call: Call) -> bool {
    env!("MEADOWRUT_CALLS").split(',').any(|name| name == call.name())
}

/// A time with its unit.
fn shown(seconds: f64) -> String {
    match seconds {
        s if s >= 1.0 => format!("{s:.2} s"),
        s if s >= 1e-3 => format!("{:.2} ms", s * 1e3),
        s => format!("{:.2} us", s * 1e6),
    }
}

/// What no degree of these edges goes below here: the best times of one store at each end, and of one addition there,
/// with no check, no clearing and nothing else around them.
fn floor(l: &Lists) -> (f64, f64) {
    let mut scores = vec![0.0; l.nodes];
    let ends = || l.from.iter().zip(&l.to).map(|(f, t)| (*f as usize, *t as usize));
    // SAFETY: every end of a graph of this bench is one of its nodes
    let stores = |scores: &mut [f64]| ends().for_each(|(f, t)| unsafe {
        *scores.get_unchecked_mut(f) = 1.0;
        *scores.get_unchecked_mut(t) = 1.0;
    });
    let additions = |scores: &mut [f64]| ends().for_each(|(f, t)| unsafe {
        *scores.get_unchecked_mut(f) += 1.0;
        *scores.get_unchecked_mut(t) += 1.0;
    });
    let mut best = |pass: &dyn Fn(&mut [f64])| {
        (0..50).map(|_| timed(|| (0..50).for_each(|_| pass(black_box(&mut scores)))).0.as_secs_f64() / 50.0).fold(f64::MAX, f64::min)
    };
    (best(&stores), best(&additions))
}

fn table(names: &[&str], calls: &[&str], budget: Duration) -> bool {
    let mut good = true;
    for name in names {
        let l = named(name);
        let mut s = Slices::of(&l);
        let building = (0..5).map(|_| timed(|| drop(build(&l))).0.as_secs_f64()).fold(f64::MAX, f64::min);
        let (built, beside) = (build(&l), igraph(name));
        println!("\n### {name}: {} nodes, {} edges; the Rust builds its graph in {}\n", l.nodes, l.m(), shown(building));
        println!("| call | ours | the Rust | ratio | bar | ratio with building | igraph | its ratio | rounds | same bits |");
        println!("|---|---|---|---|---|---|---|---|---|---|");
        for (call, word) in CALLS {
            if !present(call) || !calls.is_empty() && !calls.contains(&word) {
                continue;
            }
            eprintln!("  {name}: {word}");
            let (first, (answer, rounds, count)) = timed(|| ours(call, &l, &mut s));
            if call == Survey {
                let best = (0..20).map(|_| timed(|| ours(call, &l, &mut s)).0.as_secs_f64()).fold(f64::MAX, f64::min);
                println!("| {word} | {} | - | - | - | - | - | - | - | - |", shown(best));
                continue;
            }
            let did = ours_did(call, &l, &s, answer, count);
            let (theirs_first, returned) = timed(|| theirs_on(call, &built));
            let same = did == theirs_did(returned, &l);
            good &= same;
            let (a, b) = race(call, &l, &built, &mut s, (first, theirs_first), budget);
            let bar = match (l.m() == 32768, b / a >= bar(call)) {
                (false, _) => "-".into(),
                (true, true) => format!("{}", bar(call)),
                (true, false) => format!("{}: short", bar(call)),
            };
            let (their_time, their_ratio) = match beside.iter().find(|row| row.0 == word) {
                Some((_, time)) => (shown(*time), format!("{:.2}", time / a)),
                None => ("-".into(), "-".into()),
            };
            let rounds = if call.iterates() { rounds.to_string() } else { "-".into() };
            let same = if same { "yes" } else { "NO" };
            let (ratio, with_building) = (b / a, (b + building) / a);
            let (a, b) = (shown(a), shown(b));
            println!("| {word} | {a} | {b} | {ratio:.2} | {bar} | {with_building:.2} | {their_time} | {their_ratio} | {rounds} | {same} |");
        }
        if l.m() == 32768 && (calls.is_empty() || calls.contains(&"degree")) {
            let (stores, additions) = floor(&l);
            println!("\nDegree's floor: one store at each end of each edge takes {}, one addition there {}, with nothing around them.", shown(stores), shown(additions));
        }
    }
    good
}

/// Our times as n doubles with m = 8n, over the work that the call should need.
fn growth() {
    println!("\n### growth, m = 8n, undirected uniform: nanoseconds per unit of work\n");
    println!("| call | unit | 512 | 1024 | 2048 | 4096 |");
    println!("|---|---|---|---|---|---|");
    for (call, word) in CALLS {
        if !present(call) {
            continue;
        }
        let squared = matches!(call, Betweenness | EdgeBetweenness | LocalReaching | GlobalReaching | Voterank);
        let unit = if squared { "n(n+m)" } else if call.iterates() { "rounds(n+m)" } else { "n+m" };
        let mut row = format!("| {word} | {unit} |");
        for n in [512, 1024, 2048, 4096] {
            eprintln!("  growth: {word} {n}");
            let l = graphs::uniform(&mut Dice(n as u64), n, 8 * n, 0);
            let mut s = Slices::of(&l);
            let rounds = ours(call, &l, &mut s).1.max(1) as f64;
            let turns = if squared { 3 } else { 30 };
            let best = (0..turns).map(|_| timed(|| ours(call, &l, &mut s)).0.as_secs_f64()).fold(f64::MAX, f64::min);
            let work = (n + l.m()) as f64 * if squared { n as f64 } else if call.iterates() { rounds } else { 1.0 };
            row += &format!(" {:.2} |", best * 1e9 / work);
        }
        println!("{row}");
    }
}

/// The place at which callgrind starts and stops to count.
#[no_mangle]
#[inline(never)]
pub extern "C" fn bench_collect(call: u32, l: &Lists, built: &Built, s: &mut Slices, side: u32) {
    let call = CALLS[call as usize].0;
    if side == 0 {
        black_box(ours(call, l, s));
    } else {
        black_box(theirs_on(call, built));
    }
}

fn once(side: &str, word: &str) {
    let l = named("counted");
    let (built, mut s) = (build(&l), Slices::of(&l));
    let call = CALLS.iter().position(|(_, name)| *name == word).expect("a call") as u32;
    bench_collect(call, &l, &built, &mut s, (side == "rust") as u32);
}

fn edges(name: &str) {
    let l = named(name);
    println!("{} {} {}", l.nodes, l.directed, l.m());
    for i in 0..l.m() {
        println!("{} {} {:.17e}", l.from[i], l.to[i], l.weight[i]);
    }
}

fn main() {
    let words: Vec<String> = std::env::args().skip(1).collect();
    let words: Vec<&str> = words.iter().map(String::as_str).collect();
    let (budget, little) = (Duration::from_millis(1000), Duration::from_millis(100));
    match words[..] {
        ["table"] => std::process::exit(!(table(&FULL, &[], budget) & table(&OTHERS, &[], little)) as i32),
        ["table", name, ref calls @ ..] => std::process::exit(!table(&[name], calls, budget) as i32),
        ["growth"] => growth(),
        ["once", side, call] => once(side, call),
        ["edges", name] => edges(name),
        _ => {
            eprintln!("modes: table [GRAPH [CALL..]], growth, once ours|rust CALL, edges GRAPH");
            std::process::exit(2);
        }
    }
}
