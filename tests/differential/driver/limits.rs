//! Every size limit from both sides, and the smallest inputs at each edge of a rule.
use crate::case::{Call, Call::*, Case, Lists, CALLS};
use crate::graphs::roomy;
use crate::library::Settings;
use crate::Tally;
use std::rc::Rc;

pub fn graph(nodes: usize, directed: u32, edges: &[(u32, u32)]) -> Lists {
    Lists {
        nodes,
        directed,
        from: edges.iter().map(|e| e.0).collect(),
        to: edges.iter().map(|e| e.1).collect(),
        weight: vec![1.0; edges.len()],
    }
}

/// A chain of `steps` doubled steps, directed: 2^steps paths to its end. With `detour`, one more path of that length.
pub fn chain(steps: u32, detour: bool) -> Lists {
    let mut edges = Vec::new();
    for i in 0..steps {
        edges.extend([(i, i + 1), (i, i + 1)]);
    }
    let mut nodes = steps + 1;
    if detour {
        let mut last = 0;
        for _ in 1..steps {
            edges.push((last, nodes));
            last = nodes;
            nodes += 1;
        }
        edges.push((last, steps));
    }
    graph(nodes as usize, 1, &edges)
}

fn usual(call: Call) -> Settings {
    match call {
        Katz => Settings { damping: 0.01, tolerance: 1e-6, limit: 100 },
        _ => Settings { damping: 0.85, tolerance: 1e-6, limit: 100 },
    }
}

/// A case of a call with usual settings and room for everything.
pub fn plain(call: Call, graph: &Rc<Lists>, option: u64) -> Case {
    let none = Settings { damping: 0.0, tolerance: 0.0, limit: 0 };
    roomy(call, graph, option, if call.iterates() { usual(call) } else { none }, 0, Vec::new())
}

fn each_call(t: &mut Tally, lists: Lists) {
    let (graph, mut built) = (Rc::new(lists), None);
    t.graph("limits");
    for (call, _) in CALLS {
        let option = if matches!(call, Voterank | LocalReaching) { 2 } else { 0 };
        t.case(&plain(call, &graph, option), &mut built);
    }
}

/// Each slice of each call exactly long enough, longer by one, and shorter by one.
fn rooms(t: &mut Tally, lists: Lists) {
    let (graph, mut built) = (Rc::new(lists), None);
    t.graph("limits");
    for (call, _) in CALLS {
        let case = plain(call, &graph, if call == Voterank { 2 } else { 0 });
        for k in 0..7 {
            for change in [-1isize, 0, 1] {
                let mut other = case.clone();
                let length = if k < 4 { &mut other.rooms[k] } else { &mut other.work[k - 4] };
                if let Some(changed) = length.checked_add_signed(change) {
                    *length = changed;
                    t.case(&other, &mut built);
                }
            }
        }
    }
}

pub fn run(t: &mut Tally) {
    for nodes in [4095, 4096, 4097] {
        each_call(t, graph(nodes, 0, &[(0, 1), (1, 2)]));
    }
    for m in [32767, 32768, 32769] {
        each_call(t, graph(3, 1, &vec![(0, 1); m]));
        each_call(t, graph(3, 0, &vec![(2, 2); m]));
    }
    for (a, b, c) in [(2, 1, 1), (1, 2, 1), (1, 1, 2), (0, 0, 1), (32769, 0, 0), (0, 32769, 32769), (1, 2, 2)] {
        let lists = Lists { nodes: 3, directed: 1, from: vec![0; a], to: vec![1; b], weight: vec![1.0; c] };
        each_call(t, lists);
    }
    // no node, and no edge: EMPTY before NODE; a front of eight 32-bit numbers
    for directed in [0, 1] {
        for lists in [graph(0, directed, &[]), graph(0, directed, &[(0, 0)]), graph(1, directed, &[]), graph(1, directed, &[(0, 0)])] {
            each_call(t, lists.clone());
            rooms(t, lists);
        }
        rooms(t, graph(3, directed, &[(0, 1), (1, 2), (2, 2), (0, 1)]));
        each_call(t, graph(3, directed, &[(0, 3)]));
        each_call(t, graph(3, directed, &[(3, 0)]));
        each_call(t, graph(3, directed, &[(u32::MAX, 0)]));
    }
    // path counts at 2^53 and one above
    for lists in [chain(53, false), chain(53, true), chain(54, false), chain(52, true)] {
        let (graph, mut built) = (Rc::new(lists), None);
        t.graph("limits");
        for call in [Survey, Betweenness, EdgeBetweenness, LocalReaching, GlobalReaching, Laplacian] {
            t.case(&plain(call, &graph, 0), &mut built);
        }
        // counts from the second node stay below
        t.case(&plain(Survey, &graph, 1), &mut built);
    }
    settings(t);
    vectors(t);
    texts(t);
}

fn settings(t: &mut Tally) {
    let pair = Rc::new(graph(2, 1, &[(0, 1)]));
    let alone = Rc::new(graph(4, 0, &[]));
    let none = Rc::new(graph(0, 0, &[]));
    let odd = [0.0, -0.0, 5e-324, 1.0, 0.9999999999999999, 1.0000000000000002, -1.0, f64::NAN, f64::INFINITY, f64::NEG_INFINITY];
    for graph in [&pair, &alone, &none] {
        let mut built = None;
        t.graph("limits");
        for call in [Pagerank, Personalized, Eigenvector, Katz] {
            for limit in [0, 1, 2, 3, 4, 100] {
                for damping in odd {
                    let settings = Settings { damping, tolerance: 1e-6, limit };
                    t.case(&roomy(call, graph, 0, settings, 0, vec![]), &mut built);
                }
                for tolerance in odd {
                    let settings = Settings { damping: 0.5, tolerance, limit };
                    t.case(&roomy(call, graph, 0, settings, 0, vec![]), &mut built);
                }
            }
        }
    }
}

fn vectors(t: &mut Tally) {
    let pair = Rc::new(graph(2, 1, &[(0, 1)]));
    let none = Rc::new(graph(0, 0, &[]));
    let below = f64::from_bits(1e-9f64.to_bits() - 1);
    let entries = [
        vec![], vec![1.0], vec![1.0, 2.0], vec![1.0, 2.0, 3.0], vec![0.0, 0.0], vec![1e-9, 0.0], vec![below, 0.0], vec![-1e-9, 0.0],
        vec![-below, 0.0], vec![1.0, -1.0], vec![1.0, f64::NAN], vec![f64::INFINITY], vec![f64::MAX, f64::MAX], vec![-1.0, -2.0],
        vec![f64::MAX, f64::MAX, f64::NAN], vec![5e-324, 5e-324], vec![-0.0, 1.0],
    ];
    for graph in [&pair, &none] {
        let mut built = None;
        t.graph("limits");
        for call in [Pagerank, Personalized, Katz] {
            for vector in &entries {
                for given in [0, 1, 2] {
                    let settings = Settings { damping: 0.5, tolerance: 1e-3, limit: 20 };
                    t.case(&roomy(call, graph, 0, settings, given, vector.clone()), &mut built);
                }
            }
        }
    }
}

/// The program's limits: bytes, nodes, edges.
fn texts(t: &mut Tally) {
    let job = |nodes: &str, edges: usize| {
        let head = format!("measure=degree\nkind=directed\nnodes={nodes}\noption=0\nrounds=0\nfactor={0:016x}\ntolerance={0:016x}\n", 0);
        head + &format!("edges={edges}\n") + &"edge=0,1,0000000000000000\n".repeat(edges)
    };
    for nodes in ["0", "2", "512", "513", "4097", "18446744073709551615", "18446744073709551616", "02"] {
        t.job(job(nodes, 1).as_bytes());
    }
    for edges in [0, 1023, 1024, 1025] {
        t.job(job("512", edges).as_bytes());
    }
    for length in [0, 1, 49151, 49152, 49153, 60000] {
        t.job(&vec![b'a'; length]);
        t.job(&vec![b'\n'; length]);
        let mut text = job("2", 1).into_bytes();
        text.resize(length.max(text.len()), b'\n');
        t.job(&text);
    }
    short_output(t);
}

/// An output below 32,768 bytes: ROOM, and nothing is written.
fn short_output(t: &mut Tally) {
    if !t.has("run") {
        return;
    }
    for length in [0, 1, 100, 32767] {
        let mut output = vec![0x5au8; length];
        let said = crate::library::run(b"measure=degree\n", &mut output);
        t.cases += 1;
        if (said.answer, said.length) != (5, 0) || output.iter().any(|b| *b != 0x5a) {
            t.wrong(format!("run with an output of {length} bytes: {said:?}"));
        }
    }
}
