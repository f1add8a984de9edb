//! The inputs of docs/DIFFERENCES.md: what the Rust gives there, and what the library must.
use crate::case::{Call, Call::*, Lists};
use crate::expected::{expected, LENGTH, NUMBER, PATHS, SIZE};
use crate::graphs::roomy;
use crate::library::Settings;
use crate::limits::{graph, plain};
use crate::Tally;
use graphina::centrality as rust;
use graphina::core::types::{BaseGraph, Directed, NodeId, NodeMap};
use std::rc::Rc;

fn built(g: &Lists) -> BaseGraph<(), f64, Directed> {
    BaseGraph::of(g.nodes, &g.from, &g.to, &g.weight)
}

/// A directed chain with so many parallel edges at each step.
fn steps(widths: &[usize]) -> Lists {
    let ends: Vec<(u32, u32)> = widths.iter().enumerate().flat_map(|(i, w)| vec![(i as u32, i as u32 + 1); *w]).collect();
    graph(widths.len() + 1, 1, &ends)
}

fn scores(map: &NodeMap<f64>) -> Vec<f64> {
    (0..map.len()).map(|v| map[&NodeId::of(v)]).collect()
}

pub fn run(t: &mut Tally) {
    let set = |damping, tolerance, limit| Settings { damping, tolerance, limit };
    let agree = |t: &mut Tally, what: &str, good: bool| {
        t.cases += 1;
        if !good {
            t.wrong(format!("docs/DIFFERENCES.md does not hold: {what}"));
        }
    };
    let ours = |t: &mut Tally, call: Call, g: &Lists, option: u64, settings: Settings, vector: Option<Vec<f64>>, answer: u32| {
        let case = roomy(call, &Rc::new(g.clone()), option, settings, vector.is_some() as u32, vector.unwrap_or_default());
        t.case(&case, &mut None);
        expected(&case, &mut None).is_some_and(|o| o.answer == answer)
    };
    let none = set(0.0, 0.0, 0);

    let g = graph(4097, 1, &[]);
    let there = rust::degree::degree_centrality(&built(&g)).unwrap();
    let refused = ours(t, Degree, &g, 0, none, None, SIZE);
    agree(t, "SIZE", there.len() == 4097 && refused);

    let mut widths = vec![3; 33];
    widths.push(2);
    let g = steps(&widths);
    let refused = ours(t, Betweenness, &g, 0, none, None, PATHS);
    agree(t, "PATHS", g.m() == 101 && rust::betweenness::betweenness_centrality(&built(&g), false).is_ok() && refused);
    widths[32] = 2;
    let done = ours(t, Betweenness, &steps(&widths), 0, none, None, 0);
    agree(t, "one edge less", done);

    let mut g = graph(2, 1, &[(0, 1)]);
    g.weight[0] = f64::NAN;
    let there = scores(&rust::pagerank::pagerank(&built(&g), 0.5, 1, 0.0, None).unwrap());
    let refused = ours(t, Pagerank, &g, 0, set(0.5, 0.0, 1), None, NUMBER);
    agree(t, "NUMBER", there == [0.375, 0.375] && refused);

    let g = graph(2, 1, &[]);
    let there = rust::personalized_pagerank::personalized_page_rank(&built(&g), Some(vec![1.0, 0.0]), 0.5, 0.0, 1).unwrap();
    let done = ours(t, Personalized, &g, 0, set(0.5, 0.0, 1), Some(vec![1.0, 0.0]), 0);
    agree(t, "dangling goes into the vector", there == [1.0, 0.0] && done);

    let mut g = graph(1, 1, &[(0, 0)]);
    g.weight[0] = -3.0;
    let there = scores(&rust::eigenvector::eigenvector_centrality(&built(&g), 1, 3.0).unwrap());
    let done = ours(t, Eigenvector, &g, 0, set(0.0, 3.0, 1), None, 0);
    agree(t, "a negative eigenvector entry", there == [-1.0] && done);

    let g = graph(0, 1, &[]);
    let done = ours(t, Katz, &g, 0, set(0.5, 0.0, 0), None, 0);
    agree(t, "Katz of nothing", rust::katz::katz_centrality(&built(&g), 0.5, None, 0, 0.0).unwrap().is_empty() && done);

    let g = graph(2, 1, &[]);
    let start: NodeMap<f64> = [(NodeId::of(0), 1.0)].into_iter().collect();
    let there = scores(&rust::pagerank::pagerank(&built(&g), 0.5, 0, 0.0, Some(&start)).unwrap());
    let refused = ours(t, Pagerank, &g, 0, set(0.5, 0.0, 0), Some(vec![1.0]), LENGTH);
    agree(t, "a partial start", there == [1.0, 0.0] && refused);

    let g = graph(2, 1, &[(0, 1), (0, 1)]);
    t.case(&plain(Degree, &Rc::new(g.clone()), 0), &mut None);
    agree(t, "parallel edges each count", scores(&rust::degree::degree_centrality(&built(&g)).unwrap()) == [2.0, 2.0]);
}
