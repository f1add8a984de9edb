//! The graphs and options that are tried: all small ones, and seeded random ones.
use crate::case::{Call, Call::*, Case, Lists, CALLS};
use crate::library::Settings;
use std::rc::Rc;

/// SplitMix64.
pub struct Dice(pub u64);

impl Dice {
    pub fn word(&mut self) -> u64 {
        self.0 = self.0.wrapping_add(0x9e37_79b9_7f4a_7c15);
        let mut z = self.0;
        z = (z ^ z >> 30).wrapping_mul(0xbf58_476d_1ce4_e5b9);
        z = (z ^ z >> 27).wrapping_mul(0x94d0_49bb_1331_11eb);
        z ^ z >> 31
    }

    pub fn below(&mut self, n: usize) -> usize {
        (self.word() % n.max(1) as u64) as usize
    }

    /// True once in n throws.
    pub fn once_in(&mut self, n: usize) -> bool {
        self.below(n) == 0
    }

    pub fn pick<T: Copy>(&mut self, from: &[T]) -> T {
        from[self.below(from.len())]
    }

    pub fn unit(&mut self) -> f64 {
        (self.word() >> 11) as f64 / (1u64 << 53) as f64
    }
}

/// Every edge list of at most `edges` edges over `nodes` nodes, weights by position.
pub fn each_small(nodes: usize, edges: usize, mut visit: impl FnMut(Lists)) {
    let ends = nodes * nodes;
    for m in 0..=edges {
        if m > 0 && ends == 0 {
            break;
        }
        for code in 0..ends.pow(m as u32).max(1) {
            let mut rest = code;
            let mut lists = Lists { nodes, directed: 0, from: Vec::new(), to: Vec::new(), weight: Vec::new() };
            for i in 0..m {
                let end = rest % ends;
                rest /= ends;
                lists.from.push((end / nodes) as u32);
                lists.to.push((end % nodes) as u32);
                lists.weight.push([1.0, 0.5, -0.25, 0.0, 2.0, 1.0][(i + code) % 6]);
            }
            for directed in [0, 1] {
                visit(Lists { directed, ..lists.clone() });
            }
        }
    }
}

const TINY: f64 = 5e-324;

fn weight(dice: &mut Dice, kind: usize) -> f64 {
    match kind {
        0 => 1.0,
        1 => dice.below(5) as f64,
        2 => dice.unit(),
        3 => dice.unit() * 4.0 - 2.0,
        4 => dice.pick(&[0.0, -0.0, 1.0, 1.0, 3.0]),
        5 => dice.pick(&[TINY, 1e-310, 0.0, 1e-300, -TINY, 1.0]),
        6 => dice.pick(&[1e300, f64::MAX, 1e154, -1e300, 1.0, 0.5]),
        7 => f64::from_bits(dice.word() & !(0x4 << 60)),
        _ => {
            let kind = dice.below(8);
            weight(dice, kind)
        }
    }
}

/// A random graph; most are small, and about one in twelve is refused by SIZE, NODE or NUMBER.
pub fn random(dice: &mut Dice) -> Lists {
    let most = dice.pick(&[3, 5, 5, 8, 8, 12, 12, 20, 40]);
    let nodes = dice.below(most + 1);
    let dense = dice.pick(&[0, 1, 1, 2, 2, 3]);
    let m = if nodes == 0 && !dice.once_in(8) { 0 } else { dice.below(dense * nodes + 3) };
    let kind = dice.below(9);
    let (loops, repeats) = (dice.pick(&[2, 6, 20]), dice.pick(&[2, 4, 20]));
    // ends only up to here: the other nodes stay alone
    let used = if dice.once_in(3) { 1 + dice.below(nodes) } else { nodes.max(1) };
    let mut g = Lists { nodes, directed: dice.below(2) as u32, from: vec![], to: vec![], weight: vec![] };
    if g.directed == 1 && dice.once_in(8) {
        g.directed = dice.word() as u32 | 2;
    }
    for i in 0..m {
        let (mut u, mut v) = (dice.below(used) as u32, dice.below(used) as u32);
        if dice.once_in(loops) {
            v = u;
        }
        if i > 0 && dice.once_in(repeats) {
            let k = dice.below(i);
            (u, v) = (g.from[k], g.to[k]);
            if dice.once_in(2) {
                (u, v) = (v, u);
            }
        }
        g.from.push(u);
        g.to.push(v);
        g.weight.push(weight(dice, kind));
    }
    spoil(dice, &mut g);
    g
}

/// Makes a graph now and then one that some or all calls refuse.
fn spoil(dice: &mut Dice, g: &mut Lists) {
    let m = g.m();
    if m > 0 && dice.once_in(40) {
        let ends = if dice.once_in(2) { &mut g.from } else { &mut g.to };
        ends[dice.below(m)] = g.nodes as u32 + dice.pick(&[0, 0, 1, 70000]);
    }
    if m > 0 && dice.once_in(30) {
        let i = dice.below(m);
        g.weight[i] = dice.pick(&[f64::NAN, f64::INFINITY, f64::NEG_INFINITY, f64::from_bits(0xfff0_0000_0000_0007)]);
    }
    if dice.once_in(60) {
        match dice.below(3) {
            0 => g.from.push(0),
            1 => g.to.push(0),
            _ => g.weight.push(1.0),
        }
    }
    if dice.once_in(200) {
        g.nodes = dice.pick(&[4097, 1 << 20, usize::MAX]);
    }
}

fn vector(dice: &mut Dice, n: usize) -> Vec<f64> {
    let n = if dice.once_in(12) { dice.pick(&[0, n + 1, n.saturating_sub(1)]) } else { n };
    let kind = dice.pick(&[0, 1, 2, 2, 2, 3, 4, 5, 6, 8]);
    let mut entries: Vec<f64> = (0..n).map(|_| weight(dice, kind)).collect();
    if n > 0 && dice.once_in(20) {
        let i = dice.below(n);
        entries[i] = dice.pick(&[f64::NAN, f64::INFINITY]);
    }
    if n > 1 && dice.once_in(8) {
        let sum: f64 = entries[1..].iter().sum();
        entries[0] = dice.pick(&[0.0, 9e-10, 1e-9, -9.9e-10]) - sum;
    }
    entries
}

fn settings(dice: &mut Dice) -> Settings {
    let damping = dice.pick(&[
        0.85, 0.85, 0.5, 0.5, 0.1, 0.05, 0.99, 0.0, 1.0, -0.3, 1.5, TINY, 1e300, -0.0, f64::NAN, f64::INFINITY,
    ]);
    let damping = if dice.once_in(4) { dice.unit() } else { damping };
    let tolerance = dice.pick(&[1e-6, 1e-6, 1e-3, 1e-3, 0.1, 1.0, 1e-12, 0.0, -1.0, TINY, 1e300, f64::MAX]);
    let tolerance = if dice.once_in(40) { dice.pick(&[f64::NAN, f64::INFINITY]) } else { tolerance };
    let mut limit = dice.pick(&[0, 1, 2, 3, 5, 10, 10, 30, 100, 100]);
    if dice.once_in(50) && tolerance >= 1e-3 {
        limit = dice.pick(&[5000, u64::MAX]);
    }
    Settings { damping, tolerance, limit }
}

/// A case of one call on a graph, its options and slices at random.
pub fn random_case(dice: &mut Dice, call: Call, graph: &Rc<Lists>) -> Case {
    let n = graph.nodes;
    let option = match call {
        Survey => dice.below(n.min(5000)) as u64 + if dice.once_in(30) { n as u64 } else { 0 },
        Betweenness | EdgeBetweenness => dice.pick(&[0, 0, 0, 1, 1, 0xffff_ffff]),
        LocalReaching => dice.pick(&[0, 1, 2, 3, 5, n as u64, u64::MAX]),
        Voterank => dice.pick(&[0, 1, 2, 3, n as u64, n as u64, n as u64 + 1, u64::MAX]),
        _ => 0,
    };
    let settings = if call.iterates() { settings(dice) } else { Settings { damping: 0.0, tolerance: 0.0, limit: 0 } };
    let given = if call.takes_vector() { dice.pick(&[0, 0, 1, 1, 0x8000_0000]) } else { 0 };
    let vector = if call.takes_vector() { vector(dice, n.min(5000)) } else { Vec::new() };
    let mut case = roomy(call, graph, option, settings, given, vector);
    if n > 5000 {
        return case;
    }
    for len in case.rooms.iter_mut().filter(|len| **len > 0) {
        *len += dice.pick(&[0, 0, 1, 3]);
    }
    if call.works() {
        for len in &mut case.work {
            *len += dice.pick(&[0, 0, 1, 5]);
        }
    }
    if call == EdgeBetweenness && graph.directed != 0 {
        case.rooms[3] = dice.below(graph.m() + 2);
    }
    if dice.once_in(12) {
        shorten(dice, &mut case);
    }
    case
}

/// A case whose slices have exactly the room and the front that they need.
pub fn roomy(call: Call, graph: &Rc<Lists>, option: u64, settings: Settings, given: u32, vector: Vec<f64>) -> Case {
    let sane = graph.nodes <= 5000;
    let rooms = if sane { graph.needs(call, option) } else { [0; 4] };
    let work = if sane && call.works() { graph.front() } else { [0; 3] };
    Case { call, graph: graph.clone(), option, settings, given, vector, rooms, work }
}

/// Makes one slice one element too short, if it needs any.
fn shorten(dice: &mut Dice, case: &mut Case) {
    let (needs, front) = (case.graph.needs(case.call, case.option), case.graph.front());
    let k = dice.below(7);
    if k < 4 && needs[k] > 0 {
        case.rooms[k] = needs[k] - 1;
    }
    if k >= 4 && case.call.works() && front[k - 4] > 0 {
        case.work[k - 4] = front[k - 4] - 1;
    }
}

/// Every call on a small graph, with every kind of option.
pub fn each_case(graph: &Rc<Lists>, mut visit: impl FnMut(Case)) {
    let n = graph.nodes;
    let none = Settings { damping: 0.0, tolerance: 0.0, limit: 0 };
    for (call, _) in CALLS {
        let options: Vec<u64> = match call {
            Survey => (0..=n as u64).collect(),
            Betweenness | EdgeBetweenness => vec![0, 1],
            LocalReaching => vec![0, 1, 2],
            Voterank => vec![0, 1, n as u64],
            _ => vec![0],
        };
        for option in options {
            if !call.iterates() {
                visit(roomy(call, graph, option, none, 0, Vec::new()));
                continue;
            }
            let wanted: &[(f64, f64, u64)] = match call {
                Pagerank => &[(0.85, 1e-6, 100), (0.5, 0.0, 1), (1.0, 0.1, 0)],
                Personalized => &[(0.85, 1e-6, 100), (0.5, 0.0, 1), (1.0, 0.1, 2)],
                Eigenvector => &[(0.0, 1e-6, 100), (0.0, 0.5, 1), (0.0, 0.1, 0)],
                _ => &[(0.25, 1e-6, 100), (0.5, 0.1, 3), (-1.0, 0.5, 2)],
            };
            for &(damping, tolerance, limit) in wanted {
                let settings = Settings { damping, tolerance, limit };
                visit(roomy(call, graph, 0, settings, 0, Vec::new()));
                if call.takes_vector() {
                    let vector = (0..n).map(|v| [1.0, 0.5, 2.0][v % 3]).collect();
                    visit(roomy(call, graph, 0, settings, 1, vector));
                }
            }
        }
    }
}

/// Uniform ends.
pub fn uniform(dice: &mut Dice, nodes: usize, m: usize, directed: u32) -> Lists {
    let mut ends = || (0..m).map(|_| dice.below(nodes) as u32).collect::<Vec<u32>>();
    let (from, to) = (ends(), ends());
    let weight = (0..m).map(|_| 0.25 + dice.unit()).collect();
    Lists { nodes, directed, from, to, weight }
}

/// Preferential: an end is a node taken from an earlier edge, or now and then any node.
pub fn preferential(dice: &mut Dice, nodes: usize, m: usize, directed: u32) -> Lists {
    let mut g = Lists { nodes, directed, from: vec![], to: vec![], weight: vec![] };
    for i in 0..m {
        let u = (i % nodes) as u32;
        let v = if i == 0 || dice.once_in(4) {
            dice.below(nodes) as u32
        } else {
            let k = dice.below(i);
            if dice.once_in(2) { g.from[k] } else { g.to[k] }
        };
        g.from.push(u);
        g.to.push(v);
        g.weight.push(0.25 + dice.unit());
    }
    g
}
