//! Runs the library on a case with guarded slices, and compares every byte that it was lent.
use crate::case::{Call::*, Case, Outcome};
use crate::library::{self, Graph, Report, Settings, Work};

/// Elements on either side of a lent slice that no call may touch.
const GUARD: usize = 2;

pub trait Element: Copy {
    fn bits(self) -> u64;
    fn of(bits: u64) -> Self;
}

impl Element for u32 {
    fn bits(self) -> u64 {
        self as u64
    }
    fn of(bits: u64) -> u32 {
        bits as u32
    }
}

impl Element for u64 {
    fn bits(self) -> u64 {
        self
    }
    fn of(bits: u64) -> u64 {
        bits
    }
}

impl Element for f64 {
    fn bits(self) -> u64 {
        self.to_bits()
    }
    fn of(bits: u64) -> f64 {
        f64::from_bits(bits)
    }
}

/// The same bits, or both a NaN.
fn same<T: Element>(a: T, b: T, float: bool) -> bool {
    a.bits() == b.bits() || float && f64::from_bits(a.bits()).is_nan() && f64::from_bits(b.bits()).is_nan()
}

/// A slice that is lent, with its guards, filled with any bits (NaNs with payloads among them).
pub struct Lent<T: Element> {
    all: Vec<T>,
    before: Vec<T>,
}

impl<T: Element> Lent<T> {
    pub fn new(len: usize, seed: u64) -> Lent<T> {
        let mut word = seed | 1;
        let all: Vec<T> = (0..len + 2 * GUARD)
            .map(|i| {
                word = word.wrapping_mul(6364136223846793005).wrapping_add(1442695040888963407);
                T::of(if i % 5 == 0 { word | 0x7ff0_0000_0000_0000 } else { word ^ word >> 29 })
            })
            .collect();
        Lent { before: all.clone(), all }
    }

    pub fn slice(&mut self) -> &mut [T] {
        let end = self.all.len() - GUARD;
        &mut self.all[GUARD..end]
    }

    /// The slice begins with `start` (`float`: up to the bits of a NaN), and is otherwise untouched, guards included.
    fn check(&self, what: &str, start: &[T], float: bool) -> Result<(), String> {
        for (i, (now, before)) in self.all.iter().zip(&self.before).enumerate() {
            let want = if i >= GUARD { start.get(i - GUARD) } else { None };
            let good = match want {
                Some(want) => same(*now, *want, float),
                None => now.bits() == before.bits(),
            };
            if !good {
                let place = i as isize - GUARD as isize;
                let want = want.unwrap_or(before);
                return Err(format!("{what}[{place}] is {:x}, not {:x}", now.bits(), want.bits()));
            }
        }
        Ok(())
    }
}

/// Everything that a case lends to be written.
pub struct Buffers {
    r32: Lent<u32>,
    r64: Lent<u64>,
    rf: Lent<f64>,
    rb: Lent<f64>,
    w32: Lent<u32>,
    w64: Lent<u64>,
    wf: Lent<f64>,
}

/// Calls the library; returns what it said, in the fields of an outcome, and the settings if a report has them.
fn call(case: &Case, b: &mut Buffers) -> (Outcome, Option<Settings>) {
    let l = &*case.graph;
    let g = Graph { nodes: l.nodes, directed: l.directed, from: &l.from, to: &l.to, weight: &l.weight };
    let w = Work { w32: b.w32.slice(), w64: b.w64.slice(), wf: b.wf.slice() };
    let (scores, back) = (b.rf.slice(), b.rb.slice());
    let (option, settings, given, vector) = (case.option as usize, case.settings, case.given, &case.vector[..]);
    let plain = |answer| (Outcome::refused(answer), None);
    let report = |r: Report| {
        (Outcome { answer: r.answer, settled: r.settled, rounds: r.rounds, ..Outcome::default() }, Some(r.settings))
    };
    match case.call {
        Degree => plain(library::degree(g, scores)),
        InDegree => plain(library::in_degree(g, scores)),
        OutDegree => plain(library::out_degree(g, scores)),
        Survey => plain(library::survey(g, option, b.r32.slice(), b.r64.slice(), w)),
        Betweenness => plain(library::betweenness(g, case.option as u32, scores, w)),
        EdgeBetweenness => plain(library::edge_betweenness(g, case.option as u32, scores, back, w)),
        LocalReaching => plain(library::local_reaching(g, option, scores, w)),
        GlobalReaching => plain(library::global_reaching(g, scores, w)),
        Voterank => {
            let e = library::voterank(g, option, b.r32.slice(), w);
            (Outcome { answer: e.answer, elected: e.elected, ..Outcome::default() }, None)
        }
        Laplacian => plain(library::laplacian(g, scores, w)),
        Pagerank => report(library::pagerank(g, settings, given, vector, scores, w)),
        Personalized => report(library::personalized_pagerank(g, settings, given, vector, scores, w)),
        Eigenvector => report(library::eigenvector(g, settings, scores, w)),
        Katz => report(library::katz(g, settings, given, vector, scores, w)),
    }
}

/// Runs the case and holds everything that it leaves to what is expected.
pub fn check(case: &Case, want: &Outcome, seed: u64) -> Result<(), String> {
    let [a, b, c] = case.work;
    let [r32, r64, rf, rb] = case.rooms;
    let mut lent = Buffers {
        r32: Lent::new(r32, seed),
        r64: Lent::new(r64, seed + 1),
        rf: Lent::new(rf, seed + 2),
        rb: Lent::new(rb, seed + 3),
        w32: Lent::new(a, seed + 4),
        w64: Lent::new(b, seed + 5),
        wf: Lent::new(c, seed + 6),
    };
    let (got, settings) = call(case, &mut lent);
    let said = |o: &Outcome| (o.answer, o.settled, o.rounds, o.elected);
    if said(&got) != said(want) {
        return Err(format!("(answer, settled, rounds, elected) is {:?}, not {:?}", said(&got), said(want)));
    }
    if let Some(s) = settings {
        let back = if want.answer == 0 { case.settings } else { Settings { damping: 0.0, tolerance: 0.0, limit: 0 } };
        // bit for bit: eigenvector does not read the damping, and gives a NaN back as it was
        if !same(s.damping, back.damping, false) || !same(s.tolerance, back.tolerance, false) || s.limit != back.limit {
            return Err(format!("the settings came back as {s:?}"));
        }
    }
    lent.r32.check("32-bit result", &want.r32, false)?;
    lent.r64.check("64-bit result", &want.r64, false)?;
    lent.rf.check("result", &want.rf, true)?;
    lent.rb.check("back", &want.rb, true)?;
    // the front is zero after DONE, PATHS and UNSETTLED, and untouched after the other refusals
    let ended = case.call.works() && matches!(want.answer, 0 | 10 | 11);
    let [a, b, c] = if ended { case.graph.front() } else { [0; 3] };
    lent.w32.check("w32", &vec![0; a], false)?;
    lent.w64.check("w64", &vec![0; b], false)?;
    lent.wf.check("wf", &vec![0.0; c], false)
}
