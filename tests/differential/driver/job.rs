//! Job texts and their answers, from document 01's "The command program", apart from the library's own reader and writer.
use crate::case::{Call, Call::*, Case, Lists, Outcome};
use crate::expected::{expected, SIZE, TEXT};
use crate::graphs::roomy;
use crate::library::Settings;
use std::fmt::Write;
use std::rc::Rc;

pub const MEASURES: [(&str, Call); 9] = [
    ("betweenness", Betweenness),
    ("pagerank", Pagerank),
    ("personalized", Personalized),
    ("eigenvector", Eigenvector),
    ("katz", Katz),
    ("reaching", LocalReaching),
    ("voterank", Voterank),
    ("laplacian", Laplacian),
    ("degree", Degree),
];

pub fn measure_of(call: Call) -> Option<&'static str> {
    MEASURES.iter().find(|(_, c)| *c == call).map(|(name, _)| *name)
}

/// The text that asks for a case.
pub fn text_of(case: &Case) -> String {
    let (g, s) = (&*case.graph, case.settings);
    let kind = if g.directed != 0 { "directed" } else { "undirected" };
    let (factor, tolerance) = (s.damping.to_bits(), s.tolerance.to_bits());
    let mut text = format!(
        "measure={}\nkind={kind}\nnodes={}\noption={}\nrounds={}\nfactor={factor:016x}\ntolerance={tolerance:016x}\nedges={}\n",
        measure_of(case.call).unwrap(),
        g.nodes,
        case.option,
        s.limit,
        g.m()
    );
    for i in 0..g.m() {
        writeln!(text, "edge={},{},{:016x}", g.from[i], g.to[i], g.weight[i].to_bits()).unwrap();
    }
    text
}

fn decimal(s: &str) -> Option<u64> {
    let plain = s.bytes().all(|b| b.is_ascii_digit()) && (s == "0" || !s.starts_with('0'));
    if plain { s.parse().ok() } else { None }
}

fn float(s: &str) -> Option<u64> {
    let plain = s.len() == 16 && s.bytes().all(|b| matches!(b, b'0'..=b'9' | b'a'..=b'f'));
    if plain { u64::from_str_radix(s, 16).ok() } else { None }
}

struct Reader<'a> {
    rest: &'a [u8],
    line: u64,
}

impl<'a> Reader<'a> {
    /// The next line's value, if the line is there, whole and has this key; else the line's number.
    fn value(&mut self, key: &str) -> Result<&'a str, u64> {
        self.line += 1;
        let end = self.rest.iter().position(|b| *b == b'\n').ok_or(self.line)?;
        let line = std::str::from_utf8(&self.rest[..end]).map_err(|_| self.line)?;
        self.rest = &self.rest[end + 1..];
        line.strip_prefix(key).ok_or(self.line)
    }

    /// The next line's value as `read` has it, and as `allowed` allows it.
    fn read<T: Copy>(&mut self, key: &str, read: impl Fn(&str) -> Option<T>, allowed: impl Fn(T) -> bool) -> Result<T, u64> {
        let value = self.value(key)?;
        read(value).filter(|x| allowed(*x)).ok_or(self.line)
    }
}

/// The case that a text asks for, or its first faulty line.
fn read(text: &[u8]) -> Result<Case, u64> {
    let mut r = Reader { rest: text, line: 0 };
    let call = r.read("measure=", |s| MEASURES.iter().find(|(name, _)| *name == s).map(|(_, call)| *call), |_| true)?;
    let directed = r.read("kind=", |s| ["undirected", "directed"].iter().position(|k| *k == s), |_| true)? as u32;
    let nodes = r.read("nodes=", decimal, |_| true)?;
    let option = r.read("option=", decimal, |x| match call {
        Betweenness => x < 2,
        _ => x == 0 || call.takes_option(),
    })?;
    let limit = r.read("rounds=", decimal, |x| x == 0 || call.iterates())?;
    let damping = r.read("factor=", float, |x| x == 0 || call.iterates() && call != Eigenvector)?;
    let tolerance = r.read("tolerance=", float, |x| x == 0 || call.iterates())?;
    let edges = r.read("edges=", decimal, |_| true)?;
    let mut g = Lists { nodes: nodes as usize, directed, from: vec![], to: vec![], weight: vec![] };
    for _ in 0..edges {
        let value = r.value("edge=")?;
        let parts: Vec<&str> = value.split(',').collect();
        let [from, to, weight] = parts[..] else { return Err(r.line) };
        let end = |s| decimal(s).map(|v| v.min(u32::MAX as u64) as u32).ok_or(r.line);
        g.from.push(end(from)?);
        g.to.push(end(to)?);
        g.weight.push(f64::from_bits(float(weight).ok_or(r.line)?));
    }
    if !r.rest.is_empty() {
        return Err(r.line + 1);
    }
    let settings = Settings { damping: f64::from_bits(damping), tolerance: f64::from_bits(tolerance), limit };
    Ok(roomy(call, &Rc::new(g), option, settings, 0, Vec::new()))
}

fn refusal(answer: u32, line: u64) -> String {
    format!("answer={answer}\nline={line}\n")
}

fn answer(case: &Case, o: &Outcome) -> String {
    if o.answer != 0 {
        return refusal(o.answer, 0);
    }
    let settled = match (case.call.iterates(), o.settled) {
        (false, _) => "none",
        (true, 0) => "no",
        (true, _) => "yes",
    };
    let name = measure_of(case.call).unwrap();
    let mut text = format!("measure={name}\nanswer=0\nnodes={}\nrounds={}\nsettled={settled}\n", case.graph.nodes, o.rounds);
    for (v, x) in o.rf.iter().enumerate() {
        let bits = if x.is_nan() { 0x7ff8_0000_0000_0000 } else { x.to_bits() };
        writeln!(text, "score={v},{bits:016x}").unwrap();
    }
    for v in &o.r32 {
        writeln!(text, "elected={v}").unwrap();
    }
    text
}

/// The number of the answer that a text gets, and its whole answer text; nothing if its rounds are too many to wait for.
pub fn answer_to(text: &[u8]) -> Option<(u32, String)> {
    if text.len() > 49152 {
        return Some((SIZE, refusal(SIZE, 0)));
    }
    let case = match read(text) {
        Ok(case) => case,
        Err(line) => return Some((TEXT, refusal(TEXT, line))),
    };
    if case.graph.nodes > 512 || case.graph.m() > 1024 {
        return Some((SIZE, refusal(SIZE, 0)));
    }
    let o = expected(&case, &mut None)?;
    Some((o.answer, answer(&case, &o)))
}
