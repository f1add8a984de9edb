//! The replay lists: answers of the Rust, stored for runs without it.
//!
//! Calls. A list is a row of records: five decimal digits and a newline give the number of bytes that follow. Bytes that
//! begin with '#' are a comment. Else they are hexadecimal words without leading zeros, a space between them and a
//! newline after the last:
//!
//!   call nodes directed
//!   from-length to-length weight-length k, and k times: from to weight   (elements after the k-th are 0)
//!   option damping tolerance limit
//!   given vector-length, and each entry
//!   lengths of the result slices (32-bit, 64-bit, f64, back) and of w32, w64, wf
//!   answer settled rounds elected
//!   four times (32-bit, 64-bit, f64, back): a count, and the first results
//!
//! Doubles are their bits; a result of 7ff8000000000000 stands for any NaN.
//!
//! Jobs. A record is five digits, a space, five digits, a newline: the lengths of a job text and of its answer text,
//! which follow. A record with an answer of no bytes is a comment.
use crate::case::{Case, Lists, Outcome, CALLS};
use crate::library::Settings;
use std::rc::Rc;

pub const NAN: u64 = 0x7ff8_0000_0000_0000;

fn bits(x: f64) -> u64 {
    if x.is_nan() { NAN } else { x.to_bits() }
}

pub fn call_record(case: &Case, o: &Outcome) -> String {
    let (g, s) = (&*case.graph, case.settings);
    let k = [g.from.len(), g.to.len(), g.weight.len()].into_iter().max().unwrap();
    let zeros = (0..k).rev().take_while(|&i| {
        let zero = |x: Option<u64>| x.unwrap_or(0) == 0;
        zero(g.from.get(i).map(|x| *x as u64)) && zero(g.to.get(i).map(|x| *x as u64)) && zero(g.weight.get(i).map(|x| x.to_bits()))
    });
    let k = k - zeros.count();
    let mut words = vec![case.call as u64, g.nodes as u64, g.directed as u64];
    words.extend([g.from.len() as u64, g.to.len() as u64, g.weight.len() as u64, k as u64]);
    for i in 0..k {
        words.push(g.from.get(i).copied().unwrap_or(0) as u64);
        words.push(g.to.get(i).copied().unwrap_or(0) as u64);
        words.push(g.weight.get(i).copied().unwrap_or(0.0).to_bits());
    }
    words.extend([case.option, s.damping.to_bits(), s.tolerance.to_bits(), s.limit]);
    words.extend([case.given as u64, case.vector.len() as u64]);
    words.extend(case.vector.iter().map(|x| x.to_bits()));
    words.extend(case.rooms.iter().chain(&case.work).map(|len| *len as u64));
    words.extend([o.answer as u64, o.settled as u64, o.rounds, o.elected as u64]);
    words.push(o.r32.len() as u64);
    words.extend(o.r32.iter().map(|x| *x as u64));
    words.push(o.r64.len() as u64);
    words.extend(&o.r64);
    words.push(o.rf.len() as u64);
    words.extend(o.rf.iter().map(|x| bits(*x)));
    words.push(o.rb.len() as u64);
    words.extend(o.rb.iter().map(|x| bits(*x)));
    let line: Vec<String> = words.iter().map(|w| format!("{w:x}")).collect();
    line.join(" ") + "\n"
}

pub fn read_call(line: &str) -> (Case, Outcome) {
    let mut words = line.split_whitespace().map(|w| u64::from_str_radix(w, 16).expect("a hexadecimal word"));
    let mut next = || words.next().expect("a further word");
    let call = CALLS[next() as usize].0;
    let (nodes, directed) = (next() as usize, next() as u32);
    let lengths = [next() as usize, next() as usize, next() as usize];
    let k = next() as usize;
    let edges: Vec<[u64; 3]> = (0..k).map(|_| [next(), next(), next()]).collect();
    let column = |c: usize| {
        let mut column: Vec<u64> = edges.iter().map(|e| e[c]).collect();
        column.resize(lengths[c], 0);
        column
    };
    let graph = Lists {
        nodes,
        directed,
        from: column(0).iter().map(|x| *x as u32).collect(),
        to: column(1).iter().map(|x| *x as u32).collect(),
        weight: column(2).iter().map(|x| f64::from_bits(*x)).collect(),
    };
    let option = next();
    let settings = Settings { damping: f64::from_bits(next()), tolerance: f64::from_bits(next()), limit: next() };
    let given = next() as u32;
    let vector = (0..next()).map(|_| f64::from_bits(next())).collect();
    let rooms = [next() as usize, next() as usize, next() as usize, next() as usize];
    let work = [next() as usize, next() as usize, next() as usize];
    let case = Case { call, graph: Rc::new(graph), option, settings, given, vector, rooms, work };
    let outcome = Outcome {
        answer: next() as u32,
        settled: next() as u32,
        rounds: next(),
        elected: next() as usize,
        r32: (0..next()).map(|_| next() as u32).collect(),
        r64: (0..next()).map(|_| next()).collect(),
        rf: (0..next()).map(|_| f64::from_bits(next())).collect(),
        rb: (0..next()).map(|_| f64::from_bits(next())).collect(),
    };
    assert!(words.next().is_none(), "words after the record");
    (case, outcome)
}

/// A record of the calls' list, with its length in front.
pub fn framed(record: &str) -> String {
    format!("{:05}\n{record}", record.len())
}

/// A record of the jobs' list.
pub fn job_record(text: &[u8], answer: &str) -> Vec<u8> {
    let mut record = format!("{:05} {:05}\n", text.len(), answer.len()).into_bytes();
    record.extend(text);
    record.extend(answer.as_bytes());
    record
}
