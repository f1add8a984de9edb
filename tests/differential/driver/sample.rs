//! The cases of full size, the job texts, and the samples that the replay lists store.
use crate::case::{Call::*, Case, Lists, CALLS};
use crate::expected::expected;
use crate::graphs::{self, roomy, Dice};
use crate::job::{answer_to, measure_of, text_of, MEASURES};
use crate::library::Settings;
use crate::limits::{chain, graph, plain};
use crate::list::{call_record, framed, job_record};
use std::collections::BTreeMap;
use std::io::Write;
use std::rc::Rc;

/// Every call on a graph of full size.
pub fn full_size(dice: &mut Dice, graph: &Rc<Lists>) -> Vec<Case> {
    let n = graph.nodes;
    let mut cases = Vec::new();
    for (call, _) in CALLS {
        let option = match call {
            Survey => dice.below(n) as u64,
            Betweenness | EdgeBetweenness => dice.below(2) as u64,
            LocalReaching => 2 + dice.below(3) as u64,
            Voterank => 60,
            _ => 0,
        };
        let settings = match call {
            Katz => Settings { damping: 0.01, tolerance: 1e-6, limit: 100 },
            Eigenvector => Settings { damping: 0.0, tolerance: 1e-4, limit: 100 },
            Pagerank | Personalized => Settings { damping: 0.85, tolerance: dice.pick(&[1e-6, 1e-9, 0.0]), limit: 40 },
            _ => Settings { damping: 0.0, tolerance: 0.0, limit: 0 },
        };
        let given = (call.takes_vector() && dice.once_in(2)) as u32;
        let vector = if given == 1 { (0..n).map(|_| dice.unit()).collect() } else { Vec::new() };
        cases.push(roomy(call, graph, option, settings, given, vector));
    }
    cases
}

/// A case that the program can be asked for.
fn job_case(dice: &mut Dice) -> Case {
    let call = dice.pick(&MEASURES).1;
    loop {
        let mut lists = graphs::random(dice);
        lists.directed = lists.directed.min(1);
        if lists.to.len() != lists.m() || lists.weight.len() != lists.m() {
            continue;
        }
        let mut case = graphs::random_case(dice, call, &Rc::new(lists));
        if call == Betweenness {
            case.option = case.option.min(1);
        }
        if call == Eigenvector {
            case.settings.damping = 0.0;
        }
        case.given = 0;
        return case;
    }
}

/// A job text; half of them are damaged.
pub fn job_text(dice: &mut Dice) -> Vec<u8> {
    let mut text = text_of(&job_case(dice)).into_bytes();
    if dice.once_in(2) {
        damage(dice, &mut text);
    }
    text
}

fn damage(dice: &mut Dice, text: &mut Vec<u8>) {
    let lines: Vec<Vec<u8>> = text.split_inclusive(|b| *b == b'\n').map(<[u8]>::to_vec).collect();
    let (i, k) = (dice.below(lines.len()), dice.below(text.len()));
    let mut other = lines.clone();
    match dice.below(14) {
        0 => drop(other.remove(i)),
        1 => other.insert(i, lines[i].clone()),
        2 => other.swap(i, (i + 1) % lines.len()),
        3 => other.push(b"\n".to_vec()),
        4 => drop(other.last_mut().unwrap().pop()),
        5 => {
            let end = other[i].len() - 1;
            other[i].insert(end, b'\r');
        }
        6 => other[i] = b"\n".to_vec(),
        7 => other[i] = lines[i].to_ascii_uppercase(),
        8 => {
            let at = lines[i].iter().position(|b| *b == b'=').unwrap_or(0);
            other[i].insert(at + 1, b'0');
        }
        9 => {
            let end = other[i].len() - 1;
            other[i].insert(end, dice.pick(b"0 9,a"));
        }
        10 => {
            let value = dice.pick(&["18446744073709551616", "18446744073709551615", "4294967296", "00", "", "-1", "1"]);
            let at = lines[i].iter().position(|b| *b == b'=').unwrap_or(0);
            other[i].truncate(at + 1);
            other[i].extend(value.as_bytes());
            other[i].push(b'\n');
        }
        11 => other.truncate(i),
        _ => {
            text[k] = dice.pick(&[0, b'\n', b' ', b'0', b'g', 0xff, b'=', b'A']);
            return;
        }
    }
    *text = other.concat();
}

/// Small enough to store.
fn storable(case: &Case) -> bool {
    case.graph.nodes <= 6 && case.graph.m() <= 7 || case.graph.nodes > 4096
}

/// Cases that a random sample seldom has: the limits, and path counts at 2^53.
fn chosen() -> Vec<Case> {
    let mut cases = Vec::new();
    for (call, _) in CALLS {
        let mut sizes = vec![
            graph(4097, 1, &[]),
            Lists { nodes: 1, directed: 0, from: vec![0; 32769], to: vec![0; 32769], weight: vec![0.0; 32769] },
            Lists { nodes: 1, directed: 0, from: vec![0], to: vec![0, 0], weight: vec![0.0] },
            graph(0, 0, &[]),
            graph(0, 1, &[(0, 0)]),
            graph(2, 0, &[(0, 1), (1, 2)]),
        ];
        // within the limits, and refused only for want of room
        sizes.push(Lists { nodes: 1, directed: 0, from: vec![0; 32768], to: vec![0; 32768], weight: vec![0.0; 32768] });
        sizes.push(graph(4096, 1, &[]));
        for lists in sizes {
            let big = lists.nodes >= 4096 || lists.m() >= 32768;
            let mut case = plain(call, &Rc::new(lists), 0);
            if big {
                case.rooms = [0; 4];
                case.work = [0; 3];
            }
            cases.push(case);
        }
    }
    for lists in [chain(53, false), chain(53, true)] {
        let mut lists = lists;
        lists.weight.fill(0.0);
        let graph = Rc::new(lists);
        cases.push(plain(Survey, &graph, 0));
        cases.push(plain(Betweenness, &graph, 0));
        cases.push(plain(EdgeBetweenness, &graph, 1));
    }
    cases
}

/// Writes the list of calls: some of each answer of each call.
pub fn list_calls(seed: u64) {
    let mut kept: BTreeMap<(u64, u32), usize> = BTreeMap::new();
    let mut records = Vec::new();
    let mut keep = |case: &Case, most: usize| {
        let Some(outcome) = expected(case, &mut None) else { return };
        let count = kept.entry((case.call as u64, outcome.answer)).or_default();
        if *count < most {
            *count += 1;
            let record = call_record(case, &outcome);
            let [a, b, c] = case.work;
            assert!(record.len() <= 4000 && a <= 2200 && b <= 220 && c <= 1300 && case.vector.len() <= 8);
            records.push(record);
        }
    };
    for case in chosen() {
        keep(&case, usize::MAX);
    }
    let mut dice = Dice(seed);
    for _ in 0..60_000 {
        let mut lists = graphs::random(&mut dice);
        let call = dice.pick(&CALLS).0;
        if !call.iterates() {
            lists.weight.iter_mut().for_each(|w| if w.is_finite() { *w = 0.0 });
        }
        let mut case = graphs::random_case(&mut dice, call, &Rc::new(lists));
        if case.graph.nodes > 4096 {
            (case.rooms, case.work) = ([0; 4], [0; 3]);
            case.vector.truncate(3);
        }
        if storable(&case) && case.settings.limit <= 100 {
            // what the program does not reach gets the most
            let rare = measure_of(call).is_none() || case.given != 0;
            let done = if rare { 90 } else { 50 };
            let answer = crate::expected::refusal(&case);
            keep(&case, if answer == 0 { done } else { 8 });
        }
    }
    let mut header = format!(
        "# Answers of graphina (commit bc3e868ec4, with Debian's petgraph 0.6.2) to library calls; refusals and the survey by document 01.\n\
         # Made by `tests/differential/run --lists`, seed {seed}. {} records; the format is described in tests/differential/driver/list.rs.\n\
         # At most: 4000 bytes a record, 32769 edges, 160 of them not zero, a vector of 8, results of 160, w32 2200, w64 220, wf 1300.\n\
         # Records of each call by answer:\n",
        records.len()
    );
    for (call, name) in CALLS {
        let counts: Vec<String> = (0..=12).filter_map(|a| kept.get(&(call as u64, a)).map(|c| format!("{a}:{c}"))).collect();
        header += &format!("#   {name} {}\n", counts.join(" "));
    }
    let mut out = std::io::stdout().lock();
    out.write_all(framed(&header).as_bytes()).unwrap();
    for record in records {
        out.write_all(framed(&record).as_bytes()).unwrap();
    }
}

/// Writes the list of jobs: some of each answer of each measure, and faulty texts.
pub fn list_jobs(seed: u64) {
    let mut kept: BTreeMap<(String, u32), usize> = BTreeMap::new();
    let mut records: Vec<Vec<u8>> = Vec::new();
    let mut keep = |text: &[u8], name: &str, most: usize| {
        let Some((answer, want)) = answer_to(text) else { return };
        let count = kept.entry((if answer == 12 { "faulty".into() } else { name.to_string() }, answer)).or_default();
        if *count < most {
            *count += 1;
            records.push(job_record(text, &want));
        }
    };
    let mut dice = Dice(seed);
    for lists in [chain(53, false), chain(53, true)] {
        keep(text_of(&plain(Betweenness, &Rc::new(lists), 0)).as_bytes(), "betweenness", usize::MAX);
    }
    for (name, call) in MEASURES {
        for lists in [graph(0, 0, &[]), graph(513, 1, &[]), graph(1, 0, &[(0, 0)]), graph(2, 1, &[(0, 2)])] {
            keep(text_of(&plain(call, &Rc::new(lists), 0)).as_bytes(), name, usize::MAX);
        }
    }
    keep(b"", "degree", usize::MAX);
    for _ in 0..60_000 {
        let case = job_case(&mut dice);
        let name = measure_of(case.call).unwrap();
        if case.graph.nodes <= 5 && case.graph.m() <= 5 && case.settings.limit <= 100 {
            let mut text = text_of(&case).into_bytes();
            let done = answer_to(&text).is_some_and(|(answer, _)| answer == 0);
            keep(&text, name, if done { 45 } else { 6 });
            damage(&mut dice, &mut text);
            let faulty = answer_to(&text).is_some_and(|(answer, _)| answer == 12);
            keep(&text, name, if faulty { 150 } else { 6 });
        }
    }
    let mut header = format!(
        "Answers of graphina (commit bc3e868ec4, with Debian's petgraph 0.6.2) to job texts; texts and refusals by document 01.\n\
         Made by `tests/differential/run --lists`, seed {seed}. {} records; the format is described in tests/differential/driver/list.rs.\n\
         Records of each measure by answer:\n",
        records.len()
    );
    let mut names: Vec<&str> = MEASURES.iter().map(|m| m.0).collect();
    names.push("faulty");
    for name in names {
        let counts: Vec<String> =
            (0..=12).filter_map(|a| kept.get(&(name.to_string(), a)).map(|c| format!("{a}:{c}"))).collect();
        header += &format!("  {name} {}\n", counts.join(" "));
    }
    let mut out = std::io::stdout().lock();
    out.write_all(&job_record(header.as_bytes(), "")).unwrap();
    for record in records {
        out.write_all(&record).unwrap();
    }
}
