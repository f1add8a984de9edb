//! A call with everything that it is lent, and what it must leave.
use crate::library::Settings;

#[derive(Clone, Copy, Debug, PartialEq, Eq, PartialOrd, Ord)]
pub enum Call {
    Degree,
    InDegree,
    OutDegree,
    Survey,
    Betweenness,
    EdgeBetweenness,
    LocalReaching,
    GlobalReaching,
    Voterank,
    Laplacian,
    Pagerank,
    Personalized,
    Eigenvector,
    Katz,
}

use Call::*;

/// The calls with the names of their exports, in the order of their numbers in the replay list.
pub const CALLS: [(Call, &str); 14] = [
    (Degree, "degree"),
    (InDegree, "in_degree"),
    (OutDegree, "out_degree"),
    (Survey, "survey"),
    (Betweenness, "betweenness"),
    (EdgeBetweenness, "edge_betweenness"),
    (LocalReaching, "local_reaching"),
    (GlobalReaching, "global_reaching"),
    (Voterank, "voterank"),
    (Laplacian, "laplacian"),
    (Pagerank, "pagerank"),
    (Personalized, "personalized_pagerank"),
    (Eigenvector, "eigenvector"),
    (Katz, "katz"),
];

impl Call {
    pub fn name(self) -> &'static str {
        CALLS[self as usize].1
    }

    /// Takes a workspace.
    pub fn works(self) -> bool {
        !matches!(self, Degree | InDegree | OutDegree)
    }

    /// Reads weights and settings.
    pub fn iterates(self) -> bool {
        matches!(self, Pagerank | Personalized | Eigenvector | Katz)
    }

    /// Takes a vector that may be given or not.
    pub fn takes_vector(self) -> bool {
        matches!(self, Pagerank | Personalized | Katz)
    }

    /// Answers EMPTY for no nodes.
    pub fn needs_nodes(self) -> bool {
        matches!(self, Survey | Betweenness | EdgeBetweenness | Personalized)
    }

    /// Takes a number: the start, normalized or not, the hop limit, the seeds.
    pub fn takes_option(self) -> bool {
        matches!(self, Survey | Betweenness | EdgeBetweenness | LocalReaching | Voterank)
    }
}

/// Lengths of result slices: 32-bit, 64-bit, f64, and the second f64 (edge betweenness: back).
pub type Rooms = [usize; 4];

#[derive(Clone, Debug)]
pub struct Lists {
    pub nodes: usize,
    pub directed: u32,
    pub from: Vec<u32>,
    pub to: Vec<u32>,
    pub weight: Vec<f64>,
}

#[derive(Clone, Debug)]
pub struct Case {
    pub call: Call,
    pub graph: std::rc::Rc<Lists>,
    pub option: u64,
    pub settings: Settings,
    pub given: u32,
    pub vector: Vec<f64>,
    pub rooms: Rooms,
    pub work: [usize; 3],
}

/// What a call must leave: its report, and the first elements of its result slices. Everything else is untouched, but
/// for the workspace's front, which is zero unless the answer is a refusal from 1 to 9.
#[derive(Clone, Debug, Default)]
pub struct Outcome {
    pub answer: u32,
    pub settled: u32,
    pub rounds: u64,
    pub elected: usize,
    pub r32: Vec<u32>,
    pub r64: Vec<u64>,
    pub rf: Vec<f64>,
    pub rb: Vec<f64>,
}

impl Outcome {
    pub fn refused(answer: u32) -> Outcome {
        Outcome { answer, ..Outcome::default() }
    }

    pub fn scores(rf: Vec<f64>) -> Outcome {
        Outcome { rf, ..Outcome::default() }
    }
}

impl Lists {
    pub fn m(&self) -> usize {
        self.from.len()
    }

    /// The workspace's front (document 01).
    pub fn front(&self) -> [usize; 3] {
        let (n, m) = (self.nodes, self.m());
        [8 * n + 8 * m + 8, 2 * n, 6 * n + 4 * m]
    }

    /// The result slots that a call needs.
    pub fn needs(&self, call: Call, option: u64) -> Rooms {
        let (n, m) = (self.nodes, self.m());
        match call {
            Survey => [n, n, 0, 0],
            Voterank => [n.min(option as usize), 0, 0, 0],
            EdgeBetweenness => [0, 0, m, if self.directed == 0 { m } else { 0 }],
            _ => [0, 0, n, 0],
        }
    }
}
