//! The library's C interface (include/meadowrut.h) as calls over slices.

#[repr(C)]
#[derive(Clone, Copy, Debug)]
pub struct Settings {
    pub damping: f64,
    pub tolerance: f64,
    pub limit: u64,
}

#[repr(C)]
#[derive(Clone, Copy, Debug)]
pub struct Report {
    pub answer: u32,
    pub settled: u32,
    pub rounds: u64,
    pub settings: Settings,
}

#[repr(C)]
#[derive(Clone, Copy, Debug)]
pub struct Election {
    pub answer: u32,
    pub elected: usize,
}

#[repr(C)]
#[derive(Clone, Copy, Debug)]
pub struct Text {
    pub answer: u32,
    pub length: usize,
}

/// A graph as lent.
#[derive(Clone, Copy)]
pub struct Graph<'a> {
    pub nodes: usize,
    pub directed: u32,
    pub from: &'a [u32],
    pub to: &'a [u32],
    pub weight: &'a [f64],
}

/// A workspace as lent.
pub struct Work<'a> {
    pub w32: &'a mut [u32],
    pub w64: &'a mut [u64],
    pub wf: &'a mut [f64],
}

// The graph's arguments, as C takes them.
macro_rules! graph {
    ($g:ident, $call:expr, $($rest:expr),*) => {
        $call(
            $g.nodes, $g.directed, $g.from.as_ptr(), $g.from.len(), $g.to.as_ptr(), $g.to.len(), $g.weight.as_ptr(), $g.weight.len(),
            $($rest),*
        )
    };
}

// A call without a workspace.
macro_rules! bare {
    ($call:ident, $symbol:ident) => {
        pub fn $call(g: Graph, scores: &mut [f64]) -> u32 {
            extern "C" {
                fn $symbol(
                    _: usize, _: u32, _: *const u32, _: usize, _: *const u32, _: usize, _: *const f64, _: usize,
                    _: *mut f64, _: usize,
                ) -> u32;
            }
            unsafe { graph!(g, $symbol, scores.as_mut_ptr(), scores.len()) }
        }
    };
}

// A call with a workspace that returns its answer, or a struct of at most 16 bytes.
macro_rules! plain {
    ($call:ident, $symbol:ident, [$($own:ident: $type:ty),*], [$($result:ident: $element:ty),*], $answer:ty) => {
        pub fn $call(g: Graph, $($own: $type,)* $($result: &mut [$element],)* w: Work) -> $answer {
            extern "C" {
                fn $symbol(
                    _: usize, _: u32, _: *const u32, _: usize, _: *const u32, _: usize, _: *const f64, _: usize,
                    $(_: $type,)* $(_: *mut $element, _: usize,)*
                    _: *mut u32, _: usize, _: *mut u64, _: usize, _: *mut f64, _: usize,
                ) -> $answer;
            }
            unsafe {
                graph!(
                    g, $symbol, $($own,)* $($result.as_mut_ptr(), $result.len(),)*
                    w.w32.as_mut_ptr(), w.w32.len(), w.w64.as_mut_ptr(), w.w64.len(), w.wf.as_mut_ptr(), w.wf.len()
                )
            }
        }
    };
}

// An iterative call. Off x86-64 the settings pass as three words and the report through a first pointer
// (docs/DECISIONS.md, "C interface").
macro_rules! iterative {
    ($call:ident, $symbol:ident $(, $given:ident, $vector:ident)?) => {
        pub fn $call(g: Graph, settings: Settings, $($given: u32, $vector: &[f64],)? scores: &mut [f64], w: Work) -> Report {
            #[cfg(target_arch = "x86_64")]
            unsafe {
                extern "C" {
                    fn $symbol(
                        _: usize, _: u32, _: *const u32, _: usize, _: *const u32, _: usize, _: *const f64, _: usize,
                        _: Settings, $($given: u32, $vector: *const f64, _: usize,)? _: *mut f64, _: usize,
                        _: *mut u32, _: usize, _: *mut u64, _: usize, _: *mut f64, _: usize,
                    ) -> Report;
                }
                graph!(
                    g, $symbol, settings, $($given, $vector.as_ptr(), $vector.len(),)? scores.as_mut_ptr(), scores.len(),
                    w.w32.as_mut_ptr(), w.w32.len(), w.w64.as_mut_ptr(), w.w64.len(), w.wf.as_mut_ptr(), w.wf.len()
                )
            }
            #[cfg(not(target_arch = "x86_64"))]
            unsafe {
                extern "C" {
                    fn $symbol(
                        _: *mut Report,
                        _: usize, _: u32, _: *const u32, _: usize, _: *const u32, _: usize, _: *const f64, _: usize,
                        _: u64, _: u64, _: u64, $($given: u32, $vector: *const f64, _: usize,)? _: *mut f64, _: usize,
                        _: *mut u32, _: usize, _: *mut u64, _: usize, _: *mut f64, _: usize,
                    );
                }
                let mut report = std::mem::MaybeUninit::<Report>::uninit();
                $symbol(
                    report.as_mut_ptr(), g.nodes, g.directed,
                    g.from.as_ptr(), g.from.len(), g.to.as_ptr(), g.to.len(), g.weight.as_ptr(), g.weight.len(),
                    settings.damping.to_bits(), settings.tolerance.to_bits(), settings.limit,
                    $($given, $vector.as_ptr(), $vector.len(),)? scores.as_mut_ptr(), scores.len(),
                    w.w32.as_mut_ptr(), w.w32.len(), w.w64.as_mut_ptr(), w.w64.len(), w.wf.as_mut_ptr(), w.wf.len(),
                );
                report.assume_init()
            }
        }
    };
}

bare!(degree, meadowrut_degree);
bare!(in_degree, meadowrut_in_degree);
bare!(out_degree, meadowrut_out_degree);
plain!(survey, meadowrut_survey, [start: usize], [distances: u32, counts: u64], u32);
plain!(betweenness, meadowrut_betweenness, [normalized: u32], [scores: f64], u32);
plain!(edge_betweenness, meadowrut_edge_betweenness, [normalized: u32], [forward: f64, back: f64], u32);
plain!(local_reaching, meadowrut_local_reaching, [hops: usize], [scores: f64], u32);
plain!(global_reaching, meadowrut_global_reaching, [], [scores: f64], u32);
plain!(voterank, meadowrut_voterank, [seeds: usize], [elected: u32], Election);
plain!(laplacian, meadowrut_laplacian, [], [scores: f64], u32);
iterative!(pagerank, meadowrut_pagerank, given, start);
iterative!(personalized_pagerank, meadowrut_personalized_pagerank, given, personalization);
iterative!(eigenvector, meadowrut_eigenvector);
iterative!(katz, meadowrut_katz, given, beta);

/// The command program's work on slices.
pub fn run(input: &[u8], output: &mut [u8]) -> Text {
    extern "C" {
        fn meadowrut_run(_: *const u8, _: usize, _: *mut u8, _: usize) -> Text;
    }
    unsafe { meadowrut_run(input.as_ptr(), input.len(), output.as_mut_ptr(), output.len()) }
}

pub fn sqrt(x: f64) -> f64 {
    extern "C" {
        fn meadowrut_sqrt(_: f64) -> f64;
    }
    unsafe { meadowrut_sqrt(x) }
}

pub fn abs(x: f64) -> f64 {
    extern "C" {
        fn meadowrut_abs(_: f64) -> f64;
    }
    unsafe { meadowrut_abs(x) }
}

pub fn max(x: f64, y: f64) -> f64 {
    extern "C" {
        fn meadowrut_max(_: f64, _: f64) -> f64;
    }
    unsafe { meadowrut_max(x, y) }
}
