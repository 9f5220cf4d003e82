//! Rounds, clocks and the figures that are printed.

use std::hint::black_box;
use std::time::Instant;

/// The columns that are printed, with tabs between: sizes of one call, times of one call in nanoseconds, ratios of best times.
/// Where the Rust returns no Vec, `allocated` and `alloc_best_ns` are 0. Where the port is not beside itself, what is told
/// of a plain text is 0.
const COLUMNS: [&str; 18] = [
    "row",
    "calls",
    "bases",
    "copied",
    "allocated",
    "port_best_ns",
    "port_median_ns",
    "rust_best_ns",
    "rust_median_ns",
    "memcpy_best_ns",
    "memcpy_median_ns",
    "alloc_best_ns",
    "plain_best_ns",
    "plain_median_ns",
    "port_to_rust",
    "port_to_memcpy",
    "port_to_rust_less_alloc",
    "port_to_plain",
];

/// One row: how often a round calls, and what a call handles and writes.
pub struct Row<'a> {
    pub name: &'a str,
    pub calls: usize,
    /// Bases a call handles.
    pub bases: usize,
    /// Bytes a plain copy moves in place of a call: what the call writes, or reads where it writes nothing.
    pub copied: usize,
    /// Bytes of the `Vec` that the Rust returns from a call; 0 if it returns none.
    pub allocated: usize,
}

pub struct Bench {
    pub rounds: usize,
    /// Bases of the long rows.
    pub long: usize,
    /// Rows are measured only if their name holds one of these; all, if there are none.
    pub words: Vec<String>,
    buffers: [Vec<u8>; 2],
}

/// Best and median of the rounds, in nanoseconds a call.
#[derive(Clone, Copy, Default)]
struct Figure {
    best: f64,
    median: f64,
}

/// What a row's rounds gave; `plain` is all zeros where the port is not beside itself.
struct Figures {
    port: Figure,
    rust: Figure,
    plain: Figure,
    copy: Figure,
    alloc: Figure,
}

impl Bench {
    pub fn new() -> Bench {
        Bench { rounds: 7, long: 16 << 20, words: Vec::new(), buffers: [Vec::new(), Vec::new()] }
    }

    pub fn header(&self) {
        eprintln!("rounds: {}; bases of a long row: {}", self.rounds, self.long);
        println!("{}", COLUMNS.join("\t"));
    }

    pub fn wants(&self, name: &str) -> bool {
        self.words.is_empty() || self.words.iter().any(|word| name.contains(word.as_str()))
    }

    /// Measures one row. Each closure makes the whole round's calls.
    pub fn row(&mut self, row: &Row, port: &mut dyn FnMut(), rust: &mut dyn FnMut()) {
        self.measure(row, &mut [port, rust]);
    }

    /// Measures a row with the port's calls on a plain text, or its plain calls, beside it.
    pub fn beside(&mut self, row: &Row, port: &mut dyn FnMut(), rust: &mut dyn FnMut(), plain: &mut dyn FnMut()) {
        self.measure(row, &mut [port, rust, plain]);
    }

    /// In each round all sides take turns, the first to run changing with the round, then the copy and the allocation.
    fn measure(&mut self, row: &Row, sides: &mut [&mut dyn FnMut()]) {
        if !self.wants(row.name) {
            return;
        }
        for buffer in &mut self.buffers {
            buffer.resize(buffer.len().max(row.copied), 0x5A);
        }
        let mut times: [Vec<f64>; 5] = Default::default();
        sides.iter_mut().for_each(|side| side());
        for round in 0..self.rounds {
            for turn in 0..sides.len() {
                let side = (round + turn) % sides.len();
                times[side].push(clock(sides[side]));
            }
            let [from, to] = &mut self.buffers;
            times[3].push(clock(&mut || copy(&from[..row.copied], &mut to[..row.copied], row.calls)));
            times[4].push(clock(&mut || allocate(row.allocated, row.calls)));
        }
        let [port, rust, plain, copy, mut alloc] = times.map(|times| figure(times, row.calls));
        if row.allocated == 0 {
            alloc = Figure::default();
        }
        self.print(row, &Figures { port, rust, plain, copy, alloc });
    }

    fn print(&self, row: &Row, figures: &Figures) {
        let Figures { port, rust, plain, copy, alloc } = figures;
        let of = [rust.best, copy.best, rust.best - alloc.best, plain.best];
        let ratios = of.map(|time| if time > 0.0 { port.best / time } else { 0.0 });
        let sizes = [row.calls, row.bases, row.copied, row.allocated].map(|size| size.to_string());
        let all = [port, rust, copy].map(|figure| [figure.best, figure.median]).concat();
        let times = [all, vec![alloc.best, plain.best, plain.median]].concat();
        let times: Vec<String> = times.iter().map(|time| format!("{time:.2}")).collect();
        let ratios = ratios.map(|ratio| format!("{ratio:.4}"));
        println!("{}\t{}\t{}\t{}", row.name, sizes.join("\t"), times.join("\t"), ratios.join("\t"));
    }
}

fn clock(work: &mut dyn FnMut()) -> f64 {
    let start = Instant::now();
    work();
    start.elapsed().as_nanos() as f64
}

fn figure(mut times: Vec<f64>, calls: usize) -> Figure {
    if times.is_empty() {
        return Figure::default();
    }
    times.sort_by(f64::total_cmp);
    Figure { best: times[0] / calls as f64, median: times[times.len() / 2] / calls as f64 }
}

fn copy(from: &[u8], to: &mut [u8], calls: usize) {
    for _ in 0..calls {
        black_box(&mut *to).copy_from_slice(black_box(from));
    }
}

/// Allocates as the Rust does and touches each page once, as its writing does.
fn allocate(size: usize, calls: usize) {
    for _ in 0..calls {
        let mut memory: Vec<u8> = Vec::with_capacity(size);
        for page in memory.spare_capacity_mut().chunks_mut(4096) {
            page[0].write(1);
        }
        black_box(&memory);
    }
}

/// Pseudo-random numbers, the same in every run.
fn numbers() -> impl FnMut() -> usize {
    let mut state = 0x9E37_79B9_7F4A_7C15u64;
    move || {
        state ^= state << 13;
        state ^= state >> 7;
        state ^= state << 17;
        (state >> 33) as usize
    }
}

/// A pseudo-random text over some symbols.
pub fn text(symbols: &[u8], len: usize) -> Vec<u8> {
    let mut next = numbers();
    (0..len).map(|_| symbols[next() % symbols.len()]).collect()
}

/// The text soft-masked: runs of 100 to 500 symbols, every other one of them in lowercase.
pub fn soft_masked(text: &[u8]) -> Vec<u8> {
    let (mut next, mut found, mut at) = (numbers(), text.to_ascii_uppercase(), 0);
    while at < found.len() {
        let from = found.len().min(at + 100 + next() % 401);
        at = found.len().min(from + 100 + next() % 401);
        found[from..at].make_ascii_lowercase();
    }
    found
}
