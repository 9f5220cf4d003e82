//! Puts one call to the port, to the model and to the Rust, and keeps the score.

use crate::case::{show_rows, show_words, shrink, Call, Entry, Memory};
use crate::faults::Fault;
use crate::reference::{self, Opinion};
use crate::{model, port};
use std::panic::{catch_unwind, AssertUnwindSafe};

/// Says that a planted fault has been noticed and no further case is needed.
pub struct Enough;
pub type Go = Result<(), Enough>;

/// How many differences of one entry point are made smaller to be shown, each smallest call once; all are counted.
const SHOWN: u64 = 8;
/// Columns of the table: the six alphabets, numbers that name none, and calls without an alphabet.
const COLUMNS: [&str; 8] = ["Dna2bit", "Dna3bit", "DnaIupac", "Protein", "Ascii", "Unknown", "beyond 5", "-"];

pub struct Checker {
    fault: Option<Fault>,
    /// What the memory of each case is filled from.
    seed: u64,
    made: u64,
    /// The cases by entry point and column.
    counts: Vec<[u64; 8]>,
    /// How many cases folded.
    folding: Vec<u64>,
    /// How many cases told of more than one non-member.
    counting: Vec<u64>,
    /// How many cases were refused for a code that no symbol has.
    lacking: Vec<u64>,
    /// How many cases the Rust had an answer to.
    with_rust: Vec<u64>,
    differing: Vec<u64>,
    /// Whether each call is named before it is made, to find the one at which a port stops the process.
    pub trace: bool,
    /// The calls shown so far.
    shown: Vec<String>,
    /// The first difference, shrunk, for a planted fault.
    pub noticed: Option<String>,
}

/// Every answer to one call: the words and the memory of the model and of the port, what the Rust has to say, and what its
/// table makes of a covered read, which is no answer of the Rust's.
struct Answers {
    model: (Vec<u64>, Memory),
    port: (Vec<u64>, Memory),
    rust: Vec<Opinion>,
    again: Option<Opinion>,
}

impl Answers {
    fn agree(&self, call: &Call) -> bool {
        let mut said = self.rust.iter().chain(&self.again);
        self.port == self.model && said.all(|said| said.agrees(call, &self.model.0, &self.model.1))
    }
}

impl Checker {
    pub fn new(seed: u64, fault: Option<Fault>) -> Checker {
        let entries = Entry::ALL.len();
        Checker {
            fault,
            seed,
            made: 0,
            counts: vec![[0; 8]; entries],
            folding: vec![0; entries],
            counting: vec![0; entries],
            lacking: vec![0; entries],
            with_rust: vec![0; entries],
            differing: vec![0; entries],
            trace: false,
            shown: Vec::new(),
            noticed: None,
        }
    }

    pub fn cases(&self) -> u64 {
        self.made
    }

    pub fn differences(&self) -> u64 {
        self.differing.iter().sum()
    }

    /// Compares one call.
    pub fn call(&mut self, call: &Call) -> Go {
        self.made += 1;
        if self.trace {
            eprintln!("{call}");
        }
        let seed = self.seed.wrapping_add(self.made);
        let answers = answers(call, seed, self.fault);
        self.counts[call.entry as usize][column(call, &answers.model.0)] += 1;
        self.folding[call.entry as usize] += u64::from(call.folds());
        self.counting[call.entry as usize] += u64::from(tells_several(call, &answers.model.0));
        self.lacking[call.entry as usize] += u64::from(call.entry == Entry::DecodeCovered && answers.model.0[0] == 18);
        self.with_rust[call.entry as usize] += u64::from(!answers.rust.is_empty());
        if answers.agree(call) {
            return Ok(());
        }
        self.differing[call.entry as usize] += 1;
        if self.fault.is_some() {
            self.noticed = Some(self.smallest(call, seed).to_string());
            return Err(Enough);
        }
        if self.differing[call.entry as usize] <= SHOWN {
            let smallest = self.smallest(call, seed);
            if !self.shown.contains(&smallest.to_string()) {
                self.shown.push(smallest.to_string());
                self.show(&smallest, seed);
            }
        }
        Ok(())
    }

    /// Compares a call whose answer document 01 gives in so many words: the words from the front, and what it writes.
    pub fn row(&mut self, call: &Call, words: &[u64], bytes: &[u8]) -> Go {
        let mut memory = Memory::for_call(call, self.seed);
        let found = model::answer(call, &mut memory);
        if !found.starts_with(words) || !memory.lent(0).starts_with(bytes) {
            self.differing[call.entry as usize] += 1;
            println!("difference: {call}: the model is not the worked table's {}", show_words(call.entry, words));
        }
        self.call(call)
    }

    fn smallest(&self, call: &Call, seed: u64) -> Call {
        shrink(call, &|smaller| !answers(smaller, seed, self.fault).agree(smaller))
    }

    fn show(&self, call: &Call, seed: u64) {
        println!("difference: {call}");
        let before = Memory::for_call(call, seed);
        let Answers { model, port, rust, again } = answers(call, seed, self.fault);
        let show = |who: &str, told: String, memory: &Memory, same: bool| {
            println!("  {} {who}: {told}", if same { " " } else { "!" });
            if call.entry.shape().lent.contains("out") || !call.steps.is_empty() {
                println!("      memory {}", memory.show(&before));
            }
        };
        show("document 01", show_words(call.entry, &model.0), &model.1, true);
        show("port", show_words(call.entry, &port.0), &port.1, port == model);
        for said in rust.iter().chain(&again) {
            let told = show_rows(call.entry, said.rows.iter().map(Vec::as_slice));
            show(said.of, told, &said.memory, said.agrees(call, &model.0, &model.1));
        }
        if call.entry.shape().lent.contains("out") {
            println!("      memory {} before the call", before.show(&before));
        }
    }

    /// The cases by entry point and alphabet.
    pub fn print_table(&self) {
        print!("{:38}", "cases");
        COLUMNS.iter().for_each(|name| print!("{name:>9}"));
        print!("{:>10}{:>9}{:>9}{:>10}", "all", "folding", "counting", "no symbol");
        println!("{:>10}{:>8}", "with Rust", "differ");
        for &entry in Entry::ALL {
            let row = &self.counts[entry as usize];
            let all: u64 = row.iter().sum();
            if all == 0 {
                continue;
            }
            print!("{:38}", entry.shape().name);
            let show = |count: u64| if count > 0 { format!("{count:>9}") } else { format!("{:>9}", "") };
            row.iter().for_each(|&count| print!("{}", show(count)));
            print!("{all:>10}{}{}", show(self.folding[entry as usize]), show(self.counting[entry as usize]));
            print!(" {}", show(self.lacking[entry as usize]));
            println!("{:>10}{:>8}", self.with_rust[entry as usize], self.differing[entry as usize]);
        }
    }
}

/// The column of the table that a case belongs to; a guess belongs to the alphabet it finds, two that are combined to the
/// later of them, or to none where one of them is none.
fn column(call: &Call, expected: &[u64]) -> usize {
    let alphabet = match call.entry {
        Entry::GuessAlphabet | Entry::GuesserList | Entry::GenomeList => Some(expected[1]),
        Entry::LaterAlphabet => Some(if expected[0] == 0 { expected[1] } else { 6 }),
        _ => call.alphabet(),
    };
    alphabet.map_or(7, |number| number.min(6) as usize)
}

/// Whether an answer tells a count of more than one non-member. A state that is handed back tells none.
fn tells_several(call: &Call, expected: &[u64]) -> bool {
    let shape = call.entry.shape();
    let told = shape.answer.ends_with("bad_count") || shape.next.ends_with("bad_count");
    told && expected.chunks(shape.width()).any(|row| matches!(row, [0 | 5, .., count] if *count > 1))
}

fn answers(call: &Call, seed: u64, fault: Option<Fault>) -> Answers {
    let before = Memory::for_call(call, seed);
    let answered = |by: &dyn Fn(&mut Memory) -> Vec<u64>| {
        let mut memory = before.clone();
        (by(&mut memory), memory)
    };
    let model = answered(&|memory| model::answer(call, memory));
    let port = answered(&|memory| port::answer(call, memory, fault));
    // The Rust is built with checks on; where it traps inside the domain, that is an answer too, and a wrong one.
    let trapped = || Opinion { of: "Rust, which trapped", rows: vec![vec![u64::MAX]], memory: before.clone() };
    let asked = catch_unwind(AssertUnwindSafe(|| {
        (reference::opinions(call, &before, &model.0), reference::packed_again(call, &before, &model.0))
    }));
    let (rust, again) = asked.unwrap_or_else(|_| (vec![trapped()], None));
    Answers { model, port, rust, again }
}
