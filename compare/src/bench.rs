//! The benchmark: the port and the Rust original (plain release) in one process, in alternating rounds, beside a plain
//! copy of as many bytes as the call writes. See ../README.md.

#[allow(dead_code)] // the benchmark calls only a part of it
mod abi;
#[path = "bench/alphabet.rs"]
mod alphabet;
#[path = "bench/measure.rs"]
mod measure;
#[path = "bench/packing.rs"]
mod packing;
#[path = "bench/streaming.rs"]
mod streaming;
#[path = "bench/windows.rs"]
mod windows;

use measure::Bench;
use oracle::digest::alphabet::{lookup_alphabet, Alphabet, AlphabetType};
use std::process::ExitCode;

const USAGE: &str = "usage: compare/bench [--rounds N] [--mebi N] [--tsv FILE] [WORD ..]
  --mebi N   length of the long rows in units of 1,048,576 bases (16)
  WORD ..    only rows whose name holds one of the words";

/// The alphabets that are measured. Unknown has Ascii's tables.
const ALPHABETS: [(AlphabetType, &[u8]); 5] = [
    (AlphabetType::Dna2bit, b"ACGT"),
    (AlphabetType::Dna3bit, b"ACGTNRYU"),
    (AlphabetType::DnaIupac, b"ACGTNRYSWKMBDHVU"),
    (AlphabetType::Protein, b"ACDEFGHIKLMNPQRSTVWY*X-.UBZOJ"),
    (AlphabetType::Ascii, b"ACGTacgtNn"),
];

/// One alphabet with a long text of its members.
struct Sample {
    number: u64,
    name: String,
    kind: AlphabetType,
    table: &'static Alphabet,
    text: Vec<u8>,
}

fn samples(long: usize) -> Vec<Sample> {
    let sample = |(number, (kind, symbols)): (usize, &(AlphabetType, &[u8]))| Sample {
        number: number as u64,
        name: format!("{kind:?}"),
        kind: *kind,
        table: lookup_alphabet(kind),
        text: measure::text(symbols, long),
    };
    ALPHABETS.iter().enumerate().map(sample).collect()
}

fn bench() -> Result<Bench, String> {
    let mut found = Bench::new();
    let mut arguments = std::env::args().skip(1);
    while let Some(argument) = arguments.next() {
        let mut number = || arguments.next().and_then(|text| text.parse().ok()).filter(|&n: &usize| n > 0).ok_or(USAGE);
        match argument.as_str() {
            "--rounds" => found.rounds = number()?,
            "--mebi" => found.long = number()? << 20,
            word if word.starts_with('-') => return Err(USAGE.to_string()),
            word => found.words.push(word.to_string()),
        }
    }
    Ok(found)
}

fn main() -> ExitCode {
    let mut bench = match bench() {
        Ok(bench) => bench,
        Err(text) => {
            eprintln!("{text}");
            return ExitCode::from(2);
        }
    };
    bench.header();
    let samples = samples(bench.long);
    alphabet::rows(&mut bench);
    for sample in &samples {
        packing::rows(&mut bench, sample);
        windows::rows(&mut bench, sample);
        streaming::rows(&mut bench, sample);
    }
    ExitCode::SUCCESS
}
