//! Makes the list that the program `replay` runs the port on, and what `replay` must print of it. The answers are those
//! of the Rust, built with checks on, and of the model of document 01 for what the Rust lacks; the port is not linked.
//! See ../README.md.

#![allow(dead_code)] // what only the comparison uses stands idle

mod alphabet;
mod asking;
mod blocks;
mod case;
#[path = "sample.rs"]
mod check;
mod damaged;
mod genome;
mod model;
mod packing;
mod random;
mod reference;
mod streaming;
mod tally;
mod windows;
mod worked;

use case::{show_rows, Call, Entry, Layer, Memory};
use check::{Checker, Go};
use random::Random;
use std::fmt::Write;
use std::path::Path;

const SEED: u64 = 20_261_115;
/// The number of the comparison's random cases from which the sample is taken.
const SCALE: u64 = 1;

const HEAD: &str = "\
# Calls of the host library's functions and their answers. Made by `compare/list crates/replay`; not to be edited.
# A line: the function without its `fc_`, its numbers, the bytes lent, the output memory before the call, who
# answered, the numbers of the answer (a state's among them) and the output memory afterwards. Numbers are decimal;
# bytes stand in hexadecimal behind an x. `rust` answered by gtars-refget's functions, `rules` by the model of
# document 01's rules alone, for a refusal, a state or a call that the Rust lacks. The Rust does not fold: where the
# call does, it answered of the uppercased text (not so for Ascii and Unknown), and the byte it reports is the one lent.
# Nor does it count non-members: the last number of an encoder's state, and of what packing answers, is the model's.
# Nor does it refuse a code that no symbol has: a refusal 18 of the covered read, and the base that it tells, are the
# model's, and so is the third number of what that read answers.
# Nor does it combine two guesses: it answered by its guess of two texts joined, whose guesses they are.
# Nor can it be asked before it packs: `encoder_ask` it answered by its update of a copy, with what that writes left unseen.
# Nor has it an engine for DnaIupac or for Protein alone: `decode_4bit` and `decode_5bit` it answered by its rolling engine.
";

fn cases(layer: Layer, check: &mut Checker) -> Go {
    let random = &mut Random::new(SEED ^ (layer as u64) << 32);
    match layer {
        Layer::Alphabet => alphabet::cases(check, random, SCALE),
        Layer::Packing => packing::cases(check, random, SCALE),
        Layer::Windows => windows::cases(check, random, SCALE),
        Layer::Streaming => streaming::cases(check, random, SCALE),
        Layer::Ending => streaming::ends(check, random, SCALE),
        Layer::Genome => genome::cases(check, random, SCALE),
        Layer::Asking => asking::cases(check, random, SCALE),
        Layer::Blocks => blocks::cases(check, random),
    }
}

/// The numbers that the function takes: not those that it fixes for itself.
fn numbers(call: &Call) -> Vec<u64> {
    let [first, byte_offset, start, end, ..] = call.numbers;
    match call.entry {
        Entry::DecodeSubstring => vec![first, start, end],
        Entry::DecodeString => vec![first, end],
        Entry::Decode2bit | Entry::Decode3bit | Entry::Decode4bit | Entry::Decode5bit => vec![byte_offset, start, end],
        _ => call.numbers[..call.entry.shape().numbers.split_whitespace().count()].to_vec(),
    }
}

fn hex(bytes: &[u8]) -> String {
    bytes.iter().fold("x".to_string(), |text, byte| text + &format!("{byte:02x}"))
}

fn decimal(numbers: &[u64]) -> String {
    numbers.iter().map(|number| format!("{number} ")).collect()
}

/// The line of a call. Where the Rust answers, each of its answers must be the model's as far as it goes.
fn line(call: &Call, seed: u64) -> String {
    let mut before = Memory::for_call(call, seed);
    let mut after = before.clone();
    let words = model::answer(call, &mut after);
    let opinions = reference::opinions(call, &before, &words);
    let again = reference::packed_again(call, &before, &words);
    for said in opinions.iter().chain(&again) {
        let told = show_rows(call.entry, said.rows.iter().map(Vec::as_slice));
        assert!(said.agrees(call, &words, &after), "{call}: {} answers {told}", said.of);
    }
    let who = if opinions.is_empty() { "rules" } else { "rust" };
    let (name, taken, text) = (call.entry.shape().name, decimal(&numbers(call)), hex(&call.text));
    let (lent, told, left) = (hex(before.lent(0)), decimal(&words), hex(after.lent(0)));
    format!("{name} {taken}{text} {lent} {who} {told}{left}\n")
}

/// The list, and what `replay` prints of it where every line agrees.
fn list(check: &Checker) -> (String, String) {
    let (mut list, mut report) = (HEAD.to_string(), String::new());
    let mut all = 0;
    for &entry in Entry::ALL {
        let calls = check.calls(entry);
        if calls.is_empty() {
            continue;
        }
        for call in &calls {
            all += 1;
            list += &line(call, SEED + all);
        }
        let (name, count) = (entry.shape().name, calls.len());
        writeln!(report, "{name} agreed {count} of {count}").expect("a string takes all");
    }
    let comments = HEAD.lines().count();
    writeln!(report, "{all} calls, {comments} comments, 0 bad lines").expect("a string takes all");
    (list, report)
}

fn main() -> std::io::Result<()> {
    let folder = std::env::args().nth(1).expect("usage: list FOLDER");
    let mut check = Checker::new(SEED);
    let _ = worked::rows(&mut check);
    for layer in Layer::ALL {
        let _ = cases(layer, &mut check);
    }
    let (list, report) = list(&check);
    print!("{report}");
    std::fs::write(Path::new(&folder).join("stdin"), list)?;
    std::fs::write(Path::new(&folder).join("stdout"), report)
}
