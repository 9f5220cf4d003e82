//! Rows of the alphabet layer. A guess reads four times the long rows' bases; a genome has its own length.

use crate::abi;
use crate::measure::{soft_masked, text, Bench, Row};
use oracle::digest::alphabet::{guess_alphabet, AlphabetGuesser};
use std::hint::black_box;

pub fn rows(bench: &mut Bench) {
    let dna = text(b"ACGT", 4 * bench.long);
    guess(bench, "guess ACGT", &dna, &whole);
    folded_guess(bench, "folded guess ACGT", &dna, &whole);
    for piece in [64, 4096, 65536] {
        update(bench, &format!("guesser_update {piece} ACGT"), &dna[..bench.long], piece);
    }
    for (count, bases) in [(24, 65536), (1000, 1000)] {
        let (name, text) = (format!("genome {count} of {bases} ACGT"), &dna[..count * bases]);
        let genome = |fold: u64, text: &[u8]| by_chromosome(fold, text, bases);
        guess(bench, &name, text, &genome);
        folded_guess(bench, &format!("folded {name}"), text, &genome);
    }
    let others: [(&str, &[u8]); 3] =
        [("Dna3bit", b"ACGTNRYU"), ("DnaIupac", b"NACMGRSKTWYUBDHV"), ("Protein", b"ACDEFGHIKLMNPQRSTVWY")];
    for (alphabet, symbols) in others {
        let text = text(symbols, 4 * bench.long);
        guess(bench, &format!("guess {alphabet}"), &text, &whole);
        folded_guess(bench, &format!("folded guess {alphabet}"), &text, &whole);
    }
}

/// A text guessed in one call.
fn whole(fold: u64, text: &[u8]) -> u64 {
    // SAFETY: the pointer is lent with its length.
    unsafe { abi::fc_guess_alphabet(fold, black_box(text).as_ptr(), text.len()) }.value
}

/// Chromosomes of so many bases guessed one by one, and the guesses combined, from Dna2bit on.
fn by_chromosome(fold: u64, text: &[u8], bases: usize) -> u64 {
    // SAFETY: the call is lent nothing.
    let later = |so_far, guess| unsafe { abi::fc_later_alphabet(so_far, guess) }.value;
    text.chunks(bases).fold(0, |so_far, chromosome| later(so_far, whole(fold, chromosome)))
}

/// One way of the port to guess, beside the Rust's guess of the whole text.
fn guess(bench: &mut Bench, name: &str, text: &[u8], port: &dyn Fn(u64, &[u8]) -> u64) {
    let row = Row { name, calls: 1, bases: text.len(), copied: text.len(), allocated: 0 };
    let rust = || guess_alphabet(black_box(text)) as u64;
    assert_eq!(port(0, text), rust(), "{name}: the port guesses another alphabet");
    bench.row(&row, &mut || _ = black_box(port(0, text)), &mut || _ = black_box(rust()));
}

/// The text is in uppercase; it is soft-masked for the port that folds.
fn folded_guess(bench: &mut Bench, name: &str, text: &[u8], port: &dyn Fn(u64, &[u8]) -> u64) {
    let row = Row { name, calls: 1, bases: text.len(), copied: text.len(), allocated: 0 };
    let soft = soft_masked(text);
    let rust = || guess_alphabet(black_box(text)) as u64;
    assert_eq!(port(1, &soft), rust(), "{name}: the port guesses another alphabet");
    let mut folding = || _ = black_box(port(1, &soft));
    let mut plain = || _ = black_box(port(0, text));
    bench.beside(&row, &mut folding, &mut || _ = black_box(rust()), &mut plain);
}

fn update(bench: &mut Bench, name: &str, text: &[u8], piece: usize) {
    let row = Row { name, calls: 1, bases: text.len(), copied: text.len(), allocated: 0 };
    let mut port = || {
        // SAFETY: each piece is lent with its length.
        let mut state = unsafe { abi::fc_guesser_new(0) };
        for piece in black_box(text).chunks(piece) {
            state = unsafe { abi::fc_guesser_update(state, piece.as_ptr(), piece.len()) }.next;
        }
        black_box(state.mask);
    };
    let mut rust = || {
        let mut guesser = AlphabetGuesser::new();
        black_box(text).chunks(piece).for_each(|piece| guesser.update(piece));
        black_box(guesser.guess());
    };
    bench.row(&row, &mut port, &mut rust);
}
