//! Cases of the alphabet layer: tables, names and the guesser.

use crate::case::{Call, Entry, Step};
use crate::check::{Checker, Go};
use crate::model::{self, Intake};
use crate::random::{beyond, Random};

pub fn cases(check: &mut Checker, random: &mut Random, scale: u64) -> Go {
    check.call(&Call::new(Entry::AbiVersion, &[]))?;
    starts(check, random)?;
    tables(check)?;
    names(check)?;
    masks(check)?;
    unsound(check, random)?;
    for fold in [false, true] {
        updates(check, random, scale, fold)?;
        short_texts(check, random, fold)?;
        one_byte_changes(check, random, fold)?;
        chunk_lengths(check, random, scale, fold)?;
        random_texts(check, random, scale, fold)?;
        cuts(check, random, scale, fold)?;
    }
    Ok(())
}

/// A fresh guesser has no input but the choice, which may be any number.
fn starts(check: &mut Checker, random: &mut Random) -> Go {
    for fold in (0..=511).chain(beyond(511)) {
        check.call(&Call::new(Entry::GuesserNew, &[fold]))?;
    }
    for _ in 0..10_000 {
        check.call(&Call::new(Entry::GuesserNew, &[random.number()]))?;
    }
    Ok(())
}

/// Every byte in every alphabet, and numbers beyond either.
fn tables(check: &mut Checker) -> Go {
    let alphabets: Vec<u64> = (0..=5).chain(beyond(5)).collect();
    let bytes: Vec<u64> = (0..=511).chain(beyond(255)).collect();
    for &alphabet in &alphabets {
        check.call(&Call::new(Entry::BitsPerSymbol, &[alphabet]))?;
        for &byte in &bytes {
            check.call(&Call::new(Entry::Contains, &[alphabet, byte]))?;
        }
    }
    Ok(())
}

/// Every length of memory around the names; several times, for the memory is filled anew each time.
fn names(check: &mut Checker) -> Go {
    let alphabets: Vec<u64> = (0..=5).chain(beyond(5)).collect();
    for room in (0..=12).cycle().take(8 * 13) {
        for &alphabet in &alphabets {
            check.call(&Call::new(Entry::DisplayName, &[alphabet]).room(room))?;
        }
    }
    Ok(())
}

/// Every mask a byte can hold, and numbers above.
fn every_mask() -> Vec<u64> {
    (0..=255).chain(beyond(255)).chain((16..=31).map(|mask| mask + (1 << 40))).collect()
}

/// Every mask under both choices and under numbers that are none, with no byte.
fn masks(check: &mut Checker) -> Go {
    let folds: Vec<u64> = (0..=1).chain(beyond(1)).collect();
    for &mask in &every_mask() {
        for &fold in &folds {
            check.call(&Call::new(Entry::GuesserGuess, &[mask, fold]))?;
            check.call(&Call::new(Entry::GuesserUpdate, &[mask, fold]))?;
        }
    }
    Ok(())
}

/// States whose choice is neither 0 nor 1, with texts.
fn unsound(check: &mut Checker, random: &mut Random) -> Go {
    for fold in beyond(1).into_iter().cycle().take(3000) {
        let len = random.below(40) as usize;
        let intake = Intake { alphabet: random.below(5), fold: random.one_in(2) };
        let text = random.mixed(intake, len, 30);
        check.call(&Call::new(Entry::GuesserUpdate, &[16 + random.below(16), fold]).text(&text))?;
    }
    Ok(())
}

/// Every mask with every single byte and with random texts.
fn updates(check: &mut Checker, random: &mut Random, scale: u64, fold: bool) -> Go {
    for &mask in &every_mask() {
        let state = [mask, u64::from(fold)];
        for byte in 0..=255 {
            check.call(&Call::new(Entry::GuesserUpdate, &state).text(&[byte]))?;
        }
        let rounds = if (16..=31).contains(&mask) { 100 } else { 2 };
        for _ in 0..rounds * scale {
            let intake = Intake { alphabet: random.below(5), fold };
            let len = random.below(40) as usize;
            let text = random.mixed(intake, len, 30);
            check.call(&Call::new(Entry::GuesserUpdate, &state).text(&text))?;
        }
    }
    Ok(())
}

fn guess(check: &mut Checker, random: &mut Random, fold: bool, text: &[u8]) -> Go {
    check.call(&Call::new(Entry::GuessAlphabet, &[random.fold(fold)]).text(text))
}

/// Every text of no, one and two bytes.
fn short_texts(check: &mut Checker, random: &mut Random, fold: bool) -> Go {
    guess(check, random, fold, &[])?;
    for first in 0..=255 {
        guess(check, random, fold, &[first])?;
        for second in 0..=255 {
            guess(check, random, fold, &[first, second])?;
        }
    }
    Ok(())
}

/// A text of one alphabet with one byte of another at every place.
fn one_byte_changes(check: &mut Checker, random: &mut Random, fold: bool) -> Go {
    for alphabet in 0..5 {
        let intake = Intake { alphabet, fold };
        for len in 1..=24 {
            let text = random.members(intake, len);
            for place in 0..len {
                for byte in [random.stranger(intake), random.pick(b"ANSXansx*{"), random.next() as u8] {
                    let mut changed = text.clone();
                    changed[place] = byte;
                    guess(check, random, fold, &changed)?;
                }
            }
        }
    }
    Ok(())
}

/// Lengths around a chunk of 4,096 and two, with nothing strange, or one strange byte near a chunk's edge.
fn chunk_lengths(check: &mut Checker, random: &mut Random, scale: u64, fold: bool) -> Go {
    for len in [0usize, 1, 4095, 4096, 4097, 8191, 8192, 8193, 12_288] {
        for alphabet in 0..5 {
            let intake = Intake { alphabet, fold };
            for _ in 0..scale.min(4) {
                let text = random.members(intake, len);
                guess(check, random, fold, &text)?;
                for place in [0, 1, 4094, 4095, 4096, 4097, 8190, 8191, 8192, len.wrapping_sub(1)] {
                    let Some(_) = text.get(place) else { continue };
                    let mut changed = text.clone();
                    changed[place] = random.stranger(intake);
                    guess(check, random, fold, &changed)?;
                    let state = [model::mask(fold, &text), u64::from(fold)];
                    check.call(&Call::new(Entry::GuesserUpdate, &state).text(&changed))?;
                }
            }
        }
    }
    Ok(())
}

fn random_texts(check: &mut Checker, random: &mut Random, scale: u64, fold: bool) -> Go {
    for _ in 0..4000 * scale {
        let intake = Intake { alphabet: random.below(5), fold };
        let len = random.below(64) as usize;
        let text = random.mixed(intake, len, 200);
        guess(check, random, fold, &text)?;
    }
    Ok(())
}

/// A text in pieces gives the guess of the whole: every cut of short texts in two and three, and random cuts.
fn cuts(check: &mut Checker, random: &mut Random, scale: u64, fold: bool) -> Go {
    let step = |length| Step { length, room: 0, last: false };
    for len in 0..=8usize {
        for (alphabet, first) in (0..5).flat_map(|alphabet| (0..=len).map(move |first| (alphabet, first))) {
            for second in 0..=len - first {
                let text = random.mixed(Intake { alphabet, fold }, len, 8);
                let steps = vec![step(first), step(second), step(len - first - second)];
                check.call(&Call::new(Entry::GuesserList, &[random.fold(fold)]).text(&text).steps(steps))?;
            }
        }
    }
    for _ in 0..3000 * scale {
        let intake = Intake { alphabet: random.below(5), fold };
        let len = random.pick(&[10, 50, 200, 4096, 9000]) >> random.below(3);
        let text = random.mixed(intake, len, 2000);
        let mut steps = Vec::new();
        let mut left = len;
        while left > 0 {
            let length = 1 + random.below(left as u64) as usize;
            steps.push(step(length));
            left -= length;
        }
        check.call(&Call::new(Entry::GuesserList, &[random.fold(fold)]).text(&text).steps(steps))?;
    }
    Ok(())
}
