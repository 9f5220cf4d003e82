//! Cases of the window reads and engines: every window of short files, random bytes, far positions, empty windows.

use crate::case::{Call, Entry};
use crate::check::{Checker, Go};
use crate::damaged;
use crate::model::{self, LIMIT};
use crate::random::{beyond, Random};

/// The reads that serve every alphabet.
const READS: [Entry; 5] =
    [Entry::DecodeAtOffset, Entry::DecodeSubstring, Entry::DecodeString, Entry::DecodeCovered, Entry::DecodeRolling];
/// The engines that serve one alphabet each, by its number; Ascii and Unknown have none.
const ENGINES: [Entry; 4] = [Entry::Decode2bit, Entry::Decode3bit, Entry::Decode4bit, Entry::Decode5bit];

pub fn cases(check: &mut Checker, random: &mut Random, scale: u64) -> Go {
    // First, since many of the planted faults are noticed there, and each runs all cases before.
    damaged::cases(check, random, scale)?;
    for alphabet in 0..=5 {
        every_window(check, random, alphabet)?;
        every_length(check, random, alphabet)?;
        for _ in 0..1500 * scale {
            random_window(check, random, alphabet)?;
            far_window(check, random, alphabet)?;
        }
        for _ in 0..100 * scale {
            long_window(check, random, alphabet)?;
        }
    }
    refused_windows(check, random, scale)?;
    empty_windows(check, random, scale)
}

/// A window of one alphabet and the lent bytes.
pub struct Window<'a> {
    pub alphabet: u64,
    pub bytes: &'a [u8],
    pub byte_offset: u64,
    pub start: u64,
    pub end: u64,
    pub room: usize,
}

impl Window<'_> {
    pub fn put(&self, check: &mut Checker, entry: Entry) -> Go {
        let numbers = [self.alphabet, self.byte_offset, self.start, self.end];
        // A read from 0 needs room for the bases before this window too, where there are not too many of them.
        let before = if entry == Entry::DecodeString && self.start < 1 << 16 { self.start as usize } else { 0 };
        check.call(&Call::new(entry, &numbers).text(self.bytes).room(self.room + before))
    }

    /// Puts it to every read that serves its alphabet; those that fix a number take it as they fix it.
    pub fn put_all(&self, check: &mut Checker) -> Go {
        READS.into_iter().try_for_each(|entry| self.put(check, entry))?;
        self.put_engine(check)
    }

    /// Puts it to the engine of its alphabet, where that has one.
    pub fn put_engine(&self, check: &mut Checker) -> Go {
        ENGINES.get(self.alphabet as usize).map_or(Ok(()), |&entry| self.put(check, entry))
    }
}

/// Room for `count` bases, now and then one too little or a few more.
fn room_near(random: &mut Random, count: u64) -> usize {
    match random.below(12) {
        0 => count.saturating_sub(1) as usize,
        1 => (count + 1 + random.below(9)) as usize,
        _ => count as usize,
    }
}

/// Bytes lent of a file, any bytes. In Protein a window of ten bases has mostly a code then that no symbol has, so that in
/// every other file of it all codes are symbols'.
pub fn lent(random: &mut Random, alphabet: u64, byte_offset: u64, len: usize) -> Vec<u8> {
    let mut bytes = random.bytes(len);
    if alphabet == damaged::PROTEIN && random.one_in(2) {
        damaged::mend(random, byte_offset, &mut bytes);
    }
    bytes
}

/// Every window of files of up to seven bytes with every byte_offset and every length lent: two blocks of the 3-bit
/// engine, its edges and what lies beside them.
fn every_window(check: &mut Checker, random: &mut Random, alphabet: u64) -> Go {
    let bases = 56 / model::width(alphabet) + 1;
    for byte_offset in 0..=6 {
        for len in 0..=7 {
            let bytes = lent(random, alphabet, byte_offset, len);
            for start in 0..bases {
                for end in start..=bases {
                    let room = room_near(random, end - start);
                    Window { alphabet, bytes: &bytes, byte_offset, start, end, room }.put_all(check)?;
                }
            }
        }
    }
    Ok(())
}

/// Windows of every length up to some that are read in bulk, and around the length from which Dna2bit is read by whole
/// bytes, from every base of a byte or block on: lent the bytes that cover them, one fewer at either end, and one more.
fn every_length(check: &mut Checker, random: &mut Random, alphabet: u64) -> Go {
    for start in 8..16 {
        for end in (start..=start + 330).chain(start + 505..=start + 530) {
            let low = start * model::width(alphabet) / 8;
            let high = (end * model::width(alphabet)).div_ceil(8);
            let (byte_offset, behind) = random.pick(&[(low, high), (low, high - 1), (low + 1, high), (low, high + 1)]);
            let bytes = lent(random, alphabet, byte_offset, behind.saturating_sub(byte_offset) as usize);
            Window { alphabet, bytes: &bytes, byte_offset, start, end, room: (end - start) as usize }.put_all(check)?;
        }
    }
    Ok(())
}

/// A window somewhere in a file, of which a run is lent that holds it, misses it or cuts it.
fn random_window(check: &mut Checker, random: &mut Random, alphabet: u64) -> Go {
    let start = random.below(200);
    let end = start + random.pick(&[1, 8, 30, 100]).min(1 + random.below(100));
    let low = start * model::width(alphabet) / 8;
    let high = (end * model::width(alphabet)).div_ceil(8);
    let byte_offset = (low + random.below(5)).saturating_sub(if random.one_in(3) { 4 } else { 0 });
    let len = (high + random.below(5)).saturating_sub(byte_offset + random.pick(&[0, 0, 2, 9])) as usize;
    let room = room_near(random, end - start);
    let bytes = lent(random, alphabet, byte_offset, len);
    Window { alphabet, bytes: &bytes, byte_offset, start, end, room }.put_all(check)
}

/// A short window that ends near 2^60.
fn far_window(check: &mut Checker, random: &mut Random, alphabet: u64) -> Go {
    let end = LIMIT - random.below(40) + random.below(3);
    let start = end - random.below(40);
    let first = (u128::from(start) * u128::from(model::width(alphabet)) / 8) as u64;
    let byte_offset = match random.below(6) {
        0 => LIMIT + random.below(2),
        1 => random.number(),
        _ => (first + random.below(6)).saturating_sub(3).min(LIMIT),
    };
    let len = random.below(48) as usize;
    let bytes = lent(random, alphabet, byte_offset, len);
    let room = room_near(random, end - start);
    Window { alphabet, bytes: &bytes, byte_offset, start, end, room }.put_all(check)
}

/// Long windows, for whatever the engines do in bulk.
fn long_window(check: &mut Checker, random: &mut Random, alphabet: u64) -> Go {
    let start = random.below(64);
    let end = start + random.below(1500);
    let high = (end * model::width(alphabet)).div_ceil(8);
    let byte_offset = random.below(8);
    let len = (high + random.below(20)).saturating_sub(byte_offset + random.pick(&[0, 0, 40])) as usize;
    let room = room_near(random, end - start);
    let bytes = lent(random, alphabet, byte_offset, len);
    Window { alphabet, bytes: &bytes, byte_offset, start, end, room }.put_all(check)
}

/// Windows that are refused: too far, without memory for them, of no alphabet, and several of these at once.
fn refused_windows(check: &mut Checker, random: &mut Random, scale: u64) -> Go {
    for alphabet in 0..=5 {
        for end in [LIMIT - 1, LIMIT, LIMIT + 1, 1 << 61, u64::MAX] {
            for start in [0, 1, end - 1] {
                for byte_offset in [0, 1, LIMIT, LIMIT + 1, u64::MAX] {
                    Window { alphabet, bytes: &[0xE4; 4], byte_offset, start, end, room: 0 }.put_all(check)?;
                }
            }
        }
    }
    let beyond = beyond(5);
    for _ in 0..2000 * scale {
        let alphabet = if random.one_in(2) { random.pick(&beyond) } else { random.below(6) };
        let start = random.number();
        let end = if random.one_in(2) { random.number() } else { start.saturating_add(random.below(20)) };
        let byte_offset = random.number();
        let len = random.below(12) as usize;
        let (bytes, room) = (random.bytes(len), random.below(24) as usize);
        Window { alphabet, bytes: &bytes, byte_offset, start, end, room }.put_all(check)?;
    }
    Ok(())
}

/// An end at or before the start answers empty before every other question.
fn empty_windows(check: &mut Checker, random: &mut Random, scale: u64) -> Go {
    for _ in 0..1000 * scale {
        let alphabet = if random.one_in(3) { random.number() } else { random.below(6) };
        let end = random.number();
        let start = if random.one_in(3) { end } else { end.saturating_add(random.number()) };
        let byte_offset = random.number();
        let len = random.below(6) as usize;
        let (bytes, room) = (random.bytes(len), random.below(4) as usize);
        Window { alphabet, bytes: &bytes, byte_offset, start, end, room }.put_all(check)?;
    }
    Ok(())
}
