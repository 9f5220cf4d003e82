//! Cases of the engines that read by blocks: eight bases of Dna3bit are three whole bytes, two of DnaIupac are one, and eight
//! of Protein are five. Windows begin and end at every base of a block, and what is lent at every byte around them, so that
//! a block is met whole, cut by the window and cut by what is lent.

use crate::case::Entry;
use crate::check::{Checker, Go};
use crate::damaged::{self, PROTEIN};
use crate::model::{self, LIMIT};
use crate::random::Random;
use crate::windows::{lent, Window};

const DNA_3BIT: u64 = 1;
const DNA_IUPAC: u64 = 2;
/// The bases from which windows start: one of every place in a block of eight bases, with a block before it.
const STARTS: std::ops::Range<u64> = 8..16;
/// The bases of a window: none, and up to five blocks.
const COUNTS: std::ops::RangeInclusive<u64> = 0..=40;
/// The most bytes that an engine can take at once, as a number of 64 bits.
const AT_ONCE: u64 = 8;
/// Numbers at which a question turns, and the largest.
const TURNS: [u64; 10] = [0, 1, 7, 8, 9, LIMIT - 1, LIMIT, LIMIT + 1, 1 << 63, u64::MAX];

pub fn cases(check: &mut Checker, random: &mut Random) -> Go {
    // First what a planted fault of the 4-bit engine is noticed by, then of the 5-bit engine: each runs all cases before.
    every_byte(check, random)?;
    for alphabet in [PROTEIN, DNA_IUPAC, DNA_3BIT] {
        every_edge(check, random, alphabet)?;
        few_bytes(check, random, alphabet)?;
        long_edges(check, random, alphabet)?;
        every_room(check, random, alphabet)?;
        far_out(check, random, alphabet)?;
        wide_places(check, random, alphabet)?;
        no_bases(check, random, alphabet)?;
    }
    every_two_codes(check, random)
}

/// Puts a window to the engine of its alphabet and to the two reads that go through it.
fn put(check: &mut Checker, window: &Window) -> Go {
    window.put_engine(check)?;
    window.put(check, Entry::DecodeAtOffset)?;
    window.put(check, Entry::DecodeCovered)
}

/// A run of a file's bytes from the byte `first` on, which goes beyond the range that covers a window: a block before that,
/// and as many bytes behind it as an engine can take at once.
struct File {
    alphabet: u64,
    first: u64,
    low: u64,
    high: u64,
    behind: u64,
    bytes: Vec<u8>,
}

impl File {
    /// Any bytes. Eight bases are as many bytes as a base has bits.
    fn around(random: &mut Random, alphabet: u64, start: u64, end: u64) -> File {
        let width = model::width(alphabet);
        let (low, high) = (start * width / 8, (end * width).div_ceil(8));
        let (first, behind) = (low - width, high + AT_ONCE);
        File { alphabet, first, low, high, behind, bytes: lent(random, alphabet, first, (behind - first) as usize) }
    }

    /// A window to which these bytes are lent from one place to another.
    fn window(&self, byte_offset: u64, behind: u64, [start, end]: [u64; 2], room: u64) -> Window<'_> {
        let bytes = &self.bytes[(byte_offset - self.first) as usize..(behind - self.first) as usize];
        Window { alphabet: self.alphabet, bytes, byte_offset, start, end, room: room as usize }
    }
}

/// Windows from every base of a block on, of every length; what is lent begins at every byte from a block before the window
/// on, and ends at every byte up to as many behind it as an engine can take at once, and in the window up to one more than
/// that from either end.
fn every_edge(check: &mut Checker, random: &mut Random, alphabet: u64) -> Go {
    for start in STARTS {
        for count in COUNTS {
            let file = File::around(random, alphabet, start, start + count);
            for byte_offset in file.first..=file.behind.min(file.low + AT_ONCE + 1) {
                for behind in byte_offset.max(file.high.saturating_sub(AT_ONCE + 1))..=file.behind {
                    let window = file.window(byte_offset, behind, [start, start + count], count);
                    window.put_engine(check)?;
                    window.put(check, Entry::DecodeAtOffset)?;
                    // The covered read refuses all others as it does these that lack one byte.
                    if byte_offset <= file.low + 1 && file.high <= behind + 1 {
                        window.put(check, Entry::DecodeCovered)?;
                    }
                }
            }
        }
    }
    Ok(())
}

/// Windows of one block's length and more that are lent a few bytes, up to twice as many as an engine can take at once,
/// anywhere before, in and behind them.
fn few_bytes(check: &mut Checker, random: &mut Random, alphabet: u64) -> Go {
    for start in STARTS {
        for count in [8, 16, 24, 40] {
            let file = File::around(random, alphabet, start, start + count);
            for byte_offset in file.first..=file.behind {
                for behind in byte_offset..=file.behind.min(byte_offset + 2 * AT_ONCE) {
                    put(check, &file.window(byte_offset, behind, [start, start + count], count))?;
                }
            }
        }
    }
    Ok(())
}

/// Longer windows, of every length up to 137 bases and around 256, 512 and 1,024, for whatever an engine does in bulk; lent
/// what covers them, or a byte fewer or more at either end, in every combination.
fn long_edges(check: &mut Checker, random: &mut Random, alphabet: u64) -> Go {
    for start in STARTS {
        for count in (41..=137).chain(247..=265).chain(503..=521).chain(1015..=1033) {
            let file = File::around(random, alphabet, start, start + count);
            for byte_offset in file.low - 1..=file.low + 1 {
                for behind in file.high - 1..=file.high + 1 {
                    file.window(byte_offset, behind, [start, start + count], count).put_engine(check)?;
                }
            }
        }
    }
    Ok(())
}

/// The same windows as at every edge, with every length of memory up to a block more than enough; lent what covers them, or a
/// byte fewer or more at either end.
fn every_room(check: &mut Checker, random: &mut Random, alphabet: u64) -> Go {
    for start in STARTS {
        for count in COUNTS {
            let file = File::around(random, alphabet, start, start + count);
            for room in 0..=count + 9 {
                let byte_offset = file.low + 1 - random.below(3);
                let behind = (file.high + 1 - random.below(3)).max(byte_offset);
                put(check, &file.window(byte_offset, behind, [start, start + count], room))?;
            }
        }
    }
    Ok(())
}

/// Windows that end at every base around 2^60, some of them too far; lent bytes from every place around their first on, and
/// from where they cannot reach.
fn far_out(check: &mut Checker, random: &mut Random, alphabet: u64) -> Go {
    let width = model::width(alphabet);
    for end in LIMIT - 17..=LIMIT + 2 {
        for count in 0..=24 {
            let start = end - count;
            let first = start * width / 8;
            let near = first - width - 1..=first + width + 1;
            for byte_offset in near.chain([0, LIMIT - 1, LIMIT, LIMIT + 1, u64::MAX]) {
                let len = random.below(4 * width) as usize;
                let bytes = lent(random, alphabet, byte_offset, len);
                put(check, &Window { alphabet, bytes: &bytes, byte_offset, start, end, room: count as usize })?;
            }
        }
    }
    Ok(())
}

/// Windows around bases whose number, bit and byte are multiples of 2^32, lent the bytes from the file's start on, which are
/// none of theirs, or those around their first. An engine that narrows a place to 32 bits would read the former.
fn wide_places(check: &mut Checker, random: &mut Random, alphabet: u64) -> Go {
    for around in [1 << 35, 1 << 59, LIMIT - (1 << 35)] {
        for start in around - 9..=around + 8 {
            for count in [1, 2, 8, 9, 16, 24] {
                let first = start * model::width(alphabet) / 8;
                for byte_offset in (0..=2).chain(first - 1..=first + 1) {
                    let bytes = lent(random, alphabet, byte_offset, 24);
                    let (end, room) = (start + count, count as usize);
                    Window { alphabet, bytes: &bytes, byte_offset, start, end, room }.put_all(check)?;
                }
            }
        }
    }
    Ok(())
}

/// Windows that end where they start or before, with any other numbers: empty before every other question.
fn no_bases(check: &mut Checker, random: &mut Random, alphabet: u64) -> Go {
    for start in TURNS {
        for end in TURNS.into_iter().filter(|&end| end <= start) {
            for byte_offset in TURNS {
                for room in [0, 9] {
                    let bytes = random.bytes(model::width(alphabet) as usize);
                    put(check, &Window { alphabet, bytes: &bytes, byte_offset, start, end, room })?;
                }
            }
        }
    }
    Ok(())
}

/// Each byte between two others, in every window of the three that has one of its two bases of DnaIupac.
fn every_byte(check: &mut Checker, random: &mut Random) -> Go {
    for byte in 0..=255 {
        for start in 0..=3 {
            for end in (start + 1).max(3)..=6 {
                let (bytes, room) = ([random.next() as u8, byte, random.next() as u8], (end - start) as usize);
                Window { alphabet: DNA_IUPAC, bytes: &bytes, byte_offset: 0, start, end, room }.put_all(check)?;
            }
        }
    }
    Ok(())
}

/// Every two codes of Protein, those that no symbol has among them, as neighbours at every place of a block and across its
/// end, in a window of two blocks.
fn every_two_codes(check: &mut Checker, random: &mut Random) -> Go {
    let [start, end] = [8, 24];
    for base in start..start + 8 {
        for codes in 0..1 << 10 {
            let mut file = File::around(random, PROTEIN, start, end);
            damaged::plant(file.first, &mut file.bytes, base, codes >> 5);
            damaged::plant(file.first, &mut file.bytes, base + 1, codes & 31);
            file.window(file.low, file.high, [start, end], end - start).put_all(check)?;
        }
    }
    Ok(())
}
