//! Cases of the covered read's question about codes that no symbol has: windows of damaged files of Protein, what stands
//! beside a window, the questions that come before this one, and the alphabets that have no such code.

use crate::case::Entry;
use crate::check::{Checker, Go};
use crate::model::{self, Intake, LIMIT};
use crate::random::{beyond, Random};
use crate::windows::Window;

/// The alphabet whose list lacks codes; no other has such codes.
pub const PROTEIN: u64 = 3;
const WIDTH: u64 = 5;
/// The bases from which windows start: one of every place in a block of eight bases, and some before it.
const STARTS: std::ops::Range<u64> = 8..16;
const SHORT: std::ops::RangeInclusive<u64> = 1..=40;
/// The port looks at eleven codes at a time, one less than eight bytes could hold at best.
const MANY: [u64; 2] = [11, 12];

pub fn cases(check: &mut Checker, random: &mut Random, scale: u64) -> Go {
    one_code(check, random)?;
    between_damage(check, random)?;
    several_codes(check, random)?;
    around_elevens(check, random)?;
    questions_before(check, random)?;
    other_alphabets(check, random)?;
    for _ in 0..300 * scale {
        any_bytes(check, random)?;
    }
    for _ in 0..50 * scale {
        far_out(check, random)?;
    }
    Ok(())
}

/// The codes that Protein's list lacks.
fn lacking() -> Vec<u64> {
    (0..1 << WIDTH).filter(|&code| model::lacks(PROTEIN, code)).collect()
}

/// Writes a code as that of a base of Protein; bits of bytes that are not lent go nowhere.
pub fn plant(byte_offset: u64, bytes: &mut [u8], base: u64, code: u64) {
    for k in 0..WIDTH {
        let bit = base * WIDTH + k;
        let Some(place) = (bit / 8).checked_sub(byte_offset) else { continue };
        let Some(byte) = bytes.get_mut(place as usize) else { continue };
        let one = 0x80 >> (bit % 8);
        *byte = if code >> (WIDTH - 1 - k) & 1 == 1 { *byte | one } else { *byte & !one };
    }
}

/// The bases of Protein that have a bit in the bytes lent.
fn bases_of(byte_offset: u64, bytes: &[u8]) -> std::ops::Range<u64> {
    byte_offset * 8 / WIDTH..((byte_offset + bytes.len() as u64) * 8).div_ceil(WIDTH)
}

/// Writes a symbol's code in the place of each that no symbol has. Bytes beyond what any read takes stay as they are.
pub fn mend(random: &mut Random, byte_offset: u64, bytes: &mut [u8]) {
    if byte_offset > LIMIT {
        return;
    }
    for base in bases_of(byte_offset, bytes) {
        let lent = |place: u64| place.checked_sub(byte_offset).and_then(|place| bytes.get(place as usize)).copied();
        if model::lacks(PROTEIN, model::code(PROTEIN, base, &|place| lent(place).unwrap_or(0))) {
            let symbols = model::LISTS[PROTEIN as usize].len() as u64;
            plant(byte_offset, bytes, base, random.below(symbols));
        }
    }
}

/// A window of Protein and the bytes lent to it, in which codes are planted.
struct Damaged {
    byte_offset: u64,
    bytes: Vec<u8>,
    start: u64,
    end: u64,
}

impl Damaged {
    /// No code is damaged yet. Lent are the bytes that cover the window, and on either side so many more. Some files have
    /// nothing but X, whose own code is a symbol's, or J, whose code is the last that is one.
    fn sound(random: &mut Random, start: u64, end: u64, more: [u64; 2]) -> Damaged {
        let byte_offset = (start * WIDTH / 8).saturating_sub(more[0]);
        let behind = (end * WIDTH).div_ceil(8) + more[1];
        let mut bytes = vec![0; (behind - byte_offset) as usize];
        let all = model::LISTS[PROTEIN as usize];
        let symbols = random.pick(&[all, all, all, b"X", b"J", b"XJ", b"A", b"JO"]);
        for base in bases_of(byte_offset, &bytes) {
            let code = Intake { alphabet: PROTEIN, fold: false }.code(random.pick(symbols)).expect("a symbol");
            plant(byte_offset, &mut bytes, base, code);
        }
        Damaged { byte_offset, bytes, start, end }
    }

    fn plant(&mut self, base: u64, code: u64) {
        plant(self.byte_offset, &mut self.bytes, base, code);
    }

    fn count(&self) -> usize {
        (self.end - self.start) as usize
    }

    fn window(&self, room: usize) -> Window<'_> {
        let Damaged { byte_offset, ref bytes, start, end } = *self;
        Window { alphabet: PROTEIN, bytes, byte_offset, start, end, room }
    }

    /// Puts it to the covered read, and to the zero-filling one and the alphabet's engine, which keep the X.
    fn put(&self, check: &mut Checker) -> Go {
        self.window(self.count()).put(check, Entry::DecodeCovered)?;
        self.window(self.count()).put(check, Entry::DecodeAtOffset)?;
        self.window(self.count()).put_engine(check)
    }
}

/// So many bytes more than cover a window, none, one or two on either side.
fn more(random: &mut Random) -> [u64; 2] {
    [random.below(3), random.below(3)]
}

/// Each code that no symbol has at every place of short windows, and at the two before and the two behind, where it is not
/// asked about; of the first behind, some bits stand in the window's last byte even where no more is lent.
fn one_code(check: &mut Checker, random: &mut Random) -> Go {
    for start in STARTS {
        for count in SHORT {
            for place in start - 2..start + count + 2 {
                for code in lacking() {
                    let more = more(random);
                    let mut file = Damaged::sound(random, start, start + count, more);
                    file.plant(place, code);
                    file.put(check)?;
                }
            }
        }
    }
    Ok(())
}

/// Windows without a damaged code in files that have nothing else before and behind them, spare bits and all; and the same
/// with one code in the window, the first or the last.
fn between_damage(check: &mut Checker, random: &mut Random) -> Go {
    for start in STARTS {
        for count in SHORT.chain([100, 330, 1000]) {
            for place in [None, Some(start), Some(start + count - 1)] {
                let mut file = Damaged::sound(random, start, start + count, [5, 5]);
                for base in bases_of(file.byte_offset, &file.bytes) {
                    if base < start || base >= start + count {
                        file.plant(base, random.pick(&lacking()));
                    }
                }
                if let Some(place) = place {
                    file.plant(place, random.pick(&lacking()));
                }
                file.put(check)?;
            }
        }
    }
    Ok(())
}

/// Windows with two damaged codes, with several and with nothing else: the first is told.
fn several_codes(check: &mut Checker, random: &mut Random) -> Go {
    for start in STARTS {
        for count in SHORT.chain([100, 330, 1000]) {
            for codes in [2, 2, 2, 3, 5, count] {
                let more = more(random);
                let mut file = Damaged::sound(random, start, start + count, more);
                for nth in 0..codes {
                    let place = if codes == count { nth } else { random.below(count) };
                    file.plant(start + place, random.pick(&lacking()));
                }
                file.put(check)?;
            }
        }
    }
    Ok(())
}

/// A damaged code around each end of groups of eleven or twelve bases, told from the window's start and from its end, in
/// windows of any number of groups with more or fewer bases left.
fn around_elevens(check: &mut Checker, random: &mut Random) -> Go {
    for start in STARTS {
        for count in (10..=14).chain(20..=26).chain(31..=37).chain([44, 45, 55, 60, 66, 99, 100, 110, 132, 330, 1000]) {
            for many in MANY {
                // Of a long window's groups the first ones and the last.
                let groups = (1..=count / many).filter(|&group| group < 6 || group + 2 > count / many);
                for place in groups.flat_map(|group| [group * many, count - group * many]) {
                    for base in [place.wrapping_sub(1), place, place + 1].into_iter().filter(|&base| base < count) {
                        let more = more(random);
                        let mut file = Damaged::sound(random, start, start + count, more);
                        file.plant(start + base, random.pick(&lacking()));
                        file.put(check)?;
                    }
                }
            }
        }
    }
    Ok(())
}

/// The questions that come before: short windows with one damaged code and every length of memory; lent one byte too few
/// at either end; too far; of no alphabet; empty, at a damaged code.
fn questions_before(check: &mut Checker, random: &mut Random) -> Go {
    let beyond = beyond(5);
    for start in STARTS {
        for count in 1..=24 {
            for room in 0..=count + 1 {
                let more = more(random);
                let mut file = Damaged::sound(random, start, start + count, more);
                file.plant(start + random.below(count), random.pick(&lacking()));
                file.window(room as usize).put_all(check)?;
            }
            for room in [count, count - 1] {
                let mut file = Damaged::sound(random, start, start + count, [0, 0]);
                file.plant(start + random.below(count), random.pick(&lacking()));
                let (window, bytes) = (|| file.window(room as usize), &file.bytes[..]);
                let (cut, next, far) = (bytes.len() - 1, file.byte_offset + 1, LIMIT + 1 + random.below(2));
                for wrong in [
                    Window { bytes: &bytes[..cut], ..window() },
                    Window { bytes: &bytes[1..], byte_offset: next, ..window() },
                    Window { byte_offset: far, ..window() },
                    Window { alphabet: random.pick(&beyond), ..window() },
                ] {
                    wrong.put(check, Entry::DecodeCovered)?;
                }
            }
            let mut file = Damaged::sound(random, start, start + count, [1, 1]);
            let place = start + random.below(count);
            file.plant(place, random.pick(&lacking()));
            Window { start: place, end: place, ..file.window(1) }.put(check, Entry::DecodeCovered)?;
            Window { start: place, end: place - 1, ..file.window(0) }.put(check, Entry::DecodeCovered)?;
        }
    }
    Ok(())
}

/// The other alphabets on bytes in which Protein would see no symbol: all ones, and bytes 1D to 1F.
fn other_alphabets(check: &mut Checker, random: &mut Random) -> Go {
    for alphabet in (0..=5).filter(|&alphabet| alphabet != PROTEIN) {
        for start in STARTS {
            for count in SHORT {
                let width = model::width(alphabet);
                let byte_offset = start * width / 8;
                let len = ((start + count) * width).div_ceil(8) - byte_offset;
                let ones = vec![0xFF; len as usize];
                let few: Vec<u8> = (0..len).map(|_| random.pick(&[0x1D, 0x1E, 0x1F])).collect();
                let (end, room) = (start + count, count as usize);
                for bytes in [&ones, &few] {
                    let window = Window { alphabet, bytes, byte_offset, start, end, room };
                    window.put(check, Entry::DecodeCovered)?;
                }
            }
        }
    }
    Ok(())
}

/// A window of any bytes, of which most have damaged codes; lent all that covers it.
fn any_bytes(check: &mut Checker, random: &mut Random) -> Go {
    let start = random.below(200);
    let end = start + 1 + random.below(60);
    let more = more(random);
    let mut file = Damaged::sound(random, start, end, more);
    file.bytes = random.bytes(file.bytes.len());
    file.window(file.count()).put_all(check)
}

/// A damaged code near base 2^60, where the window may end too far.
fn far_out(check: &mut Checker, random: &mut Random) -> Go {
    let end = LIMIT - random.below(40) + random.below(3);
    let start = end - 1 - random.below(60);
    let more = more(random);
    let mut file = Damaged::sound(random, start, end, more);
    file.plant(start + random.below(end - start), random.pick(&lacking()));
    file.put(check)
}
