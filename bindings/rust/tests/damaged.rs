//! Codes that no symbol has, as a damaged disk leaves them in a file of Protein: the covered read refuses them and tells the
//! window's first base that has one, and every other read shows X. All memory of the covered reads is against guard pages.

mod support;

use fantailclock::*;
use std::io::Read;
use support::guard::{Case, Harness};
use support::model;
use support::random::Random;

const PROTEIN: Alphabet = Alphabet::Protein;
const WIDTH: usize = 5;
const NO_SYMBOLS: [u8; 3] = [29, 30, 31];

/// Writes the code of one base into a file of Protein.
fn put(file: &mut [u8], base: usize, code: u8) {
    model::put(PROTEIN, file, base, code);
}

/// The first byte of a window of Protein, and the one behind its last.
fn range(start: usize, end: usize) -> (usize, usize) {
    (start * WIDTH / 8, (end * WIDTH + 7) / 8)
}

/// An answer in the numbers of the C ABI.
fn told(answer: &Result<Vec<u8>>) -> raw::Covered {
    match answer {
        Ok(bases) => raw::Covered { refusal: 0, count: bases.len() as u64, value: 0 },
        Err(Error::NoSymbol { base }) => raw::Covered { refusal: 18, count: 0, value: *base },
        Err(refusal) => raw::Covered { refusal: refusal.number(), count: 0, value: 0 },
    }
}

/// The raw call.
fn raw_read(alphabet: u64, bytes: &[u8], offset: u64, start: u64, end: u64, out: &mut [u8]) -> raw::Covered {
    let (from, len, to, room) = (bytes.as_ptr(), bytes.len(), out.as_mut_ptr(), out.len());
    // SAFETY: both memories are lent with their lengths, and `out` is borrowed alone.
    unsafe { raw::fc_decode_covered(alphabet, from, len, offset, start, end, to, room) }
}

/// A covered read of a window of Protein, of which `bytes` are lent as those from `offset` on: byte for byte and number for
/// number what is expected.
fn asked(harness: &mut Harness, bytes: &[u8], offset: u64, window: (u64, u64), room: usize, expected: Result<Vec<u8>>) {
    let ((start, end), told) = (window, told(&expected));
    harness.check(&Case {
        entry: "fc_decode_covered",
        about: format!("bases {start} to {end} of {} bytes from {offset} on", bytes.len()),
        input: bytes,
        room,
        expected,
        call: &|bytes, out| {
            let answer = decode_covered_into(PROTEIN, bytes, offset, start, end, out);
            assert_eq!(raw_read(PROTEIN.number(), bytes, offset, start, end, out), told, "bases {start} to {end}");
            answer
        },
    });
}

/// The same beside the model; whether it was accepted.
fn as_the_model(harness: &mut Harness, bytes: &[u8], offset: u64, (start, end): (u64, u64), room: usize) -> bool {
    let expected = model::covered(PROTEIN, bytes, offset, start, end, room as u64);
    let accepted = expected.is_ok();
    asked(harness, bytes, offset, (start, end), room, expected);
    accepted
}

/// What every read but the covered one shows of a window.
fn shown(file: &[u8], start: u64, end: u64) -> Vec<u8> {
    let bases = decode_substring_from_bytes(PROTEIN, file, start, end).unwrap();
    assert_eq!(decode_substring_from_bytes_at_offset(PROTEIN, file, 0, start, end).unwrap(), bases);
    assert_eq!(decode_rolling(PROTEIN, file, 0, start, end).unwrap(), bases);
    assert_eq!(decode_5bit(file, 0, start, end).unwrap(), bases);
    assert_eq!(decode_string_from_bytes(PROTEIN, file, end).unwrap()[start as usize..], bases);
    let mut streamed = vec![];
    let source = &file[range(start as usize, end as usize).0..];
    StreamingDecoder::for_window(source, PROTEIN, start, end).unwrap().read_to_end(&mut streamed).unwrap();
    assert_eq!(streamed, bases);
    bases
}

#[test]
fn each_code_by_itself() {
    let list = model::symbols(PROTEIN);
    for code in 0..32 {
        for base in 0..16 {
            let (mut file, place) = (vec![0; 10], base as u64);
            put(&mut file, base, code);
            let symbol = list.get(usize::from(code)).copied();
            assert_eq!(shown(&file, place, place + 1), [symbol.unwrap_or(b'X')]);
            let read = decode_covered(PROTEIN, &file, 0, place, place + 1);
            assert_eq!(read, symbol.map(|symbol| vec![symbol]).ok_or(Error::NoSymbol { base: place }), "code {code}");
        }
    }
    assert_eq!(list.len(), 29);
    assert_eq!(decode_covered(PROTEIN, &[0xA8], 0, 0, 1).unwrap(), b"X", "X itself");
}

/// Windows of every length from every base of a byte on, lent nothing but their own bytes, with ones in all bits beside them:
/// without a damaged code, and with each of the three at every place.
#[test]
fn every_window_and_every_place() {
    let (mut harness, mut random) = (Harness::new(), Random(11));
    for (start, len) in (0..8).flat_map(|start| (1..=40).map(move |len| (start, len))) {
        let (end, text) = (start + len, random.members(PROTEIN, len));
        let (from, to) = range(start, end);
        let mut file = vec![0xFF; to];
        for (at, symbol) in text.iter().enumerate() {
            let code = model::symbols(PROTEIN).iter().position(|each| each == symbol).unwrap();
            put(&mut file, start + at, code as u8);
        }
        let (offset, window) = (from as u64, (start as u64, end as u64));
        for room in [len, len + 1, len + 9] {
            asked(&mut harness, &file[from..], offset, window, room, Ok(text.clone()));
        }
        for place in start..end {
            for code in NO_SYMBOLS {
                let mut damaged = file.clone();
                put(&mut damaged, place, code);
                let refusal = Err(Error::NoSymbol { base: place as u64 });
                asked(&mut harness, &damaged[from..], offset, window, len, refusal);
                let mut bases = text.clone();
                bases[place - start] = b'X';
                assert_eq!(shown(&damaged, window.0, window.1), bases);
            }
        }
        for code in [0, 31] {
            put(&mut file, start, code); // too little memory comes first
            asked(&mut harness, &file[from..], offset, window, len - 1, Err(Error::ShortMemory));
        }
    }
    println!("{} calls between guard pages", harness.calls);
}

/// Longer windows, around those that fill a page too: the damaged code at every place or, of the longest, at some.
#[test]
fn every_place_of_longer_windows() {
    let (mut harness, mut random) = (Harness::new(), Random(12));
    for len in (41..=144).chain([500, 509, 510, 511, 512, 513, 1000, 4095, 4096]) {
        let start = random.below(8) as usize;
        let (end, (from, _)) = (start + len, range(start, start + len));
        let packed = model::pack(PROTEIN, &random.members(PROTEIN, end));
        let (offset, window) = (from as u64, (start as u64, end as u64));
        assert!(as_the_model(&mut harness, &packed[from..], offset, window, len));
        let step = if len > 600 { 37 } else { 1 };
        for place in (start..end).step_by(step).chain([end - 2, end - 1]) {
            let mut damaged = packed.clone();
            put(&mut damaged, place, NO_SYMBOLS[random.below(3) as usize]);
            let refusal = Err(Error::NoSymbol { base: place as u64 });
            asked(&mut harness, &damaged[from..], offset, window, len, refusal.clone());
            let later = place + random.below((end - place) as u64) as usize;
            put(&mut damaged, later, NO_SYMBOLS[random.below(3) as usize]); // the first stays the one that is told
            asked(&mut harness, &damaged[from..], offset, window, len, refusal);
        }
    }
}

/// Files from none damaged to all, spare bits too; windows anywhere, lent what they need, more or less; memory that is short,
/// enough or more.
#[test]
fn random_files_as_the_model_reads_them() {
    let (mut harness, mut random, mut accepted, mut calls) = (Harness::new(), Random(13), 0, 0);
    for one_in in [0, 1, 2, 9, 50, 1000] {
        for longest in [30, 300, 3000].into_iter().flat_map(|longest| [longest; 200]) {
            let bases = 1 + random.below(longest) as usize;
            let mut file = random.bytes(model::packed_len(PROTEIN, bases as u64) as usize);
            for base in 0..bases {
                let damaged = one_in > 0 && random.below(one_in) == 0;
                put(&mut file, base, if damaged { 29 + random.below(3) } else { random.below(29) } as u8);
            }
            let start = random.below(bases as u64) as usize;
            let end = start + 1 + random.below((bases - start) as u64) as usize;
            let (first, last) = range(start, end);
            let from = (first + 1).saturating_sub(random.below(9) as usize).min(last); // one too many in nine
            let to = (last + random.below(9) as usize).max(from + 1).min(file.len() + 1) - 1; // one too few in nine
            let room = end - start + 3 - random.below(5) as usize;
            let window = (start as u64, end as u64);
            accepted += u64::from(as_the_model(&mut harness, &file[from..to], from as u64, window, room));
            calls += 1;
        }
    }
    assert!((calls / 5..calls).contains(&accepted), "{accepted} of {calls} were accepted");
}

/// What stands before and behind a damaged base is read as ever.
#[test]
fn windows_beside_a_damaged_base() {
    let mut random = Random(14);
    let text = random.members(PROTEIN, 700);
    let packed = model::pack(PROTEIN, &text);
    let read = |file: &[u8], start: usize, end: usize| decode_covered(PROTEIN, file, 0, start as u64, end as u64);
    for place in 0..text.len() {
        let mut file = packed.clone();
        put(&mut file, place, NO_SYMBOLS[place % 3]);
        let base = place as u64;
        assert_eq!(read(&file, 0, place).unwrap(), &text[..place]);
        assert_eq!(read(&file, place + 1, text.len()).unwrap(), &text[place + 1..]);
        for (start, end) in [(0, text.len()), (0, place + 1), (place, place + 1), (place, text.len())] {
            assert_eq!(read(&file, start, end), Err(Error::NoSymbol { base }), "bases {start} to {end}");
        }
    }
}

/// A base beyond what 32 bits count, up to the last that a window may have.
#[test]
fn a_base_far_from_the_sequence_s_start() {
    let mut harness = Harness::new();
    for end in [(1 << 32) + 5, (1 << 33) + 7, 1 << 40, (1 << 60) - 1, 1 << 60] {
        let start = end - 25;
        let (offset, skip) = (start * 5 / 8, (start * 5 % 8) as usize);
        let mut bytes = vec![0; ((end * 5 + 7) / 8 - offset) as usize];
        asked(&mut harness, &bytes, offset, (start, end), 25, Ok(vec![b'A'; 25]));
        for bit in skip + 24 * 5..skip + 25 * 5 {
            bytes[bit / 8] |= 0x80 >> (bit % 8); // code 31 for the last base
        }
        asked(&mut harness, &bytes, offset, (start, end), 25, Err(Error::NoSymbol { base: end - 1 }));
        asked(&mut harness, &bytes, offset, (start, end - 1), 25, Ok(vec![b'A'; 24]));
    }
}

/// Numbers around their limits, and numbers that a narrower field would take for Protein's or for small ones.
#[test]
fn forged_numbers() {
    let numbers = [0, 1, 2, 3, 9, (1 << 32) + 1, 1 << 60, (1 << 60) + 1, 1 << 63, u64::MAX];
    let (mut harness, mut by_number) = (Harness::new(), [0; 19]);
    for alphabet in [3, 6, 7, (1 << 8) + 3, (1 << 16) + 3, (1 << 32) + 3, (1 << 63) + 3, u64::MAX] {
        for (offset, start) in numbers.into_iter().flat_map(|offset| numbers.map(|start| (offset, start))) {
            for (end, room) in numbers.into_iter().flat_map(|end| [0, 1, 9].map(|room| (end, room))) {
                let bytes = [0xE8, 0x3C]; // codes 29, 0 and 30
                let expected = match alphabet {
                    6.. if start < end => Err(Error::NoAlphabet),
                    _ => model::covered(PROTEIN, &bytes, offset, start, end, room as u64),
                };
                let told = told(&expected);
                by_number[told.refusal as usize] += 1;
                harness.check(&Case {
                    entry: "fc_decode_covered",
                    about: format!("alphabet {alphabet}, bases {start} to {end} from byte {offset} on"),
                    input: &bytes,
                    room,
                    expected,
                    call: &|bytes, out| {
                        let answer = raw_read(alphabet, bytes, offset, start, end, out);
                        assert_eq!(answer, told, "alphabet {alphabet}, bases {start} to {end} from byte {offset} on");
                        match answer.refusal {
                            0 => Ok(answer.count as usize),
                            8 => Err(Error::NoAlphabet),
                            _ => decode_covered_into(PROTEIN, bytes, offset, start, end, out),
                        }
                    },
                });
            }
        }
    }
    let asked: Vec<usize> = (0..by_number.len()).filter(|&number| by_number[number] > 0).collect();
    assert_eq!(asked, [0, 2, 3, 4, 8, 18]);
}

#[test]
fn every_code_of_the_other_alphabets_is_a_symbol_s() {
    let mut random = Random(15);
    for alphabet in Alphabet::ALL.into_iter().filter(|&alphabet| alphabet != PROTEIN) {
        let every: Vec<u8> = (0..=255).collect();
        for file in [every, random.bytes(999), vec![0xFF; 33], vec![0x1D, 0x1E, 0x1F]] {
            let bases = file.len() as u64 * 8 / model::bits(alphabet);
            for start in [0, 1, bases / 2] {
                let read = decode_covered(alphabet, &file, 0, start, bases);
                assert_eq!(read, Ok(model::unpack(alphabet, &file, 0, start, bases)), "{alphabet}");
            }
        }
    }
}

/// A window of what was packed is never refused by 18; what an encoder wrote of a text that it then refused is.
#[test]
fn what_was_packed() {
    let mut random = Random(16);
    let text = random.members(PROTEIN, 60);
    let packed = encode_sequence(PROTEIN, Folding::Off, &text).unwrap();
    for (start, end) in (0..60).flat_map(|start| (start + 1..=60).map(move |end| (start, end))) {
        let read = decode_covered(PROTEIN, &packed, 0, start as u64, end as u64);
        assert_eq!(read.unwrap(), &text[start..end]);
    }
    let mut encoder = SequenceEncoder::new(PROTEIN, Folding::Off);
    let written = encoder.update(b"MK{ALEMK").unwrap();
    let refused = encoder.finalize().unwrap_err().error();
    assert_eq!(refused, Error::NotMember { position: 2, byte: b'{', count: 1 });
    assert_eq!(decode_covered(PROTEIN, &written, 0, 0, 8), Err(Error::NoSymbol { base: 2 }));
}

#[test]
fn in_new_memory_of_any_length() {
    for bases in [1, 11, 12, 4096, 4097, 65_536, 65_537, 1_000_001] {
        let mut file = vec![0; model::packed_len(PROTEIN, bases) as usize];
        assert_eq!(decode_covered(PROTEIN, &file, 0, 0, bases), Ok(vec![b'A'; bases as usize]));
        put(&mut file, bases as usize - 1, 30);
        assert_eq!(decode_covered(PROTEIN, &file, 0, 0, bases), Err(Error::NoSymbol { base: bases - 1 }));
    }
    let damaged = [0xFF; 9];
    assert_eq!(decode_covered(PROTEIN, &damaged, 0, 0, 1 << 60), Err(Error::Uncovered), "before 18");
    assert_eq!(decode_covered(PROTEIN, &damaged, 0, 5, 5), Ok(vec![]), "an empty window has no code");
}

#[test]
fn in_words() {
    let shown = |base| Error::NoSymbol { base }.to_string();
    assert_eq!(shown(0), "refused by 18: the code of base 0 stands for no symbol");
    assert_eq!(shown(u64::MAX), "refused by 18: the code of base 18446744073709551615 stands for no symbol");
    assert_eq!(Error::NoSymbol { base: 3 }.number(), 18);
}
