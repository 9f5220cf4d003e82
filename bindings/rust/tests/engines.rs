//! The engines of one alphabet: each call beside the model of a window, the engine of any alphabet, and the reads that go
//! through it. Answers, the bytes written and those behind them are compared; all memory of an engine is against guard pages.

mod support;

use fantailclock::*;
use support::guard::{Case, Harness};
use support::model;
use support::random::Random;
use support::reads::{Engine, ENGINES};

const HEADER: &str = include_str!("../../../include/fantailclock.h");
const FAR: u64 = 1 << 60;

/// The first byte of a window, and the one behind its last.
fn range(engine: &Engine, start: u64, end: u64) -> (u64, u64) {
    (start * model::bits(engine.alphabet) / 8, model::packed_len(engine.alphabet, end))
}

/// A call of an engine, by the safe function and by the raw one; the number of its refusal. The other reads are lent memory with
/// the same content.
fn held(harness: &mut Harness, engine: &Engine, bytes: &[u8], offset: u64, window: (u64, u64), room: usize) -> u64 {
    let (alphabet, (start, end)) = (engine.alphabet, window);
    let expected = model::filled(alphabet, bytes, offset, start, end, room as u64);
    let covered = model::covered(alphabet, bytes, offset, start, end, room as u64);
    let told = match &expected {
        Ok(bases) => raw::Count { refusal: 0, count: bases.len() as u64 },
        Err(refusal) => raw::Count { refusal: refusal.number(), count: 0 },
    };
    let about = format!("bases {start} to {end} of {} bytes from {offset} on", bytes.len());
    harness.check_once(&Case {
        entry: engine.entry,
        about: about.clone(),
        input: bytes,
        room,
        expected,
        call: &|bytes, out| {
            let before = out.to_vec();
            let answer = (engine.into)(bytes, offset, start, end, out);
            for read in [decode_rolling_into, decode_substring_from_bytes_at_offset_into] {
                let mut other = before.clone();
                assert_eq!(read(alphabet, bytes, offset, start, end, &mut other), answer, "{alphabet}, {about}");
                assert!(other == out, "{alphabet}, {about}: another memory than by {}", engine.entry);
            }
            let (mut other, mut after) = (before.clone(), before);
            let read = decode_covered_into(alphabet, bytes, offset, start, end, &mut other);
            if let Ok(bases) = &covered {
                after[..bases.len()].copy_from_slice(bases);
            }
            assert_eq!(read.map(|count| other[..count].to_vec()), covered, "{alphabet}, {about}, covered");
            assert!(other == after, "{alphabet}, {about}: another memory by the covered read");
            let (from, len, to, room) = (bytes.as_ptr(), bytes.len(), out.as_mut_ptr(), out.len());
            // SAFETY: both memories are lent with their lengths, and `out` is borrowed alone.
            assert_eq!(unsafe { (engine.raw)(from, len, offset, start, end, to, room) }, told, "{alphabet}, {about}");
            answer
        },
    });
    told.refusal
}

/// A number near an edge, on either side of it.
fn near(random: &mut Random, edge: u64) -> u64 {
    (edge + random.below(21)).saturating_sub(10)
}

/// A window of up to 200 bases, the bytes that are lent for it, from the first to the one behind the last, and memory. The bytes
/// begin and stop near the window's own, anywhere, or as they should; the memory is enough in two calls of three.
fn some_call(random: &mut Random, engine: &Engine) -> ((u64, u64), (u64, u64), usize) {
    let (start, len) = (random.below(50), random.below(201));
    let (first, last) = range(engine, start, start + len);
    let (from, to) = match random.below(5) {
        0 => (random.below(last + 20), random.below(last + 20)),
        1 => (first, last),
        _ => (near(random, first), near(random, last)),
    };
    let room = match random.below(6) {
        0 => random.below(len + 1),
        1 => len.saturating_sub(1),
        2 => len + 1 + random.below(60),
        _ => len,
    };
    let window = if random.below(20) == 0 { (start + len, start) } else { (start, start + len) };
    (window, (from.min(to), to), room as usize)
}

#[test]
fn random_windows() {
    for engine in &ENGINES {
        let (mut harness, mut random) = (Harness::new(), Random(41));
        let block = model::bits(engine.alphabet); // the bytes of eight bases
        let (mut by_number, mut begun_within, mut stopped_within) = ([0; 5], 0, 0);
        for _ in 0..20_000 {
            let ((start, end), (from, to), room) = some_call(&mut random, engine);
            let bytes = random.bytes((to - from) as usize);
            by_number[held(&mut harness, engine, &bytes, from, (start, end), room) as usize] += 1;
            let (first, last) = range(engine, start, end);
            begun_within += u64::from(first < from && from < last && from % block != 0);
            stopped_within += u64::from(first < to && to < last && to % block != 0);
        }
        assert!(by_number[0] > 10_000 && by_number[4] > 3_000, "{by_number:?}");
        assert_eq!(by_number[0] + by_number[4], 20_000, "{by_number:?}");
        assert!(begun_within > 1_500 && stopped_within > 1_500, "{begun_within} and {stopped_within} within a block");
        println!("{} calls of {} between guard pages", harness.calls, engine.entry);
    }
}

/// Every window of three blocks and two bases more, lent every run of the blocks' bytes: those that begin or stop within a
/// block, beside the window, and none at all.
#[test]
fn every_window_and_every_run_of_bytes() {
    for engine in &ENGINES {
        let (mut harness, mut random) = (Harness::new(), Random(42));
        let file = random.bytes(3 * model::bits(engine.alphabet) as usize);
        for (from, to) in (0..=file.len()).flat_map(|from| (from..=file.len()).map(move |to| (from, to))) {
            for (start, end) in (0..=26).flat_map(|start| (start..=26).map(move |end| (start, end))) {
                let room = (end - start) as usize;
                assert_eq!(held(&mut harness, engine, &file[from..to], from as u64, (start, end), room), 0);
            }
        }
        println!("{} calls of {} between guard pages", harness.calls, engine.entry);
    }
}

/// Windows of every length, up to those that fill a page, from every base of a block on, lent their own bytes alone, all of them
/// or one too few at either end.
#[test]
fn every_length() {
    for engine in &ENGINES {
        let (mut harness, mut random) = (Harness::new(), Random(43));
        let lengths = (0..=280).chain(505..=520).chain([1000, 4095, 4096]);
        for (len, start) in lengths.flat_map(|len| (40..48).map(move |start| (len, start))) {
            let (first, last) = range(engine, start, start + len);
            let bytes = random.bytes((last - first) as usize);
            let fewer = bytes.len().saturating_sub(1);
            let behind = &bytes[bytes.len() - fewer..];
            for (lent, offset) in [(&bytes[..], first), (&bytes[..fewer], first), (behind, first + 1)] {
                assert_eq!(held(&mut harness, engine, lent, offset, (start, start + len), len as usize), 0);
            }
        }
    }
}

/// Windows up to the last base that one may have, lent bytes that begin and stop around theirs.
#[test]
fn windows_far_from_the_sequence_s_start() {
    for engine in &ENGINES {
        let (mut harness, mut random) = (Harness::new(), Random(44));
        for end in [(1 << 32) + 5, (1 << 33) + 7, 1 << 40, FAR - 1, FAR] {
            for len in [1, 2, 7, 8, 9, 16, 25, 67] {
                let (first, last) = range(engine, end - len, end);
                for (from, to) in (first - 6..=last).flat_map(|from| (last - 6..=last + 6).map(move |to| (from, to))) {
                    let bytes = random.bytes(to.saturating_sub(from) as usize);
                    assert_eq!(held(&mut harness, engine, &bytes, from, (end - len, end), len as usize), 0);
                }
            }
        }
    }
}

/// Numbers around their limits, and such as a narrower field would take for small ones. What is asked is whether the window is
/// empty, then 2, then 4, and nothing else.
#[test]
fn forged_numbers() {
    let numbers = [0, 1, 2, 3, 9, (1 << 32) + 1, FAR - 8, FAR - 1, FAR, FAR + 1, 1 << 63, u64::MAX];
    for engine in &ENGINES {
        let (mut harness, mut by_number) = (Harness::new(), [0; 19]);
        for (offset, start) in numbers.into_iter().flat_map(|offset| numbers.map(|start| (offset, start))) {
            for (end, room) in numbers.into_iter().flat_map(|end| [0, 1, 9].map(|room| (end, room))) {
                let bytes = [0xE8, 0x3C]; // in Protein codes 29, 0 and 30
                by_number[held(&mut harness, engine, &bytes, offset, (start, end), room) as usize] += 1;
            }
        }
        let asked: Vec<usize> = (0..by_number.len()).filter(|&number| by_number[number] > 0).collect();
        assert_eq!(asked, [0, 2, 4]);
    }
}

/// Every code at every place of three blocks between codes zero, alone and in the blocks' window: its symbol, or X for one that no
/// symbol has.
#[test]
fn every_code_at_every_place() {
    for engine in &ENGINES {
        let (list, width) = (model::symbols(engine.alphabet), model::bits(engine.alphabet));
        for (code, base) in (0..1 << width).flat_map(|code| (0..24).map(move |base| (code, base))) {
            let (mut file, mut bases) = (vec![0; 3 * width as usize], vec![list[0]; 24]);
            model::put(engine.alphabet, &mut file, base, code);
            bases[base] = list.get(usize::from(code)).copied().unwrap_or(b'X');
            assert_eq!((engine.plain)(&file, 0, 0, 24).unwrap(), bases, "code {code} at {base}");
            assert_eq!((engine.plain)(&file, 0, base as u64, base as u64 + 1).unwrap(), &bases[base..=base]);
        }
    }
    assert_eq!(decode_5bit(&[0xE8, 0x3C], 0, 0, 3).unwrap(), b"XAX", "codes 29, 0 and 30");
    assert_eq!(decode_5bit(&[0xFF; 5], 0, 0, 8).unwrap(), b"XXXXXXXX", "code 31");
    assert_eq!(decode_5bit(&[0xA8], 0, 0, 1).unwrap(), b"X", "X itself");
}

#[test]
fn in_new_memory_of_any_length() {
    for engine in &ENGINES {
        let mut random = Random(45);
        for bases in [1, 11, 12, 4096, 4097, 65_536, 65_537, 1_000_001] {
            let file = random.bytes(model::packed_len(engine.alphabet, bases) as usize);
            for lent in [&file[..], &file[..file.len() / 2]] {
                let expected = model::unpack(engine.alphabet, lent, 0, 3, bases);
                assert!((engine.plain)(lent, 0, 3, bases).unwrap() == expected, "{}, {bases} bases", engine.entry);
            }
        }
        assert_eq!((engine.plain)(&[], 0, 0, FAR), Err(Error::ShortMemory), "no memory holds it");
        assert_eq!((engine.plain)(&[], 0, 0, FAR + 1), Err(Error::TooFar));
        assert_eq!((engine.plain)(&[], FAR + 1, 0, 1), Err(Error::TooFar));
        assert_eq!((engine.plain)(&[], u64::MAX, u64::MAX, u64::MAX), Ok(vec![]), "empty before any question");
    }
}

#[test]
fn no_engine_is_left_out() {
    let name = |line: &'static str| line.strip_prefix("fc_count ").and_then(|rest| rest.split('(').next());
    let declared: Vec<&str> = HEADER.lines().filter_map(name).filter(|name| name.ends_with("bit")).collect();
    let listed: Vec<&str> = ENGINES.iter().map(|engine| engine.entry).collect();
    assert_eq!(declared, listed);
}
