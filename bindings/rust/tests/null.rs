//! Null for no bytes, as foreign callers pass it: every entry point that is lent memory takes a null pointer with the length
//! 0, and answers what it answers for an empty slice.

mod support;

use fantailclock::{raw, Alphabet, Folding};
use std::ptr::{null, null_mut};
use support::reads::engine;

const HEADER: &str = include_str!("../../../include/fantailclock.h");
const PATTERN: [u8; 9] = [0xC3; 9];

/// No bytes at a null pointer, and at a valid one.
fn sources() -> [*const u8; 2] {
    [null(), PATTERN.as_ptr()]
}

/// No memory at a null pointer, and at a valid one.
fn rooms(memory: &mut [u8]) -> [*mut u8; 2] {
    [null_mut(), memory.as_mut_ptr()]
}

fn count(refusal: u64, count: u64) -> raw::Count {
    raw::Count { refusal, count }
}

fn packed(refusal: u64) -> raw::Packed {
    raw::Packed { refusal, ..raw::Packed::default() }
}

#[test]
fn texts_and_names() {
    for from in sources() {
        for fold in [0, 1] {
            assert_eq!(unsafe { raw::fc_guess_alphabet(fold, from, 0) }, raw::Number { refusal: 0, value: 0 });
            let state = raw::Guesser { mask: 20, fold };
            assert_eq!(unsafe { raw::fc_guesser_update(state, from, 0) }, raw::Guessing { refusal: 0, next: state });
        }
    }
    for to in rooms(&mut PATTERN.clone()) {
        for alphabet in 0..6 {
            assert_eq!(unsafe { raw::fc_display_name(alphabet, to, 0) }, count(4, 0));
        }
    }
}

#[test]
fn packing() {
    let choices = [Folding::Off, Folding::On];
    for (alphabet, folding) in Alphabet::ALL.into_iter().flat_map(|alphabet| choices.map(|folding| (alphabet, folding)))
    {
        let (number, fold, mut memory) = (alphabet.number(), folding.number(), PATTERN);
        let state = unsafe { raw::fc_encoder_new(number, fold) }.next;
        for to in rooms(&mut PATTERN.clone()) {
            for from in sources() {
                assert_eq!(unsafe { raw::fc_encode_sequence(number, fold, from, 0, to, 0) }, packed(0));
                assert_eq!(
                    unsafe { raw::fc_encode_sequence(number, fold, from, 0, memory.as_mut_ptr(), 9) },
                    packed(0)
                );
                let same = raw::Updated { refusal: 0, count: 0, next: state };
                assert_eq!(unsafe { raw::fc_encoder_update(state, from, 0, to, 0) }, same);
                assert_eq!(unsafe { raw::fc_encoder_update(state, from, 0, memory.as_mut_ptr(), 9) }, same);
                for room in [0, 9, u64::MAX] {
                    assert_eq!(unsafe { raw::fc_encoder_ask(state, from, 0, room) }, same);
                }
            }
            assert_eq!(unsafe { raw::fc_encode_sequence(number, fold, b"A".as_ptr(), 1, to, 0) }, packed(4));
            assert_eq!(unsafe { raw::fc_encoder_update(state, b"ACGT".as_ptr(), 4, to, 0) }.refusal, 4);
            assert_eq!(unsafe { raw::fc_encoder_finalize(state, to, 0) }, packed(0));
            let pending = unsafe { raw::fc_encoder_update(state, b"A".as_ptr(), 1, memory.as_mut_ptr(), 9) }.next;
            let refusal = if pending.pending_bits > 0 { 4 } else { 0 };
            assert_eq!(unsafe { raw::fc_encoder_finalize(pending, to, 0) }, packed(refusal));
            for from in sources() {
                let same = raw::Updated { refusal: 0, count: 0, next: pending };
                assert_eq!(unsafe { raw::fc_encoder_ask(pending, from, 0, 0) }, same, "behind bits that pend");
            }
            memory = PATTERN;
        }
    }
}

/// A read with one shape: data, its length, end, memory, its room.
type Read = Box<dyn Fn(*const u8, usize, u64, *mut u8, usize) -> raw::Count>;

fn reads(alphabet: Alphabet) -> Vec<(bool, Read)> {
    let a = alphabet.number();
    let window = |call: raw::Window| -> Read {
        Box::new(move |from, len, end, to, room| unsafe { call(a, from, len, 0, 0, end, to, room) })
    };
    let covered = move |from, len, end, to, room| {
        let raw::Covered { refusal, count, value } =
            unsafe { raw::fc_decode_covered(a, from, len, 0, 0, end, to, room) };
        assert_eq!(value, 0, "no base is told but with 18");
        raw::Count { refusal, count }
    };
    let mut reads: Vec<(bool, Read)> = vec![
        (true, Box::new(covered)),
        (false, window(raw::fc_decode_substring_from_bytes_at_offset)),
        (false, window(raw::fc_decode_rolling)),
        (
            false,
            Box::new(move |from, len, end, to, room| unsafe {
                raw::fc_decode_substring_from_bytes(a, from, len, 0, end, to, room)
            }),
        ),
        (
            false,
            Box::new(move |from, len, end, to, room| unsafe {
                raw::fc_decode_string_from_bytes(a, from, len, end, to, room)
            }),
        ),
    ];
    if let Some(engine) = engine(alphabet) {
        let by_engine = move |from, len, end, to, room| unsafe { (engine.raw)(from, len, 0, 0, end, to, room) };
        reads.push((false, Box::new(by_engine)));
    }
    reads
}

#[test]
fn windows() {
    for (alphabet, zero) in Alphabet::ALL.into_iter().zip(*b"TANA\0\0") {
        for (covered, read) in reads(alphabet) {
            for from in sources() {
                for to in rooms(&mut PATTERN.clone()) {
                    assert_eq!(read(from, 0, 0, to, 0), count(0, 0), "an empty window");
                    assert_eq!(read(from, 0, 1, to, 0), count(if covered { 3 } else { 4 }, 0));
                    assert_eq!(read([0x1B, 0x1B].as_ptr(), 2, 2, to, 0), count(4, 0));
                    assert_eq!(read([0xFF, 0xFF].as_ptr(), 2, 2, to, 0), count(4, 0), "before 18");
                }
                let mut memory = PATTERN;
                let answer = read(from, 0, 9, memory.as_mut_ptr(), 9);
                let expected = if covered { (count(3, 0), PATTERN) } else { (count(0, 9), [zero; 9]) };
                assert_eq!((answer, memory), expected, "{alphabet}");
            }
        }
    }
}

#[test]
fn streams() {
    for alphabet in 0..6 {
        for (skip, budget, status) in [(0, 0, 2), (0, 5, 3), (3, 5, 1)] {
            let state = unsafe { raw::fc_stream_new(alphabet, skip, budget) }.next;
            let expected = |status| raw::Streamed { refusal: 0, taken: 0, written: 0, status, next: state };
            for to in rooms(&mut PATTERN.clone()) {
                for from in sources() {
                    assert_eq!(unsafe { raw::fc_stream_read(state, from, 0, to, 0) }, expected(status));
                    let mut memory = PATTERN;
                    let hungry = if budget == 0 { status } else { 1 };
                    let answer = unsafe { raw::fc_stream_read(state, from, 0, memory.as_mut_ptr(), 9) };
                    assert_eq!((answer, memory), (expected(hungry), PATTERN));
                }
                if skip == 0 {
                    let answer = unsafe { raw::fc_stream_read(state, [0x1B].as_ptr(), 1, to, 0) };
                    assert_eq!(answer, expected(status), "no memory");
                }
            }
        }
    }
}

#[test]
fn no_entry_point_is_left_out() {
    let name = |line: &'static str| line.split_once('(').and_then(|(before, _)| before.rsplit(' ').next());
    let lent = HEADER.lines().filter(|line| line.starts_with("fc_") && line.contains("uint8_t *")).filter_map(name);
    let called = concat!(include_str!("null.rs"), include_str!("support/reads.rs"));
    let mut found = 0;
    for entry in lent {
        assert!(called.contains(&format!("raw::{entry}")), "{entry} is not called with null");
        found += 1;
    }
    assert_eq!(found, 17);
}
