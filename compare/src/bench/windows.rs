//! Rows of the window reads, for one alphabet: a whole decode, and windows lent the bytes that cover them.

use crate::abi;
use crate::measure::{Bench, Row};
use crate::Sample;
use oracle::digest::encoder::{
    byte_range_for_bases, decode_string_from_bytes, decode_substring_from_bytes_at_offset, encode_sequence,
};
use std::hint::black_box;

/// A window read of the port; the covered read's answer has a word more than the others'.
type Read<Answer> = unsafe extern "C" fn(u64, *const u8, usize, u64, u64, u64, *mut u8, usize) -> Answer;

pub fn rows(bench: &mut Bench, sample: &Sample) {
    let packed = encode_sequence(&sample.text, sample.table).expect("members only");
    whole(bench, sample, &packed);
    for bases in [1, 10, 100, 1000, 100_000] {
        let places = places(sample, bases);
        let name = |kind: &str| format!("window {bases} {kind} {}", sample.name);
        let zero_filling: Read<abi::Count> = abi::fc_decode_substring_from_bytes_at_offset;
        windows(bench, sample, &packed, &name("zero-filling"), &places, zero_filling);
        let covered: Read<abi::Covered> = abi::fc_decode_covered;
        windows(bench, sample, &packed, &name("covered"), &places, covered);
    }
    if sample.number == 3 {
        damaged(bench, sample, &packed);
    }
}

fn whole(bench: &mut Bench, sample: &Sample, packed: &[u8]) {
    let name = format!("decode {}", sample.name);
    let len = sample.text.len();
    let row = Row { name: &name, calls: 1, bases: len, copied: len, allocated: len };
    let mut out = vec![0x5A; len];
    let mut port = || {
        let bytes = black_box(packed);
        let (to, size) = (out.as_mut_ptr(), out.len());
        // SAFETY: each pointer is lent with its length and the two memories are apart.
        unsafe { abi::fc_decode_string_from_bytes(sample.number, bytes.as_ptr(), bytes.len(), len as u64, to, size) };
    };
    bench.row(&row, &mut port, &mut || drop(black_box(decode_string_from_bytes(black_box(packed), len, sample.table))));
    assert!(!bench.wants(&name) || out == sample.text, "{name}: the port decodes otherwise");
}

/// A window and the byte range that covers it.
struct Place {
    start: usize,
    end: usize,
    low: usize,
    high: usize,
}

/// Windows of one size at pseudo-random places of the first million bases: they start at every bit of a byte, and a processor cannot foresee at which.
fn places(sample: &Sample, bases: usize) -> Vec<Place> {
    let count = (4_000_000 / bases).clamp(40, 20_000);
    let mut state = 0xD1B5_4A32_D192_ED03_u64;
    let mut place = || {
        state ^= state << 13;
        state ^= state >> 7;
        state ^= state << 17;
        let start = (state >> 33) as usize % (1_000_000 - bases);
        let (low, high) = byte_range_for_bases(start, start + bases, sample.table.bits_per_symbol);
        Place { start, end: start + bases, low, high }
    };
    (0..count).map(|_| place()).collect()
}

fn windows<T>(bench: &mut Bench, sample: &Sample, packed: &[u8], name: &str, places: &[Place], read: Read<T>) {
    let bases = places[0].end - places[0].start;
    let row = Row { name, calls: places.len(), bases, copied: bases, allocated: bases };
    let mut out = vec![0x5A; bases];
    let mut port = || {
        for place in places {
            let bytes = &black_box(packed)[place.low..place.high];
            let (start, end, to) = (place.start as u64, place.end as u64, out.as_mut_ptr());
            // SAFETY: each pointer is lent with its length and the two memories are apart.
            unsafe { read(sample.number, bytes.as_ptr(), bytes.len(), place.low as u64, start, end, to, bases) };
        }
    };
    let mut rust = || {
        for place in places {
            let bytes = &black_box(packed)[place.low..place.high];
            black_box(decode_substring_from_bytes_at_offset(bytes, place.low, place.start, place.end, sample.table));
        }
    };
    bench.row(&row, &mut port, &mut rust);
    let last = &places[places.len() - 1];
    assert!(!bench.wants(name) || out == sample.text[last.start..last.end], "{name}: the port decodes otherwise");
}

/// Windows of 1,000 bases whose last code is damaged: the port looks at all of them and refuses, while the Rust shows X. Beside
/// them the port's read of the same windows as they were.
fn damaged(bench: &mut Bench, sample: &Sample, packed: &[u8]) {
    const BASES: usize = 1000;
    let places = places(sample, BASES);
    let name = format!("damaged window {BASES} {}", sample.name);
    let row = Row { name: &name, calls: places.len(), bases: BASES, copied: BASES, allocated: BASES };
    // Each window has bytes of its own: in the file they would damage one another.
    let sound: Vec<Vec<u8>> = places.iter().map(|place| packed[place.low..place.high].to_vec()).collect();
    let mut ends_badly = sound.clone();
    for (place, bytes) in places.iter().zip(&mut ends_badly) {
        let width = sample.table.bits_per_symbol;
        for bit in (place.end - 1) * width..place.end * width {
            bytes[bit / 8 - place.low] |= 0x80 >> (bit % 8);
        }
    }
    let (mut out, mut plain_out) = (vec![0x5A; BASES], vec![0x5A; BASES]);
    let covered = |bytes: &[u8], place: &Place, out: &mut [u8]| {
        let (start, end, to) = (place.start as u64, place.end as u64, out.as_mut_ptr());
        let bytes = black_box(bytes);
        // SAFETY: each pointer is lent with its length and the two memories are apart.
        unsafe {
            abi::fc_decode_covered(sample.number, bytes.as_ptr(), bytes.len(), place.low as u64, start, end, to, BASES)
        }
    };
    let all = |files: &[Vec<u8>], out: &mut [u8]| {
        places.iter().zip(files).for_each(|(place, bytes)| _ = black_box(covered(bytes, place, out)));
    };
    let mut rust = || {
        for (place, bytes) in places.iter().zip(&ends_badly) {
            let bytes = black_box(&bytes[..]);
            black_box(decode_substring_from_bytes_at_offset(bytes, place.low, place.start, place.end, sample.table));
        }
    };
    bench.beside(&row, &mut || all(&ends_badly, &mut out), &mut rust, &mut || all(&sound, &mut plain_out));
    if bench.wants(&name) {
        let last = &places[places.len() - 1];
        assert!(out.iter().all(|&byte| byte == 0x5A), "{name}: a refused read writes");
        assert!(plain_out == sample.text[last.start..last.end], "{name}: the port decodes otherwise");
        for (place, bytes) in places.iter().zip(&ends_badly) {
            let told = abi::Covered { refusal: 18, count: 0, value: place.end as u64 - 1 };
            assert_eq!(covered(bytes, place, &mut out), told, "{name}: the port answers otherwise");
        }
    }
}
