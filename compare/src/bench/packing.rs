//! Rows of packing, for one alphabet.

use crate::abi;
use crate::measure::{self, soft_masked, Bench, Row};
use crate::Sample;
use oracle::digest::encoder::{encode_sequence, EncodeError, SequenceEncoder};
use std::hint::black_box;

/// The piece of the rows that have the port beside itself.
const PIECE: usize = 65536;

pub fn rows(bench: &mut Bench, sample: &Sample) {
    let text = &sample.text;
    let packed = encode_sequence(text, sample.table).expect("members only");
    let mut out = vec![0x5A; packed.len()];
    // Pieces of 61 symbols, a line of a file, leave bits of a byte pending in all alphabets but Ascii; the others do not.
    for piece in [61, 64, 4096, 65536] {
        let name = format!("update {piece} {}", sample.name);
        let row = row(&name, sample, &packed);
        let mut port = || _ = black_box(port_update(sample, 0, text, piece, &mut out));
        bench.row(&row, &mut port, &mut || _ = black_box(rust_update(sample, text, piece)));
        check(bench, &row, &out, &packed);
        out.fill(0x5A);
    }
    let name = format!("encode_sequence {}", sample.name);
    let row = row(&name, sample, &packed);
    let mut port = || port_sequence(sample, 0, text, &mut out);
    bench.row(&row, &mut port, &mut || rust_sequence(sample, text));
    check(bench, &row, &out, &packed);
    for piece in [64, PIECE] {
        ask(bench, sample, piece, &packed);
    }
    folded(bench, sample);
    if sample.number < 4 {
        bad(bench, sample, &packed);
    }
    if sample.number == 0 {
        stray(bench, sample, &packed);
    }
}

/// The port asked about each piece, with all the memory there can be, beside its own updates of the same pieces. The Rust can
/// tell only by packing them. The asks must come to the state and to the count of bytes that the updates come to.
fn ask(bench: &mut Bench, sample: &Sample, piece: usize, packed: &[u8]) {
    let (name, text) = (format!("ask {piece} {}", sample.name), &sample.text);
    let row = row(&name, sample, packed);
    let mut out = vec![0x5A; packed.len()];
    let (mut told, mut made) = <(Run, Run)>::default();
    let mut port = || told = black_box(port_asks(sample, text, piece));
    let mut plain = || made = black_box(port_updates(sample, 0, text, piece, &mut out));
    bench.beside(&row, &mut port, &mut || _ = black_box(rust_update(sample, text, piece)), &mut plain);
    if bench.wants(&name) {
        let whole = text.len() * sample.table.bits_per_symbol / 8;
        assert_eq!(told, made, "{name}: the asks tell otherwise than the updates");
        assert_eq!(told.1, whole, "{name}: the asks count otherwise");
        check(bench, &row, &out[..whole], &packed[..whole]);
    }
}

/// The port folding a soft-masked text, beside the port and the Rust on the text in uppercase, each on a copy of its own:
/// a text that another side has just read comes from a nearer cache. Ascii does not fold: there the packing is that of the
/// soft-masked text.
fn folded(bench: &mut Bench, sample: &Sample) {
    let (upper, soft) = (sample.text.to_ascii_uppercase(), soft_masked(&sample.text));
    let plain_text = upper.clone();
    let plain = encode_sequence(&upper, sample.table).expect("members only");
    let packed = if sample.number < 4 { plain.clone() } else { encode_sequence(&soft, sample.table).expect("members") };
    let (mut out, mut plain_out) = (vec![0x5A; packed.len()], vec![0x5A; packed.len()]);
    let name = format!("folded update {PIECE} {}", sample.name);
    let update = row(&name, sample, &packed);
    let mut port = || _ = black_box(port_update(sample, 1, &soft, PIECE, &mut out));
    let mut unfolded = || _ = black_box(port_update(sample, 0, &plain_text, PIECE, &mut plain_out));
    bench.beside(&update, &mut port, &mut || _ = black_box(rust_update(sample, &upper, PIECE)), &mut unfolded);
    check(bench, &update, &out, &packed);
    check(bench, &update, &plain_out, &plain);
    out.fill(0x5A);
    plain_out.fill(0x5A);
    let name = format!("folded encode_sequence {}", sample.name);
    let sequence = row(&name, sample, &packed);
    let mut port = || port_sequence(sample, 1, &soft, &mut out);
    let mut unfolded = || port_sequence(sample, 0, &plain_text, &mut plain_out);
    bench.beside(&sequence, &mut port, &mut || rust_sequence(sample, &upper), &mut unfolded);
    check(bench, &sequence, &out, &packed);
    check(bench, &sequence, &plain_out, &plain);
}

/// A wrong file: any bytes that are no members, which pack as ones.
fn bad(bench: &mut Bench, sample: &Sample, packed: &[u8]) {
    let strangers: Vec<u8> = (0..=255).filter(|&byte| !sample.table.contains(byte)).collect();
    let text = measure::text(&strangers, sample.text.len());
    with_strangers(bench, sample, &format!("bad update {PIECE}"), &text, &vec![0xFF; packed.len()], packed);
}

/// A stray letter: one N in the first piece of a text of bases, which packs as G does, whose code is all ones.
fn stray(bench: &mut Bench, sample: &Sample, packed: &[u8]) {
    let with = |byte: u8| [&sample.text[..1000], &[byte], &sample.text[1001..]].concat();
    let right = encode_sequence(with(b'G'), sample.table).expect("members only");
    with_strangers(bench, sample, &format!("stray update {PIECE}"), &with(b'N'), &right, packed);
}

/// Port and Rust on a text with non-members, whose updates must write `right`, beside the port on the alphabet's text.
fn with_strangers(bench: &mut Bench, sample: &Sample, kind: &str, text: &[u8], right: &[u8], packed: &[u8]) {
    let name = format!("{kind} {}", sample.name);
    let row = row(&name, sample, packed);
    let (mut out, mut plain_out) = (vec![0x5A; right.len()], vec![0x5A; packed.len()]);
    let mut port = || _ = black_box(port_update(sample, 0, text, PIECE, &mut out));
    let mut plain = || _ = black_box(port_update(sample, 0, &sample.text, PIECE, &mut plain_out));
    bench.beside(&row, &mut port, &mut || _ = black_box(rust_update(sample, text, PIECE)), &mut plain);
    check(bench, &row, &out, right);
    check(bench, &row, &plain_out, packed);
    if bench.wants(&name) {
        check_refusal(sample, &name, text, &mut out);
    }
}

/// `finalize` must tell the position and the byte that the Rust's tells, and how many bytes its table has no code for.
fn check_refusal(sample: &Sample, name: &str, text: &[u8], out: &mut [u8]) {
    let told = port_update(sample, 0, text, PIECE, out);
    let Err(EncodeError::InvalidSymbol { position, byte, .. }) = rust_update(sample, text, PIECE) else {
        panic!("{name}: the Rust takes the text")
    };
    let count = text.iter().filter(|&&byte| !sample.table.contains(byte)).count();
    let right =
        abi::Packed { refusal: 5, count: 0, position: position as u64, byte: byte.into(), bad_count: count as u64 };
    assert_eq!(told, right, "{name}: the port refuses otherwise");
}

fn row<'a>(name: &'a str, sample: &Sample, packed: &[u8]) -> Row<'a> {
    Row { name, calls: 1, bases: sample.text.len(), copied: packed.len(), allocated: packed.len() }
}

/// A row that was measured must have written what the Rust writes.
fn check(bench: &Bench, row: &Row, out: &[u8], packed: &[u8]) {
    assert!(!bench.wants(row.name) || out == packed, "{}: the port packs otherwise", row.name);
}

fn port_sequence(sample: &Sample, fold: u64, text: &[u8], out: &mut [u8]) {
    let text = black_box(text);
    // SAFETY: each pointer is lent with its length and the two memories are apart.
    unsafe { abi::fc_encode_sequence(sample.number, fold, text.as_ptr(), text.len(), out.as_mut_ptr(), out.len()) };
}

fn rust_sequence(sample: &Sample, text: &[u8]) {
    drop(black_box(encode_sequence(black_box(text), sample.table)));
}

/// The state that an encoder's last answer told, and the bytes that its answers counted in all.
type Run = (abi::Encoder, usize);

/// A text piece by piece, from a fresh encoder on: each call gets what the calls before it came to.
fn run(sample: &Sample, fold: u64, text: &[u8], piece: usize, mut call: impl FnMut(Run, &[u8]) -> abi::Updated) -> Run {
    // SAFETY: the call is lent nothing.
    let mut so_far = (unsafe { abi::fc_encoder_new(sample.number, fold) }.next, 0);
    for piece in black_box(text).chunks(piece) {
        let answer = call(so_far, piece);
        so_far = (answer.next, so_far.1 + answer.count as usize);
    }
    so_far
}

fn port_updates(sample: &Sample, fold: u64, text: &[u8], piece: usize, out: &mut [u8]) -> Run {
    run(sample, fold, text, piece, |(state, written), piece| {
        let room = &mut out[written..];
        // SAFETY: each pointer is lent with its length and the two memories are apart.
        unsafe { abi::fc_encoder_update(state, piece.as_ptr(), piece.len(), room.as_mut_ptr(), room.len()) }
    })
}

fn port_asks(sample: &Sample, text: &[u8], piece: usize) -> Run {
    run(sample, 0, text, piece, |(state, _), piece| {
        // SAFETY: the piece is lent with its length.
        unsafe { abi::fc_encoder_ask(state, piece.as_ptr(), piece.len(), u64::MAX) }
    })
}

/// The answer of `finalize` behind the updates.
fn port_update(sample: &Sample, fold: u64, text: &[u8], piece: usize, out: &mut [u8]) -> abi::Packed {
    let (state, written) = port_updates(sample, fold, text, piece, out);
    let room = &mut out[written..];
    // SAFETY: the memory is lent with its length.
    unsafe { abi::fc_encoder_finalize(state, room.as_mut_ptr(), room.len()) }
}

fn rust_update(sample: &Sample, text: &[u8], piece: usize) -> Result<Vec<u8>, EncodeError> {
    let mut encoder = SequenceEncoder::new(sample.kind, text.len());
    black_box(text).chunks(piece).for_each(|piece| encoder.update(piece));
    encoder.finalize()
}
