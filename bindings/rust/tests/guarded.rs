//! Every entry point that is lent memory, with that memory against guard pages: a byte read or written outside it, or
//! written to the input, stops the process. Answers and all bytes are compared with the model's.

mod support;

use fantailclock::*;
use std::os::unix::process::ExitStatusExt;
use std::process::Command;
use support::guard::{Case, Guarded, Harness, Place};
use support::model;
use support::random::Random;
use support::reads::{reads, ENGINES};

const HEADER: &str = include_str!("../../../include/fantailclock.h");
const CHOICES: [Folding; 2] = [Folding::Off, Folding::On];

/// Lengths around every block and word, around those from which Dna2bit is read by whole bytes, and those that fill a page.
fn lengths() -> impl Iterator<Item = usize> {
    (0..=72).chain(509..=516).chain([4095, 4096])
}

/// Memory that is a byte short, just enough, and more than enough for so many bytes.
fn rooms(needed: usize) -> Vec<usize> {
    let rooms = [needed.wrapping_sub(1), needed, needed + 1, needed + 9];
    rooms.into_iter().filter(|&room| room <= 4096).collect()
}

/// The bytes where the memory has room for them, else refusal 4.
fn fitting(bytes: &[u8], room: usize) -> Result<Vec<u8>> {
    if room < bytes.len() {
        Err(Error::ShortMemory)
    } else {
        Ok(bytes.to_vec())
    }
}

fn texts(harness: &mut Harness, alphabet: Alphabet, folding: Folding, text: &[u8]) {
    let packed = model::pack(alphabet, &model::taken(alphabet, folding, text));
    for room in rooms(packed.len()) {
        harness.check(&Case {
            entry: "fc_encode_sequence",
            about: format!("{alphabet}, folding {folding:?}, {} bytes", text.len()),
            input: text,
            room,
            expected: fitting(&packed, room),
            call: &|text, out| encode_sequence_into(alphabet, folding, text, out),
        });
    }
    let guess = model::guess(folding, text);
    for (entry, whole) in [("fc_guess_alphabet", true), ("fc_guesser_update", false)] {
        harness.check(&Case {
            entry,
            about: format!("folding {folding:?}, {} bytes", text.len()),
            input: text,
            room: 0,
            expected: Ok(vec![]),
            call: &|text, _| {
                let mut guesser = Guesser::new(folding);
                guesser.update(text)?;
                assert_eq!(if whole { guess_alphabet(folding, text) } else { guesser.guess()? }, guess);
                Ok(0)
            },
        });
    }
}

/// A text whose last byte is the first non-member, one whose first and last are none, one with no member at all; whole, and
/// behind so many symbols. Where the alphabet folds the byte is a lowercase letter if it can be.
fn strangers(harness: &mut Harness, alphabet: Alphabet, folding: Folding, text: &[u8], before: usize) {
    let byte = match (alphabet, folding) {
        (Alphabet::Ascii | Alphabet::Unknown, _) => return,
        (_, Folding::Off) => b'a',
        (Alphabet::Protein, Folding::On) => b'{',
        (_, Folding::On) => b'x',
    };
    let (len, last) = match text.len() {
        0 => return,
        len => (len, len - 1),
    };
    for (first, strange, count) in [(last, 1, 1), (0, 1, len.min(2)), (0, len, len)] {
        let mut text = text.to_vec();
        text[first..first + strange].fill(byte);
        text[last] = byte;
        let refusal = Error::NotMember { position: first as u64, byte, count: count as u64 };
        harness.check(&Case {
            entry: "fc_encode_sequence",
            about: format!("{alphabet}, folding {folding:?}, {len} bytes, {count} are no members"),
            input: &text,
            room: len,
            expected: Err(refusal),
            call: &|text, out| encode_sequence_into(alphabet, folding, text, out),
        });
        strange_pieces(harness, alphabet, folding, &text, before, refusal);
    }
}

/// An update with non-members behind so many symbols, which counts them in its state, and the refusal of the end.
fn strange_pieces(
    harness: &mut Harness,
    alphabet: Alphabet,
    folding: Folding,
    text: &[u8],
    before: usize,
    refusal: Error,
) {
    let (first, piece) = text.split_at(before.min(text.len()));
    let fresh = SequenceEncoder::new(alphabet, folding).to_raw();
    let (_, begun) = model::updated(&fresh, first);
    let (written, next) = model::updated(&begun, piece);
    let about = || format!("{alphabet}, folding {folding:?}, {} bytes behind {before}, {refusal}", piece.len());
    for room in rooms(written.len()) {
        harness.check(&Case {
            entry: "fc_encoder_update",
            about: about(),
            input: piece,
            room,
            expected: fitting(&written, room),
            call: &|piece, out| {
                let mut encoder = SequenceEncoder::from_raw(begun);
                let answer = encoder.update_into(piece, out);
                assert_eq!(encoder.to_raw(), if answer.is_ok() { next } else { begun }, "{}", about());
                answer
            },
        });
        asked(harness, &SequenceEncoder::from_raw(begun), piece, room);
    }
    for room in [0, 1] {
        harness.check(&Case {
            entry: "fc_encoder_finalize",
            about: about(),
            input: &[],
            room,
            expected: Err(refusal),
            call: &|_, out| Ok(SequenceEncoder::from_raw(next).finalize_into(out)?),
        });
    }
}

/// An update asked about, with the page at hand that it would be lent: no byte of that is written.
fn asked(harness: &mut Harness, encoder: &SequenceEncoder, piece: &[u8], room: usize) {
    let expected = model::answered(&encoder.to_raw(), piece, room as u64);
    harness.check(&Case {
        entry: "fc_encoder_ask",
        about: format!("{encoder:?}, {} bytes", piece.len()),
        input: piece,
        room,
        expected: expected.as_ref().map(|_| vec![]).map_err(|refusal| *refusal),
        call: &|piece, out| {
            let answer = encoder.ask(piece, out.len()).map(|asked| (asked.count, asked.next.to_raw()));
            assert_eq!(answer, expected.as_ref().map(|(bytes, next)| (bytes.len(), *next)).map_err(|refusal| *refusal));
            answer.map(|_| 0)
        },
    });
}

/// An update behind so many symbols, and the last byte after it.
fn pieces(harness: &mut Harness, alphabet: Alphabet, folding: Folding, text: &[u8], before: usize) {
    let width = model::bits(alphabet) as usize;
    let (first, piece) = text.split_at(before.min(text.len()));
    let mut encoder = SequenceEncoder::new(alphabet, folding);
    encoder.update(first).unwrap();
    let packed = model::pack(alphabet, &model::taken(alphabet, folding, text));
    let (from, to) = (first.len() * width / 8, text.len() * width / 8);
    for room in rooms(to - from) {
        harness.check(&Case {
            entry: "fc_encoder_update",
            about: format!("{alphabet}, folding {folding:?}, {} bytes behind {before}", piece.len()),
            input: piece,
            room,
            expected: fitting(&packed[from..to], room),
            call: &|piece, out| encoder.clone().update_into(piece, out),
        });
        asked(harness, &encoder, piece, room);
    }
    encoder.update(piece).unwrap();
    for room in rooms(packed.len() - to) {
        harness.check(&Case {
            entry: "fc_encoder_finalize",
            about: format!("{alphabet}, folding {folding:?}, {} bytes", text.len()),
            input: &[],
            room,
            expected: fitting(&packed[to..], room),
            call: &|_, out| Ok(encoder.clone().finalize_into(out)?),
        });
    }
}

/// A window of a file by every read, lent a run of the file's bytes.
fn window(harness: &mut Harness, alphabet: Alphabet, file: &[u8], lent: (usize, usize), window: (u64, u64)) {
    let ((from, to), (start, end)) = (lent, window);
    let (bytes, offset) = (&file[from..to], from as u64);
    let bases = model::unpack(alphabet, bytes, offset, start, end);
    let about = format!("{alphabet}, bases {start} to {end} of bytes {from} to {to}");
    for room in rooms(bases.len()) {
        for (entry, read) in reads(alphabet, offset, start) {
            harness.check(&Case {
                entry,
                about: about.clone(),
                input: bytes,
                room,
                expected: fitting(&bases, room),
                call: &|bytes, out| read(bytes, offset, start, end, out),
            });
        }
        harness.check(&Case {
            entry: "fc_decode_covered",
            about: about.clone(),
            input: bytes,
            room,
            expected: model::covered(alphabet, bytes, offset, start, end, room as u64),
            call: &|bytes, out| decode_covered_into(alphabet, bytes, offset, start, end, out),
        });
    }
}

/// The first status that holds.
fn status(skip_due: bool, budget_used: bool, memory_used: bool) -> Status {
    match (skip_due, budget_used, memory_used) {
        (false, true, _) => Status::Done,
        (false, false, true) => Status::Full,
        _ => Status::Hungry,
    }
}

/// A window of a file by a stream, lent a part of its bytes and memory for a part of its bases.
fn stream(harness: &mut Harness, alphabet: Alphabet, file: &[u8], (start, end): (u64, u64)) {
    let width = model::bits(alphabet);
    let (skip, budget) = (start * width % 8, end - start);
    let (from, to) = ((start * width / 8) as usize, ((end * width + 7) / 8) as usize);
    let bases = model::unpack(alphabet, file, 0, start, end);
    for source in [&file[from..to], &file[from..(from + to) / 2], &file[from..to.max(from + 1) - 1], &file[from..]] {
        let bits = (source.len() as u64 * 8).saturating_sub(skip);
        for room in rooms(bases.len()) {
            let written = budget.min(room as u64).min(bits / width);
            harness.check(&Case {
                entry: "fc_stream_read",
                about: format!("{alphabet}, bases {start} to {end}, {} bytes of source", source.len()),
                input: source,
                room,
                expected: Ok(bases[..written as usize].to_vec()),
                call: &|source, out| {
                    let step = Stream::new(alphabet, skip, budget)?.read(source, out)?;
                    let due = source.is_empty() && skip > 0;
                    assert_eq!(step.taken as u64, if due { 0 } else { (skip + written * width + 7) / 8 });
                    assert_eq!(step.status, status(due, written == budget, written == out.len() as u64));
                    Ok(step.written)
                },
            });
        }
    }
}

#[test]
fn texts_and_pieces() {
    let mut harness = Harness::new();
    let mut random = Random(1);
    for alphabet in Alphabet::ALL {
        for len in lengths() {
            let members = random.members(alphabet, len);
            let masked = random.soft_masked(&members);
            for (folding, text) in [(Folding::Off, &members), (Folding::On, &masked)] {
                texts(&mut harness, alphabet, folding, text);
                strangers(&mut harness, alphabet, folding, text, len % 9);
                for before in 0..9 {
                    pieces(&mut harness, alphabet, folding, text, before);
                }
            }
        }
    }
    println!("{} calls between guard pages", harness.calls);
}

#[test]
fn windows_and_streams() {
    let mut harness = Harness::new();
    let mut random = Random(2);
    for alphabet in Alphabet::ALL {
        for len in lengths() {
            let n = len as u64;
            let mut files = vec![random.bytes(model::packed_len(alphabet, n) as usize)]; // every bit, spare ones too
            if alphabet == Alphabet::Protein {
                // one without codes that no symbol has
                files.push(model::pack(alphabet, &random.members(alphabet, len)));
            }
            let start = random.below(n + 1);
            let random_window = (start, start + random.below(n - start + 1));
            for (start, end) in [(0, n), (n / 3, n), (n.min(1), n - n.min(1) / 2), (n / 2, n / 2), random_window] {
                let range = (start * model::bits(alphabet) / 8, (end * model::bits(alphabet) + 7) / 8);
                let (from, to) = (range.0 as usize, range.1 as usize);
                for file in &files {
                    // the window's bytes alone, the whole file, a byte too few at either end, no byte
                    for lent in
                        [(from, to), (0, file.len()), (from, to.max(from + 1) - 1), ((from + 1).min(to), to), (0, 0)]
                    {
                        window(&mut harness, alphabet, file, lent, (start, end));
                    }
                    stream(&mut harness, alphabet, file, (start, end));
                }
            }
        }
    }
    println!("{} calls between guard pages", harness.calls);
}

#[test]
fn names() {
    let mut harness = Harness::new();
    let names = ["dna2bit", "dna3bit", "dnaio", "protein", "ASCII", "Unknown"];
    for (number, name) in names.into_iter().enumerate() {
        for room in 0..=9 {
            harness.check(&Case {
                entry: "fc_display_name",
                about: name.to_string(),
                input: &[],
                room,
                expected: fitting(name.as_bytes(), room),
                call: &|_, out| {
                    let answer = unsafe { raw::fc_display_name(number as u64, out.as_mut_ptr(), out.len()) };
                    if answer.refusal == 4 {
                        Err(Error::ShortMemory)
                    } else {
                        Ok(answer.count as usize)
                    }
                },
            });
        }
    }
}

#[test]
fn no_entry_point_is_left_out() {
    let mut harness = Harness::new();
    for alphabet in ENGINES.iter().map(|engine| engine.alphabet) {
        for folding in CHOICES {
            texts(&mut harness, alphabet, folding, b"ACGT");
            pieces(&mut harness, alphabet, folding, b"ACGT", 1);
        }
        window(&mut harness, alphabet, &[7; 3], (0, 3), (0, 4));
        stream(&mut harness, alphabet, &[7; 3], (0, 4));
    }
    harness.entries.push("fc_display_name"); // by the test `names`
    let name = |line: &str| line.split_once('(').and_then(|(before, _)| before.rsplit(' ').next().map(String::from));
    let mut lent: Vec<String> = HEADER.lines().filter(|line| line.contains("uint8_t *")).filter_map(name).collect();
    let mut checked = harness.entries.clone();
    lent.sort();
    checked.sort_unstable();
    assert_eq!(lent, checked);
}

/// What each child does; every one of them must be stopped.
const TRESPASSES: [&str; 8] = [
    "read behind",
    "read before",
    "write behind",
    "write to the input",
    "a text too long",
    "memory too long",
    "a piece too long to be asked about",
    "a window's bytes too many",
];

fn trespass(what: &str) {
    let mut guarded = Guarded::new();
    let mut other = Guarded::new();
    let text = other.lend_read_only(Place::Back, b"ACGTACGT");
    let (front, back) = (guarded.lend(Place::Front, 1).as_mut_ptr(), guarded.lend(Place::Back, 8).as_mut_ptr());
    // SAFETY: none; that is the point, and the guard pages are to show it.
    unsafe {
        match what {
            "read behind" => _ = back.add(8).read_volatile(),
            "read before" => _ = front.sub(1).read_volatile(),
            "write behind" => back.add(8).write_volatile(0),
            "write to the input" => (text.as_ptr() as *mut u8).write_volatile(0),
            "a text too long" => _ = raw::fc_encode_sequence(4, 0, text.as_ptr(), 9, front, 4096),
            "memory too long" => _ = raw::fc_encode_sequence(4, 0, b"ACGTACGTA".as_ptr(), 9, back, 9),
            "a piece too long to be asked about" => {
                _ = raw::fc_encoder_ask(raw::Encoder::default(), text.as_ptr(), 9, u64::MAX)
            }
            "a window's bytes too many" => _ = raw::fc_decode_5bit(text.as_ptr(), 9, 0, 0, 14, front, 4096),
            other => panic!("no such trespass: {other}"),
        }
    }
}

/// Run by the test below in a process of its own; by itself it does nothing.
#[test]
fn trespasser() {
    if let Ok(what) = std::env::var("TRESPASS") {
        trespass(&what);
    }
}

#[test]
fn a_trespass_is_noticed() {
    for what in TRESPASSES {
        let mut child = Command::new(std::env::current_exe().unwrap());
        let output = child.args(["--exact", "trespasser"]).env("TRESPASS", what).output().unwrap();
        assert_eq!(output.status.signal(), Some(11), "{what} was not stopped by the guard page");
    }
    let mut child = Command::new(std::env::current_exe().unwrap());
    assert!(child.args(["--exact", "trespasser"]).output().unwrap().status.success(), "the child fails by itself");
}
