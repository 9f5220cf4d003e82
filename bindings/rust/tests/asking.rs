//! Updates asked about before memory is lent: every answer beside the model's, and beside that of the real call, made on a copy
//! with memory of that length. States under way and forged, pieces with non-members, rooms around the count and huge ones.

mod support;

use fantailclock::*;
use support::guard::{Guarded, PLACES};
use support::model;
use support::random::Random;
use support::table::{encoder, number, rows, STATES};

const CHOICES: [Folding; 2] = [Folding::Off, Folding::On];

/// Rooms that are enough for every piece: no text has more than 2^60 symbols, and none of them more than 8 bits.
const ENOUGH: [u64; 5] = [1 << 60, (1 << 60) + 1, 1 << 63, u64::MAX - 1, u64::MAX];

/// Every alphabet by both choices to fold.
fn ways() -> impl Iterator<Item = (Alphabet, Folding)> {
    Alphabet::ALL.into_iter().flat_map(|alphabet| CHOICES.map(|folding| (alphabet, folding)))
}

/// Rooms around so many bytes, some that a narrower number would take for none at all, and some that are always enough.
fn rooms(count: u64) -> Vec<u64> {
    let short = count.checked_sub(1);
    let around = [0, 1, count / 2, count, count + 1, count + 9, 1 << 8, 1 << 16, 1 << 32, (1 << 32) + count];
    short.into_iter().chain(around).chain(ENOUGH).collect()
}

/// So many bytes of an alphabet, in either case; of every third piece one byte in four is any byte at all.
fn piece(random: &mut Random, alphabet: Alphabet, len: usize) -> Vec<u8> {
    let members = random.members(alphabet, len);
    let mut piece = if random.below(2) == 0 { random.soft_masked(&members) } else { members };
    let strange = random.below(3) == 0;
    for byte in piece.iter_mut().filter(|_| strange) {
        if random.below(4) == 0 {
            *byte = random.next() as u8;
        }
    }
    piece
}

/// How many cases were compared, by the number of their refusal; 0 for those that were accepted.
#[derive(Default)]
struct Tally([u64; 9]);

impl Tally {
    fn all(&self) -> u64 {
        self.0.iter().sum()
    }

    /// An update of a state asked about, by the call itself and by the safe function, and then made on copies.
    fn compare(&mut self, state: raw::Encoder, piece: &[u8], room: u64) -> Result<Asked> {
        let expected = model::answered(&state, piece, room);
        let told = model::told(&state, &expected);
        let about = || format!("{state:?}, {} bytes, room {room}", piece.len());
        let answer = unsafe { raw::fc_encoder_ask(state, piece.as_ptr(), piece.len(), room) };
        assert_eq!(answer, told, "{}", about());
        let encoder = SequenceEncoder::from_raw(state);
        let asked = encoder.ask(piece, room as usize);
        let safely = asked.as_ref().map(|asked| (asked.count as u64, asked.next.to_raw()));
        assert_eq!(safely, expected.as_ref().map(|_| (told.count, told.next)), "{}", about());

        // memory of that length, or of more than the piece can fill where there is no such memory
        let mut out = vec![0xC3; room.min(piece.len() as u64 + 9) as usize];
        let mut copy = encoder.clone();
        let made = copy.update_into(piece, &mut out);
        assert_eq!(made, asked.as_ref().map(|asked| asked.count).map_err(|refusal| *refusal), "{}", about());
        assert_eq!(&copy, asked.as_ref().map_or(&encoder, |asked| &asked.next), "{}", about());
        let mut after = vec![0xC3; out.len()];
        if let Ok((written, _)) = &expected {
            after[..written.len()].copy_from_slice(written);
        }
        assert_eq!(out, after, "{}", about());
        let (len, memory) = (piece.len(), out.as_mut_ptr());
        let updated = unsafe { raw::fc_encoder_update(state, piece.as_ptr(), len, memory, out.len()) };
        assert_eq!(updated, answer, "{}", about());
        self.0[answer.refusal as usize] += 1;
        asked
    }

    /// The same by every room around the count, which is told by those that are enough. Refused by 4 exactly where the room is
    /// less than it; the encoder after the piece.
    fn compare_rooms(&mut self, encoder: &SequenceEncoder, piece: &[u8]) -> SequenceEncoder {
        let enough = encoder.ask(piece, usize::MAX).unwrap();
        for room in rooms(enough.count as u64) {
            let answer = self.compare(encoder.to_raw(), piece, room);
            let fits = room >= enough.count as u64;
            assert_eq!(answer, if fits { Ok(enough.clone()) } else { Err(Error::ShortMemory) }, "room {room}");
        }
        enough.next
    }
}

/// Texts in pieces: each piece is asked about by every room before it is packed.
fn texts_in_pieces(seed: u64, texts: usize) -> Tally {
    let (mut random, mut tally) = (Random(seed), Tally::default());
    for (alphabet, folding) in ways() {
        for _ in 0..texts {
            let mut encoder = SequenceEncoder::new(alphabet, folding);
            for _ in 0..=random.below(5) {
                let longest = [2, 9, 9, 70, 300][random.below(5) as usize];
                let len = random.below(longest) as usize;
                let piece = piece(&mut random, alphabet, len);
                let next = tally.compare_rooms(&encoder, &piece);
                encoder.update(&piece).unwrap();
                assert_eq!(encoder, next);
            }
        }
    }
    tally
}

#[test]
fn texts_under_way() {
    let tally = texts_in_pieces(21, 120);
    assert!(tally.0[0] > 40_000 && tally.0[4] > 5_000, "{:?}", tally.0);
    println!("{} updates asked about and made", tally.all());
}

#[test]
fn in_threads_at_once() {
    let start = |seed: u64| std::thread::spawn(move || texts_in_pieces(200 + seed, 20).all());
    let threads: Vec<_> = (0..8).map(start).collect();
    let compared: u64 = threads.into_iter().map(|thread| thread.join().unwrap()).sum();
    assert!(compared > 50_000, "{compared}");
}

/// Every length behind every number of pending bits, by every room up to the count and one more.
#[test]
fn every_length_and_every_room() {
    let (mut random, mut tally) = (Random(22), Tally::default());
    for (alphabet, folding) in ways() {
        for before in 0..8 {
            let first = piece(&mut random, alphabet, before);
            let mut encoder = SequenceEncoder::new(alphabet, folding);
            encoder.update(&first).unwrap();
            let pending = encoder.to_raw().pending_bits;
            for len in 0..=33 {
                let piece = piece(&mut random, alphabet, len);
                let count = (pending + len as u64 * model::bits(alphabet)) / 8;
                for room in (0..=count + 1).chain(ENOUGH) {
                    let answer = tally.compare(encoder.to_raw(), &piece, room).map(|asked| asked.count as u64);
                    assert_eq!(answer, if room < count { Err(Error::ShortMemory) } else { Ok(count) });
                }
            }
        }
    }
    assert!(tally.0[0] > 20_000 && tally.0[4] > 20_000, "{:?}", tally.0);
    println!("{} updates asked about and made", tally.all());
}

/// Every byte by itself and beside a member: what is no member is in the next state, as it was received.
#[test]
fn every_byte() {
    let mut tally = Tally::default();
    for (alphabet, folding) in ways() {
        let fresh = SequenceEncoder::new(alphabet, folding).to_raw();
        for byte in 0..=255 {
            let member = model::all_members(alphabet, folding, &[byte]).is_ok();
            for (piece, position) in [(vec![byte], 0), (vec![b'A', byte, byte], 1)] {
                let next = tally.compare(fresh, &piece, u64::MAX).unwrap().next.to_raw();
                let found = (next.has_bad, next.bad_position, next.bad_byte, next.bad_count);
                let strange = if member { (0, 0, 0, 0) } else { (1, position, u64::from(byte), 1 + position) };
                assert_eq!(found, strange, "{alphabet} {folding:?} {byte}");
                tally.compare(fresh, &piece, 0).ok();
            }
        }
    }
    assert_eq!(tally.all(), 6 * 2 * 256 * 2 * 2);
}

/// The table's states, sound and forged: what is refused is refused by its number, whatever the piece and the room.
#[test]
fn forged_states() {
    let (mut tally, mut states) = (Tally::default(), 0);
    for row in rows(STATES).into_iter().filter(|row| row.words[0] == "encoder") {
        let state = encoder(&row.words[1..].iter().map(|word| number(word)).collect::<Vec<_>>());
        for piece in [&b""[..], b"A", b"n", b"{", b"ACGTACGT", b"NNaa{{NNa"] {
            for room in [0, 1, 2, 8, 9].into_iter().chain(ENOUGH) {
                let answer = tally.compare(state, piece, room).map_err(Error::number);
                match number(row.answer) {
                    0 => assert!(matches!(answer, Ok(_) | Err(2) | Err(4)), "{}", row.line),
                    refusal => assert_eq!(answer, Err(refusal), "{}", row.line),
                }
            }
        }
        states += 1;
    }
    assert_eq!((states, tally.all()), (188, 188 * 6 * 10));
    assert!([0, 1, 2, 4, 8].map(|refusal| tally.0[refusal]).iter().all(|&cases| cases > 100), "{:?}", tally.0);
}

/// The questions one after the other: a state with everything wrong, put right number by number.
#[test]
fn refusals_in_their_order() {
    let mut tally = Tally::default();
    let mut state = raw::Encoder { alphabet: 6, seen: 1 << 60, fold: 2, ..raw::Encoder::default() };
    for room in [0, u64::MAX] {
        assert_eq!(tally.compare(state, b"ACGT", room), Err(Error::NoAlphabet));
    }
    state.alphabet = 0;
    for room in [0, u64::MAX] {
        assert_eq!(tally.compare(state, b"ACGT", room), Err(Error::Unsound));
    }
    state.fold = 1;
    for room in [0, u64::MAX] {
        assert_eq!(tally.compare(state, b"ACGT", room), Err(Error::TooFar));
    }
    state.seen -= 4;
    assert_eq!(tally.compare(state, b"ACGT", 0), Err(Error::ShortMemory));
    let next = raw::Encoder { seen: 1 << 60, ..state };
    let asked = Asked { count: 1, next: SequenceEncoder::from_raw(next) };
    assert_eq!(tally.compare(state, b"ACGT", 1), Ok(asked.clone()));
    assert_eq!(tally.compare(state, b"ACGT", u64::MAX), Ok(asked));
}

/// At the last symbol that a text may have; a piece beyond it is refused before memory is asked for.
#[test]
fn near_the_end_of_the_longest_text() {
    let mut tally = Tally::default();
    for (alphabet, folding) in ways() {
        for left in 0..10 {
            let seen = (1 << 60) - left;
            let pending_bits = (8 - left % 8) * model::bits(alphabet) % 8;
            let fresh = SequenceEncoder::new(alphabet, folding).to_raw();
            let state = raw::Encoder { seen, pending_bits, ..fresh };
            for len in 0..12 {
                for room in rooms((pending_bits + len * model::bits(alphabet)) / 8) {
                    let answer = tally.compare(state, &b"ACGTACGTACGT"[..len as usize], room);
                    assert_eq!(answer == Err(Error::TooFar), len > left, "{alphabet}, {len} of {left}");
                }
            }
        }
    }
    assert!([0, 2, 4].map(|refusal| tally.0[refusal]).iter().all(|&cases| cases > 1_000), "{:?}", tally.0);
}

/// Pieces that a library may take block by block, with non-members at their ends.
#[test]
fn long_pieces() {
    let (mut random, mut tally) = (Random(23), Tally::default());
    for (alphabet, folding) in ways() {
        for len in [4095, 4096, 4097, 65_536, 200_003] {
            let mut encoder = SequenceEncoder::new(alphabet, folding);
            encoder.update(b"ACG").unwrap();
            let mut piece = piece(&mut random, alphabet, len);
            (piece[0], piece[len - 1]) = (b'{', b'{');
            let count = (encoder.to_raw().pending_bits + len as u64 * model::bits(alphabet)) / 8;
            for room in [0, count - 1, count, u64::MAX] {
                let answer = tally.compare(encoder.to_raw(), &piece, room).map(|asked| asked.count as u64);
                assert_eq!(answer, if room < count { Err(Error::ShortMemory) } else { Ok(count) });
            }
        }
    }
    assert_eq!((tally.0[0], tally.0[4]), (120, 120));
}

/// A scheduler: a page is lent only where one is needed, and just as long as the piece needs it. What it gets is one packing.
#[test]
fn a_scheduler() {
    let (mut random, mut pages, mut spared) = (Random(24), 0, 0);
    for (alphabet, folding) in ways() {
        for _ in 0..40 {
            let len = random.below(200) as usize;
            let text = piece(&mut random, alphabet, len);
            let (mut encoder, mut packed) = (SequenceEncoder::new(alphabet, folding), vec![]);
            for piece in text.chunks(1 + random.below(9) as usize) {
                let mut page = match encoder.ask(piece, 0) {
                    Ok(asked) => {
                        assert_eq!(asked.count, 0);
                        spared += 1;
                        vec![]
                    }
                    Err(refusal) => {
                        assert_eq!(refusal, Error::ShortMemory);
                        pages += 1;
                        vec![0; encoder.ask(piece, usize::MAX).unwrap().count]
                    }
                };
                let asked = encoder.ask(piece, page.len()).unwrap();
                if let Some((_, shorter)) = page.split_last_mut() {
                    assert_eq!(encoder.ask(piece, shorter.len()), Err(Error::ShortMemory));
                    assert_eq!(encoder.update_into(piece, shorter), Err(Error::ShortMemory));
                }
                assert_eq!(encoder.update_into(piece, &mut page), Ok(page.len()), "every byte of the page is used");
                assert_eq!(encoder, asked.next);
                packed.extend(page);
            }
            let whole = model::pack(alphabet, &model::taken(alphabet, folding, &text));
            assert_eq!(packed, whole[..packed.len()]);
            let finished = encoder.finalize().map(|last| [packed, last].concat()).map_err(Error::from);
            assert_eq!(finished, model::all_members(alphabet, folding, &text).map(|()| whole));
        }
    }
    assert!(pages > 2_000 && spared > 1_000, "{pages} {spared}");
}

/// All pieces of a text are asked about before one of them is packed: each by the encoder as it would be then.
#[test]
fn asked_ahead() {
    let mut random = Random(25);
    for (alphabet, folding) in ways() {
        for _ in 0..100 {
            let pieces: Vec<Vec<u8>> = (0..random.below(7))
                .map(|_| {
                    let len = random.below(30) as usize;
                    piece(&mut random, alphabet, len)
                })
                .collect();
            let mut encoder = SequenceEncoder::new(alphabet, folding);
            let (mut ahead, mut counts) = (encoder.clone(), vec![]);
            for piece in &pieces {
                let asked = ahead.ask(piece, usize::MAX).unwrap();
                counts.push(asked.count);
                ahead = asked.next;
            }
            let all: u64 = pieces.iter().map(|piece| piece.len() as u64).sum();
            assert_eq!(counts.iter().sum::<usize>() as u64, all * model::bits(alphabet) / 8);
            for (piece, count) in pieces.iter().zip(counts) {
                assert_eq!(encoder.update(piece).unwrap().len(), count);
            }
            assert_eq!(encoder, ahead);
        }
    }
}

/// A piece at either end of a page that may only be read, between pages that may not be touched; beside it the page that the
/// last update was lent and that the next one will be: no byte of it changes.
#[test]
fn between_guard_pages() {
    let (mut random, mut input, mut output, mut calls) = (Random(26), Guarded::new(), Guarded::new(), 0);
    for len in (0..=72).chain(509..=516).chain([4095, 4096]) {
        for (alphabet, folding) in ways() {
            let mut encoder = SequenceEncoder::new(alphabet, folding);
            let (first, piece) = (piece(&mut random, alphabet, len % 8), piece(&mut random, alphabet, len));
            encoder.update_into(&first, output.page()).unwrap();
            let expected = model::answered(&encoder.to_raw(), &piece, u64::MAX).unwrap();
            let count = expected.0.len();
            output.page().fill(0xC3);
            for place in PLACES {
                let lent = input.lend_read_only(place, &piece);
                for room in [0, count.wrapping_sub(1), count, 4096, usize::MAX] {
                    let answer = encoder.ask(lent, room).map(|asked| (asked.count, asked.next.to_raw()));
                    let wanted = if room < count { Err(Error::ShortMemory) } else { Ok((count, expected.1)) };
                    assert_eq!(answer, wanted, "{alphabet}, {len} bytes at {place:?}, room {room}");
                    calls += 1;
                }
            }
            assert!(output.page().iter().all(|&byte| byte == 0xC3), "{alphabet}, {len} bytes");
        }
    }
    assert_eq!(calls, 83 * 12 * 2 * 5);
}
