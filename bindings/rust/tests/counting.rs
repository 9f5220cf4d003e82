//! How many bytes are no members, from a stray letter to a wrong file: whole texts and texts in pieces, refused pieces among
//! them, beside the model's count.

mod support;

use fantailclock::*;
use support::model;
use support::random::Random;

const PACKED: [Alphabet; 4] = [Alphabet::Dna2bit, Alphabet::Dna3bit, Alphabet::DnaIupac, Alphabet::Protein];

/// A piece of non-members that fills a byte in every alphabet, so that without memory it is refused.
const REFUSED: &[u8] = b"{{{{{{{{";

/// Every alphabet that has non-members, by both choices to fold.
fn ways() -> impl Iterator<Item = (Alphabet, Folding)> {
    PACKED.into_iter().flat_map(|alphabet| [Folding::Off, Folding::On].map(|folding| (alphabet, folding)))
}

/// The bytes that are no members by the choice.
fn strangers(alphabet: Alphabet, folding: Folding) -> Vec<u8> {
    (0..=255).filter(|&byte| model::all_members(alphabet, folding, &[byte]).is_err()).collect()
}

/// Members, in either case where the text is folded, and among them a non-member in so many bytes; none for 0.
fn text(random: &mut Random, alphabet: Alphabet, folding: Folding, len: usize, one_in: u64) -> Vec<u8> {
    let strangers = strangers(alphabet, folding);
    let mut text = random.members(alphabet, len);
    if folding == Folding::On {
        text = random.soft_masked(&text);
    }
    for byte in text.iter_mut().filter(|_| one_in > 0) {
        if random.below(one_in) == 0 {
            *byte = strangers[random.below(strangers.len() as u64) as usize];
        }
    }
    text
}

/// A text whole: refused as the model says, or packed.
fn whole(alphabet: Alphabet, folding: Folding, text: &[u8]) {
    let answer = encode_sequence(alphabet, folding, text).map(|_| ());
    assert_eq!(answer, model::all_members(alphabet, folding, text), "{alphabet} {folding:?}, {} bytes", text.len());
}

/// A text in pieces of a random length, state for state. Before each a piece is refused, which leaves the count as it is.
fn in_pieces(random: &mut Random, alphabet: Alphabet, folding: Folding, text: &[u8]) {
    let mut encoder = SequenceEncoder::new(alphabet, folding);
    let (mut at, mut state) = (0, encoder.to_raw());
    while at < text.len() {
        let piece = &text[at..text.len().min(at + 1 + random.below(1 + text.len() as u64 / 3) as usize)];
        assert_eq!(encoder.update_into(REFUSED, &mut []), Err(Error::ShortMemory));
        assert_eq!(encoder.to_raw(), state, "a refused piece is not counted");
        let refused = unsafe { raw::fc_encoder_update(state, REFUSED.as_ptr(), REFUSED.len(), [].as_mut_ptr(), 0) };
        assert_eq!(refused, raw::Updated { refusal: 4, count: 0, next: state }, "nor in the state that comes back");
        encoder.update(piece).unwrap();
        (at, state) = (at + piece.len(), model::updated(&state, piece).1);
        assert_eq!(encoder.to_raw(), state, "{alphabet} {folding:?}, {at} of {} bytes", text.len());
    }
    let answer = encoder.finalize().map(|_| ()).map_err(Error::from);
    assert_eq!(answer, model::all_members(alphabet, folding, text));
}

#[test]
fn from_a_stray_letter_to_a_wrong_file() {
    let mut random = Random(8);
    for (alphabet, folding) in ways() {
        for one_in in [0, 1, 2, 9, 50, 1000] {
            for longest in [9, 70, 300, 300, 3000, 20_000] {
                let len = random.below(longest) as usize;
                let text = text(&mut random, alphabet, folding, len, one_in);
                whole(alphabet, folding, &text);
                in_pieces(&mut random, alphabet, folding, &text);
            }
        }
    }
}

/// A count may be kept in fewer bits for a while: lengths around those, and some that no power of two divides.
#[test]
fn nothing_but_non_members_of_every_length() {
    let longer = [4095, 4096, 4097, 32_767, 32_768, 65_535, 65_536, 65_537, 1_000_003];
    for (alphabet, folding) in ways() {
        let text = vec![strangers(alphabet, folding)[0]; 1_000_003];
        let mut out = vec![0xC3; 1_000_003];
        for len in (0..=1100).chain(longer) {
            let count = len as u64;
            let refusal = Error::NotMember { position: 0, byte: text[0], count };
            let answer = encode_sequence_into(alphabet, folding, &text[..len], &mut out);
            assert_eq!(answer, if len == 0 { Ok(0) } else { Err(refusal) }, "{alphabet} {folding:?}");
            let mut encoder = SequenceEncoder::new(alphabet, folding);
            encoder.update_into(&text[..len], &mut out).unwrap();
            let state = encoder.to_raw();
            assert_eq!((state.has_bad, state.bad_count), (count.min(1), count), "{alphabet} {folding:?}");
        }
    }
}

#[test]
fn one_non_member_at_every_place() {
    let mut random = Random(9);
    for (alphabet, folding) in ways() {
        let stranger = strangers(alphabet, folding)[0];
        for len in [1, 8, 64, 127, 128, 129, 300] {
            let members = text(&mut random, alphabet, folding, len, 0);
            for place in 0..len {
                let mut text = members.clone();
                text[place] = stranger;
                let refusal = Error::NotMember { position: place as u64, byte: stranger, count: 1 };
                assert_eq!(encode_sequence(alphabet, folding, &text), Err(refusal));
                let mut encoder = SequenceEncoder::new(alphabet, folding);
                encoder.update(&text).unwrap();
                encoder.update(&text).unwrap(); // the same once more: the first stays, the count goes on
                let twice = Error::NotMember { position: place as u64, byte: stranger, count: 2 };
                assert_eq!(encoder.finalize().unwrap_err().error(), twice);
            }
        }
    }
}

/// Every byte by itself and beside a member, and all 256 at once.
#[test]
fn every_byte() {
    for (alphabet, folding) in ways() {
        for byte in 0..=255 {
            whole(alphabet, folding, &[byte, b'A', byte]);
        }
        let all: Vec<u8> = (0..=255).collect();
        whole(alphabet, folding, &all);
        let refused = encode_sequence(alphabet, folding, &all).unwrap_err();
        let letters = [4, 8, 16, 26][alphabet as usize]; // of the list, its other symbols are *, - and .
        let members = letters * (1 + folding.number()) + if alphabet == Alphabet::Protein { 3 } else { 0 };
        assert_eq!(refused, Error::NotMember { position: 0, byte: 0, count: 256 - members }, "{alphabet} {folding:?}");
    }
}

#[test]
fn ascii_and_unknown_have_no_non_members() {
    let all: Vec<u8> = (0..=255).collect();
    for (alphabet, folding) in [(Alphabet::Ascii, Folding::Off), (Alphabet::Unknown, Folding::On)] {
        assert_eq!(encode_sequence(alphabet, folding, &all), Ok(all.clone()));
        let mut encoder = SequenceEncoder::new(alphabet, folding);
        encoder.update(&all).unwrap();
        assert_eq!((encoder.to_raw().has_bad, encoder.to_raw().bad_count), (0, 0));
        assert_eq!(encoder.finalize().unwrap(), []);
    }
}

/// A sound state is believed, and its count goes on up to the last symbol that a text may have.
#[test]
fn a_state_that_was_kept_goes_on() {
    let seen = (1 << 60) - 4;
    for bad_count in [1, 1 << 32, seen - 1, seen] {
        let numbers =
            raw::Encoder { seen, has_bad: 1, bad_byte: u64::from(b'N'), bad_count, ..raw::Encoder::default() };
        for (piece, more) in [(b"ACGT", 0), (b"ANGT", 1), (b"NNNN", 4)] {
            let mut encoder = SequenceEncoder::from_raw(numbers);
            encoder.update(piece).unwrap();
            assert_eq!(encoder.update(b"N"), Err(Error::TooFar), "refused, and not counted");
            assert_eq!(encoder.to_raw().bad_count, bad_count + more);
            let refusal = Error::NotMember { position: 0, byte: b'N', count: bad_count + more };
            assert_eq!(encoder.finalize().unwrap_err().error(), refusal);
        }
    }
}

/// Memory is asked for before the symbols, and no answer but a refusal by 5 has a count.
#[test]
fn zeros_unless_refused_by_5() {
    let pack = |alphabet, text: &[u8], room| {
        let mut out = [0xC3; 4];
        let answer = unsafe { raw::fc_encode_sequence(alphabet, 0, text.as_ptr(), text.len(), out.as_mut_ptr(), room) };
        (answer, out[0])
    };
    assert_eq!(pack(0, b"ACGT", 1), (raw::Packed { count: 1, ..raw::Packed::default() }, 0x9C));
    assert_eq!(pack(0, b"ANNN", 0), (raw::Packed { refusal: 4, ..raw::Packed::default() }, 0xC3));
    assert_eq!(pack(6, b"ANNN", 4), (raw::Packed { refusal: 8, ..raw::Packed::default() }, 0xC3));
    let strange = raw::Packed { refusal: 5, count: 0, position: 1, byte: u64::from(b'N'), bad_count: 3 };
    assert_eq!(pack(0, b"ANNN", 1), (strange, 0xC3));
}

#[test]
fn in_words() {
    let shown = |count| Error::NotMember { position: 12, byte: 0x0A, count }.to_string();
    assert_eq!(shown(1), "refused by 5: byte 0A at position 12 is no member, the only one");
    assert_eq!(shown(2), "refused by 5: byte 0A at position 12 is no member, the first of 2");
    assert_eq!(shown(1 << 60), "refused by 5: byte 0A at position 12 is no member, the first of 1152921504606846976");
}
