//! Folding: soft-masked text, whole and in pieces, beside its uppercased text without folding; every byte by both choices;
//! the choice as a number, in a state, and through every call.

mod support;

use fantailclock::*;
use support::model;
use support::random::Random;

const CHOICES: [Folding; 2] = [Folding::Off, Folding::On];

/// The answer for the uppercased text, with the byte that was received in place of the uppercase one.
fn as_received<T>(answer: Result<T>, received: &[u8]) -> Result<T> {
    answer.map_err(|refusal| match refusal {
        Error::NotMember { position, count, .. } => {
            Error::NotMember { position, byte: received[position as usize], count }
        }
        other => other,
    })
}

/// A soft-masked text for an alphabet: members, and in one of four texts a few bytes of any kind among them.
fn soft_masked(random: &mut Random, alphabet: Alphabet) -> Vec<u8> {
    let longest = [9, 70, 70, 700][random.below(4) as usize] * [1, 20][usize::from(random.below(50) == 0)];
    let len = random.below(longest) as usize;
    let mut text = random.members(alphabet, len);
    if len > 0 && random.below(4) == 0 {
        for _ in 0..=random.below(3) {
            let at = random.below(len as u64) as usize;
            text[at] = random.next() as u8;
        }
    }
    random.soft_masked(&text)
}

/// The text cut in random places, pieces without bytes among them.
fn cut(random: &mut Random, len: usize) -> Vec<std::ops::Range<usize>> {
    let mut places: Vec<usize> = (0..random.below(6)).map(|_| random.below(len as u64 + 1) as usize).collect();
    places.extend([0, len]);
    places.sort_unstable();
    places.windows(2).map(|ends| ends[0]..ends[1]).collect()
}

/// The guess for a text, whole and in pieces, is that of its uppercased text without folding.
fn guesses(random: &mut Random, text: &[u8]) {
    let upper = text.to_ascii_uppercase();
    assert_eq!(guess_alphabet(Folding::On, text), guess_alphabet(Folding::Off, &upper));
    let [mut off, mut on] = CHOICES.map(Guesser::new);
    for piece in cut(random, text.len()) {
        on.update(&text[piece.clone()]).unwrap();
        off.update(&upper[piece]).unwrap();
        assert_eq!(on.to_raw(), raw::Guesser { fold: 1, ..off.to_raw() });
        assert_eq!(on.guess(), off.guess());
    }
    assert_eq!(on.guess(), Ok(guess_alphabet(Folding::On, text)));
}

/// A text packed whole gives what its uppercased text gives without folding; Ascii and Unknown give what they always do.
fn whole(alphabet: Alphabet, text: &[u8]) {
    let taken = model::taken(alphabet, Folding::On, text);
    let packed = encode_sequence(alphabet, Folding::On, text);
    assert_eq!(packed, as_received(encode_sequence(alphabet, Folding::Off, &taken), text), "{alphabet}");
    if let Ok(packed) = packed {
        let read = decode_covered(alphabet, &packed, 0, 0, text.len() as u64);
        assert_eq!(read, Ok(taken), "what comes back is what the text stands for");
    }
}

/// So does a text in pieces, call for call, state for state.
fn in_pieces(random: &mut Random, alphabet: Alphabet, text: &[u8]) {
    let taken = model::taken(alphabet, Folding::On, text);
    let [mut off, mut on] = CHOICES.map(|folding| SequenceEncoder::new(alphabet, folding));
    let mut joined = vec![];
    for piece in cut(random, text.len()) {
        let written = on.update(&text[piece.clone()]).unwrap();
        assert_eq!(written, off.update(&taken[piece]).unwrap());
        joined.extend(written);
        let mut state = raw::Encoder { fold: 1, ..off.to_raw() };
        if state.has_bad == 1 {
            state.bad_byte = u64::from(text[state.bad_position as usize]);
        }
        assert_eq!(on.to_raw(), state, "{alphabet}");
    }
    let last = on.finalize().map_err(Error::from);
    assert_eq!(last, as_received(off.finalize().map_err(Error::from), text), "{alphabet}");
    let packed = last.map(|last| [joined, last].concat());
    assert_eq!(packed, encode_sequence(alphabet, Folding::On, text), "{alphabet}");
}

/// So many random texts, each for every entry point that has the choice.
fn random_texts(seed: u64, texts: u64) {
    let mut random = Random(seed);
    for case in 0..texts {
        let alphabet = Alphabet::ALL[(case % 6) as usize];
        let text = soft_masked(&mut random, alphabet);
        guesses(&mut random, &text);
        whole(alphabet, &text);
        in_pieces(&mut random, alphabet, &text);
    }
}

#[test]
fn soft_masked_text_is_its_uppercased_text() {
    random_texts(5, 30_000);
}

#[test]
fn soft_masked_text_in_threads_at_once() {
    let threads: Vec<_> = (0..8).map(|seed| std::thread::spawn(move || random_texts(100 + seed, 3_000))).collect();
    threads.into_iter().for_each(|thread| thread.join().unwrap());
}

#[test]
fn every_byte_by_both_choices() {
    for (alphabet, folding) in Alphabet::ALL.into_iter().flat_map(|alphabet| CHOICES.map(|choice| (alphabet, choice))) {
        for byte in 0..=255 {
            let stands = match byte {
                b'a'..=b'z' if folding == Folding::On && alphabet.number() < 4 => byte - 32,
                _ => byte,
            };
            let expected = if model::contains(alphabet, stands) {
                Ok(model::pack(alphabet, &[stands]))
            } else {
                Err(Error::NotMember { position: 0, byte, count: 1 })
            };
            assert_eq!(encode_sequence(alphabet, folding, &[byte]), expected, "{alphabet} {folding:?} {byte}");
            let mut encoder = SequenceEncoder::new(alphabet, folding);
            let written = encoder.update(&[byte]).unwrap();
            assert_eq!(written, if model::bits(alphabet) == 8 { vec![byte] } else { vec![] });
            let last = encoder.finalize().map(|last| [written, last].concat()).map_err(Error::from);
            assert_eq!(last, expected, "{alphabet} {folding:?} {byte}");
            assert_eq!(guess_alphabet(folding, &[byte]), model::guess(folding, &[byte]), "{folding:?} {byte}");
        }
    }
}

#[test]
fn any_number_but_zero_folds() {
    for (fold, chosen) in [(0, 0), (1, 1), (2, 1), (255, 1), (256, 1), (1 << 32, 1), (1 << 63, 1), (u64::MAX, 1)] {
        assert_eq!(unsafe { raw::fc_guesser_new(fold) }, raw::Guesser { mask: 31, fold: chosen });
        let guess = unsafe { raw::fc_guess_alphabet(fold, b"acgt".as_ptr(), 4) };
        assert_eq!(guess, raw::Number { refusal: 0, value: if chosen == 1 { 0 } else { 4 } });
        for alphabet in 0..6 {
            let fresh = raw::Encoder { alphabet, fold: chosen, ..raw::Encoder::default() };
            let started = unsafe { raw::fc_encoder_new(alphabet, fold) };
            assert_eq!(started, raw::EncoderStarted { refusal: 0, next: fresh });
            let (mut out, mut by_one) = ([0xC3; 5], [0xC3; 5]);
            let pack = |fold, out: &mut [u8]| unsafe {
                raw::fc_encode_sequence(alphabet, fold, b"acgt".as_ptr(), 4, out.as_mut_ptr(), 5)
            };
            assert_eq!((pack(fold, &mut out), out), (pack(chosen, &mut by_one), by_one));
        }
    }
}

/// The choice of a state is its own through accepted and refused calls, in the alphabets that do not fold too.
#[test]
fn the_choice_stays() {
    for (alphabet, folding) in Alphabet::ALL.into_iter().flat_map(|alphabet| CHOICES.map(|choice| (alphabet, choice))) {
        let mut encoder = SequenceEncoder::new(alphabet, folding);
        for piece in [&b""[..], b"AC", b"gt", b"{}", b"acgtnACGTN"] {
            assert_eq!(encoder.update_into(b"acgtacgt", &mut [0]), Err(Error::ShortMemory));
            encoder.update(piece).unwrap();
            assert_eq!(encoder.to_raw().fold, folding.number(), "{alphabet}");
        }
        if let Err(refused) = encoder.finalize() {
            assert_eq!(refused.into_encoder().to_raw().fold, folding.number(), "{alphabet}");
        }
        let mut guesser = Guesser::new(folding);
        for piece in [&b""[..], b"AC", b"gt", b"{}"] {
            guesser.update(piece).unwrap();
            assert_eq!(guesser.to_raw().fold, folding.number());
        }
    }
}

#[test]
fn a_choice_by_a_flag() {
    assert_eq!([false, true].map(Folding::from), CHOICES);
    assert_eq!(Folding::default(), Folding::Off);
    assert_eq!(CHOICES.map(Folding::number), [0, 1]);
}

/// Reads know nothing of the choice: a file that was packed with folding is the file of its uppercased text.
#[test]
fn a_stream_of_what_was_folded() {
    use std::io::Read;
    let packed = encode_sequence(Alphabet::Dna3bit, Folding::On, b"acgtNRyu").unwrap();
    let mut bases = String::new();
    StreamingDecoder::for_window(&packed[..], Alphabet::Dna3bit, 2, 6).unwrap().read_to_string(&mut bases).unwrap();
    assert_eq!(bases, "GTNR");
}
