//! The port's answers, through the C ABI of its archive; with a planted fault, those of a port that is wrong there.

use crate::case::{Call, Layer, Memory};
use crate::faults::Fault;

/// The answer of the port to a call. The memory is lent to the port as it is.
pub fn answer(call: &Call, memory: &mut Memory, fault: Option<Fault>) -> Vec<u64> {
    match call.entry.shape().layer {
        Layer::Alphabet => alphabet::answer(call, memory, fault),
        Layer::Packing | Layer::Asking => packing::answer(call, memory, fault),
        Layer::Windows | Layer::Blocks => windows::answer(call, memory, fault),
        Layer::Streaming | Layer::Ending => streaming::answer(call, memory, fault),
        Layer::Genome => genome::answer(call, memory, fault),
    }
}

/// One plain call between a fault's change of what goes in and its change of what comes out.
fn faulty(call: &Call, out: &mut [u8], fault: Option<Fault>, plain: fn(&Call, &mut [u8]) -> Vec<u64>) -> Vec<u64> {
    let Some(fault) = fault else { return plain(call, out) };
    let before = out.to_vec();
    let mut words = plain(&fault.call(call), out);
    fault.answer(call, &before, &mut words, out);
    words
}

mod alphabet {
    use super::{faulty, Call, Fault, Memory};
    use crate::abi::{self, words, Guesser};
    use crate::case::Entry;

    pub fn answer(call: &Call, memory: &mut Memory, fault: Option<Fault>) -> Vec<u64> {
        match call.entry {
            Entry::GuesserList => list(call, fault),
            _ => faulty(call, memory.lent(0), fault, plain),
        }
    }

    pub fn plain(call: &Call, out: &mut [u8]) -> Vec<u64> {
        let [first, second, ..] = call.numbers;
        let state = Guesser { mask: first, fold: second };
        let (text, len) = (call.text.as_ptr(), call.text.len());
        // SAFETY: each pointer is lent with its length and the two memories are apart.
        unsafe {
            match call.entry {
                Entry::AbiVersion => words(abi::fc_abi_version()),
                Entry::BitsPerSymbol => words(abi::fc_bits_per_symbol(first)),
                Entry::Contains => words(abi::fc_contains(first, second)),
                Entry::DisplayName => words(abi::fc_display_name(first, out.as_mut_ptr(), out.len())),
                Entry::GuesserNew => words(abi::fc_guesser_new(first)),
                Entry::GuesserUpdate => words(abi::fc_guesser_update(state, text, len)),
                Entry::GuesserGuess => words(abi::fc_guesser_guess(state)),
                Entry::GuessAlphabet => words(abi::fc_guess_alphabet(first, text, len)),
                _ => unreachable!("{:?}", call.entry),
            }
        }
    }

    fn list(call: &Call, fault: Option<Fault>) -> Vec<u64> {
        let mut state = faulty(&Call::new(Entry::GuesserNew, &call.numbers[..1]), &mut [], fault, plain);
        for piece in call.pieces() {
            let update = Call::new(Entry::GuesserUpdate, &state).text(piece);
            state = faulty(&update, &mut [], fault, plain)[1..].to_vec();
        }
        faulty(&Call::new(Entry::GuesserGuess, &state), &mut [], fault, plain)
    }
}

mod packing {
    use super::{faulty, Call, Fault, Memory};
    use crate::abi::{self, words, Encoder};
    use crate::case::Entry;

    pub fn answer(call: &Call, memory: &mut Memory, fault: Option<Fault>) -> Vec<u64> {
        match call.entry {
            Entry::EncoderList => list(call, memory, fault),
            Entry::AskList => asks(call, memory, fault),
            _ => faulty(call, memory.lent(0), fault, plain),
        }
    }

    fn plain(call: &Call, out: &mut [u8]) -> Vec<u64> {
        let [alphabet, seen, pending_bits, pending, has_bad, bad_position, bad_byte, fold, bad_count, length] =
            call.numbers;
        let state = Encoder { alphabet, seen, pending_bits, pending, has_bad, bad_position, bad_byte, fold, bad_count };
        let (text, len) = (call.text.as_ptr(), call.text.len());
        let (out, room) = (out.as_mut_ptr(), out.len());
        // SAFETY: each pointer is lent with its length and the two memories are apart.
        unsafe {
            match call.entry {
                Entry::EncoderNew => words(abi::fc_encoder_new(alphabet, call.numbers[1])),
                Entry::EncoderAsk => words(abi::fc_encoder_ask(state, text, len, length)),
                Entry::EncoderUpdate => words(abi::fc_encoder_update(state, text, len, out, room)),
                Entry::EncoderFinalize => words(abi::fc_encoder_finalize(state, out, room)),
                Entry::EncodeSequence => {
                    words(abi::fc_encode_sequence(alphabet, call.numbers[1], text, len, out, room))
                }
                Entry::ByteRange => {
                    let [start, end, bits, ..] = call.numbers;
                    words(abi::fc_byte_range_for_bases(start, end, bits))
                }
                _ => unreachable!("{:?}", call.entry),
            }
        }
    }

    /// Each call gets the state last returned; an accepted `finalize` ends the list.
    fn list(call: &Call, memory: &mut Memory, fault: Option<Fault>) -> Vec<u64> {
        let start = Call::new(Entry::EncoderNew, &call.numbers[..2]);
        let mut state = faulty(&start, &mut [], fault, plain)[1..].to_vec();
        let mut pieces = call.pieces();
        let mut words = Vec::new();
        for (at, step) in call.steps.iter().enumerate() {
            if step.last {
                let last = Call::new(Entry::EncoderFinalize, &state);
                let answer = faulty(&last, memory.lent(at), fault, plain);
                words.extend(&answer);
                if answer[0] == 0 {
                    break;
                }
                continue;
            }
            let update = Call::new(Entry::EncoderUpdate, &state).text(pieces.next().unwrap_or(&[]));
            let answer = faulty(&update, memory.lent(at), fault, plain);
            words.extend([answer[0], answer[1], 0, 0, 0]);
            state = answer[2..].to_vec();
        }
        words
    }

    /// What an update does beside what is told of it: each piece is asked about with the length of its memory, then packed
    /// into that, then asked about twice more, with the largest length there is and with the count that this answer tells.
    /// All four get the same state, the one that the last update returned.
    fn asks(call: &Call, memory: &mut Memory, fault: Option<Fault>) -> Vec<u64> {
        let mut state = call.numbers[..9].to_vec();
        let mut words = Vec::new();
        for (at, piece) in call.pieces().enumerate() {
            let asked = |room: u64| faulty(&Call::ask(&state, piece, room), &mut [], fault, plain);
            let out = memory.lent(at);
            let before = asked(out.len() as u64);
            let update = Call::new(Entry::EncoderUpdate, &state).text(piece);
            let packed = faulty(&update, out, fault, plain);
            let most = asked(u64::MAX);
            let exact = asked(most[1]);
            state = packed[2..].to_vec();
            words.extend([before, packed, most, exact].concat());
        }
        words
    }
}

mod windows {
    use super::{faulty, Call, Fault, Memory};
    use crate::abi::{self, words, Engine, Window};
    use crate::case::Entry;

    pub fn answer(call: &Call, memory: &mut Memory, fault: Option<Fault>) -> Vec<u64> {
        faulty(call, memory.lent(0), fault, plain)
    }

    fn plain(call: &Call, out: &mut [u8]) -> Vec<u64> {
        let [alphabet, offset, start, end, ..] = call.numbers;
        let (bytes, len) = (call.text.as_ptr(), call.text.len());
        let (out, room) = (out.as_mut_ptr(), out.len());
        let window = |read: Window| unsafe { read(alphabet, bytes, len, offset, start, end, out, room) };
        let engine = |engine: Engine| unsafe { engine(bytes, len, offset, start, end, out, room) };
        if call.entry == Entry::DecodeCovered {
            // SAFETY: as below. Its answer has a word more than those of the others.
            return words(unsafe { abi::fc_decode_covered(alphabet, bytes, len, offset, start, end, out, room) });
        }
        // SAFETY: each pointer is lent with its length and the two memories are apart.
        words(unsafe {
            match call.entry {
                Entry::DecodeAtOffset => window(abi::fc_decode_substring_from_bytes_at_offset),
                Entry::DecodeRolling => window(abi::fc_decode_rolling),
                Entry::DecodeSubstring => {
                    abi::fc_decode_substring_from_bytes(alphabet, bytes, len, start, end, out, room)
                }
                Entry::DecodeString => abi::fc_decode_string_from_bytes(alphabet, bytes, len, end, out, room),
                Entry::Decode2bit => engine(abi::fc_decode_2bit),
                Entry::Decode3bit => engine(abi::fc_decode_3bit),
                Entry::Decode4bit => engine(abi::fc_decode_4bit),
                Entry::Decode5bit => engine(abi::fc_decode_5bit),
                _ => unreachable!("{:?}", call.entry),
            }
        })
    }
}

mod streaming {
    use super::{faulty, Call, Fault, Memory};
    use crate::abi::{self, words, Stream};
    use crate::case::Entry;

    pub fn answer(call: &Call, memory: &mut Memory, fault: Option<Fault>) -> Vec<u64> {
        match call.entry {
            Entry::StreamList => list(call, memory, fault),
            _ => faulty(call, memory.lent(0), fault, plain),
        }
    }

    fn plain(call: &Call, out: &mut [u8]) -> Vec<u64> {
        let [alphabet, skip, budget, pending_bits, pending, ..] = call.numbers;
        let state = Stream { alphabet, skip, budget, pending_bits, pending };
        let (source, len) = (call.text.as_ptr(), call.text.len());
        // SAFETY: each pointer is lent with its length and the two memories are apart.
        unsafe {
            match call.entry {
                Entry::StreamNew => words(abi::fc_stream_new(alphabet, skip, budget)),
                Entry::StreamRead => words(abi::fc_stream_read(state, source, len, out.as_mut_ptr(), out.len())),
                Entry::StreamEnd => words(abi::fc_stream_end(state)),
                _ => unreachable!("{:?}", call.entry),
            }
        }
    }

    /// Each read gets the state last returned and the bytes from the first not yet taken; an accepted end call ends it.
    fn list(call: &Call, memory: &mut Memory, fault: Option<Fault>) -> Vec<u64> {
        let start = Call::new(Entry::StreamNew, &call.numbers[..3]);
        let mut state = faulty(&start, &mut [], fault, plain)[1..].to_vec();
        let mut taken = 0;
        let mut words = Vec::new();
        for (at, step) in call.steps.iter().enumerate() {
            if step.last {
                let answer = faulty(&Call::new(Entry::StreamEnd, &state), &mut [], fault, plain);
                words.extend([answer[0], answer[1], 0, 0]);
                if answer[0] == 0 {
                    break;
                }
                continue;
            }
            let source = &call.text[taken..call.text.len().min(taken + step.length)];
            let answer = faulty(&Call::new(Entry::StreamRead, &state).text(source), memory.lent(at), fault, plain);
            words.extend(&answer[..4]);
            taken = call.text.len().min(taken + answer[1] as usize);
            state = answer[4..].to_vec();
        }
        words
    }
}

mod genome {
    use super::{alphabet, faulty, Call, Fault, Memory};
    use crate::abi::{self, words};
    use crate::case::Entry;

    pub fn answer(call: &Call, memory: &mut Memory, fault: Option<Fault>) -> Vec<u64> {
        match call.entry {
            Entry::GenomeList => list(call, fault),
            _ => faulty(call, memory.lent(0), fault, plain),
        }
    }

    fn plain(call: &Call, _: &mut [u8]) -> Vec<u64> {
        let [one, other, ..] = call.numbers;
        // SAFETY: the call is lent nothing.
        words(unsafe { abi::fc_later_alphabet(one, other) })
    }

    /// Dna2bit, then the guess of each chromosome on its own: combined, they are the answer.
    fn list(call: &Call, fault: Option<Fault>) -> Vec<u64> {
        let mut guesses = vec![0];
        for chromosome in call.pieces() {
            let guess = Call::new(Entry::GuessAlphabet, &call.numbers[..1]).text(chromosome);
            guesses.push(faulty(&guess, &mut [], fault, alphabet::plain)[1]);
        }
        if let Some(fault) = fault {
            fault.guesses(call, &mut guesses);
        }
        let [_, order, brackets, ..] = call.numbers;
        combined(laid_out(guesses, order), brackets, fault)
    }

    /// The guesses in the order that a number names, by its digits; 0 leaves them as they stand.
    fn laid_out(mut guesses: Vec<u64>, mut order: u64) -> Vec<u64> {
        (0..guesses.len()).map(|_| guesses.remove(digit(&mut order, guesses.len()))).collect()
    }

    /// Two neighbours at a time give one in their place, until one is left. A number names by its digits which two; 0 takes
    /// them from the front on. A combination that is refused is the answer.
    fn combined(mut row: Vec<u64>, mut brackets: u64, fault: Option<Fault>) -> Vec<u64> {
        while row.len() > 1 {
            let at = digit(&mut brackets, row.len() - 1);
            let words = faulty(&Call::new(Entry::LaterAlphabet, &row[at..at + 2]), &mut [], fault, plain);
            if words[0] != 0 {
                return words;
            }
            row.splice(at..at + 2, [words[1]]);
        }
        vec![0, row[0]]
    }

    /// The last digit of a number, where a digit has so many values; the number goes on without it.
    fn digit(number: &mut u64, values: usize) -> usize {
        let digit = *number % values as u64;
        *number /= values as u64;
        digit as usize
    }
}
