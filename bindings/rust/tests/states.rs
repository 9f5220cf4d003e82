//! States that a host forges: each call tests the state, and one that is refused comes back as it was, with no byte changed.

mod support;

use fantailclock::{raw, Alphabet, Error, FinalizeError, Guesser, SequenceEncoder, Status, Stream};
use support::guard::{Case, Harness};
use support::model;
use support::random::Random;
use support::table::{encoder, number, rows, Row, STATES};

const PATTERN: [u8; 8] = [0xC3; 8];

/// Nothing follows, or the refusal that the table names.
fn expected(row: &Row) -> Result<(), Error> {
    match row.answer {
        "0" => Ok(()),
        "1" => Err(Error::Unsound),
        "8" => Err(Error::NoAlphabet),
        other => panic!("no such answer: {other}"),
    }
}

/// The states of one kind, each as its numbers, with what is expected of them.
fn states(kind: &str) -> Vec<(Row, Vec<u64>)> {
    let rows = rows(STATES).into_iter().filter(|row| row.words[0] == kind);
    let with_numbers = |row: Row| {
        let numbers = row.words[1..].iter().map(|word| number(word)).collect();
        (row, numbers)
    };
    rows.map(with_numbers).collect()
}

#[test]
fn guessers() {
    let states = states("guesser");
    assert_eq!(states.len(), 24);
    for (row, numbers) in states {
        let (mask, fold) = (numbers[0], numbers[1]);
        let state = raw::Guesser { mask, fold };
        let lowercase = if fold == 1 { mask } else { mask & 16 }; // what holds an a too
        for (text, mask) in [(&b""[..], mask), (b"ACGT", mask), (b"a", lowercase), (b"{", mask & 16)] {
            let mut guesser = Guesser::from_raw(state);
            assert_eq!(guesser.update(text), expected(&row), "{}", row.line);
            let left = if expected(&row).is_ok() { raw::Guesser { mask, fold } } else { state };
            assert_eq!(guesser.to_raw(), left, "{}", row.line);
        }
        let raw_answer = unsafe { raw::fc_guesser_update(state, b"a".as_ptr(), 1) };
        let next = if row.answer == "0" { raw::Guesser { mask: lowercase, fold } } else { state };
        assert_eq!(raw_answer, raw::Guessing { refusal: number(row.answer), next }, "{}", row.line);
        let place = u64::from(mask.trailing_zeros());
        let guess = expected(&row).map(|()| Alphabet::try_from(place).unwrap());
        assert_eq!(Guesser::from_raw(state).guess(), guess, "{}", row.line);
    }
}

/// A sound state as a call answers it: what was ignored is zero.
fn answered(state: raw::Encoder) -> raw::Encoder {
    if state.has_bad == 1 {
        state
    } else {
        raw::Encoder { bad_position: 0, bad_byte: 0, ..state }
    }
}

#[test]
fn encoders() {
    let states = states("encoder");
    assert_eq!(states.len(), 188);
    for (row, numbers) in states {
        let state = encoder(&numbers);
        assert_eq!(model::judged(&state), expected(&row), "the model is not the table's: {}", row.line);
        let mut out = PATTERN;
        let answer = unsafe { raw::fc_encoder_update(state, [].as_ptr(), 0, out.as_mut_ptr(), out.len()) };
        let next = if row.answer == "0" { answered(state) } else { state };
        assert_eq!(answer, raw::Updated { refusal: number(row.answer), count: 0, next }, "{}", row.line);
        let mut safe = SequenceEncoder::from_raw(state);
        assert_eq!(safe.update_into(b"", &mut out), expected(&row).map(|()| 0), "{}", row.line);
        assert_eq!(safe.to_raw(), next, "{}", row.line);
        let mut allocating = SequenceEncoder::from_raw(state);
        assert_eq!(allocating.update(b""), expected(&row).map(|()| vec![]), "{}", row.line);
        assert_eq!(out, PATTERN, "{}", row.line);
        refused_pieces(&row, state);
        last_byte(&row, state);
    }
}

/// With a piece: an unsound state is refused as it is without one; a state at 2^60 takes no further byte.
fn refused_pieces(row: &Row, state: raw::Encoder) {
    let too_far = if state.seen == 1 << 60 { Err(Error::TooFar) } else { Ok(()) };
    let refusal = match expected(row).and(too_far) {
        Ok(()) => return,
        Err(refusal) => refusal,
    };
    let mut out = PATTERN;
    let mut safe = SequenceEncoder::from_raw(state);
    assert_eq!(safe.update_into(b"ACGT", &mut out), Err(refusal), "{}", row.line);
    assert_eq!(safe.update(b"ACGT"), Err(refusal), "{}", row.line);
    assert_eq!((safe.to_raw(), out), (state, PATTERN), "{}", row.line);
    let answer = unsafe { raw::fc_encoder_update(state, b"A".as_ptr(), 1, out.as_mut_ptr(), out.len()) };
    assert_eq!(answer, raw::Updated { refusal: refusal.number(), count: 0, next: state }, "{}", row.line);
    assert_eq!(out, PATTERN, "{}", row.line);
}

/// `finalize` of a state: its refusal; else 5 with the first non-member and the count; else the pending bits with zeros
/// behind them.
fn last_byte(row: &Row, state: raw::Encoder) {
    let mut out = PATTERN;
    let mut after = PATTERN;
    let answer =
        SequenceEncoder::from_raw(state).finalize_into(&mut out).map_err(|refused| handed_back(refused, state));
    let bad = Error::NotMember { position: state.bad_position, byte: state.bad_byte as u8, count: state.bad_count };
    let wanted = match expected(row) {
        Err(refusal) => Err(refusal),
        Ok(()) if state.has_bad == 1 => Err(bad),
        Ok(()) if state.pending_bits == 0 => Ok(0),
        Ok(()) => {
            after[0] = (state.pending << (8 - state.pending_bits)) as u8;
            Ok(1)
        }
    };
    assert_eq!((answer, out), (wanted, after), "{}", row.line);
    let without_memory = if wanted == Ok(1) { Err(Error::ShortMemory) } else { wanted };
    let answer = SequenceEncoder::from_raw(state).finalize_into(&mut []).map_err(|refused| handed_back(refused, state));
    assert_eq!(answer, without_memory, "{}", row.line);
    let allocating = SequenceEncoder::from_raw(state).finalize().map(|last| last.len());
    assert_eq!(allocating.map_err(|refused| handed_back(refused, state)), wanted, "{}", row.line);
}

/// States that have seen so many symbols, with what they keep of non-members forged: every combination of numbers around
/// their limits and of numbers that a narrower field would take for small ones.
fn forged(alphabet: Alphabet, fold: u64, seen: u64) -> Vec<raw::Encoder> {
    let pending_bits = seen % 8 * model::bits(alphabet) % 8;
    let fresh = raw::Encoder { alphabet: alphabet.number(), seen, pending_bits, fold, ..raw::Encoder::default() };
    let mut states = vec![];
    for bad_position in [0, 2, seen.wrapping_sub(1), seen, seen + 1, 1 << 32, 1 << 60, u64::MAX] {
        let most = seen.wrapping_sub(bad_position); // around 2^64 where the position is beyond what was seen
        for bad_byte in [b'N', b'A', b'n', b'a', b'{', 255].map(u64::from).into_iter().chain([256 + 78, u64::MAX]) {
            for bad_count in
                [0, 1, 2, most.wrapping_sub(1), most, most.wrapping_add(1), seen, 256, (1 << 32) + 1, u64::MAX]
            {
                for has_bad in [0, 1, 2, 256, (1 << 32) + 1, u64::MAX] {
                    states.push(raw::Encoder { has_bad, bad_position, bad_byte, bad_count, ..fresh });
                }
            }
        }
    }
    states
}

/// `update` of a state by a piece, asked about and then made: number for number the model's answer.
fn updated(harness: &mut Harness, state: raw::Encoder, piece: &[u8]) {
    let answer = model::answered(&state, piece, 9);
    let told = model::told(&state, &answer);
    harness.check(&Case {
        entry: "fc_encoder_update",
        about: format!("{state:?}"),
        input: piece,
        room: 9,
        expected: answer.map(|(written, _)| written),
        call: &|piece, out| {
            let asked = unsafe { raw::fc_encoder_ask(state, piece.as_ptr(), piece.len(), 9) };
            assert_eq!(asked, told, "{state:?}");
            let answer = unsafe { raw::fc_encoder_update(state, piece.as_ptr(), piece.len(), out.as_mut_ptr(), 9) };
            assert_eq!(answer, told, "{state:?}");
            SequenceEncoder::from_raw(state).update_into(piece, out)
        },
    });
}

/// `finalize` of a state: number for number what the model judges, and the non-members as the state has them.
fn finalized(harness: &mut Harness, state: raw::Encoder) {
    let bad = Error::NotMember { position: state.bad_position, byte: state.bad_byte as u8, count: state.bad_count };
    let pending = if state.has_bad == 1 { Err(bad) } else { Ok(state.pending_bits.min(1)) };
    let last = model::judged(&state).and(pending);
    let told = match last {
        Ok(count) => raw::Packed { count, ..raw::Packed::default() },
        Err(Error::NotMember { position, byte, count }) => {
            raw::Packed { refusal: 5, count: 0, position, byte: u64::from(byte), bad_count: count }
        }
        Err(refusal) => raw::Packed { refusal: refusal.number(), ..raw::Packed::default() },
    };
    harness.check(&Case {
        entry: "fc_encoder_finalize",
        about: format!("{state:?}"),
        input: &[],
        room: 9,
        expected: last.map(|count| vec![0; count as usize]), // what pends is zero
        call: &|_, out| {
            assert_eq!(unsafe { raw::fc_encoder_finalize(state, out.as_mut_ptr(), 9) }, told, "{state:?}");
            Ok(SequenceEncoder::from_raw(state).finalize_into(out)?)
        },
    });
}

#[test]
fn non_members_in_every_combination() {
    let (mut harness, mut random, mut sound) = (Harness::new(), Random(10), 0);
    for alphabet in Alphabet::ALL {
        for (fold, seen) in [(0, 0), (1, 3), (0, 8), (1, (1 << 60) - 3), (0, 1 << 60)] {
            for state in forged(alphabet, fold, seen) {
                updated(&mut harness, state, [&b""[..], b"N", b"na{"][random.below(3) as usize]);
                finalized(&mut harness, state);
                sound += u64::from(state.has_bad == 1 && model::judged(&state).is_ok());
            }
        }
    }
    assert!(sound > 500, "few of them have non-members and are sound: {sound}");
    println!("{} calls with forged states between guard pages", harness.calls);
}

/// Why it was refused; the state must be the one that was handed in.
fn handed_back(refused: FinalizeError, state: raw::Encoder) -> Error {
    let (error, encoder) = refused.into_parts();
    assert_eq!(encoder.to_raw(), state);
    error
}

#[test]
fn streams() {
    let states = states("stream");
    assert_eq!(states.len(), 35);
    for (row, numbers) in states {
        let state = raw::Stream {
            alphabet: numbers[0],
            skip: numbers[1],
            budget: numbers[2],
            pending_bits: numbers[3],
            pending: numbers[4],
        };
        empty_read(&row, state);
        ended(&row, state);
        if let Err(refusal) = expected(&row) {
            let mut out = PATTERN;
            assert_eq!(Stream::from_raw(state).read(&[0xFF; 4], &mut out), Err(refusal), "{}", row.line);
            let answer = unsafe { raw::fc_stream_read(state, [7].as_ptr(), 1, out.as_mut_ptr(), out.len()) };
            let next = raw::Streamed { refusal: refusal.number(), taken: 0, written: 0, status: 0, next: state };
            assert_eq!((answer, out), (next, PATTERN), "{}", row.line);
        }
    }
}

/// A read with no source and no memory moves nothing; its status is the first that holds.
fn empty_read(row: &Row, state: raw::Stream) {
    let status = match state {
        raw::Stream { skip, .. } if skip > 0 => Status::Hungry,
        raw::Stream { budget: 0, .. } => Status::Done,
        _ => Status::Full,
    };
    let answer = Stream::from_raw(state).read(&[], &mut []);
    let told = answer.map(|step| (step.taken, step.written, step.status, step.next.to_raw()));
    assert_eq!(told, expected(row).map(|()| (0, 0, status, state)), "{}", row.line);
}

/// The end call is accepted where nothing is due, else refused with the bases outstanding.
fn ended(row: &Row, state: raw::Stream) {
    let complete = state.skip == 0 && state.budget == 0;
    let due = if complete { Ok(()) } else { Err(Error::Outstanding { bases: state.budget }) };
    assert_eq!(Stream::from_raw(state).end(), expected(row).and(due), "{}", row.line);
}

#[test]
fn refused_starts() {
    for number in [6, 256, 1 << 32, u64::MAX] {
        for fold in [0, 1, 2, 256, 1 << 32, u64::MAX] {
            let started = unsafe { raw::fc_encoder_new(number, fold) };
            let echoed = raw::Encoder { alphabet: number, fold, ..raw::Encoder::default() };
            assert_eq!(started, raw::EncoderStarted { refusal: 8, next: echoed });
        }
        let started = unsafe { raw::fc_stream_new(number, 8, 5) };
        let echoed = raw::Stream { alphabet: number, skip: 8, budget: 5, ..raw::Stream::default() };
        assert_eq!(started, raw::StreamStarted { refusal: 8, next: echoed });
    }
    for skip in [8, 255, 256, 1 << 32, u64::MAX] {
        assert_eq!(Stream::new(Alphabet::Protein, skip, 5), Err(Error::BadSkip));
    }
}
