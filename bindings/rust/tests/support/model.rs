//! Packing and reading bit by bit, and what makes an encoder's state sound, written from the rules and their symbol lists and
//! not from the library.

use fantailclock::{raw, Alphabet, Error, Folding, Result};

const LISTS: [&[u8]; 4] = [b"TCAG", b"ACGTNRYU", b"NACMGRSKTWYUBDHV", b"ACDEFGHIKLMNPQRSTVWY*X-.UBZOJ"];
const BITS: [u64; 6] = [2, 3, 4, 5, 8, 8];

pub fn bits(alphabet: Alphabet) -> u64 {
    BITS[alphabet as usize]
}

/// The symbols of the lists' alphabets; every byte for the others.
pub fn symbols(alphabet: Alphabet) -> Vec<u8> {
    LISTS.get(alphabet as usize).map_or_else(|| (0..=255).collect(), |list| list.to_vec())
}

pub fn contains(alphabet: Alphabet, byte: u8) -> bool {
    symbols(alphabet).contains(&byte)
}

/// What a text stands for by the choice: in a packed alphabet that folds, the text in uppercase.
pub fn taken(alphabet: Alphabet, folding: Folding, text: &[u8]) -> Vec<u8> {
    if folding == Folding::On && alphabet < Alphabet::Ascii {
        text.to_ascii_uppercase()
    } else {
        text.to_vec()
    }
}

pub fn guess(folding: Folding, text: &[u8]) -> Alphabet {
    let holds = |&alphabet: &Alphabet| taken(alphabet, folding, text).iter().all(|&byte| contains(alphabet, byte));
    Alphabet::ALL.into_iter().find(holds).unwrap()
}

/// The bytes that so many symbols fill, the last one perhaps in part.
pub fn packed_len(alphabet: Alphabet, symbols: u64) -> u64 {
    (symbols * bits(alphabet) + 7) / 8
}

/// The packing of a text, a non-member as ones.
pub fn pack(alphabet: Alphabet, text: &[u8]) -> Vec<u8> {
    let (list, width) = (symbols(alphabet), bits(alphabet) as usize);
    let mut packed = vec![0; packed_len(alphabet, text.len() as u64) as usize];
    for (at, byte) in text.iter().enumerate() {
        let code = list.iter().position(|symbol| symbol == byte).unwrap_or(255);
        for bit in 0..width {
            let place = at * width + bit;
            packed[place / 8] |= ((code >> (width - 1 - bit) & 1) as u8) << (7 - place % 8);
        }
    }
    packed
}

/// Writes the code of one base into a file; all other bits stay.
pub fn put(alphabet: Alphabet, file: &mut [u8], base: usize, code: u8) {
    let width = bits(alphabet) as usize;
    for bit in 0..width {
        let (at, mask) = ((base * width + bit) / 8, 0x80 >> ((base * width + bit) % 8));
        file[at] = if code >> (width - 1 - bit) & 1 == 1 { file[at] | mask } else { file[at] & !mask };
    }
}

/// Accepts a text of members; the refusal of any other has the first non-member as it was received, and how many there are.
pub fn all_members(alphabet: Alphabet, folding: Folding, text: &[u8]) -> Result<()> {
    let taken = taken(alphabet, folding, text);
    let strange: Vec<usize> = (0..text.len()).filter(|&at| !contains(alphabet, taken[at])).collect();
    strange.first().map_or(Ok(()), |&first| {
        Err(Error::NotMember { position: first as u64, byte: text[first], count: strange.len() as u64 })
    })
}

/// Question 4, of an encoder's state that a host hands in: every number asked, the alphabet's first.
pub fn judged(state: &raw::Encoder) -> Result<()> {
    let alphabet = Alphabet::try_from(state.alphabet)?;
    let folding = Folding::from(state.fold == 1);
    let numbers = state.seen <= 1 << 60
        && state.pending_bits == state.seen * bits(alphabet) % 8
        && state.pending < 1 << state.pending_bits
        && state.fold <= 1;
    let from_first = state.seen.checked_sub(state.bad_position); // the symbols seen from the first non-member on
    let strange = |byte: u64| byte <= 255 && all_members(alphabet, folding, &[byte as u8]).is_err();
    let bad = match state.has_bad {
        0 => state.bad_count == 0, // position and byte are ignored
        1 => strange(state.bad_byte) && from_first.map_or(false, |most| (1..=most).contains(&state.bad_count)),
        _ => false,
    };
    if numbers && bad {
        Ok(())
    } else {
        Err(Error::Unsound)
    }
}

/// The bytes that a piece completes, and the state after it, of a sound state that the piece does not take beyond 2^60.
pub fn updated(state: &raw::Encoder, piece: &[u8]) -> (Vec<u8>, raw::Encoder) {
    let alphabet = Alphabet::try_from(state.alphabet).unwrap();
    let (list, width, folding) = (symbols(alphabet), bits(alphabet), Folding::from(state.fold == 1));
    let (mut written, mut next) = (vec![], *state);
    if next.has_bad == 0 {
        (next.bad_position, next.bad_byte) = (0, 0); // ignored, and answered as zeros
    }
    for (&received, taken) in piece.iter().zip(taken(alphabet, folding, piece)) {
        let code = list.iter().position(|&symbol| symbol == taken);
        if code.is_none() && next.has_bad == 0 {
            (next.has_bad, next.bad_position, next.bad_byte) = (1, next.seen, u64::from(received));
        }
        next.bad_count += u64::from(code.is_none());
        next.seen += 1;
        for bit in (0..width).rev() {
            next.pending = next.pending << 1 | code.unwrap_or(255) as u64 >> bit & 1;
            next.pending_bits += 1;
            if next.pending_bits == 8 {
                written.push(next.pending as u8);
                (next.pending_bits, next.pending) = (0, 0);
            }
        }
    }
    (written, next)
}

/// What the rules answer to a piece with output memory of `room` bytes, whether it is packed or only asked about: question by
/// question, then the bytes that a packing writes and the next state.
pub fn answered(state: &raw::Encoder, piece: &[u8], room: u64) -> Result<(Vec<u8>, raw::Encoder)> {
    judged(state)?;
    if state.seen + piece.len() as u64 > 1 << 60 {
        return Err(Error::TooFar);
    }
    let (written, next) = updated(state, piece);
    if written.len() as u64 > room {
        return Err(Error::ShortMemory);
    }
    Ok((written, next))
}

/// The same as the C ABI tells it: on a refusal no count, and the state that was handed in.
pub fn told(state: &raw::Encoder, answer: &Result<(Vec<u8>, raw::Encoder)>) -> raw::Updated {
    match answer {
        Ok((written, next)) => raw::Updated { refusal: 0, count: written.len() as u64, next: *next },
        Err(refusal) => raw::Updated { refusal: refusal.number(), count: 0, next: *state },
    }
}

/// The codes of the bases from `start` to `end` of a file of which `bytes` are those from `offset` on; other bytes are zero.
pub fn codes(alphabet: Alphabet, bytes: &[u8], offset: u64, start: u64, end: u64) -> Vec<usize> {
    let width = bits(alphabet);
    let bit = |place: u64| match (place / 8).checked_sub(offset).and_then(|at| bytes.get(at as usize)) {
        Some(byte) => usize::from(byte >> (7 - place % 8) & 1),
        None => 0,
    };
    (start..end).map(|base| (0..width).fold(0, |code, at| code << 1 | bit(base * width + at))).collect()
}

/// The bases that they stand for, X for a code that the alphabet's list lacks.
pub fn unpack(alphabet: Alphabet, bytes: &[u8], offset: u64, start: u64, end: u64) -> Vec<u8> {
    let list = symbols(alphabet);
    codes(alphabet, bytes, offset, start, end).into_iter().map(|code| *list.get(code).unwrap_or(&b'X')).collect()
}

/// What a read asks of a window, into memory of `room` bytes: question by question. An empty window is asked nothing; `lent` tells
/// whether all bytes are that the read must have.
fn asked(offset: u64, start: u64, end: u64, room: u64, lent: impl FnOnce() -> bool) -> Result<()> {
    let far = 1 << 60;
    if end <= start {
        Ok(())
    } else if end > far || offset > far {
        Err(Error::TooFar)
    } else if !lent() {
        Err(Error::Uncovered)
    } else if room < end - start {
        Err(Error::ShortMemory)
    } else {
        Ok(())
    }
}

/// What a zero-filling read, or an engine, answers of a window, into memory of `room` bytes.
pub fn filled(alphabet: Alphabet, bytes: &[u8], offset: u64, start: u64, end: u64, room: u64) -> Result<Vec<u8>> {
    asked(offset, start, end, room, || true)?;
    Ok(unpack(alphabet, bytes, offset, start, end))
}

/// The same for the covered read.
pub fn covered(alphabet: Alphabet, bytes: &[u8], offset: u64, start: u64, end: u64, room: u64) -> Result<Vec<u8>> {
    asked(offset, start, end, room, || {
        start * bits(alphabet) / 8 >= offset && offset + (bytes.len() as u64) >= packed_len(alphabet, end)
    })?;
    let list = symbols(alphabet);
    let symbol = |(base, code): (u64, usize)| list.get(code).copied().ok_or(Error::NoSymbol { base });
    (start..end).zip(codes(alphabet, bytes, offset, start, end)).map(symbol).collect()
}
