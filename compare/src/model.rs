//! Document 01's questions and answers, with the choice to fold (A1), the count of non-members (A5), the covered read's
//! question about codes that no symbol has (A7), the guess of a genome (A9), the ask before packing (A10) and the engines of
//! DnaIupac and Protein (A12) that document 02 adds, written from their sentences and not from the Rust: slow, small, and
//! whole. It gives every word of every answer, on a refusal too, and the memory afterwards. It is held against the Rust
//! wherever the Rust has an answer, and decides where the Rust has none. It knows of no blocks, and reads each base by its
//! own bits.

use crate::case::{Call, Entry, Memory, Numbers};
use crate::tally;

pub const LIMIT: u64 = 1 << 60;
pub const HUNGRY: u64 = 1;
pub const DONE: u64 = 2;
pub const FULL: u64 = 3;

/// The symbols of codes 0, 1, 2, .. of the alphabets that have a list; byte v has code v in the others.
pub const LISTS: [&[u8]; 4] = [b"TCAG", b"ACGTNRYU", b"NACMGRSKTWYUBDHV", b"ACDEFGHIKLMNPQRSTVWY*X-.UBZOJ"];
const WIDTHS: [u64; 6] = [2, 3, 4, 5, 8, 8];
const NAMES: [&str; 6] = ["dna2bit", "dna3bit", "dnaio", "protein", "ASCII", "Unknown"];

/// Bits per symbol of an alphabet 0 to 5.
pub fn width(alphabet: u64) -> u64 {
    WIDTHS[alphabet as usize]
}

/// How a byte is taken in: by an alphabet 0 to 5, with folding or without.
#[derive(Clone, Copy)]
pub struct Intake {
    pub alphabet: u64,
    pub fold: bool,
}

impl Intake {
    /// The rule for one byte: with folding a byte 61 to 7A stands for its uppercase letter in the four bit-packed
    /// alphabets. Ascii and Unknown do not fold.
    fn stands_for(self, byte: u8) -> u8 {
        match byte {
            0x61..=0x7A if self.fold && self.alphabet < 4 => byte - 0x20,
            _ => byte,
        }
    }

    /// The code of a member, which is that of what it stands for; a non-member has none.
    pub fn code(self, byte: u8) -> Option<u64> {
        let byte = self.stands_for(byte);
        match LISTS.get(self.alphabet as usize) {
            Some(list) => list.iter().position(|&symbol| symbol == byte).map(|place| place as u64),
            None => Some(u64::from(byte)),
        }
    }

    pub fn width(self) -> u64 {
        width(self.alphabet)
    }
}

/// The symbol of a code; Protein's unassigned codes give X.
fn symbol(alphabet: u64, code: u64) -> u8 {
    match LISTS.get(alphabet as usize) {
        Some(list) => list.get(code as usize).copied().unwrap_or(b'X'),
        None => code as u8,
    }
}

/// Whether a code is one that the alphabet's own list lacks. Where byte v has code v, there is nothing to lack.
pub fn lacks(alphabet: u64, code: u64) -> bool {
    match LISTS.get(alphabet as usize) {
        Some(list) => list.get(code as usize).is_none(),
        None => false,
    }
}

/// The mask of a text: bit i is set exactly when alphabet i holds every byte of it, by the choice.
pub fn mask(fold: bool, text: &[u8]) -> u64 {
    let holds = |&alphabet: &u64| text.iter().all(|&byte| Intake { alphabet, fold }.code(byte).is_some());
    (0..5).filter(holds).map(|i| 1 << i).sum()
}

/// The guess of a text: the place in the order of the first alphabet that holds every byte of it.
pub fn guess(fold: bool, text: &[u8]) -> u64 {
    u64::from(mask(fold, text).trailing_zeros())
}

/// The last in the order of alphabets, Unknown behind the others, that is one of those given.
fn latest(alphabets: &[u64]) -> u64 {
    (0..=5).rfind(|kind| alphabets.contains(kind)).expect("at least one alphabet")
}

/// The lowest `count` bits of a number, most significant first.
fn bits(number: u64, count: u64) -> impl Iterator<Item = u64> {
    (0..count).rev().map(move |k| number >> k & 1)
}

/// The number that a row of bits writes, the first of them the most significant.
fn number(row: &[u64]) -> u64 {
    row.iter().fold(0, |sum, bit| sum * 2 + bit)
}

/// The bits of a text's codes one after another; a non-member counts as a symbol whose bits are all ones.
fn code_bits(intake: Intake, text: &[u8]) -> Vec<u64> {
    let ones = u64::MAX;
    text.iter().flat_map(|&byte| bits(intake.code(byte).unwrap_or(ones), intake.width())).collect()
}

/// A whole text packed: spare low bits of the last byte are zero.
pub fn packed(intake: Intake, text: &[u8]) -> Vec<u8> {
    let mut row = code_bits(intake, text);
    row.resize(row.len().div_ceil(8) * 8, 0);
    row.chunks(8).map(|byte| number(byte) as u8).collect()
}

/// The code of base number `i` of a file, given as the byte at each place.
pub fn code(alphabet: u64, i: u64, file: &dyn Fn(u64) -> u8) -> u64 {
    let first = i * width(alphabet);
    let row: Vec<u64> = (first..first + width(alphabet)).map(|k| u64::from(file(k / 8)) >> (7 - k % 8) & 1).collect();
    number(&row)
}

/// Base number `i` of a file.
pub fn base(alphabet: u64, i: u64, file: &dyn Fn(u64) -> u8) -> u8 {
    symbol(alphabet, code(alphabet, i, file))
}

/// The file of which a window read is lent a run of bytes: elsewhere it is zeros.
pub fn file(call: &Call) -> impl Fn(u64) -> u8 + '_ {
    let [_, byte_offset, ..] = call.numbers;
    move |place| match place.checked_sub(byte_offset) {
        Some(lent) => call.text.get(lent as usize).copied().unwrap_or(0),
        None => 0,
    }
}

/// The first non-member: its place, and the byte as received.
pub fn first_stranger(intake: Intake, text: &[u8]) -> Option<(u64, u8)> {
    let place = text.iter().position(|&byte| intake.code(byte).is_none())?;
    Some((place as u64, text[place]))
}

/// How many bytes of a text are non-members.
pub fn strangers(intake: Intake, text: &[u8]) -> u64 {
    text.iter().filter(|&&byte| intake.code(byte).is_none()).count() as u64
}

/// A refusal: its number, and the values that go with 5, 7 and 18.
#[derive(Debug)]
pub enum No {
    Plain(u64),
    /// Position and byte of the first non-member, and how many there are.
    Member(u64, u8, u64),
    Outstanding(u64),
    /// The window's first base whose code no symbol has, counted from the sequence's start.
    Symbol(u64),
}

pub type Answer = Result<Vec<u64>, No>;

/// The answer to a call, by document 01; what it writes goes into the memory.
pub fn answer(call: &Call, memory: &mut Memory) -> Vec<u64> {
    match accepted(call, memory) {
        Ok(words) => words,
        Err(no) => refused(call, &no),
    }
}

/// On a refusal the state comes back as it was handed in (a start echoes its arguments as they came) and the rest is
/// zero, but for the values that belong to the number.
fn refused(call: &Call, no: &No) -> Vec<u64> {
    let shape = call.entry.shape();
    let mut words = vec![0; shape.answer.split_whitespace().count()];
    match *no {
        No::Plain(number) => words[0] = number,
        No::Member(position, byte, count) => words.copy_from_slice(&[5, 0, position, u64::from(byte), count]),
        No::Outstanding(bases) => words.copy_from_slice(&[7, bases]),
        No::Symbol(base) => words.copy_from_slice(&[18, 0, base]),
    }
    match call.entry {
        Entry::EncoderNew => words.extend(fresh_encoder(call.numbers[0], call.numbers[1])),
        _ => words.extend(&call.numbers[..shape.next.split_whitespace().count()]),
    }
    words
}

/// A question: the refusal's number where the answer is no.
pub fn ask(yes: bool, number: u64) -> Result<(), No> {
    if yes {
        Ok(())
    } else {
        Err(No::Plain(number))
    }
}

fn accepted(call: &Call, memory: &mut Memory) -> Answer {
    let n = call.numbers;
    match call.entry {
        Entry::AbiVersion => Ok(vec![4]),
        Entry::BitsPerSymbol => ask(n[0] <= 5, 8).map(|()| vec![0, width(n[0])]),
        Entry::Contains => {
            ask(n[0] <= 5, 8)?;
            Ok(vec![0, u64::from(contains(Intake { alphabet: n[0], fold: false }, n[1]))])
        }
        Entry::DisplayName => display_name(n[0], memory.lent(0)),
        Entry::GuesserNew => Ok(vec![31, u64::from(chosen(n[0]))]),
        Entry::GuesserUpdate => {
            guesser_sound(n[0], n[1])?;
            Ok(vec![0, n[0] & mask(n[1] == 1, &call.text), n[1]])
        }
        Entry::GuesserGuess => guesser_sound(n[0], n[1]).map(|()| vec![0, u64::from(n[0].trailing_zeros())]),
        Entry::GuessAlphabet | Entry::GuesserList => {
            let text = call.pieces().collect::<Vec<_>>().concat();
            Ok(vec![0, guess(chosen(n[0]), &text)])
        }

        Entry::EncoderNew => {
            ask(n[0] <= 5, 8)?;
            Ok([vec![0], fresh_encoder(n[0], u64::from(chosen(n[1])))].concat())
        }
        Entry::EncoderUpdate => update(&n, &call.text, memory.lent(0)),
        Entry::EncoderFinalize => finalize(&n, memory.lent(0)),
        Entry::EncodeSequence => encode_sequence(n[0], chosen(n[1]), &call.text, memory.lent(0)),
        Entry::ByteRange => byte_range(n[0], n[1], n[2]),
        Entry::EncoderList => Ok(tally::encoder(call, memory)),

        Entry::StreamNew => {
            ask(n[0] <= 5, 8)?;
            ask(n[1] < 8, 6)?;
            Ok(vec![0, n[0], n[1], n[2], 0, 0])
        }
        Entry::StreamRead => stream_read(&n, &call.text, memory.lent(0)),
        Entry::StreamEnd => stream_end(&n),
        Entry::StreamList => Ok(tally::stream(call, memory)),

        Entry::LaterAlphabet => {
            ask(n[0] <= 5 && n[1] <= 5, 8)?;
            Ok(vec![0, latest(&n[..2])])
        }
        // The guesses of the chromosomes; of all of them joined the Rust is asked.
        Entry::GenomeList => {
            let guesses: Vec<u64> = call.pieces().map(|chromosome| guess(chosen(n[0]), chromosome)).collect();
            Ok(vec![0, latest(&guesses)])
        }
        Entry::EncoderAsk => foretold(&n, &call.text, n[9]).map(|(words, _)| words),
        Entry::AskList => Ok(asks(call, memory)),
        _ => window(call, memory.lent(0)),
    }
}

/// The choice that a number handed over as an argument makes: any but 0 folds.
pub fn chosen(number: u64) -> bool {
    number != 0
}

/// Membership; a byte above 255 is no member of any alphabet.
fn contains(intake: Intake, byte: u64) -> bool {
    u8::try_from(byte).is_ok_and(|byte| intake.code(byte).is_some())
}

fn display_name(alphabet: u64, out: &mut [u8]) -> Answer {
    ask(alphabet <= 5, 8)?;
    write(out, NAMES[alphabet as usize].as_bytes()).map(|count| vec![0, count])
}

/// Question 9, then the writing: from the front, and nothing behind it.
fn write(out: &mut [u8], bytes: &[u8]) -> Result<u64, No> {
    ask(bytes.len() <= out.len(), 4)?;
    out[..bytes.len()].copy_from_slice(bytes);
    Ok(bytes.len() as u64)
}

/// Question 4 for a guesser, with the choice that its state keeps: 0 or 1.
fn guesser_sound(mask: u64, fold: u64) -> Result<(), No> {
    ask((16..=31).contains(&mask) && fold <= 1, 1)
}

/// The state of an encoder that has seen nothing.
fn fresh_encoder(alphabet: u64, fold: u64) -> Vec<u64> {
    vec![alphabet, 0, 0, 0, 0, 0, 0, fold, 0]
}

/// Question 4 for an encoder, under the choice that its state keeps: 0 or 1. With no first non-member its position and
/// byte mean nothing. The count is zero exactly then, and else at most the symbols seen from that position on.
fn encoder_sound(state: &Numbers) -> Result<(), No> {
    let [alphabet, seen, pending_bits, pending, has_bad, bad_position, bad_byte, fold, bad_count, _] = *state;
    ask(alphabet <= 5, 8)?;
    ask(fold <= 1, 1)?;
    ask(seen <= LIMIT, 1)?;
    ask(pending_bits == seen * width(alphabet) % 8, 1)?;
    ask(pending < 1 << pending_bits, 1)?;
    ask(has_bad <= 1, 1)?;
    let intake = Intake { alphabet, fold: fold == 1 };
    let truly = bad_byte <= 255 && !contains(intake, bad_byte) && bad_position < seen;
    ask(has_bad == 0 || truly, 1)?;
    ask((bad_count == 0) == (has_bad == 0), 1)?;
    ask(has_bad == 0 || bad_count <= seen - bad_position, 1)
}

/// The answer to a piece and output memory of `room` bytes, and the bytes that it tells of: the questions in their order, and
/// nothing written. Neither `update` nor the ask has another place that asks, or that makes the next state.
fn foretold(state: &Numbers, piece: &[u8], room: u64) -> Result<(Vec<u64>, Vec<u8>), No> {
    encoder_sound(state)?;
    let [alphabet, seen, pending_bits, pending, has_bad, bad_position, bad_byte, fold, bad_count, _] = *state;
    let intake = Intake { alphabet, fold: fold == 1 };
    ask(piece.len() as u64 <= LIMIT - seen, 2)?;
    let mut row: Vec<u64> = bits(pending, pending_bits).collect();
    row.extend(code_bits(intake, piece));
    let whole = row.chunks_exact(8);
    let left = whole.remainder();
    let bytes: Vec<u8> = whole.clone().map(|byte| number(byte) as u8).collect();
    let count = bytes.len() as u64;
    ask(count <= room, 4)?;
    let bad = match first_stranger(intake, piece) {
        _ if has_bad == 1 => [1, bad_position, bad_byte],
        Some((place, byte)) => [1, seen + place, u64::from(byte)],
        None => [0, 0, 0],
    };
    let packed = [alphabet, seen + piece.len() as u64, left.len() as u64, number(left)];
    let known = [bad[0], bad[1], bad[2], fold, bad_count + strangers(intake, piece)];
    Ok(([&[0, count][..], &packed, &known].concat(), bytes))
}

fn update(state: &Numbers, piece: &[u8], out: &mut [u8]) -> Answer {
    let (words, bytes) = foretold(state, piece, out.len() as u64)?;
    out[..bytes.len()].copy_from_slice(&bytes);
    Ok(words)
}

/// A list of pieces. Each is asked about with the length of its memory, then packed into that, then asked about twice more:
/// with the largest length there is, and with the count that this answer tells. All four get the same state, the one that
/// the last update returned.
fn asks(call: &Call, memory: &mut Memory) -> Vec<u64> {
    let mut state = call.numbers;
    let mut words = Vec::new();
    for (at, piece) in call.pieces().enumerate() {
        let handed_in = Call::new(Entry::EncoderUpdate, &state);
        let told = |answer: Answer| answer.unwrap_or_else(|no| refused(&handed_in, &no));
        let asked = |room: u64| told(foretold(&state, piece, room).map(|(words, _)| words));
        let out = memory.lent(at);
        let before = asked(out.len() as u64);
        let packed = told(update(&state, piece, out));
        let most = asked(u64::MAX);
        let exact = asked(most[1]);
        state[..9].copy_from_slice(&packed[2..]);
        words.extend([before, packed, most, exact].concat());
    }
    words
}

fn finalize(state: &Numbers, out: &mut [u8]) -> Answer {
    encoder_sound(state)?;
    let [_, _, pending_bits, pending, has_bad, bad_position, bad_byte, _, bad_count, _] = *state;
    if has_bad == 1 {
        return Err(No::Member(bad_position, bad_byte as u8, bad_count));
    }
    let last = [(pending << (8 - pending_bits)) as u8];
    let count = write(out, if pending_bits > 0 { &last } else { &[] })?;
    Ok(vec![0, count, 0, 0, 0])
}

fn encode_sequence(alphabet: u64, fold: bool, text: &[u8], out: &mut [u8]) -> Answer {
    ask(alphabet <= 5, 8)?;
    ask(text.len() as u64 <= LIMIT, 2)?;
    let intake = Intake { alphabet, fold };
    let bytes = packed(intake, text);
    ask(bytes.len() <= out.len(), 4)?;
    match first_stranger(intake, text) {
        Some((place, byte)) => Err(No::Member(place, byte, strangers(intake, text))),
        None => Ok(vec![0, write(out, &bytes)?, 0, 0, 0]),
    }
}

pub fn byte_range(start: u64, end: u64, bits: u64) -> Answer {
    ask(bits <= 8, 9)?;
    ask(start <= LIMIT && end <= LIMIT, 2)?;
    Ok(vec![0, start * bits / 8, (end * bits).div_ceil(8)])
}

/// All window reads: the zero-filling ones, the covered one and the engines, of which those of one alphabet come with its
/// number and are not refused by 8. Of the covered read alone every byte of the window's range is asked, and every base's
/// code, both of the window and of nothing beside it.
fn window(call: &Call, out: &mut [u8]) -> Answer {
    let [alphabet, byte_offset, start, end, ..] = call.numbers;
    let covered = call.entry == Entry::DecodeCovered;
    if end <= start {
        return Ok(vec![0; call.entry.shape().width()]);
    }
    ask(alphabet <= 5, 8)?;
    ask(end <= LIMIT && byte_offset <= LIMIT, 2)?;
    if covered {
        let range = byte_range(start, end, width(alphabet))?;
        ask(byte_offset <= range[1] && range[2] <= byte_offset + call.text.len() as u64, 3)?;
    }
    ask(end - start <= out.len() as u64, 4)?;
    let file = file(call);
    if covered {
        let lacking = (start..end).find(|&i| lacks(alphabet, code(alphabet, i, &file)));
        lacking.map_or(Ok(()), |base| Err(No::Symbol(base)))?;
    }
    let bases: Vec<u8> = (start..end).map(|i| base(alphabet, i, &file)).collect();
    let count = write(out, &bases)?;
    Ok(if covered { vec![0, count, 0] } else { vec![0, count] })
}

/// Question 4 for a stream.
fn stream_sound(state: &Numbers) -> Result<(), No> {
    let [alphabet, skip, _, pending_bits, pending, ..] = *state;
    ask(alphabet <= 5, 8)?;
    ask(skip < 8 && pending_bits <= 7 && pending < 1 << pending_bits, 1)?;
    ask(skip == 0 || pending_bits == 0, 1)
}

/// A state with p bits pending is that of a stream of skip 8 - p that has taken one byte, so one count serves both: with
/// a skip q, k bases take ceil((q + k·b) / 8) bytes.
fn stream_read(state: &Numbers, source: &[u8], out: &mut [u8]) -> Answer {
    stream_sound(state)?;
    let [alphabet, skip, budget, pending_bits, pending, ..] = *state;
    if skip > 0 && source.is_empty() {
        return Ok(vec![0, 0, 0, HUNGRY, alphabet, skip, budget, 0, 0]);
    }
    let before = if pending_bits > 0 { vec![pending as u8] } else { vec![] };
    let bytes = [&before, source].concat();
    let q = if pending_bits > 0 { 8 - pending_bits } else { skip };
    let b = width(alphabet);
    let k = budget.min(out.len() as u64).min((8 * bytes.len() as u64 - q) / b);
    let row: Vec<u64> = bytes.iter().flat_map(|&byte| bits(u64::from(byte), 8)).skip(q as usize).collect();
    let bases: Vec<u8> = row.chunks(b as usize).take(k as usize).map(|code| symbol(alphabet, number(code))).collect();
    write(out, &bases)?;
    let taken = (q + k * b).div_ceil(8);
    let left = &row[(k * b) as usize..(taken * 8 - q) as usize];
    let status = stream_status(budget - k, out.len() as u64 - k);
    let next = [alphabet, 0, budget - k, left.len() as u64, number(left)];
    Ok([0, taken - before.len() as u64, k, status].into_iter().chain(next).collect())
}

/// The status once no skip is due, first that holds.
pub fn stream_status(budget: u64, room: u64) -> u64 {
    match (budget, room) {
        (0, _) => DONE,
        (_, 0) => FULL,
        _ => HUNGRY,
    }
}

fn stream_end(state: &Numbers) -> Answer {
    stream_sound(state)?;
    let [_, skip, budget, ..] = *state;
    if skip > 0 || budget > 0 {
        return Err(No::Outstanding(budget));
    }
    Ok(vec![0, 0])
}
