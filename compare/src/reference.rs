//! The Rust's answers, put in the port's form as document 01 maps them: `Vec` to lent memory and a count, `Read` to
//! source bytes, `&mut self` to a state. Only calls in demand 2's domain get one. The Rust does not fold: a call that
//! folds is put to it with the uppercased text, and the byte that it then reports is exchanged for the one received. Nor
//! does it count non-members: of a state and of a refusal 5 it tells all but the count. Nor does any read of its refuse a
//! code that no symbol has; which codes these are, its own table tells (`packed_again`). Nor does it combine guesses: it is
//! asked for its guess of the texts joined. Nor can it be asked before it packs: it packs a copy, and what it then tells is
//! its answer, what it wrote left unseen. Nor has it an engine for DnaIupac alone, or for Protein: there its rolling engine
//! answers by the alphabet's table, beside the public read and the naive decoder, as for any other window of these two.

use crate::case::{Call, Entry, Layer, Memory};
use crate::model;
use oracle::digest::alphabet::{self, lookup_alphabet, Alphabet, AlphabetGuesser, AlphabetType, ALPHABET_ORDER};
use oracle::digest::encoder::inside::{self, State};
use oracle::digest::encoder::{self, EncodeError, SequenceEncoder};
use oracle::digest::streaming_decoder::StreamingDecoder;
use std::cell::Cell;
use std::io::Read;

const KINDS: [AlphabetType; 6] = [
    AlphabetType::Dna2bit,
    AlphabetType::Dna3bit,
    AlphabetType::DnaIupac,
    AlphabetType::Protein,
    AlphabetType::Ascii,
    AlphabetType::Unknown,
];

/// What one function of the Rust answers: a row of words, or one for each call of a list. Words at the end of a row that
/// the Rust does not tell are left out.
pub struct Opinion {
    pub of: &'static str,
    pub rows: Vec<Vec<u64>>,
    pub memory: Memory,
}

impl Opinion {
    /// Whether an answer to the call is this one as far as this goes, memory and all.
    pub fn agrees(&self, call: &Call, words: &[u64], memory: &Memory) -> bool {
        let rows = words.chunks(call.entry.shape().width());
        let told = rows.len() == self.rows.len() && rows.zip(&self.rows).all(|(row, told)| row.starts_with(told));
        told && *memory == self.memory
    }
}

/// The words that the Rust tells of each call of a list: all of a stream's answer, and of an encoder's all but the count.
const TOLD: usize = 4;
/// The words that it tells of an update: all but the next state's choice and its count.
const UPDATED: usize = 9;

/// Collects opinions about one call, each with memory of its own.
struct Panel<'a> {
    /// The call as the Rust is asked.
    call: &'a Call,
    /// The call as it was received.
    received: &'a Call,
    before: &'a Memory,
    opinions: Vec<Opinion>,
}

impl Panel<'_> {
    fn say(&mut self, of: &'static str, answer: impl FnOnce(&Call, &mut Memory) -> Vec<u64>) {
        let mut memory = self.before.clone();
        let mut words = answer(self.call, &mut memory);
        if self.received.text != self.call.text {
            report_received(self.received, &mut words);
        }
        let row = match self.call.entry {
            Entry::EncoderList | Entry::StreamList => TOLD,
            Entry::AskList => UPDATED,
            _ => words.len(),
        };
        let rows = words.chunks(row).map(<[u64]>::to_vec).collect();
        self.opinions.push(Opinion { of, rows, memory });
    }

    /// A function that returns the bytes to write.
    fn bytes(&mut self, of: &'static str, answer: impl FnOnce(&Call) -> Vec<u8>) {
        self.say(of, |call, memory| {
            let bytes = answer(call);
            write(memory.lent(0), &bytes);
            vec![0, bytes.len() as u64]
        });
    }
}

fn write(out: &mut [u8], bytes: &[u8]) {
    out[..bytes.len()].copy_from_slice(bytes);
}

/// The call that the Rust is asked: with folding the text is uppercased, but not for Ascii and Unknown.
fn asked(call: &Call) -> Call {
    let mut asked = call.clone();
    if call.folds() && call.alphabet().unwrap_or(0) < 4 {
        asked.text.make_ascii_uppercase();
    }
    asked
}

/// Exchanges the byte that the Rust reports of an uppercased text for the one received in its place. A byte that is not
/// its uppercase stays, and differs then.
fn report_received(call: &Call, words: &mut [u64]) {
    let exchange = |before: u64, found: &mut [u64]| {
        let place = found[0].checked_sub(before).and_then(|place| call.text.get(place as usize));
        if let Some(byte) = place.filter(|byte| u64::from(byte.to_ascii_uppercase()) == found[1]) {
            found[1] = u64::from(*byte);
        }
    };
    match call.entry {
        Entry::EncoderUpdate | Entry::EncoderAsk | Entry::AskList => {
            let bad = words.chunks_mut(UPDATED).filter(|answer| answer[6] == 1);
            bad.for_each(|answer| exchange(call.numbers[1], &mut answer[7..]));
        }
        Entry::EncodeSequence | Entry::EncoderList => {
            words.chunks_mut(TOLD).filter(|answer| answer[0] == 5).for_each(|answer| exchange(0, &mut answer[2..]));
        }
        _ => {}
    }
}

/// The opinions of the Rust on a call that document 01 answers with `expected`; none outside demand 2's domain.
pub fn opinions(call: &Call, before: &Memory, expected: &[u64]) -> Vec<Opinion> {
    let mut refusals = expected.iter().step_by(call.entry.shape().width());
    let stream = call.entry == Entry::StreamList; // its only refusal is the end call's, which the Rust has not
    let inside = stream || refusals.all(|&number| number == 0 || number == 5);
    let answers_no_refusal = matches!(call.entry, Entry::AbiVersion | Entry::GuesserNew);
    let mut panel = Panel { call: &asked(call), received: call, before, opinions: Vec::new() };
    if call.alphabet().unwrap_or(0) > 5 || !(inside || answers_no_refusal) {
        return panel.opinions;
    }
    match call.entry.shape().layer {
        Layer::Alphabet => of_alphabet(&mut panel),
        Layer::Packing | Layer::Asking => of_packing(&mut panel),
        Layer::Windows | Layer::Blocks => of_windows(&mut panel),
        Layer::Streaming | Layer::Ending => of_streaming(&mut panel),
        Layer::Genome => of_genome(&mut panel),
    }
    panel.opinions
}

fn kind(call: &Call) -> AlphabetType {
    KINDS[call.numbers[0] as usize]
}

fn table(call: &Call) -> &'static Alphabet {
    lookup_alphabet(&kind(call))
}

fn number_of(kind: AlphabetType) -> u64 {
    KINDS.iter().position(|&one| one == kind).expect("six kinds") as u64
}

fn of_alphabet(panel: &mut Panel) {
    match panel.call.entry {
        Entry::BitsPerSymbol => {
            panel.say("AlphabetType::bits_per_symbol", |call, _| vec![0, kind(call).bits_per_symbol() as u64]);
            panel.say("Alphabet.bits_per_symbol", |call, _| vec![0, table(call).bits_per_symbol as u64]);
        }
        Entry::Contains if panel.call.numbers[1] <= 255 => {
            panel.say("Alphabet::contains", |call, _| vec![0, u64::from(table(call).contains(call.numbers[1] as u8))]);
        }
        Entry::DisplayName => panel.bytes("Display", |call| kind(call).to_string().into_bytes()),
        Entry::GuesserNew => panel.say("AlphabetGuesser::new", |_, _| vec![acc(&AlphabetGuesser::new())]),
        Entry::GuesserUpdate => panel.say("AlphabetGuesser::update", |call, _| {
            let mut guesser = alphabet::inside::guesser(call.numbers[0] as u8);
            guesser.update(&call.text);
            vec![0, acc(&guesser)]
        }),
        Entry::GuesserGuess => panel.say("AlphabetGuesser::guess", |call, _| {
            vec![0, number_of(alphabet::inside::guesser(call.numbers[0] as u8).guess())]
        }),
        Entry::GuessAlphabet => {
            panel.say("guess_alphabet", |call, _| vec![0, guess(&call.text)]);
            panel.say("ALPHABET_MASK", |call, _| vec![0, u64::from(masked(&call.text).trailing_zeros())]);
        }
        Entry::GuesserList => panel.say("AlphabetGuesser", |call, _| {
            let mut guesser = AlphabetGuesser::new();
            call.pieces().for_each(|piece| guesser.update(piece));
            vec![0, number_of(guesser.guess())]
        }),
        _ => {}
    }
}

fn guess(text: &[u8]) -> u64 {
    number_of(alphabet::guess_alphabet(text))
}

fn acc(guesser: &AlphabetGuesser) -> u64 {
    u64::from(alphabet::inside::acc(guesser))
}

fn masked(text: &[u8]) -> u8 {
    let mask = alphabet::inside::alphabet_mask();
    text.iter().fold(31, |left, &byte| left & mask[byte as usize])
}

fn of_packing(panel: &mut Panel) {
    match panel.call.entry {
        Entry::EncoderNew => panel.say("SequenceEncoder::new", |call, _| {
            let fresh = SequenceEncoder::new(kind(call), 0);
            [vec![0], next_words(call.numbers[0], &fresh)].concat()
        }),
        Entry::EncoderUpdate => panel.say("SequenceEncoder::update", |call, memory| {
            let (words, bytes) = updated(call, &mut forged(call), &call.text);
            write(memory.lent(0), &bytes);
            words
        }),
        Entry::EncoderAsk => panel.say("SequenceEncoder::update of a copy", |call, _| {
            let (words, _) = updated(call, &mut forged(call), &call.text);
            words
        }),
        Entry::AskList => panel.say("SequenceEncoder::update, piece by piece", ask_list),
        Entry::EncoderFinalize => {
            panel.say("SequenceEncoder::finalize", |call, memory| packed(forged(call).finalize(), memory.lent(0)))
        }
        Entry::EncodeSequence => {
            panel.say("encode_sequence", |call, memory| {
                packed(encoder::encode_sequence(&call.text, table(call)), memory.lent(0))
            });
            panel.say("SequenceEncoder, one piece", |call, memory| packed(encoded(call), memory.lent(0)));
        }
        Entry::ByteRange => panel.say("byte_range_for_bases", |call, _| {
            let [start, end, bits, ..] = call.numbers.map(|number| number as usize);
            let range = encoder::byte_range_for_bases(start, end, bits);
            vec![0, range.0 as u64, range.1 as u64]
        }),
        Entry::EncoderList => {
            panel.say("SequenceEncoder, call by call", encoder_list);
            if panel.call.ends_once() {
                joined(panel);
            }
        }
        _ => {}
    }
}

/// An encoder in the state that the call hands in, which is sound.
fn forged(call: &Call) -> SequenceEncoder {
    let [_, seen, pending_bits, pending, has_bad, position, byte, ..] = call.numbers;
    let first_bad = (has_bad == 1).then_some((position as usize, byte as u8));
    let state = State { symbols_seen: seen as usize, buffer: pending, buffer_bits: pending_bits as usize, first_bad };
    inside::encoder(kind(call), state)
}

/// The state of the Rust's encoder; it has no choice to tell, and no count.
fn next_words(alphabet: u64, encoder: &SequenceEncoder) -> Vec<u64> {
    let state = inside::state(encoder);
    let (position, byte) = state.first_bad.unwrap_or((0, 0));
    let has_bad = u64::from(state.first_bad.is_some());
    let bits = state.buffer_bits as u64;
    vec![alphabet, state.symbols_seen as u64, bits, state.buffer, has_bad, position as u64, u64::from(byte)]
}

/// A piece behind those that the encoder has: the answer, and the bytes that the piece completes.
fn updated(call: &Call, encoder: &mut SequenceEncoder, piece: &[u8]) -> (Vec<u64>, Vec<u8>) {
    let before = inside::written(encoder).len();
    encoder.update(piece);
    let bytes = inside::written(encoder)[before..].to_vec();
    ([vec![0, bytes.len() as u64], next_words(call.numbers[0], encoder)].concat(), bytes)
}

/// Each piece is packed once: what that answers is the answer to every ask about it.
fn ask_list(call: &Call, memory: &mut Memory) -> Vec<u64> {
    let mut encoder = forged(call);
    let mut words = Vec::new();
    for (at, piece) in call.pieces().enumerate() {
        let (answer, bytes) = updated(call, &mut encoder, piece);
        write(memory.lent(at), &bytes);
        words.extend(answer.repeat(4));
    }
    words
}

fn packed(result: Result<Vec<u8>, EncodeError>, out: &mut [u8]) -> Vec<u64> {
    match result {
        Ok(bytes) => {
            write(out, &bytes);
            vec![0, bytes.len() as u64, 0, 0]
        }
        Err(EncodeError::InvalidSymbol { byte, position, .. }) => vec![5, 0, position as u64, u64::from(byte)],
    }
}

/// The text, or the pieces of a list, through one encoder.
fn encoded(call: &Call) -> Result<Vec<u8>, EncodeError> {
    let mut encoder = SequenceEncoder::new(kind(call), call.text.len());
    call.pieces().for_each(|piece| encoder.update(piece));
    encoder.finalize()
}

/// Each call of a list by itself. `finalize` consumes its encoder, so it gets one in the same state.
fn encoder_list(call: &Call, memory: &mut Memory) -> Vec<u64> {
    let mut encoder = SequenceEncoder::new(kind(call), 0);
    let mut pieces = call.pieces();
    let mut words = Vec::new();
    for (at, step) in call.steps.iter().enumerate() {
        if step.last {
            let answer = packed(inside::encoder(kind(call), inside::state(&encoder)).finalize(), memory.lent(at));
            let ended = answer[0] == 0;
            words.extend(answer);
            if ended {
                break;
            }
            continue;
        }
        let (answer, bytes) = updated(call, &mut encoder, pieces.next().unwrap_or(&[]));
        write(memory.lent(at), &bytes);
        words.extend([0, answer[1], 0, 0]);
    }
    words
}

/// After an accepted `finalize` the bytes written, joined, are those of one packing of the pieces joined.
fn joined(panel: &mut Panel) {
    let text = panel.call.pieces().collect::<Vec<_>>().concat();
    if let Ok(bytes) = encoded(panel.call) {
        panel.say("SequenceEncoder, bytes joined", |call, memory| cut(call, &bytes, memory));
    }
    if let Ok(bytes) = encoder::encode_sequence(text, table(panel.call)) {
        panel.say("encode_sequence of the pieces joined", |call, memory| cut(call, &bytes, memory));
    }
}

/// The bytes of a whole packing laid out over a list of updates and the `finalize` that ends it: an update gets the
/// bytes that its symbols complete.
fn cut(call: &Call, bytes: &[u8], memory: &mut Memory) -> Vec<u64> {
    let bits = table(call).bits_per_symbol;
    let (mut symbols, mut words) = (0, Vec::new());
    for (at, piece) in call.pieces().enumerate() {
        let range = symbols * bits / 8..(symbols + piece.len()) * bits / 8;
        symbols += piece.len();
        words.extend([0, range.len() as u64, 0, 0]);
        write(memory.lent(at), &bytes[range]);
    }
    let rest = bytes[symbols * bits / 8..].to_vec();
    words.extend(packed(Ok(rest), memory.lent(call.steps.len() - 1)));
    words
}

fn of_windows(panel: &mut Panel) {
    let call = panel.call;
    let [kind, _, start, end, ..] = call.numbers;
    match call.entry {
        Entry::DecodeSubstring => panel.bytes("decode_substring_from_bytes", |call| {
            encoder::decode_substring_from_bytes(&call.text, start as usize, end as usize, table(call))
        }),
        Entry::DecodeString => panel.bytes("decode_string_from_bytes", |call| {
            encoder::decode_string_from_bytes(&call.text, end as usize, table(call))
        }),
        _ => panel.bytes("decode_substring_from_bytes_at_offset", |call| {
            engine(encoder::decode_substring_from_bytes_at_offset, call)
        }),
    }
    // The private engines are asked wherever document 01 has them in the domain, but for an empty window far out,
    // where they overflow while they prepare a loop that does not run.
    if start > end || (start == end && start > model::LIMIT) || call.numbers[1] > model::LIMIT {
        return;
    }
    panel.bytes("decode_substring_naive_at_offset", |call| engine(inside::NAIVE, call));
    panel.bytes("decode_rolling", |call| engine(inside::ROLLING, call));
    match kind {
        0 => panel.bytes("decode_2bit", |call| engine(inside::TWO, call)),
        1 => panel.bytes("decode_3bit", |call| engine(inside::THREE, call)),
        _ => {}
    }
}

/// What two functions of the Rust make, together, of the question that none of them asks: whether the window of a covered
/// read has a code that no symbol has. Such a code reads as some symbol and does not come back when that is packed again.
/// Said of every covered read that passes all other questions, and of nothing else.
pub fn packed_again(call: &Call, before: &Memory, expected: &[u64]) -> Option<Opinion> {
    let [_, byte_offset, start, end, ..] = call.numbers;
    if call.entry != Entry::DecodeCovered || end <= start || !matches!(expected[0], 0 | 18) {
        return None;
    }
    let bits = table(call).bits_per_symbol as u64;
    let read = engine(encoder::decode_substring_from_bytes_at_offset, call);
    // Behind as many symbols as its block of eight bases has before the window, the window lies in its bytes as in the file's.
    let blocks = start / 8;
    let text = [&vec![read[0]; (start % 8) as usize], &read[..]].concat();
    let packed = encoder::encode_sequence(text, table(call)).expect("what was read is members");
    let bit = |bytes: &[u8], from: u64, k: u64| bytes[(k / 8 - from) as usize] >> (7 - k % 8) & 1;
    let lost = |&k: &u64| bit(&call.text, byte_offset, k) != bit(&packed, blocks * bits, k);
    let mut memory = before.clone();
    let words = match (start * bits..end * bits).find(lost) {
        Some(k) => vec![18, 0, k / bits],
        None => {
            write(memory.lent(0), &read);
            vec![0, read.len() as u64, 0]
        }
    };
    Some(Opinion { of: "Rust, read and packed again", rows: vec![words], memory })
}

fn engine(engine: inside::Engine, call: &Call) -> Vec<u8> {
    let [_, byte_offset, start, end, ..] = call.numbers.map(|number| number as usize);
    engine(&call.text, byte_offset, start, end, table(call))
}

/// A source that gives one byte a read, up to a limit that can be moved, and counts. One byte a read keeps the Rust from
/// reading ahead, so the bytes taken can be compared.
struct Drip<'a> {
    bytes: &'a [u8],
    taken: &'a Cell<usize>,
    limit: &'a Cell<usize>,
}

impl Read for Drip<'_> {
    fn read(&mut self, buf: &mut [u8]) -> std::io::Result<usize> {
        if self.taken.get() >= self.limit.get() || buf.is_empty() {
            return Ok(0);
        }
        buf[0] = self.bytes[self.taken.get()];
        self.taken.set(self.taken.get() + 1);
        Ok(1)
    }
}

fn of_streaming(panel: &mut Panel) {
    match panel.call.entry {
        Entry::StreamRead => {
            panel.say("StreamingDecoder, one base a read", |call, memory| stream_read(call, memory, base_by_base));
            panel.say("StreamingDecoder, one read", |call, memory| stream_read(call, memory, in_one_read));
        }
        Entry::StreamList => panel.say("StreamingDecoder, call by call", stream_list),
        _ => {}
    }
}

/// Bases written and whether the source ran out; no count where the Rust's `read` failed halfway and lost it.
type Reading = (Option<u64>, bool);

/// One base a `read`: no read fails halfway, so the count is exact. The empty read first does the skip.
fn base_by_base(stream: &mut StreamingDecoder<Drip>, out: &mut [u8]) -> Reading {
    if stream.read(&mut []).is_err() {
        return (Some(0), true);
    }
    for written in 0..out.len() {
        match stream.read(&mut out[written..written + 1]) {
            Ok(1) => {}
            Ok(_) => return (Some(written as u64), false),
            Err(_) => return (Some(written as u64), true),
        }
    }
    (Some(out.len() as u64), false)
}

fn in_one_read(stream: &mut StreamingDecoder<Drip>, out: &mut [u8]) -> Reading {
    match stream.read(out) {
        Ok(written) => (Some(written as u64), false),
        Err(_) => (None, true),
    }
}

/// One read from any sound state. A state with p bits pending is reached by a skip of 8 - p, one byte and no space.
fn stream_read(
    call: &Call,
    memory: &mut Memory,
    way: fn(&mut StreamingDecoder<Drip>, &mut [u8]) -> Reading,
) -> Vec<u64> {
    let [_, skip, budget, pending_bits, pending, ..] = call.numbers;
    let first = if pending_bits > 0 { vec![pending as u8 | 0xFFu8 << pending_bits] } else { vec![] };
    let bytes = [&first, &call.text[..]].concat();
    let (taken, limit) = (Cell::new(0), Cell::new(first.len()));
    let drip = Drip { bytes: &bytes, taken: &taken, limit: &limit };
    let skip = if pending_bits > 0 { 8 - pending_bits } else { skip };
    let mut stream = StreamingDecoder::new(drip, table(call), skip as u8, budget);
    if pending_bits > 0 {
        assert_eq!(stream.read(&mut []).ok(), Some(0), "the first byte is there");
    }
    limit.set(bytes.len());
    let (written, out_of_source) = way(&mut stream, memory.lent(0));
    let mut words = vec![0, (taken.get() - first.len()) as u64];
    if let Some(written) = written {
        words.extend([written, status(out_of_source, budget - written)]);
    }
    words
}

/// The Rust has no status: it fails where more source is needed, and stops where the budget or the space is used.
fn status(out_of_source: bool, budget: u64) -> u64 {
    match (out_of_source, budget) {
        (true, _) => model::HUNGRY,
        (_, 0) => model::DONE,
        _ => model::FULL,
    }
}

fn stream_list(call: &Call, memory: &mut Memory) -> Vec<u64> {
    let [_, skip, mut budget, ..] = call.numbers;
    let (taken, limit) = (Cell::new(0), Cell::new(0));
    let drip = Drip { bytes: &call.text, taken: &taken, limit: &limit };
    let mut stream = StreamingDecoder::new(drip, table(call), skip as u8, budget);
    let mut words = Vec::new();
    for (at, step) in call.steps.iter().enumerate() {
        let before = taken.get();
        if step.last {
            // The Rust has no end call; what it has counted tells what one would answer.
            let ended = budget == 0 && (skip == 0 || before > 0);
            words.extend(if ended { [0; 4] } else { [7, budget, 0, 0] });
            if ended {
                break;
            }
            continue;
        }
        limit.set(call.text.len().min(before + step.length));
        let (written, out_of_source) = base_by_base(&mut stream, memory.lent(at));
        budget -= written.unwrap_or(0);
        words.extend([0, (taken.get() - before) as u64, written.unwrap_or(0), status(out_of_source, budget)]);
    }
    words
}

/// A text of each guess, those of the worked table. None is guessed as Unknown, and about Unknown the Rust is not asked.
const GUESSED: [&[u8]; 5] = [b"ACGT", b"ACGU", b"ACGTS", b"ACGX", b"acgt"];

/// Of some alphabets the last in the order that the Rust publishes.
fn latest(alphabets: &[u64]) -> u64 {
    let told = |kind: &&AlphabetType| alphabets.contains(&number_of(**kind));
    number_of(*ALPHABET_ORDER.iter().rev().find(told).expect("one of the five"))
}

/// Of two alphabets the Rust tells the later by its guess of two texts joined, of which they are the guesses, and by the
/// order of alphabets that it publishes; of a genome by its guess of all chromosomes joined as they stand, in whatever order
/// their guesses are combined, and by the latest of its own guesses of the chromosomes.
fn of_genome(panel: &mut Panel) {
    match panel.call.entry {
        Entry::LaterAlphabet if panel.call.numbers[..2].iter().all(|&number| number < 5) => {
            panel.say("guess_alphabet of two texts joined", |call, _| {
                let texts = [call.numbers[0], call.numbers[1]].map(|number| GUESSED[number as usize]);
                assert_eq!(texts.map(guess), call.numbers[..2], "the texts have other guesses");
                vec![0, guess(&texts.concat())]
            });
            panel.say("ALPHABET_ORDER", |call, _| vec![0, latest(&call.numbers[..2])]);
        }
        Entry::GenomeList => {
            panel.say("guess_alphabet of the chromosomes joined", |call, _| {
                vec![0, guess(&call.pieces().collect::<Vec<_>>().concat())]
            });
            panel.say("guess_alphabet of each chromosome", |call, _| {
                vec![0, latest(&call.pieces().map(guess).collect::<Vec<_>>())]
            });
        }
        _ => {}
    }
}
