//! The worked table of the rules, every row, through the safe functions.

mod support;

use fantailclock::*;
use support::reads::reads;
use support::table::{bytes, hex, number, rows, text, WORKED};

/// A refusal with its values, as the table writes it.
fn refused(refusal: Error) -> String {
    match refusal {
        Error::NotMember { position, byte, count } => format!("refused 5 {position} {byte:02X} {count}"),
        Error::Outstanding { bases } => format!("refused 7 {bases}"),
        Error::NoSymbol { base } => format!("refused 18 {base}"),
        other => format!("refused {}", other.number()),
    }
}

/// What a call that writes to memory of `room` bytes wrote, or its refusal.
fn written(room: usize, show: fn(&[u8]) -> String, call: impl FnOnce(&mut [u8]) -> Result<usize>) -> String {
    let mut out = vec![0; room];
    call(&mut out).map_or_else(refused, |count| show(&out[..count]))
}

fn bases(bases: &[u8]) -> String {
    String::from_utf8(bases.to_vec()).unwrap()
}

fn pack(alphabet: Alphabet, folding: Folding, words: &[&'static str]) -> Vec<String> {
    let text = text(words[0]);
    let lent = written(9, hex, |out| encode_sequence_into(alphabet, folding, text, out));
    vec![lent, encode_sequence(alphabet, folding, text).map_or_else(refused, |packed| hex(&packed))]
}

fn update(alphabet: Alphabet, folding: Folding, words: &[&'static str]) -> Vec<String> {
    let lent = written(9, hex, |out| SequenceEncoder::new(alphabet, folding).update_into(text(words[0]), out));
    vec![lent, hex(&SequenceEncoder::new(alphabet, folding).update(text(words[0])).unwrap())]
}

/// What the table has of an update: the count, and four numbers of the next state.
fn counted(count: u64, next: raw::Encoder) -> String {
    format!("{count} {} {} {} {}", next.seen, next.pending_bits, next.pending, next.bad_count)
}

/// By the safe function, by the call itself, and by the update of a copy that is lent memory of that length, or of more than
/// the text can fill where the length is greater.
fn ask(alphabet: Alphabet, folding: Folding, words: &[&'static str]) -> Vec<String> {
    let (text, room, encoder) = (text(words[0]), number(words[1]), SequenceEncoder::new(alphabet, folding));
    let asked = encoder.ask(text, room as usize);
    let answer = unsafe { raw::fc_encoder_ask(encoder.to_raw(), text.as_ptr(), text.len(), room) };
    let told = match answer.refusal {
        0 => counted(answer.count, answer.next),
        refusal => format!("refused {refusal}"),
    };
    assert!(answer.refusal == 0 || (answer.count, answer.next) == (0, encoder.to_raw()), "{answer:?}");
    let mut copy = encoder.clone();
    let made = copy.update_into(text, &mut vec![0; room.min(64) as usize]);
    vec![
        asked.map_or_else(refused, |asked| counted(asked.count as u64, asked.next.to_raw())),
        told,
        made.map_or_else(refused, |count| counted(count as u64, copy.to_raw())),
    ]
}

fn finalize(alphabet: Alphabet, folding: Folding, words: &[&'static str]) -> Vec<String> {
    let mut encoder = SequenceEncoder::new(alphabet, folding);
    encoder.update(text(words[0])).unwrap();
    let lent = written(9, hex, |out| Ok(encoder.clone().finalize_into(out)?));
    vec![lent, encoder.finalize().map_or_else(|error| refused(error.error()), |last| hex(&last))]
}

/// The answers of every zero-filling read and engine that serves the call.
fn read(alphabet: Alphabet, words: &[&'static str]) -> Vec<String> {
    let lent = bytes(words[0]);
    let numbers: Vec<u64> = words[1..].iter().map(|word| number(word)).collect();
    let (offset, start, end, room) = (numbers[0], numbers[1], numbers[2], numbers[3] as usize);
    let serving = reads(alphabet, offset, start).into_iter();
    serving.map(|(_, read)| written(room, bases, |out| read(&lent, offset, start, end, out))).collect()
}

fn covered(alphabet: Alphabet, words: &[&'static str]) -> Vec<String> {
    let lent = bytes(words[0]);
    let numbers: Vec<u64> = words[1..].iter().map(|word| number(word)).collect();
    let (offset, start, end, room) = (numbers[0], numbers[1], numbers[2], numbers[3] as usize);
    let mut answers = vec![written(room, bases, |out| decode_covered_into(alphabet, &lent, offset, start, end, out))];
    if end - start <= room as u64 {
        // else the memory that it finds for itself is longer
        answers.push(decode_covered(alphabet, &lent, offset, start, end).map_or_else(refused, |read| bases(&read)));
    }
    answers
}

fn streamed(alphabet: Alphabet, words: &[&'static str]) -> Streamed {
    let stream = Stream::new(alphabet, number(words[0]), number(words[1])).unwrap();
    stream.read(&bytes(words[2]), &mut vec![0; number(words[3]) as usize]).unwrap()
}

fn stream(alphabet: Alphabet, words: &[&'static str]) -> Vec<String> {
    let step = streamed(alphabet, words);
    vec![format!("{} {} {:?}", step.taken, step.written, step.status)]
}

fn end(alphabet: Alphabet, words: &[&'static str]) -> Vec<String> {
    vec![streamed(alphabet, words).next.end().map_or_else(refused, |()| String::from("complete"))]
}

fn guess(folding: Folding, words: &[&'static str]) -> Vec<String> {
    let mut guesser = Guesser::new(folding);
    text(words[0]).chunks(1).for_each(|byte| guesser.update(byte).unwrap());
    vec![format!("{:?}", guess_alphabet(folding, text(words[0]))), format!("{:?}", guesser.guess().unwrap())]
}

/// By the safe function, where both numbers are alphabets', and by the call itself.
fn later(words: &[&'static str]) -> Vec<String> {
    let [one, other] = [words[0], words[1]].map(number);
    let later = || -> Result<Alphabet> { Ok(Alphabet::try_from(one)?.later(Alphabet::try_from(other)?)) };
    let answer = unsafe { raw::fc_later_alphabet(one, other) };
    let told = match answer.refusal {
        0 => answer.value.to_string(),
        refusal => format!("refused {refusal}"),
    };
    assert!(answer.refusal == 0 || answer.value == 0, "{answer:?}");
    vec![later().map_or_else(refused, |later| later.number().to_string()), told]
}

/// By the chromosomes' guesses, whole and in pieces, and by the guess for all of them joined.
fn genome(folding: Folding, words: &[&'static str]) -> Vec<String> {
    let chromosomes: Vec<&[u8]> = words.iter().map(|&word| text(word)).collect();
    let in_pieces = chromosomes.iter().map(|chromosome| {
        let mut guesser = Guesser::new(folding);
        chromosome.chunks(1).for_each(|byte| guesser.update(byte).unwrap());
        guesser.guess().unwrap()
    });
    let guesses = [
        guess_genome(folding, &chromosomes),
        in_pieces.fold(Alphabet::Dna2bit, Alphabet::later),
        guess_alphabet(folding, &chromosomes.concat()),
    ];
    guesses.map(|guess| format!("{guess:?}")).into()
}

fn range(words: &[&'static str]) -> Vec<String> {
    let numbers: Vec<u64> = words.iter().map(|word| number(word)).collect();
    let answer = byte_range_for_bases(numbers[0], numbers[1], numbers[2]);
    vec![answer.map_or_else(refused, |range| format!("{} {}", range.start, range.end))]
}

/// The call for each alphabet that its first word names.
fn each(words: &[&'static str], call: impl Fn(Alphabet, &[&'static str]) -> Vec<String>) -> Vec<String> {
    let named = |alphabet: &Alphabet| words[0] == "*" || words[0] == format!("{alphabet:?}");
    Alphabet::ALL.into_iter().filter(named).flat_map(|alphabet| call(alphabet, &words[1..])).collect()
}

/// The answers of a call that has a choice, `folding` before it or not; of the other calls there is no such row.
fn answers(words: &[&'static str]) -> Vec<String> {
    let folding = Folding::from(words[0] == "folding");
    let words = &words[usize::from(folding == Folding::On)..];
    let arguments = &words[1..];
    match (words[0], folding) {
        ("pack", _) => each(arguments, |alphabet, words| pack(alphabet, folding, words)),
        ("update", _) => each(arguments, |alphabet, words| update(alphabet, folding, words)),
        ("ask", _) => each(arguments, |alphabet, words| ask(alphabet, folding, words)),
        ("finalize", _) => each(arguments, |alphabet, words| finalize(alphabet, folding, words)),
        ("guess", _) => guess(folding, arguments),
        ("genome", _) => genome(folding, arguments),
        ("later", Folding::Off) => later(arguments),
        ("read", Folding::Off) => each(arguments, read),
        ("covered", Folding::Off) => each(arguments, covered),
        ("stream", Folding::Off) => each(arguments, stream),
        ("end", Folding::Off) => each(arguments, end),
        ("range", Folding::Off) => range(arguments),
        (other, _) => panic!("no such call: {other}, folding {folding:?}"),
    }
}

/// Asks every row and compares.
fn check_table() {
    let rows = rows(WORKED);
    assert_eq!(rows.len(), 29 + 14 + 13 + 17 + 54 + 20 + 19);
    for row in rows {
        let answers = answers(&row.words);
        assert!(!answers.is_empty(), "asked of nothing: {}", row.line);
        for answer in answers {
            assert_eq!(answer, row.answer, "{}", row.line);
        }
    }
}

#[test]
fn every_row_of_the_worked_table() {
    check_table();
}

#[test]
fn every_row_in_threads_at_once() {
    let threads: Vec<_> = (0..8).map(|_| std::thread::spawn(|| (0..200).for_each(|_| check_table()))).collect();
    threads.into_iter().for_each(|thread| thread.join().unwrap());
}

#[test]
fn names_numbers_and_bits() {
    let names = ["dna2bit", "dna3bit", "dnaio", "protein", "ASCII", "Unknown"];
    for (number, alphabet) in Alphabet::ALL.into_iter().enumerate() {
        assert_eq!(alphabet.number(), number as u64);
        assert_eq!(Alphabet::try_from(number as u64), Ok(alphabet));
        assert_eq!(alphabet.to_string(), names[number]);
        assert_eq!(alphabet.bits_per_symbol(), support::model::bits(alphabet));
        for byte in 0..=255 {
            assert_eq!(alphabet.contains(byte), support::model::contains(alphabet, byte), "{alphabet} {byte}");
        }
    }
    assert_eq!(Alphabet::try_from(6), Err(Error::NoAlphabet));
    assert_eq!(Alphabet::try_from(1 << 32), Err(Error::NoAlphabet));
    let header = include_str!("../../../include/fantailclock.h");
    assert!(header.contains(&format!("\n#define FC_ABI_VERSION {ABI_VERSION}\n")));
    assert_eq!(abi_version(), ABI_VERSION);
}

#[test]
fn refusals_by_number() {
    let by_number = [
        (byte_range_for_bases(0, (1 << 60) + 1, 2).unwrap_err(), 2, "refused by 2: position above 2^60"),
        (decode_covered(Alphabet::Ascii, &[], 0, 0, 1).unwrap_err(), 3, "refused by 3: bytes of the range not lent"),
        (
            encode_sequence_into(Alphabet::Ascii, Folding::Off, b"A", &mut []).unwrap_err(),
            4,
            "refused by 4: output memory too short",
        ),
        (
            encode_sequence(Alphabet::Dna2bit, Folding::Off, b"ACNT").unwrap_err(),
            5,
            "refused by 5: byte 4E at position 2 is no member, the only one",
        ),
        (
            encode_sequence(Alphabet::Dna2bit, Folding::Off, b"ACNTNNA").unwrap_err(),
            5,
            "refused by 5: byte 4E at position 2 is no member, the first of 3",
        ),
        (
            encode_sequence(Alphabet::Dna2bit, Folding::On, b"acnt").unwrap_err(),
            5,
            "refused by 5: byte 6E at position 2 is no member, the only one",
        ),
        (Stream::new(Alphabet::Ascii, 8, 0).unwrap_err(), 6, "refused by 6: skip above 7"),
        (
            Stream::new(Alphabet::Ascii, 0, 9).unwrap().end().unwrap_err(),
            7,
            "refused by 7: stream not complete, 9 bases outstanding",
        ),
        (Alphabet::try_from(6).unwrap_err(), 8, "refused by 8: no such alphabet"),
        (byte_range_for_bases(0, 0, 9).unwrap_err(), 9, "refused by 9: more than 8 bits"),
        (Guesser::from_raw(raw::Guesser { mask: 0, fold: 0 }).guess().unwrap_err(), 1, "refused by 1: unsound state"),
        (
            decode_covered(Alphabet::Protein, &[0x07, 0x40], 0, 0, 2).unwrap_err(),
            18,
            "refused by 18: the code of base 1 stands for no symbol",
        ),
    ];
    for (refusal, number, shown) in by_number {
        assert_eq!((refusal.number(), refusal.to_string()), (number, shown.to_string()));
    }
}
