//! The tables of bindings/tables, which the tests of every language share.

use fantailclock::raw;

pub const WORKED: &str = include_str!("../../../tables/worked.txt");
pub const STATES: &str = include_str!("../../../tables/states.txt");

/// A line of a table: the call's words, and the answer.
pub struct Row {
    pub line: &'static str,
    pub words: Vec<&'static str>,
    pub answer: &'static str,
}

pub fn rows(table: &'static str) -> Vec<Row> {
    let lines = table.lines().filter(|line| !line.starts_with('#') && !line.is_empty());
    lines
        .map(|line| {
            let (call, answer) = line.split_once(" = ").unwrap_or_else(|| panic!("no answer: {line}"));
            Row { line, words: call.split_whitespace().collect(), answer: answer.trim() }
        })
        .collect()
}

/// A decimal number, or a power of two with a number added or taken away: 2^60, 2^60+1, 2^64-1.
pub fn number(word: &str) -> u64 {
    let plain = |word: &str| word.parse::<i128>().unwrap_or_else(|_| panic!("no number: {word}"));
    let value = match word.strip_prefix("2^") {
        None => plain(word),
        Some(rest) => match rest.find(['+', '-']) {
            None => 1 << plain(rest),
            Some(sign) => (1 << plain(&rest[..sign])) + plain(&rest[sign..]),
        },
    };
    u64::try_from(value).unwrap_or_else(|_| panic!("not of 64 bits: {word}"))
}

/// A text or bytes, `-` for none.
pub fn text(word: &'static str) -> &'static [u8] {
    if word == "-" {
        &[]
    } else {
        word.as_bytes()
    }
}

pub fn bytes(word: &'static str) -> Vec<u8> {
    let byte = |pair: &[u8]| u8::from_str_radix(std::str::from_utf8(pair).unwrap(), 16).unwrap();
    text(word).chunks(2).map(byte).collect()
}

pub fn hex(bytes: &[u8]) -> String {
    bytes.iter().map(|byte| format!("{byte:02X}")).collect()
}

/// An encoder's state by its numbers, as a row of the states has them.
pub fn encoder(numbers: &[u64]) -> raw::Encoder {
    raw::Encoder {
        alphabet: numbers[0],
        seen: numbers[1],
        pending_bits: numbers[2],
        pending: numbers[3],
        has_bad: numbers[4],
        bad_position: numbers[5],
        bad_byte: numbers[6],
        fold: numbers[7],
        bad_count: numbers[8],
    }
}
