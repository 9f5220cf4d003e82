//! The zero-filling reads and the engines, for every test that goes through all of them.

use fantailclock::*;

/// Lent bytes, byte_offset, start, end and the memory for the bases.
type IntoLent = fn(&[u8], u64, u64, u64, &mut [u8]) -> Result<usize>;
type Plain = fn(&[u8], u64, u64, u64) -> Result<Vec<u8>>;

/// An engine that serves one alphabet, under each of its names.
pub struct Engine {
    pub alphabet: Alphabet,
    pub entry: &'static str,
    pub raw: raw::Engine,
    pub into: IntoLent,
    pub plain: Plain,
}

macro_rules! engines {
    ($($alphabet:ident: raw::$entry:ident, $into:ident, $plain:ident;)*) => {
        [$(Engine {
            alphabet: Alphabet::$alphabet,
            entry: stringify!($entry),
            raw: raw::$entry,
            into: $into,
            plain: $plain,
        }),*]
    };
}

pub static ENGINES: [Engine; 4] = engines! {
    Dna2bit: raw::fc_decode_2bit, decode_2bit_into, decode_2bit;
    Dna3bit: raw::fc_decode_3bit, decode_3bit_into, decode_3bit;
    DnaIupac: raw::fc_decode_4bit, decode_4bit_into, decode_4bit;
    Protein: raw::fc_decode_5bit, decode_5bit_into, decode_5bit;
};

/// The engine of an alphabet that has one of its own.
pub fn engine(alphabet: Alphabet) -> Option<&'static Engine> {
    ENGINES.iter().find(|engine| engine.alphabet == alphabet)
}

/// A read with the arguments of an engine, whatever else it is handed.
pub type Read = Box<dyn Fn(&[u8], u64, u64, u64, &mut [u8]) -> Result<usize>>;

/// The zero-filling reads and engines that serve a window, with one shape.
pub fn reads(alphabet: Alphabet, offset: u64, start: u64) -> Vec<(&'static str, Read)> {
    let mut reads: Vec<(&'static str, Read)> = vec![
        (
            "fc_decode_substring_from_bytes_at_offset",
            Box::new(move |b, o, s, e, out| decode_substring_from_bytes_at_offset_into(alphabet, b, o, s, e, out)),
        ),
        ("fc_decode_rolling", Box::new(move |b, o, s, e, out| decode_rolling_into(alphabet, b, o, s, e, out))),
    ];
    if offset == 0 {
        let read: Read = Box::new(move |b, _, s, e, out| decode_substring_from_bytes_into(alphabet, b, s, e, out));
        reads.push(("fc_decode_substring_from_bytes", read));
    }
    if offset == 0 && start == 0 {
        let read: Read = Box::new(move |b, _, _, e, out| decode_string_from_bytes_into(alphabet, b, e, out));
        reads.push(("fc_decode_string_from_bytes", read));
    }
    if let Some(engine) = engine(alphabet) {
        reads.push((engine.entry, Box::new(engine.into)));
    }
    reads
}
