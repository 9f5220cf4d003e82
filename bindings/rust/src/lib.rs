//! Fantailclock: packed alphabets and their coders, a safe layer over the C ABI of the proved library.
//!
//! - [`Alphabet`], [`guess_alphabet`] and [`Guesser`]: the six alphabets and the guess of a text's.
//! - [`guess_genome`] and [`Alphabet::later`]: a genome's alphabet out of its chromosomes' guesses.
//! - [`Folding`]: whether who guesses or packs takes lowercase letters for uppercase ones.
//! - [`encode_sequence`] and [`SequenceEncoder`]: packing, whole or in pieces.
//! - [`SequenceEncoder::ask`]: what an update would do, before memory is lent for it.
//! - [`byte_range_for_bases`] and [`decode_covered`]: the bytes to fetch for a window, and its bases.
//! - [`StreamingDecoder`] and [`Stream`]: a window from bytes as they come.
//!
//! A plain name gives a `Vec`; the name with `_into` writes to the front of memory that the caller lends, answers the
//! count, and leaves every other byte as it was. A call that is refused says why ([`Error`], with the rules' number) and
//! has changed nothing. Nothing is global: any thread may call anything.
//!
//! Input and output memory of one call must not overlap: the bases would be wrong, and no refusal would tell. The borrow
//! checker shuts it out, and only a caller of [`raw`] must see to it:
//!
//! ```compile_fail,E0502
//! use fantailclock::{encode_sequence_into, Alphabet, Folding};
//!
//! let mut memory = *b"ACGTACGT";
//! encode_sequence_into(Alphabet::Dna2bit, Folding::Off, &memory[..5], &mut memory[4..])?;
//! # Ok::<(), fantailclock::Error>(())
//! ```
//!
//! ```
//! use fantailclock::{byte_range_for_bases, decode_covered, encode_sequence, guess_alphabet, Folding};
//!
//! let text = b"ACGTNRYU";
//! let alphabet = guess_alphabet(Folding::Off, text);
//! let packed = encode_sequence(alphabet, Folding::Off, text)?;
//! let range = byte_range_for_bases(2, 6, alphabet.bits_per_symbol())?;
//! let fetched = &packed[range.start as usize..range.end as usize];
//! assert_eq!(decode_covered(alphabet, fetched, range.start, 2, 6)?, b"GTNR");
//! # Ok::<(), fantailclock::Error>(())
//! ```

#![warn(missing_docs)]

mod alphabet;
mod error;
mod memory;
mod packing;
pub mod raw;
mod streaming;
mod windows;

pub use alphabet::{guess_alphabet, guess_genome, Alphabet, Folding, Guesser};
pub use error::{Error, Result};
pub use packing::{byte_range_for_bases, encode_sequence, encode_sequence_into, Asked, FinalizeError, SequenceEncoder};
pub use streaming::{Status, Stream, Streamed, StreamingDecoder};
pub use windows::*;

/// The version of the C ABI's structs that this crate was written for.
pub const ABI_VERSION: u64 = 4;

/// The version of the C ABI's structs that the linked archive has.
pub fn abi_version() -> u64 {
    // SAFETY: nothing is passed.
    unsafe { raw::fc_abi_version() }
}
