//! Reads of a window of a packed file, and the engines behind them.
//!
//! All but the covered read take a byte that is not lent for zero, so a short fetch reads on as code zero, a run of T in
//! Dna2bit: compare what was fetched with what was asked for, or use [`decode_covered`], which refuses. It also refuses a
//! code of Protein that no symbol has, as a damaged disk leaves it, where the others show X.

use crate::error::{accepted, accepted_or};
use crate::memory::owned;
use crate::{raw, Alphabet, Result};

/// What a read answers.
trait Answer {
    /// The count of bases, or the refusal with its value.
    fn bases(self) -> Result<usize>;
}

impl Answer for raw::Count {
    fn bases(self) -> Result<usize> {
        accepted(self.refusal)?;
        Ok(self.count as usize)
    }
}

impl Answer for raw::Covered {
    fn bases(self) -> Result<usize> {
        accepted_or(self.refusal, [self.value, 0, 0])?;
        Ok(self.count as usize)
    }
}

/// Defines a read twice: into lent memory, and under the plain name into a `Vec`. The window is given by its two ends.
macro_rules! reads {
    ($($(#[$about:meta])* $name:ident, $into:ident = $call:ident($($argument:ident: $kind:ty => $passed:expr),*;
       $($number:ident),*), $start:expr, $end:expr;)*) => {$(
        #[doc = concat!("As [`", stringify!($name), "`], into the front of `out`; the answer is the count of bases. Refuses memory that is too short.")]
        #[allow(clippy::too_many_arguments)]
        pub fn $into($($argument: $kind,)* bytes: &[u8], $($number: u64,)* out: &mut [u8]) -> Result<usize> {
            let (from, len, to, room) = (bytes.as_ptr(), bytes.len(), out.as_mut_ptr(), out.len());
            // SAFETY: both memories are lent with their lengths, and `out` is borrowed alone.
            unsafe { raw::$call($($passed,)* from, len, $($number,)* to, room) }.bases()
        }

        $(#[$about])*
        pub fn $name($($argument: $kind,)* bytes: &[u8], $($number: u64),*) -> Result<Vec<u8>> {
            owned(u128::from($end).saturating_sub(u128::from($start)), |out| {
                $into($($argument,)* bytes, $($number,)* out)
            })
        }
    )*};
}

reads! {
    /// The bases from `start` to `end`, not including `end`, of a packed file of which `bytes` are the bytes from
    /// `byte_offset` on. A window whose end is at most its start is empty. Every byte that is not lent reads as zero, and a
    /// code of Protein that no symbol has as X.
    ///
    /// ```
    /// use fantailclock::{decode_substring_from_bytes_at_offset, Alphabet};
    ///
    /// let read = decode_substring_from_bytes_at_offset(Alphabet::Dna2bit, &[0x80], 1, 2, 5)?;
    /// assert_eq!(read, b"TTA"); // byte 0 of the file was not lent
    /// # Ok::<(), fantailclock::Error>(())
    /// ```
    decode_substring_from_bytes_at_offset, decode_substring_from_bytes_at_offset_into
        = fc_decode_substring_from_bytes_at_offset(alphabet: Alphabet => alphabet.number(); byte_offset, start, end), start, end;

    /// The same where the lent bytes are the file's first: `byte_offset` 0.
    ///
    /// ```
    /// use fantailclock::{decode_substring_from_bytes, Alphabet};
    ///
    /// assert_eq!(decode_substring_from_bytes(Alphabet::Dna3bit, &[0x05, 0x39, 0x77], 2, 6)?, b"GTNR");
    /// # Ok::<(), fantailclock::Error>(())
    /// ```
    decode_substring_from_bytes, decode_substring_from_bytes_into
        = fc_decode_substring_from_bytes(alphabet: Alphabet => alphabet.number(); start, end), start, end;

    /// The first `seq_len` bases: `byte_offset` and `start` 0.
    ///
    /// ```
    /// use fantailclock::{decode_string_from_bytes, Alphabet};
    ///
    /// assert_eq!(decode_string_from_bytes(Alphabet::Dna2bit, &[0x9C], 4)?, b"ACGT");
    /// assert_eq!(decode_string_from_bytes(Alphabet::Dna2bit, &[0x9C], 6)?, b"ACGTTT"); // two bases past the lent bytes
    /// # Ok::<(), fantailclock::Error>(())
    /// ```
    decode_string_from_bytes, decode_string_from_bytes_into
        = fc_decode_string_from_bytes(alphabet: Alphabet => alphabet.number(); seq_len), 0u64, seq_len;

    /// The covered read: the same bases, refused where a byte of the window's range is not lent, then where a base of the
    /// window has a code that no symbol has ([`Error::NoSymbol`](crate::Error::NoSymbol) with the first such base, counted
    /// from 0 at the sequence's start). This is the read for what was fetched from a disk or over a network.
    ///
    /// ```
    /// use fantailclock::{byte_range_for_bases, decode_covered, Alphabet, Error};
    ///
    /// let file = [0x05, 0x39, 0x77];
    /// let alphabet = Alphabet::Dna3bit;
    /// let range = byte_range_for_bases(2, 6, alphabet.bits_per_symbol())?;
    /// let fetched = &file[range.start as usize..range.end as usize];
    /// assert_eq!(decode_covered(alphabet, fetched, range.start, 2, 6)?, b"GTNR");
    /// assert_eq!(decode_covered(alphabet, &fetched[..2], range.start, 2, 6), Err(Error::Uncovered));
    /// # Ok::<(), Error>(())
    /// ```
    ///
    /// A file of Protein whose second residue was damaged; the zero-filling reads show an X that nobody saw:
    ///
    /// ```
    /// use fantailclock::{decode_covered, decode_string_from_bytes, Alphabet, Error};
    ///
    /// let file = [0x07, 0x40]; // codes 0 and 29
    /// assert_eq!(decode_covered(Alphabet::Protein, &file, 0, 0, 2), Err(Error::NoSymbol { base: 1 }));
    /// assert_eq!(decode_covered(Alphabet::Protein, &file, 0, 0, 1)?, b"A");
    /// assert_eq!(decode_string_from_bytes(Alphabet::Protein, &file, 2)?, b"AX");
    /// # Ok::<(), Error>(())
    /// ```
    decode_covered, decode_covered_into
        = fc_decode_covered(alphabet: Alphabet => alphabet.number(); byte_offset, start, end), start, end;

    /// The engine for any alphabet, with the answers of [`decode_substring_from_bytes_at_offset`].
    decode_rolling, decode_rolling_into
        = fc_decode_rolling(alphabet: Alphabet => alphabet.number(); byte_offset, start, end), start, end;

    /// The engine for Dna2bit, with the answers of [`decode_substring_from_bytes_at_offset`].
    decode_2bit, decode_2bit_into = fc_decode_2bit(; byte_offset, start, end), start, end;

    /// The engine for Dna3bit, with the answers of [`decode_substring_from_bytes_at_offset`].
    decode_3bit, decode_3bit_into = fc_decode_3bit(; byte_offset, start, end), start, end;

    /// The engine for DnaIupac, two bases from one byte, with the answers of [`decode_substring_from_bytes_at_offset`].
    decode_4bit, decode_4bit_into = fc_decode_4bit(; byte_offset, start, end), start, end;

    /// The engine for Protein, eight bases from five bytes, with the answers of [`decode_substring_from_bytes_at_offset`]:
    /// X for a code that no symbol has, too.
    decode_5bit, decode_5bit_into = fc_decode_5bit(; byte_offset, start, end), start, end;
}
