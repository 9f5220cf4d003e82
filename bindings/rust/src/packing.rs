//! Packing: whole texts, texts in pieces, and the bytes that hold a window.

use crate::error::{accepted, accepted_or};
use crate::memory::owned;
use crate::{raw, Alphabet, Error, Folding, Result};
use std::fmt;
use std::ops::Range;

/// The count of an answer of the packing calls.
fn packed(answer: raw::Packed) -> Result<usize> {
    accepted_or(answer.refusal, [answer.position, answer.byte, answer.bad_count])?;
    Ok(answer.count as usize)
}

/// Packs a text into the front of `out` and answers the byte count, `(len * bits + 7) / 8`.
///
/// Refuses a text above 2^60 bytes, memory that is too short, then a byte that is no member, with the number of all of
/// them; nothing is written then.
pub fn encode_sequence_into(alphabet: Alphabet, folding: Folding, text: &[u8], out: &mut [u8]) -> Result<usize> {
    let (number, fold, room) = (alphabet.number(), folding.number(), out.len());
    // SAFETY: both memories are lent with their lengths, and `out` is borrowed alone.
    packed(unsafe { raw::fc_encode_sequence(number, fold, text.as_ptr(), text.len(), out.as_mut_ptr(), room) })
}

/// Packs a text.
///
/// ```
/// use fantailclock::{encode_sequence, Alphabet, Error, Folding};
///
/// assert_eq!(encode_sequence(Alphabet::Dna2bit, Folding::Off, b"ACGT")?, [0x9C]);
/// assert_eq!(encode_sequence(Alphabet::Dna2bit, Folding::On, b"ACgt")?, [0x9C]);
/// let refused = encode_sequence(Alphabet::Dna2bit, Folding::Off, b"ACNT");
/// assert_eq!(refused, Err(Error::NotMember { position: 2, byte: b'N', count: 1 }));
/// let protein = encode_sequence(Alphabet::Dna2bit, Folding::Off, b"ACDEFGHIKLMN");
/// assert_eq!(protein, Err(Error::NotMember { position: 2, byte: b'D', count: 9 }));
/// # Ok::<(), Error>(())
/// ```
pub fn encode_sequence(alphabet: Alphabet, folding: Folding, text: &[u8]) -> Result<Vec<u8>> {
    let bits = text.len() as u128 * u128::from(alphabet.bits_per_symbol());
    owned((bits + 7) / 8, |out| encode_sequence_into(alphabet, folding, text, out))
}

/// Packs a text that comes in pieces.
///
/// Each `update` gives the bytes that its piece completes, `finalize` the last one where bits pend; joined they are what
/// [`encode_sequence`] gives for the pieces joined, by the same choice to fold. A byte that is no member is reported by
/// `finalize`, with the position of the first and the number of all of them, over all pieces. A refused `update` leaves
/// the encoder as it was: its piece is not counted.
///
/// `finalize` ends the text and takes the encoder; a refused one hands it back ([`FinalizeError`]). What an `update` would do
/// can be asked before memory is lent for it ([`ask`](SequenceEncoder::ask)).
///
/// ```
/// use fantailclock::{Alphabet, Folding, SequenceEncoder};
///
/// let mut encoder = SequenceEncoder::new(Alphabet::Dna3bit, Folding::Off);
/// let mut packed = encoder.update(b"ACGTN")?;
/// packed.extend(encoder.update(b"RYU")?);
/// packed.extend(encoder.finalize()?);
/// assert_eq!(packed, [0x05, 0x39, 0x77]);
/// # Ok::<(), fantailclock::Error>(())
/// ```
///
/// What is no member, over two pieces:
///
/// ```
/// use fantailclock::{Alphabet, Error, Folding, SequenceEncoder};
///
/// let mut encoder = SequenceEncoder::new(Alphabet::Dna2bit, Folding::Off);
/// encoder.update(b"ACNT")?;
/// encoder.update(b"NNAC")?;
/// let refused = encoder.finalize().unwrap_err().error();
/// assert_eq!(refused, Error::NotMember { position: 2, byte: b'N', count: 3 });
/// assert_eq!(refused.to_string(), "refused by 5: byte 4E at position 2 is no member, the first of 3");
/// # Ok::<(), Error>(())
/// ```
///
/// An ended text takes no more pieces, which would give bytes that are no packing:
///
/// ```compile_fail,E0382
/// use fantailclock::{Alphabet, Folding, SequenceEncoder};
///
/// let mut encoder = SequenceEncoder::new(Alphabet::Dna2bit, Folding::Off);
/// encoder.update(b"ACGTA")?;
/// encoder.finalize()?;
/// encoder.update(b"CGT")?;
/// # Ok::<(), fantailclock::Error>(())
/// ```
#[derive(Clone, Debug, PartialEq, Eq)]
pub struct SequenceEncoder {
    state: raw::Encoder,
}

impl SequenceEncoder {
    /// An encoder that has seen nothing. The choice is part of its state and stays as it is.
    pub fn new(alphabet: Alphabet, folding: Folding) -> SequenceEncoder {
        // SAFETY: only numbers are passed.
        let started = unsafe { raw::fc_encoder_new(alphabet.number(), folding.number()) };
        accepted(started.refusal).expect("the alphabet is one of the six");
        SequenceEncoder { state: started.next }
    }

    /// An encoder that goes on from a state that was kept; a state that is not sound is refused by the calls.
    pub fn from_raw(state: raw::Encoder) -> SequenceEncoder {
        SequenceEncoder { state }
    }

    /// The state, to be kept. Its `bad_count` is the number of non-members so far.
    pub fn to_raw(&self) -> raw::Encoder {
        self.state
    }

    /// Packs a piece behind what pends: the bytes that it completes go to the front of `out`, and their count is the
    /// answer. Refuses more than 2^60 symbols in all, and memory that is too short.
    pub fn update_into(&mut self, piece: &[u8], out: &mut [u8]) -> Result<usize> {
        let room = out.len();
        // SAFETY: both memories are lent with their lengths, and `out` is borrowed alone.
        let answer = unsafe { raw::fc_encoder_update(self.state, piece.as_ptr(), piece.len(), out.as_mut_ptr(), room) };
        accepted(answer.refusal)?;
        self.state = answer.next;
        Ok(answer.count as usize)
    }

    /// What [`update_into`](SequenceEncoder::update_into) would answer with output memory of `room` bytes, which is a number
    /// here: the count and the next state, or the refusal. No memory is lent, nothing is written, and the encoder stays as
    /// it is.
    ///
    /// It is for a scheduler, which wants to know what a piece needs before it lends a page. With room 0
    /// [`Error::ShortMemory`] tells that the piece needs a page at all: it completes a byte. With `usize::MAX` that refusal
    /// never comes, and the count is how many bytes the update will use: lent so many or more it is accepted with the same
    /// count and the same next state, lent fewer it is refused. Non-members of the piece are counted in the next state and
    /// refuse nothing here.
    ///
    /// ```
    /// use fantailclock::{Alphabet, Error, Folding, SequenceEncoder};
    ///
    /// let mut encoder = SequenceEncoder::new(Alphabet::Dna2bit, Folding::Off);
    /// assert_eq!(encoder.ask(b"ACG", 0)?.count, 0); // six bits: no page is needed
    /// encoder.update_into(b"ACG", &mut [])?;
    ///
    /// let piece = b"TACGTN";
    /// assert_eq!(encoder.ask(piece, 0), Err(Error::ShortMemory)); // a page is needed
    /// let asked = encoder.ask(piece, usize::MAX)?;
    /// assert_eq!((asked.count, asked.next.to_raw().bad_count), (2, 1)); // two bytes of it; N is no member
    ///
    /// let mut page = vec![0; asked.count];
    /// assert_eq!(encoder.update_into(piece, &mut page)?, asked.count);
    /// assert_eq!(page, [0x9C, 0x9C]);
    /// assert_eq!(encoder, asked.next);
    /// # Ok::<(), Error>(())
    /// ```
    pub fn ask(&self, piece: &[u8], room: usize) -> Result<Asked> {
        // SAFETY: the piece is lent with its length.
        let answer = unsafe { raw::fc_encoder_ask(self.state, piece.as_ptr(), piece.len(), room as u64) };
        accepted(answer.refusal)?;
        Ok(Asked { count: answer.count as usize, next: SequenceEncoder { state: answer.next } })
    }

    /// Packs a piece behind what pends and gives the bytes that it completes.
    pub fn update(&mut self, piece: &[u8]) -> Result<Vec<u8>> {
        let bits = Alphabet::try_from(self.state.alphabet).map_or(0, Alphabet::bits_per_symbol); // of none: refused
        let room = (u128::from(self.state.pending_bits) + piece.len() as u128 * u128::from(bits)) / 8;
        owned(room, |out| self.update_into(piece, out))
    }

    /// Ends the text: writes the last byte to the front of `out` where bits pend, with zeros behind them, and answers 1,
    /// else 0.
    ///
    /// Refuses a text with a byte that is no member, and tells how many there are; then memory that is too short. The
    /// encoder is in the error then, and may go on.
    ///
    /// ```
    /// use fantailclock::{Alphabet, Error, Folding, SequenceEncoder};
    ///
    /// let mut encoder = SequenceEncoder::new(Alphabet::Dna2bit, Folding::Off);
    /// encoder.update(b"ACGTA")?;
    /// let refused = encoder.finalize_into(&mut []).unwrap_err();
    /// assert_eq!(refused.error(), Error::ShortMemory);
    /// let mut last = [0];
    /// assert_eq!(refused.into_encoder().finalize_into(&mut last)?, 1);
    /// assert_eq!(last, [0x80]);
    /// # Ok::<(), Error>(())
    /// ```
    pub fn finalize_into(self, out: &mut [u8]) -> std::result::Result<usize, FinalizeError> {
        // SAFETY: the memory is lent with its length.
        let answer = unsafe { raw::fc_encoder_finalize(self.state, out.as_mut_ptr(), out.len()) };
        packed(answer).map_err(|error| FinalizeError { error, encoder: self })
    }

    /// Ends the text and gives the last byte where bits pend, else nothing. Refuses a text with a byte that is no member.
    pub fn finalize(self) -> std::result::Result<Vec<u8>, FinalizeError> {
        let mut last = [0];
        let count = self.finalize_into(&mut last)?;
        Ok(last[..count].to_vec())
    }
}

/// What an `update` would do: the answer of [`SequenceEncoder::ask`].
#[derive(Clone, Debug, PartialEq, Eq)]
pub struct Asked {
    /// The bytes that the update would write.
    pub count: usize,
    /// The encoder as it would be after it. Whoever goes on from it must have made the update too, unless the count is 0: the
    /// bytes are nowhere else.
    pub next: SequenceEncoder,
}

/// A `finalize` that was refused: why, and the encoder as it was.
///
/// With `?` it turns into an [`Error`], and the encoder is dropped.
#[derive(Clone, Debug, PartialEq, Eq)]
pub struct FinalizeError {
    error: Error,
    encoder: SequenceEncoder,
}

impl FinalizeError {
    /// Why it was refused.
    pub fn error(&self) -> Error {
        self.error
    }

    /// The encoder, which may go on.
    pub fn into_encoder(self) -> SequenceEncoder {
        self.encoder
    }

    /// Both.
    pub fn into_parts(self) -> (Error, SequenceEncoder) {
        (self.error, self.encoder)
    }
}

impl From<FinalizeError> for Error {
    fn from(refused: FinalizeError) -> Error {
        refused.error
    }
}

impl fmt::Display for FinalizeError {
    fn fmt(&self, f: &mut fmt::Formatter<'_>) -> fmt::Result {
        self.error.fmt(f)
    }
}

impl std::error::Error for FinalizeError {}

/// The bytes of a packed file that hold the bases from `start` to `end`, not including `end`, at so many bits per symbol;
/// the same formula where start exceeds end. Refuses more than 8 bits, then positions above 2^60.
///
/// ```
/// use fantailclock::{byte_range_for_bases, Alphabet};
///
/// assert_eq!(byte_range_for_bases(2, 6, Alphabet::Dna3bit.bits_per_symbol())?, 0..3);
/// assert_eq!(byte_range_for_bases(5, 5, 2)?, 1..2);
/// # Ok::<(), fantailclock::Error>(())
/// ```
pub fn byte_range_for_bases(start: u64, end: u64, bits: u64) -> Result<Range<u64>> {
    // SAFETY: only numbers are passed.
    let answer = unsafe { raw::fc_byte_range_for_bases(start, end, bits) };
    accepted(answer.refusal)?;
    Ok(answer.start..answer.end)
}
