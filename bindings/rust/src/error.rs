//! The refusals, by the numbers of the rules.

use std::fmt;

/// Why a call was refused. A refused call has changed no byte of the memory it was lent, and no state.
#[derive(Clone, Copy, Debug, PartialEq, Eq, Hash)]
#[non_exhaustive]
pub enum Error {
    /// 1: a state that no list of calls can leave.
    Unsound,
    /// 2: a position, or a text's length, above 2^60.
    TooFar,
    /// 3: the covered read was not lent every byte of its window's range.
    Uncovered,
    /// 4: the output memory is shorter than what would be written.
    ShortMemory,
    /// 5: a byte that is no symbol of the alphabet; the first one, and how many there are.
    ///
    /// A position alone does not tell a stray letter from a wrong file; the count, beside the text's length, does.
    NotMember {
        /// Its position in the text, over all pieces.
        position: u64,
        /// The byte as it was received, folding or not.
        byte: u8,
        /// How many bytes of the text, over all pieces, are no members, this one included.
        count: u64,
    },
    /// 6: a skip of more than 7 bits.
    BadSkip,
    /// 7: a stream ended before its window was complete.
    Outstanding {
        /// The bases still to come; 0 where only the skip is due.
        bases: u64,
    },
    /// 8: no alphabet has this number.
    NoAlphabet,
    /// 9: more than 8 bits per symbol.
    TooWide,
    /// 18: the covered read met a code that no symbol of the alphabet has.
    ///
    /// Only [`Alphabet::Protein`](crate::Alphabet::Protein) has such codes, 29 to 31, and no accepted text packs to them: the
    /// file was damaged, or is another one. X stands for a residue that was seen and is not known, and they are not that; the
    /// other reads and the streams show X for them all the same.
    NoSymbol {
        /// The window's first base with such a code, counted from 0 at the sequence's start.
        base: u64,
    },
}

/// The answer of a call that may be refused.
pub type Result<T> = std::result::Result<T, Error>;

impl Error {
    /// The refusal's number: 1 to 9, or 18.
    pub fn number(self) -> u64 {
        match self {
            Error::Unsound => 1,
            Error::TooFar => 2,
            Error::Uncovered => 3,
            Error::ShortMemory => 4,
            Error::NotMember { .. } => 5,
            Error::BadSkip => 6,
            Error::Outstanding { .. } => 7,
            Error::NoAlphabet => 8,
            Error::TooWide => 9,
            Error::NoSymbol { .. } => 18,
        }
    }
}

/// The refusal of a call that has no values to tell; none for 0.
pub(crate) fn accepted(refusal: u64) -> Result<()> {
    accepted_or(refusal, [0; 3])
}

/// The refusal that a number and its values stand for; none for 0.
///
/// The values are position, byte and count of 5, the bases of 7, and the base of 18.
pub(crate) fn accepted_or(refusal: u64, values: [u64; 3]) -> Result<()> {
    Err(match refusal {
        0 => return Ok(()),
        1 => Error::Unsound,
        2 => Error::TooFar,
        3 => Error::Uncovered,
        4 => Error::ShortMemory,
        5 => Error::NotMember { position: values[0], byte: values[1] as u8, count: values[2] },
        6 => Error::BadSkip,
        7 => Error::Outstanding { bases: values[0] },
        8 => Error::NoAlphabet,
        9 => Error::TooWide,
        18 => Error::NoSymbol { base: values[0] },
        // an archive of another version: none of its answers can be read by this crate
        _ => panic!("refusal {} is none of ABI version {}", refusal, crate::ABI_VERSION),
    })
}

impl fmt::Display for Error {
    fn fmt(&self, f: &mut fmt::Formatter<'_>) -> fmt::Result {
        write!(f, "refused by {}: ", self.number())?;
        match self {
            Error::Unsound => f.write_str("unsound state"),
            Error::TooFar => f.write_str("position above 2^60"),
            Error::Uncovered => f.write_str("bytes of the range not lent"),
            Error::ShortMemory => f.write_str("output memory too short"),
            Error::NotMember { position, byte, count } => {
                write!(f, "byte {byte:02X} at position {position} is no member, ")?;
                match count {
                    1 => f.write_str("the only one"),
                    _ => write!(f, "the first of {count}"),
                }
            }
            Error::BadSkip => f.write_str("skip above 7"),
            Error::Outstanding { bases } => write!(f, "stream not complete, {bases} bases outstanding"),
            Error::NoAlphabet => f.write_str("no such alphabet"),
            Error::TooWide => f.write_str("more than 8 bits"),
            Error::NoSymbol { base } => write!(f, "the code of base {base} stands for no symbol"),
        }
    }
}

impl std::error::Error for Error {}
