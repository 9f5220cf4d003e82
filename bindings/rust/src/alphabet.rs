//! The six alphabets, the choice to fold, and the guess of a text's alphabet and of a genome's.

use crate::error::accepted;
use crate::{raw, Error, Result};
use std::fmt;

/// The six alphabets in the order of their numbers, 0 to 5.
///
/// ```
/// use fantailclock::Alphabet;
///
/// let alphabet = Alphabet::try_from(1)?;
/// assert_eq!(alphabet, Alphabet::Dna3bit);
/// assert_eq!(alphabet.to_string(), "dna3bit");
/// assert_eq!(alphabet.bits_per_symbol(), 3);
/// assert!(alphabet.contains(b'N') && !alphabet.contains(b'n'));
/// assert_eq!(Alphabet::try_from(6).unwrap_err().number(), 8);
/// # Ok::<(), fantailclock::Error>(())
/// ```
#[derive(Clone, Copy, Debug, PartialEq, Eq, PartialOrd, Ord, Hash)]
#[repr(u64)]
pub enum Alphabet {
    /// T C A G in 2 bits, in the layout that UCSC publishes.
    Dna2bit = 0,
    /// A C G T N R Y U in 3 bits.
    Dna3bit = 1,
    /// The IUPAC letters in 4 bits.
    DnaIupac = 2,
    /// Amino acids in 5 bits.
    Protein = 3,
    /// Any byte, as itself.
    Ascii = 4,
    /// Any byte, as itself; never guessed.
    Unknown = 5,
}

impl Alphabet {
    /// Every alphabet, in the order of the numbers.
    pub const ALL: [Alphabet; 6] = [
        Alphabet::Dna2bit,
        Alphabet::Dna3bit,
        Alphabet::DnaIupac,
        Alphabet::Protein,
        Alphabet::Ascii,
        Alphabet::Unknown,
    ];

    /// The number that names the alphabet to the library.
    pub fn number(self) -> u64 {
        self as u64
    }

    /// The bits of one symbol's code: 2, 3, 4, 5, 8, 8.
    pub fn bits_per_symbol(self) -> u64 {
        // SAFETY: only numbers are passed.
        known(unsafe { raw::fc_bits_per_symbol(self.number()) })
    }

    /// Whether the byte is a symbol of the alphabet, as it is: nothing is folded.
    pub fn contains(self, byte: u8) -> bool {
        // SAFETY: only numbers are passed.
        known(unsafe { raw::fc_contains(self.number(), u64::from(byte)) }) == 1
    }

    /// The later of two alphabets in the order of their numbers, Dna2bit the first and Unknown the last.
    ///
    /// The guess for one text followed by another is the later of their two guesses, provided that all three fold alike:
    /// so chromosomes are guessed one by one, and their guesses combined, with none of them read again ([`guess_genome`]).
    /// This is proved of the library, for every two texts and with either choice. So is that the combining is associative
    /// and commutative, that a guess combined with itself is unchanged, and that Dna2bit is its neutral member: order and
    /// grouping of the chromosomes do not matter, nor that one is combined twice. It is a law about texts: guesses are
    /// combined, not the states of [`Guesser`]s.
    ///
    /// ```
    /// use fantailclock::{guess_alphabet, Alphabet, Folding};
    ///
    /// let (one, other) = (&b"ACGTU"[..], &b"ACGTS"[..]);
    /// let [guess, later] = [one, other].map(|text| guess_alphabet(Folding::Off, text));
    /// assert_eq!([guess, later], [Alphabet::Dna3bit, Alphabet::DnaIupac]);
    /// assert_eq!(guess.later(later), guess_alphabet(Folding::Off, &[one, other].concat()));
    /// assert_eq!(guess.later(later), Alphabet::DnaIupac);
    /// assert_eq!(Alphabet::Dna2bit.later(guess), guess);
    /// ```
    pub fn later(self, other: Alphabet) -> Alphabet {
        // SAFETY: only numbers are passed.
        let answer = unsafe { raw::fc_later_alphabet(self.number(), other.number()) };
        Alphabet::try_from(known(answer)).expect("the later is one of the two")
    }
}

/// The value of a call about an alphabet that there is.
fn known(answer: raw::Number) -> u64 {
    accepted(answer.refusal).expect("the alphabet is one of the six");
    answer.value
}

impl TryFrom<u64> for Alphabet {
    type Error = Error;

    fn try_from(number: u64) -> Result<Alphabet> {
        Alphabet::ALL.into_iter().find(|alphabet| alphabet.number() == number).ok_or(Error::NoAlphabet)
    }
}

/// The display name: dna2bit, dna3bit, dnaio, protein, ASCII or Unknown.
impl fmt::Display for Alphabet {
    fn fmt(&self, f: &mut fmt::Formatter<'_>) -> fmt::Result {
        let mut name = [0; 8];
        // SAFETY: the memory is lent with its length.
        let answer = unsafe { raw::fc_display_name(self.number(), name.as_mut_ptr(), name.len()) };
        accepted(answer.refusal).expect("a name has at most 7 bytes");
        f.pad(std::str::from_utf8(&name[..answer.count as usize]).expect("names are ASCII"))
    }
}

/// Whether lowercase letters are folded on the way in: who guesses or packs chooses, once for a text.
///
/// With folding a byte a to z has the code and the membership of its uppercase letter in the four packed alphabets, so
/// that soft-masked text is guessed and packed as the bases that it spells. What was packed reads back in uppercase: the
/// mask is not kept. [`Alphabet::Ascii`] and [`Alphabet::Unknown`] do not fold, and reads know nothing of the choice. An
/// [`Error::NotMember`] has the byte as it was received.
///
/// ```
/// use fantailclock::{decode_covered, encode_sequence, guess_alphabet, Alphabet, Error, Folding};
///
/// let text = b"ACgt";
/// assert_eq!(guess_alphabet(Folding::Off, text), Alphabet::Ascii);
/// let alphabet = guess_alphabet(Folding::On, text);
/// assert_eq!(alphabet, Alphabet::Dna2bit);
/// let packed = encode_sequence(alphabet, Folding::On, text)?;
/// assert_eq!(decode_covered(alphabet, &packed, 0, 0, 4)?, b"ACGT");
///
/// let refused = encode_sequence(alphabet, Folding::On, b"acnt");
/// assert_eq!(refused, Err(Error::NotMember { position: 2, byte: b'n', count: 1 }));
/// # Ok::<(), Error>(())
/// ```
#[derive(Clone, Copy, Debug, Default, PartialEq, Eq, Hash)]
#[repr(u64)]
pub enum Folding {
    /// Every byte is taken as it is.
    #[default]
    Off = 0,
    /// Lowercase letters are taken for their uppercase ones.
    On = 1,
}

impl Folding {
    /// The number that names the choice to the library.
    pub fn number(self) -> u64 {
        self as u64
    }
}

/// `true` folds.
impl From<bool> for Folding {
    fn from(folds: bool) -> Folding {
        if folds {
            Folding::On
        } else {
            Folding::Off
        }
    }
}

/// The guess of a text's alphabet, piece by piece: the first of Dna2bit, Dna3bit, DnaIupac, Protein and Ascii that holds
/// every byte seen.
///
/// ```
/// use fantailclock::{Alphabet, Folding, Guesser};
///
/// let mut guesser = Guesser::new(Folding::Off);
/// guesser.update(b"ACGT")?;
/// assert_eq!(guesser.guess()?, Alphabet::Dna2bit);
/// guesser.update(b"U")?;
/// assert_eq!(guesser.guess()?, Alphabet::Dna3bit);
/// # Ok::<(), fantailclock::Error>(())
/// ```
#[derive(Clone, Debug, PartialEq, Eq)]
pub struct Guesser {
    state: raw::Guesser,
}

impl Guesser {
    /// A guesser that has seen nothing. The choice is part of its state and stays as it is.
    pub fn new(folding: Folding) -> Guesser {
        // SAFETY: only a number is passed.
        Guesser { state: unsafe { raw::fc_guesser_new(folding.number()) } }
    }

    /// A guesser that goes on from a state that was kept; a state that is not sound is refused by the calls.
    pub fn from_raw(state: raw::Guesser) -> Guesser {
        Guesser { state }
    }

    /// The state, to be kept.
    pub fn to_raw(&self) -> raw::Guesser {
        self.state
    }

    /// Takes one more piece of the text. Refuses an unsound state, which `new` never leaves.
    pub fn update(&mut self, text: &[u8]) -> Result<()> {
        // SAFETY: the text is lent with its length.
        let answer = unsafe { raw::fc_guesser_update(self.state, text.as_ptr(), text.len()) };
        accepted(answer.refusal)?;
        self.state = answer.next;
        Ok(())
    }

    /// The guess for what was seen; Dna2bit for no bytes. Refuses an unsound state, which `new` never leaves.
    pub fn guess(&self) -> Result<Alphabet> {
        // SAFETY: only numbers are passed.
        let answer = unsafe { raw::fc_guesser_guess(self.state) };
        accepted(answer.refusal)?;
        Alphabet::try_from(answer.value)
    }
}

/// The guess for a whole text.
///
/// ```
/// use fantailclock::{guess_alphabet, Alphabet, Folding};
///
/// assert_eq!(guess_alphabet(Folding::Off, b"ACGTS"), Alphabet::DnaIupac);
/// assert_eq!(guess_alphabet(Folding::Off, b"acgt"), Alphabet::Ascii);
/// assert_eq!(guess_alphabet(Folding::On, b"acgt"), Alphabet::Dna2bit);
/// ```
pub fn guess_alphabet(folding: Folding, text: &[u8]) -> Alphabet {
    // SAFETY: the text is lent with its length.
    let answer = unsafe { raw::fc_guess_alphabet(folding.number(), text.as_ptr(), text.len()) };
    Alphabet::try_from(known(answer)).expect("a guess is one of the six")
}

/// The guess for a genome out of its chromosomes' guesses: what [`guess_alphabet`] gives for all of them joined.
///
/// Each chromosome is guessed once, by the same choice to fold, and the guesses are combined by [`Alphabet::later`], from
/// Dna2bit on, which is the answer for no chromosomes. Every one is taken, also where the answer is Ascii already. None is
/// copied or kept: each is dropped before the next is asked for, so that the iterator may read them one by one. The
/// genome's alphabet packs every chromosome, by the same choice.
///
/// ```
/// use fantailclock::{encode_sequence, guess_genome, Alphabet, Folding};
///
/// let chromosomes = ["ACGT", "ACGTN", "acgt"];
/// assert_eq!(guess_genome(Folding::Off, chromosomes), Alphabet::Ascii);
/// let genome = guess_genome(Folding::On, chromosomes);
/// assert_eq!(genome, Alphabet::Dna3bit);
/// for chromosome in chromosomes {
///     encode_sequence(genome, Folding::On, chromosome.as_bytes())?;
/// }
/// # Ok::<(), fantailclock::Error>(())
/// ```
///
/// Who reads chromosomes in pieces has a [`Guesser`] for each, and combines their guesses:
///
/// ```
/// use fantailclock::{Alphabet, Folding, Guesser};
///
/// let mut genome = Alphabet::Dna2bit;
/// for chromosome in ["ACGTACGTU", "ACGTACGTS", "ACGT"] {
///     let mut guesser = Guesser::new(Folding::Off);
///     for piece in chromosome.as_bytes().chunks(4) {
///         guesser.update(piece)?;
///     }
///     genome = genome.later(guesser.guess()?);
/// }
/// assert_eq!(genome, Alphabet::DnaIupac);
/// # Ok::<(), fantailclock::Error>(())
/// ```
///
/// A text by itself is no list of chromosomes:
///
/// ```compile_fail,E0277
/// use fantailclock::{guess_genome, Folding};
///
/// guess_genome(Folding::Off, b"ACGT");
/// ```
pub fn guess_genome(folding: Folding, chromosomes: impl IntoIterator<Item = impl AsRef<[u8]>>) -> Alphabet {
    let guesses = chromosomes.into_iter().map(|chromosome| guess_alphabet(folding, chromosome.as_ref()));
    guesses.fold(Alphabet::Dna2bit, Alphabet::later)
}
