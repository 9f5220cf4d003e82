//! Windows out of a long packed sequence: packs it to a file in pieces, fetches windows by byte range, and compares every
//! base with the generator. Memory must stay flat whatever the sequence's length.
//!
//!     fetch FILE [ALPHABET_NUMBER [BASES [WINDOWS]]]
//!
//! By default 1,000 windows of 1 to 100,000 bases out of 128 Mi and three, so that the last byte is filled in part.
//! The file is made, read and removed. The last line printed has the times and the peak memory; a wrong base, a byte too
//! few or more than 8 MiB of memory end the program with an error.

use fantailclock::{byte_range_for_bases, decode_covered_into, Alphabet, Folding, SequenceEncoder, StreamingDecoder};
use std::fs::{self, File};
use std::io::{BufReader, Read, Seek, SeekFrom, Write};
use std::os::unix::fs::FileExt;
use std::time::Instant;

type Answer<T> = Result<T, Box<dyn std::error::Error>>;

const PIECE: usize = 1 << 16;
const LONGEST: u64 = 100_000;
const MOST_MEMORY_KIB: u64 = 8 << 10;

/// A well-spread function of a number (SplitMix64), so that the sequence can be made again from any position.
fn mixed(at: u64) -> u64 {
    let mut x = at.wrapping_add(1).wrapping_mul(0x9E37_79B9_7F4A_7C15);
    x = (x ^ (x >> 30)).wrapping_mul(0xBF58_476D_1CE4_E5B9);
    x = (x ^ (x >> 27)).wrapping_mul(0x94D0_49BB_1331_11EB);
    x ^ (x >> 31)
}

/// A sequence that is nowhere held: each base is made from its position.
struct Sequence {
    alphabet: Alphabet,
    symbols: Vec<u8>,
    bases: u64,
}

impl Sequence {
    fn new(alphabet: Alphabet, bases: u64) -> Sequence {
        Sequence { alphabet, symbols: (0..=255).filter(|&byte| alphabet.contains(byte)).collect(), bases }
    }

    /// Its bases from a position on.
    fn fill(&self, from: u64, bases: &mut [u8]) {
        let count = self.symbols.len() as u64;
        for (at, base) in bases.iter_mut().enumerate() {
            *base = self.symbols[(((mixed(from + at as u64) >> 32) * count) >> 32) as usize];
        }
    }

    /// Packs it into a file, a piece at a time.
    fn pack(&self, file: &mut File) -> Answer<()> {
        let mut encoder = SequenceEncoder::new(self.alphabet, Folding::Off);
        let (mut piece, mut packed) = (vec![0; PIECE], vec![0; PIECE + 1]);
        let mut at = 0;
        while at < self.bases {
            let len = (self.bases - at).min(PIECE as u64) as usize;
            self.fill(at, &mut piece[..len]);
            let count = encoder.update_into(&piece[..len], &mut packed)?;
            file.write_all(&packed[..count])?;
            at += len as u64;
        }
        let count = encoder.finalize_into(&mut packed)?;
        Ok(file.write_all(&packed[..count])?)
    }
}

/// Memory for one window, used again for the next.
struct Buffers {
    expected: Vec<u8>,
    bytes: Vec<u8>,
    bases: Vec<u8>,
}

/// Fetches a window by its byte range and compares it: the first at the sequence's start, the second at its end, the others
/// anywhere. Every tenth is also streamed from the file.
fn check(sequence: &Sequence, file: &mut File, number: u64, buffers: &mut Buffers) -> Answer<u64> {
    let len = (1 + mixed(number ^ (1 << 63)) % LONGEST).min(sequence.bases);
    let start = match number {
        0 => 0,
        1 => sequence.bases - len,
        _ => mixed(!number) % (sequence.bases - len + 1),
    };
    let (end, len) = (start + len, len as usize);
    let Buffers { expected, bytes, bases } = buffers;
    sequence.fill(start, &mut expected[..len]);

    let range = byte_range_for_bases(start, end, sequence.alphabet.bits_per_symbol())?;
    let fetched = &mut bytes[..(range.end - range.start) as usize];
    file.read_exact_at(fetched, range.start)?;
    decode_covered_into(sequence.alphabet, fetched, range.start, start, end, bases)?;
    if bases[..len] != expected[..len] {
        return Err(format!("bases {start} to {end} are not those that were packed").into());
    }
    if number % 10 == 0 {
        file.seek(SeekFrom::Start(range.start))?;
        let source = BufReader::new(&*file);
        bases.fill(0);
        StreamingDecoder::for_window(source, sequence.alphabet, start, end)?.read_exact(&mut bases[..len])?;
        if bases[..len] != expected[..len] {
            return Err(format!("bases {start} to {end} are not those that were packed, by the stream").into());
        }
    }
    Ok(end - start)
}

/// The most memory that this process has held, in KiB.
fn peak_memory() -> Answer<u64> {
    let status = fs::read_to_string("/proc/self/status")?;
    let line = status.lines().find(|line| line.starts_with("VmHWM:")).ok_or("no VmHWM")?;
    Ok(line.split_whitespace().nth(1).ok_or("no number")?.parse()?)
}

fn run(path: &str, sequence: &Sequence, windows: u64) -> Answer<()> {
    let mut file = fs::OpenOptions::new().create(true).truncate(true).read(true).write(true).open(path)?;
    let began = Instant::now();
    sequence.pack(&mut file)?;
    let packing = began.elapsed();
    let needed = byte_range_for_bases(0, sequence.bases, sequence.alphabet.bits_per_symbol())?.end;
    let length = file.metadata()?.len();
    if length != needed {
        return Err(format!("the file has {length} bytes, not {needed}").into());
    }
    let longest = LONGEST as usize;
    let mut buffers = Buffers { expected: vec![0; longest], bytes: vec![0; longest + 1], bases: vec![0; longest] };
    let began = Instant::now();
    let mut bases = 0;
    for number in 0..windows {
        bases += check(sequence, &mut file, number, &mut buffers)?;
    }
    let (fetching, peak) = (began.elapsed(), peak_memory()?);
    println!(
        "fetch: {}, {} bases packed to {length} bytes in {packing:.2?}; {windows} windows, {bases} bases fetched and \
         compared in {fetching:.2?}; peak memory {peak} KiB",
        sequence.alphabet, sequence.bases
    );
    if peak > MOST_MEMORY_KIB {
        return Err(format!("more than {MOST_MEMORY_KIB} KiB of memory").into());
    }
    Ok(())
}

fn main() -> Answer<()> {
    let arguments: Vec<String> = std::env::args().skip(1).collect();
    let path = arguments.first().ok_or("fetch FILE [ALPHABET_NUMBER [BASES [WINDOWS]]]")?;
    let number = |at: usize, default: u64| arguments.get(at).map_or(Ok(default), |word| word.parse());
    let sequence = Sequence::new(Alphabet::try_from(number(1, 0)?)?, number(2, (128 << 20) + 3)?);
    let answer = run(path, &sequence, number(3, 1000)?);
    fs::remove_file(path)?;
    answer
}
