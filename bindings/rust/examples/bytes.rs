//! What a base costs that is taken from a stream one at a time: by calls of `Stream::read`, by `.bytes()` of a decoder, by
//! `.bytes()` of a `BufReader` over the decoder; and in reads of 64 KiB. The best of several rounds. Where `.bytes()` costs
//! more than 1.8 times the calls, or the `BufReader` more than half of them, the program ends with an error.
//!
//!     bytes [BASES]

use fantailclock::{Alphabet, Stream, StreamingDecoder};
use std::io::{BufReader, Read};
use std::time::Instant;

const ALPHABET: Alphabet = Alphabet::Dna2bit;
const ROUNDS: usize = 9;

/// A way to take so many bases out of a packed file; the sum of them.
type Way = fn(&[u8], u64) -> u64;

fn decoder(packed: &[u8], bases: u64) -> StreamingDecoder<&[u8]> {
    StreamingDecoder::new(packed, ALPHABET, 0, bases).expect("a decoder")
}

fn by_calls(packed: &[u8], bases: u64) -> u64 {
    let mut stream = Stream::new(ALPHABET, 0, bases).expect("a stream");
    let (mut at, mut base, mut sum) = (0, [0], 0);
    for count in 0..bases {
        let needed = usize::from(count % 4 == 0); // four bases to a byte
        let step = stream.read(&packed[at..at + needed], &mut base).expect("a base");
        (at, stream, sum) = (at + step.taken, step.next, sum + u64::from(base[0]));
    }
    sum
}

fn by_bytes(packed: &[u8], bases: u64) -> u64 {
    decoder(packed, bases).bytes().map(|base| u64::from(base.expect("a base"))).sum()
}

fn by_buffered_bytes(packed: &[u8], bases: u64) -> u64 {
    BufReader::new(decoder(packed, bases)).bytes().map(|base| u64::from(base.expect("a base"))).sum()
}

fn by_reads(packed: &[u8], bases: u64) -> u64 {
    let (mut decoder, mut memory, mut sum) = (decoder(packed, bases), vec![0; 1 << 16], 0);
    loop {
        match decoder.read(&mut memory).expect("bases") {
            0 => return sum,
            count => sum += memory[..count].iter().map(|&base| u64::from(base)).sum::<u64>(),
        }
    }
}

fn main() -> Result<(), Box<dyn std::error::Error>> {
    let bases: u64 = std::env::args().nth(1).map_or(Ok(1 << 18), |word| word.parse())?;
    let packed: Vec<u8> = (0..bases / 4 + 1).map(|at| (at * 151) as u8).collect();
    let ways: [Way; 4] = [by_calls, by_bytes, by_buffered_bytes, by_reads];
    let (mut best, mut sums) = ([f64::MAX; 4], [0; 4]);
    for _ in 0..ROUNDS {
        for (at, way) in ways.iter().enumerate() {
            let begun = Instant::now();
            sums[at] = way(&packed, bases);
            best[at] = best[at].min(begun.elapsed().as_nanos() as f64 / bases as f64);
        }
    }
    let [calls, bytes, buffered, reads] = best;
    println!(
        "bytes: a base costs {calls:.1} ns by a call each, {bytes:.1} ns by .bytes(), {buffered:.1} ns by .bytes() of a \
         BufReader, {reads:.1} ns in reads of 64 KiB"
    );
    if sums != [sums[0]; 4] {
        return Err("the bases are not the same".into());
    }
    if bytes > 1.8 * calls || buffered > 0.5 * calls {
        return Err("a base costs too much".into());
    }
    Ok(())
}
