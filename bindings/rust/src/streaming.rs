//! Streams: a window decoded from bytes as they come.

use crate::error::{accepted, accepted_or};
use crate::{byte_range_for_bases, raw, Alphabet, Error, Result};
use std::io::{self, Read};

/// What a stream waits for after a read.
#[derive(Clone, Copy, Debug, PartialEq, Eq, Hash)]
pub enum Status {
    /// More source bytes.
    Hungry,
    /// Nothing: every base of the budget is written.
    Done,
    /// More output memory.
    Full,
}

/// The answer of [`Stream::read`].
#[derive(Clone, Copy, Debug, PartialEq, Eq)]
pub struct Streamed {
    /// The source bytes taken; the next read's source begins behind them.
    pub taken: usize,
    /// The bases written to the front of the output memory.
    pub written: usize,
    /// What the stream waits for.
    pub status: Status,
    /// The stream from here on.
    pub next: Stream,
}

/// A stream by value: each read answers the next one, and takes of its source just the bytes that it needs.
///
/// ```
/// use fantailclock::{Alphabet, Error, Status, Stream};
///
/// let stream = Stream::new(Alphabet::Dna3bit, 6, 4)?; // bases 2 to 6: 6 bits to skip, 4 bases
/// let mut out = [0; 4];
/// let step = stream.read(&[0x05], &mut out)?;
/// assert_eq!((step.taken, step.written, step.status), (1, 0, Status::Hungry));
/// assert_eq!(step.next.end(), Err(Error::Outstanding { bases: 4 }));
/// let step = step.next.read(&[0x39, 0x77], &mut out)?;
/// assert_eq!((step.status, &out), (Status::Done, b"GTNR"));
/// step.next.end()?;
/// # Ok::<(), Error>(())
/// ```
#[derive(Clone, Copy, Debug, PartialEq, Eq)]
pub struct Stream {
    state: raw::Stream,
}

impl Stream {
    /// A stream that has taken nothing, with so many bits to skip and so many bases to come. Refuses a skip above 7.
    pub fn new(alphabet: Alphabet, skip: u64, budget: u64) -> Result<Stream> {
        // SAFETY: only numbers are passed.
        let started = unsafe { raw::fc_stream_new(alphabet.number(), skip, budget) };
        accepted(started.refusal)?;
        Ok(Stream { state: started.next })
    }

    /// The stream of the bases from `start` to `end`, not including `end`; its source begins at the first byte of
    /// [`byte_range_for_bases`]. An empty window needs no byte. Refuses positions above 2^60.
    pub fn for_window(alphabet: Alphabet, start: u64, end: u64) -> Result<Stream> {
        let bits = alphabet.bits_per_symbol();
        byte_range_for_bases(start, end, bits)?;
        match end.saturating_sub(start) {
            0 => Stream::new(alphabet, 0, 0),
            budget => Stream::new(alphabet, start * bits % 8, budget),
        }
    }

    /// A stream that goes on from a state that was kept; a state that is not sound is refused by the calls.
    pub fn from_raw(state: raw::Stream) -> Stream {
        Stream { state }
    }

    /// The state, to be kept.
    pub fn to_raw(&self) -> raw::Stream {
        self.state
    }

    /// Takes source bytes and writes bases to the front of `out`, as many as budget, source and memory allow.
    pub fn read(self, source: &[u8], out: &mut [u8]) -> Result<Streamed> {
        let room = out.len();
        // SAFETY: both memories are lent with their lengths, and `out` is borrowed alone.
        let answer = unsafe { raw::fc_stream_read(self.state, source.as_ptr(), source.len(), out.as_mut_ptr(), room) };
        accepted(answer.refusal)?;
        let status = match answer.status {
            1 => Status::Hungry,
            2 => Status::Done,
            3 => Status::Full,
            other => panic!("status {} is none of ABI version {}", other, crate::ABI_VERSION),
        };
        let next = Stream { state: answer.next };
        Ok(Streamed { taken: answer.taken as usize, written: answer.written as usize, status, next })
    }

    /// The end: accepted once the skip is done and every base is written, else refused with the bases outstanding.
    pub fn end(self) -> Result<()> {
        // SAFETY: only numbers are passed.
        let answer = unsafe { raw::fc_stream_end(self.state) };
        accepted_or(answer.refusal, [answer.outstanding, 0, 0])
    }

    /// The source bytes that a sound stream still needs for its next bases, so many or what is left of the budget;
    /// `bases` is at most 2^32.
    fn bytes_needed(self, bases: u64) -> Result<u64> {
        let bits = Alphabet::try_from(self.state.alphabet)?.bits_per_symbol();
        let due = self.state.skip + self.state.budget.min(bases) * bits;
        Ok((due.saturating_sub(self.state.pending_bits) + 7) / 8)
    }
}

/// The source bytes that one call of [`StreamingDecoder`] reads at most.
const CHUNK: usize = 8192;

/// A window's bases, read from any source of its packed bytes.
///
/// Of the source it reads just the bytes that the bases asked for need, nothing ahead, so small reads are best asked of a
/// buffered source. To go base by base use `BufReader::new(decoder).bytes()`, one to three nanoseconds each: it reads ahead,
/// though never a byte beyond the window; `.bytes()` of the decoder itself makes a call of the library for each base, which
/// costs some thirty times as much. Where the source ends with bases outstanding, the bases that it gave are handed out first; then every
/// read is an error of kind `UnexpectedEof` that holds [`Error::Outstanding`]. An `Ok(0)` for a buffer with room thus
/// means that the whole window was read. A code of Protein that no symbol has is handed out as X;
/// [`decode_covered`](crate::decode_covered) refuses it.
///
/// ```
/// use fantailclock::{Alphabet, StreamingDecoder};
/// use std::io::Read;
///
/// let file: &[u8] = &[0x05, 0x39, 0x77];
/// let mut bases = String::new();
/// StreamingDecoder::for_window(file, Alphabet::Dna3bit, 2, 6)?.read_to_string(&mut bases)?;
/// assert_eq!(bases, "GTNR");
///
/// let short = StreamingDecoder::new(&file[..2], Alphabet::Dna3bit, 6, 4)?.read_to_string(&mut bases);
/// assert_eq!(short.unwrap_err().kind(), std::io::ErrorKind::UnexpectedEof);
/// # Ok::<(), Box<dyn std::error::Error>>(())
/// ```
#[derive(Debug)]
pub struct StreamingDecoder<R> {
    inner: R,
    stream: Stream,
    chunk: Vec<u8>, // what the source is read into; as long as the longest fetch so far, so that it is zeroed once
}

impl<R: Read> StreamingDecoder<R> {
    /// A decoder of a source that begins with `leading_skip_bits` bits to be passed over, 0 to 7, and then holds
    /// `bases_to_emit` bases. Refuses a skip above 7.
    pub fn new(inner: R, alphabet: Alphabet, leading_skip_bits: u8, bases_to_emit: u64) -> Result<StreamingDecoder<R>> {
        let stream = Stream::new(alphabet, u64::from(leading_skip_bits), bases_to_emit)?;
        Ok(StreamingDecoder { inner, stream, chunk: Vec::new() })
    }

    /// A decoder of the bases from `start` to `end`; the source begins at the first byte of [`byte_range_for_bases`].
    pub fn for_window(inner: R, alphabet: Alphabet, start: u64, end: u64) -> Result<StreamingDecoder<R>> {
        Ok(StreamingDecoder { inner, stream: Stream::for_window(alphabet, start, end)?, chunk: Vec::new() })
    }

    /// The stream as it stands; its `end` says whether the window is complete.
    pub fn stream(&self) -> Stream {
        self.stream
    }

    /// The source.
    pub fn get_ref(&self) -> &R {
        &self.inner
    }

    /// The source, at the first byte that was not needed.
    pub fn into_inner(self) -> R {
        self.inner
    }

    /// Reads at most `most` source bytes into the chunk; 0 at the source's end, and where nothing is asked.
    fn fetch(&mut self, most: u64) -> io::Result<usize> {
        let most = most.min(CHUNK as u64) as usize;
        if most == 0 {
            return Ok(0);
        }
        if self.chunk.len() < most {
            self.chunk.resize(most, 0);
        }
        loop {
            match self.inner.read(&mut self.chunk[..most]) {
                Err(error) if error.kind() == io::ErrorKind::Interrupted => {}
                answer => return answer,
            }
        }
    }
}

impl<R: Read> Read for StreamingDecoder<R> {
    /// One source read that gives a base is enough for an answer, so an error of the source never loses a base.
    fn read(&mut self, buf: &mut [u8]) -> io::Result<usize> {
        let refused = |refusal: Error| io::Error::new(io::ErrorKind::InvalidInput, refusal);
        let asked = buf.len().min(8 * CHUNK) as u64; // a chunk holds no more bases than it has bits
        loop {
            let needed = self.stream.bytes_needed(asked).map_err(refused)?;
            let fetched = self.fetch(needed)?;
            let step = self.stream.read(&self.chunk[..fetched], buf).map_err(refused)?;
            assert_eq!(step.taken, fetched, "bytes were read that no base needed");
            self.stream = step.next;
            if step.written > 0 || step.status != Status::Hungry {
                return Ok(step.written);
            }
            if fetched == 0 {
                let ended = self.stream.end().expect_err("a hungry stream is not complete");
                return Err(io::Error::new(io::ErrorKind::UnexpectedEof, ended));
            }
        }
    }
}
