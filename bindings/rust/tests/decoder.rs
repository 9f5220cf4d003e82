//! The streaming decoder over sources that give their bytes in many ways, and the forms that give a `Vec`.

mod support;

use fantailclock::*;
use std::io::{self, BufReader, ErrorKind, Read};
use support::model;
use support::random::Random;
use support::reads::{engine, ENGINES};

/// A source that gives at most `most` bytes a read, is interrupted before every second one, and counts what it gave.
struct Source<'a> {
    bytes: &'a [u8],
    most: usize,
    given: usize,
    interrupted: bool,
}

impl<'a> Source<'a> {
    fn new(bytes: &'a [u8], most: usize) -> Source<'a> {
        Source { bytes, most, given: 0, interrupted: false }
    }
}

impl Read for Source<'_> {
    fn read(&mut self, buf: &mut [u8]) -> io::Result<usize> {
        self.interrupted = !self.interrupted;
        if self.interrupted {
            return Err(ErrorKind::Interrupted.into());
        }
        let len = buf.len().min(self.most).min(self.bytes.len() - self.given);
        buf[..len].copy_from_slice(&self.bytes[self.given..self.given + len]);
        self.given += len;
        Ok(len)
    }
}

/// A source that fails at its every second read and loses nothing by it.
struct Failing<'a>(Source<'a>, bool);

impl Read for Failing<'_> {
    fn read(&mut self, buf: &mut [u8]) -> io::Result<usize> {
        self.1 = !self.1;
        if self.1 {
            Err(ErrorKind::TimedOut.into())
        } else {
            self.0.read(buf)
        }
    }
}

/// What reads of so many bases each give until the window's end or an error other than a timeout.
fn drained(decoder: &mut impl Read, step: usize) -> (Vec<u8>, Option<io::Error>) {
    let mut bases = Vec::new();
    let mut buf = vec![0xC3; step];
    loop {
        match decoder.read(&mut buf) {
            Ok(0) => return (bases, None),
            Ok(count) => bases.extend(&buf[..count]),
            Err(error) if error.kind() == ErrorKind::TimedOut => {}
            Err(error) => return (bases, Some(error)),
        }
    }
}

/// A file of random bits, a window of it and the window's bytes with more behind them.
fn windows(check: impl Fn(Alphabet, &[u8], u64, u64)) {
    let mut random = Random(3);
    for alphabet in Alphabet::ALL {
        for len in [0, 1, 2, 3, 7, 8, 9, 30, 70, 20_000] {
            let start = random.below(40);
            check(alphabet, &random.bytes(20_100), start, start + len);
        }
    }
}

/// The bytes of a window, from the first byte that it needs.
fn range(alphabet: Alphabet, start: u64, end: u64) -> (usize, usize) {
    let bits = model::bits(alphabet);
    ((start * bits / 8) as usize, ((end * bits + 7) / 8) as usize)
}

#[test]
fn a_window_is_whole_and_no_byte_is_read_ahead() {
    windows(|alphabet, file, start, end| {
        let (from, to) = range(alphabet, start, end);
        let needed = if start < end { to - from } else { 0 };
        for (most, step) in [(1, 1), (3, 5), (usize::MAX, 7), (4096, 1 << 20), (usize::MAX, 1 << 20)] {
            let source = Source::new(&file[from..], most);
            let mut decoder = StreamingDecoder::for_window(source, alphabet, start, end).unwrap();
            let (bases, error) = drained(&mut decoder, step);
            assert!(error.is_none(), "{error:?}");
            assert!(bases == model::unpack(alphabet, file, 0, start, end), "{alphabet} {start} {end} {most} {step}");
            assert_eq!(decoder.stream().end(), Ok(()));
            assert_eq!(decoder.into_inner().given, needed, "{alphabet} {start} {end} {most} {step}");
        }
    });
}

#[test]
fn nothing_is_read_before_it_is_asked_for() {
    let file = [0xE4; 64];
    let mut decoder = StreamingDecoder::for_window(Source::new(&file, usize::MAX), Alphabet::Dna2bit, 1, 200).unwrap();
    for bases in 1..=199 {
        decoder.read_exact(&mut [0]).unwrap();
        assert_eq!(decoder.get_ref().given, (2 + bases * 2 + 7) / 8, "after {bases} bases");
    }
}

#[test]
fn a_short_source_is_never_a_whole_window() {
    windows(|alphabet, file, start, end| {
        let (from, to) = range(alphabet, start, end);
        if start == end {
            return;
        }
        for len in [0, (to - from) / 2, to - from - 1] {
            let whole = (len as u64 * 8).saturating_sub(start * model::bits(alphabet) % 8) / model::bits(alphabet);
            for step in [1, 5, 1 << 20] {
                let source = Source::new(&file[from..from + len], 3);
                let mut decoder = StreamingDecoder::for_window(source, alphabet, start, end).unwrap();
                let (bases, error) = drained(&mut decoder, step);
                assert!(
                    bases == model::unpack(alphabet, file, 0, start, start + whole),
                    "{alphabet} {start} {end} {len}"
                );
                let error = error.expect("an error at the source's end");
                assert_eq!(error.kind(), ErrorKind::UnexpectedEof);
                let inner = error.into_inner().unwrap().downcast::<Error>().unwrap();
                assert_eq!(*inner, Error::Outstanding { bases: end - start - whole });
                assert_eq!(decoder.read(&mut [0; 8]).unwrap_err().kind(), ErrorKind::UnexpectedEof, "and again");
                let mut all = StreamingDecoder::for_window(&file[from..from + len], alphabet, start, end).unwrap();
                assert_eq!(all.read_to_end(&mut Vec::new()).unwrap_err().kind(), ErrorKind::UnexpectedEof);
            }
        }
    });
}

#[test]
fn a_failing_source_loses_no_base() {
    windows(|alphabet, file, start, end| {
        let (from, to) = range(alphabet, start, end);
        let source = Failing(Source::new(&file[from..to], 2), false);
        let mut decoder = StreamingDecoder::for_window(source, alphabet, start, end).unwrap();
        let (bases, error) = drained(&mut decoder, 1000);
        assert!(error.is_none() && bases == model::unpack(alphabet, file, 0, start, end), "{alphabet} {start} {end}");
    });
}

#[test]
fn the_skip_of_a_window() {
    for alphabet in Alphabet::ALL {
        for start in (0..17).chain([(1 << 60) - 9, (1 << 60) - 2]) {
            let state = Stream::for_window(alphabet, start, start + 2).unwrap().to_raw();
            let skip = start % 8 * model::bits(alphabet) % 8;
            assert_eq!((state.alphabet, state.skip, state.budget), (alphabet.number(), skip, 2), "{alphabet} {start}");
        }
    }
}

#[test]
fn a_skip_is_due_even_with_no_base() {
    let mut decoder = StreamingDecoder::new(&[][..], Alphabet::Dna2bit, 3, 0).unwrap();
    assert_eq!(decoder.read(&mut [0; 4]).unwrap_err().kind(), ErrorKind::UnexpectedEof);
    let mut decoder = StreamingDecoder::new(&[9][..], Alphabet::Dna2bit, 3, 0).unwrap();
    assert_eq!(decoder.read(&mut [0; 4]).unwrap(), 0);
    assert!(matches!(StreamingDecoder::new(&[][..], Alphabet::Dna2bit, 8, 0), Err(Error::BadSkip)));
    let mut decoder = StreamingDecoder::for_window(&[][..], Alphabet::Dna2bit, 9, 4).unwrap();
    assert_eq!(decoder.read(&mut [0; 4]).unwrap(), 0, "an empty window needs no byte");
    assert_eq!(Stream::for_window(Alphabet::Dna2bit, 0, (1 << 60) + 1), Err(Error::TooFar));
}

#[test]
fn a_window_base_by_base() {
    windows(|alphabet, file, start, end| {
        let (from, to) = range(alphabet, start, end);
        let expected = model::unpack(alphabet, file, 0, start, end);
        let needed = if start < end { to - from } else { 0 };
        let mut source = Source::new(&file[from..], usize::MAX);
        let decoder = StreamingDecoder::for_window(&mut source, alphabet, start, end).unwrap();
        assert!(decoder.bytes().map(io::Result::unwrap).eq(expected.iter().copied()), "{alphabet} {start} {end}");
        assert_eq!(source.given, needed);
        let mut source = Source::new(&file[from..], usize::MAX);
        let decoder = StreamingDecoder::for_window(&mut source, alphabet, start, end).unwrap();
        let buffered = BufReader::new(decoder).bytes().map(io::Result::unwrap);
        assert!(buffered.eq(expected.iter().copied()), "{alphabet} {start} {end}, buffered");
        assert_eq!(source.given, needed, "a buffer over the decoder reads ahead, but not beyond the window");
    });
}

#[test]
fn a_short_source_base_by_base() {
    let mut bases = StreamingDecoder::for_window(&[0x1B, 0x1B][..], Alphabet::Dna2bit, 1, 9).unwrap().bytes();
    let found: Vec<u8> = bases.by_ref().map_while(io::Result::ok).collect();
    assert_eq!(found, b"CAGTCAG");
    assert_eq!(bases.next().unwrap().unwrap_err().kind(), ErrorKind::UnexpectedEof, "and again");
}

#[test]
fn vectors_are_what_lent_memory_gets() {
    let mut random = Random(4);
    for alphabet in Alphabet::ALL {
        for len in 0..40 {
            let text = random.members(alphabet, len);
            let packed = encode_sequence(alphabet, Folding::Off, &text).unwrap();
            assert_eq!(packed, model::pack(alphabet, &text));
            let (cut, end) = (random.below(len as u64 + 1) as usize, len as u64);
            let mut encoder = SequenceEncoder::new(alphabet, Folding::Off);
            let mut joined = encoder.update(&text[..cut]).unwrap();
            joined.extend(encoder.update(&text[cut..]).unwrap());
            joined.extend(encoder.finalize().unwrap());
            assert_eq!(joined, packed);
            assert_eq!(decode_string_from_bytes(alphabet, &packed, end).unwrap(), text);
            let start = cut as u64;
            for read in [decode_substring_from_bytes_at_offset, decode_covered, decode_rolling] {
                assert_eq!(read(alphabet, &packed, 0, start, end).unwrap(), &text[cut..]);
            }
            assert_eq!(decode_substring_from_bytes(alphabet, &packed, start, end).unwrap(), &text[cut..]);
            if let Some(engine) = engine(alphabet) {
                assert_eq!((engine.plain)(&packed, 0, start, end).unwrap(), &text[cut..]);
            }
        }
    }
    assert_eq!(decode_2bit(&[0x1B], 0, 1, 4).unwrap(), b"CAG");
    assert_eq!(decode_3bit(&[0x05, 0x39, 0x77], 0, 2, 6).unwrap(), b"GTNR");
    assert_eq!(decode_4bit(&[0x01, 0x23], 0, 1, 4).unwrap(), b"ACM");
    assert_eq!(decode_5bit(&[0x52, 0x28], 0, 1, 3).unwrap(), b"K*");
}

#[test]
fn a_window_that_no_memory_holds_is_refused() {
    let far = 1 << 60;
    assert_eq!(decode_string_from_bytes(Alphabet::Dna2bit, &[], far), Err(Error::ShortMemory));
    assert_eq!(decode_string_from_bytes(Alphabet::Dna2bit, &[], far + 1), Err(Error::TooFar));
    assert_eq!(decode_covered(Alphabet::Dna2bit, &[], 0, 0, far), Err(Error::Uncovered));
    assert_eq!(decode_covered(Alphabet::Dna2bit, &[], u64::MAX, u64::MAX, 0), Ok(vec![]));
}

#[test]
fn empty_slices_everywhere() {
    for alphabet in Alphabet::ALL {
        assert_eq!(guess_alphabet(Folding::Off, &[]), Alphabet::Dna2bit);
        let mut guesser = Guesser::new(Folding::Off);
        guesser.update(&[]).unwrap();
        assert_eq!(guesser, Guesser::new(Folding::Off));
        assert_eq!(encode_sequence_into(alphabet, Folding::Off, &[], &mut []), Ok(0));
        let mut encoder = SequenceEncoder::new(alphabet, Folding::Off);
        assert_eq!(encoder.update_into(&[], &mut []), Ok(0));
        assert_eq!(encoder.finalize_into(&mut []), Ok(0));
        assert_eq!(decode_substring_from_bytes_at_offset_into(alphabet, &[], 0, 0, 0, &mut []), Ok(0));
        assert_eq!(decode_substring_from_bytes_into(alphabet, &[], 0, 0, &mut []), Ok(0));
        assert_eq!(decode_string_from_bytes_into(alphabet, &[], 0, &mut []), Ok(0));
        assert_eq!(decode_covered_into(alphabet, &[], 0, 0, 0, &mut []), Ok(0));
        assert_eq!(decode_covered_into(alphabet, &[], 0, 0, 1, &mut []), Err(Error::Uncovered));
        assert_eq!(decode_rolling_into(alphabet, &[], 0, 0, 1, &mut []), Err(Error::ShortMemory));
        let step = Stream::new(alphabet, 0, 1).unwrap().read(&[], &mut []).unwrap();
        assert_eq!((step.taken, step.written, step.status), (0, 0, Status::Full));
    }
    for engine in &ENGINES {
        assert_eq!((engine.into)(&[], 0, 0, 0, &mut []), Ok(0));
        assert_eq!((engine.into)(&[], 0, 0, 1, &mut []), Err(Error::ShortMemory));
    }
}

#[test]
fn a_refused_update_leaves_the_encoder_as_it_was() {
    let mut encoder = SequenceEncoder::new(Alphabet::Dna2bit, Folding::Off);
    assert_eq!(encoder.update(b"ACN").unwrap(), []);
    let before = encoder.clone();
    assert_eq!(encoder.update_into(b"T", &mut []), Err(Error::ShortMemory));
    assert_eq!(encoder, before);
    assert_eq!(encoder.update(b"T").unwrap(), [0x9C]);
    assert_eq!(encoder.update(b"acgt").unwrap(), [0xFF], "non-members pack as ones");
    let refused = encoder.clone().finalize().unwrap_err();
    assert_eq!(refused.error(), Error::NotMember { position: 2, byte: b'N', count: 5 });
    assert_eq!(refused.into_encoder(), encoder, "a refused one is handed back as it was");
}

#[test]
fn a_refused_finalize_hands_the_encoder_back() {
    let mut encoder = SequenceEncoder::new(Alphabet::Dna2bit, Folding::Off);
    assert_eq!(encoder.update(b"ACGTA").unwrap(), [0x9C]);
    let before = encoder.clone();
    let (error, mut encoder) = encoder.finalize_into(&mut []).unwrap_err().into_parts();
    assert_eq!((error, &encoder), (Error::ShortMemory, &before));
    assert_eq!(encoder.update(b"CGT").unwrap(), [0x9C], "the text goes on");
    assert_eq!(encoder.finalize().unwrap(), []);
    assert_eq!(before.finalize().unwrap(), [0x80]);
}

#[test]
fn a_refused_finalize_is_an_error_by_the_question_mark() {
    fn plain(text: &[u8]) -> Result<Vec<u8>> {
        let mut encoder = SequenceEncoder::new(Alphabet::Dna2bit, Folding::Off);
        let mut packed = encoder.update(text)?;
        packed.extend(encoder.finalize()?);
        Ok(packed)
    }
    fn boxed(text: &[u8]) -> std::result::Result<usize, Box<dyn std::error::Error>> {
        let mut encoder = SequenceEncoder::new(Alphabet::Dna2bit, Folding::Off);
        encoder.update(text)?;
        Ok(encoder.finalize_into(&mut [0])?)
    }
    assert_eq!(plain(b"ACGTA"), Ok(vec![0x9C, 0x80]));
    assert_eq!(plain(b"ACN"), Err(Error::NotMember { position: 2, byte: b'N', count: 1 }));
    assert_eq!(boxed(b"A").unwrap(), 1);
    assert_eq!(boxed(b"N").unwrap_err().to_string(), "refused by 5: byte 4E at position 0 is no member, the only one");
}
