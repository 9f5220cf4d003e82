//! Rows of the stream, for one alphabet: the whole text in reads of 64 KiB.

use crate::abi;
use crate::measure::{Bench, Row};
use crate::Sample;
use oracle::digest::encoder::encode_sequence;
use oracle::digest::streaming_decoder::StreamingDecoder;
use std::hint::black_box;
use std::io::Read;

const READ: usize = 65536;

pub fn rows(bench: &mut Bench, sample: &Sample) {
    let packed = encode_sequence(&sample.text, sample.table).expect("members only");
    let name = format!("stream 65536 {}", sample.name);
    let row = Row { name: &name, calls: 1, bases: sample.text.len(), copied: sample.text.len(), allocated: 0 };
    let mut out = vec![0x5A; READ];
    let mut rust_out = out.clone();
    bench.row(&row, &mut || port(sample, &packed, &mut out), &mut || rust(sample, &packed, &mut rust_out));
    assert!(!bench.wants(&name) || out == rust_out, "{name}: the port streams otherwise");
}

fn port(sample: &Sample, packed: &[u8], out: &mut [u8]) {
    let mut source = black_box(packed);
    // SAFETY: each pointer is lent with its length and the two memories are apart.
    let mut state = unsafe { abi::fc_stream_new(sample.number, 0, sample.text.len() as u64) }.next;
    while state.budget > 0 {
        let (to, size) = (out.as_mut_ptr(), out.len());
        let answer = unsafe { abi::fc_stream_read(state, source.as_ptr(), source.len(), to, size) };
        assert!(answer.written > 0, "the stream stands still");
        source = &source[answer.taken as usize..];
        state = answer.next;
        black_box(&*out);
    }
}

fn rust(sample: &Sample, packed: &[u8], out: &mut [u8]) {
    let mut stream = StreamingDecoder::new(black_box(packed), sample.table, 0, sample.text.len() as u64);
    while stream.read(out).expect("enough source") > 0 {
        black_box(&*out);
    }
}
