//! The C ABI of the port's archive, as the wrapper for Rust declares it. Every number is 64 bits wide, so an answer can be
//! read as a row of words.

#[path = "../../bindings/rust/src/raw.rs"]
mod raw;

pub use raw::*;

/// A struct whose every field is a `u64`.
///
/// # Safety
/// `words` reads the struct as an array of `u64`, which only such a struct is.
pub unsafe trait AllWords: Copy {}

/// The fields of an answer, in order.
pub fn words<T: AllWords>(answer: T) -> Vec<u64> {
    let count = std::mem::size_of::<T>() / 8;
    // SAFETY: `AllWords` promises `count` words and nothing else.
    unsafe { std::slice::from_raw_parts(std::ptr::addr_of!(answer).cast(), count) }.to_vec()
}

macro_rules! all_words {
    ($($name:ty)*) => {$(
        unsafe impl AllWords for $name {}
    )*};
}

all_words! { u64 Number Count Covered Range Packed Guesser Guessing EncoderStarted Updated StreamStarted Streamed Ended }
