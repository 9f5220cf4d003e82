//! Stand-in for the crate `thiserror`, for the oracle alone.
//!
//! Gives `EncodeError` the `Display` and `Error` it would have from the real crate, and plants a child module through
//! which the comparison reaches the private engines and the encoder's fields.

extern crate proc_macro;
use proc_macro::{TokenStream, TokenTree};

const INSIDE: &str = "
pub mod inside {
    use super::*;

    pub type Engine = fn(&[u8], usize, usize, usize, &Alphabet) -> Vec<u8>;

    pub const NAIVE: Engine = decode_substring_naive_at_offset;
    pub const TWO: Engine = |b, o, s, e, a| decode_2bit(b, o, s, e, a.decoding_array);
    pub const THREE: Engine = |b, o, s, e, a| decode_3bit(b, o, s, e, a.decoding_array);
    pub const ROLLING: Engine = |b, o, s, e, a| decode_rolling(b, o, s, e, a.bits_per_symbol, a.decoding_array);

    /// What an encoder carries from call to call.
    #[derive(Clone, Copy)]
    pub struct State {
        pub symbols_seen: usize,
        pub buffer: u64,
        pub buffer_bits: usize,
        pub first_bad: Option<(usize, u8)>,
    }
    /// An encoder in that state that has written nothing yet.
    pub fn encoder(alphabet: alphabet::AlphabetType, state: State) -> SequenceEncoder {
        let mut encoder = SequenceEncoder::new(alphabet, 0);
        encoder.symbols_seen = state.symbols_seen;
        encoder.buffer = state.buffer;
        encoder.buffer_bits = state.buffer_bits;
        encoder.first_bad = state.first_bad;
        encoder
    }
    pub fn state(encoder: &SequenceEncoder) -> State {
        State {
            symbols_seen: encoder.symbols_seen,
            buffer: encoder.buffer,
            buffer_bits: encoder.buffer_bits,
            first_bad: encoder.first_bad,
        }
    }
    /// The bytes completed so far.
    pub fn written(encoder: &SequenceEncoder) -> &[u8] {
        &encoder.encoded_sequence
    }
}";

/// The string of `#[error("..")]`, the first literal inside any group.
fn message(item: TokenStream) -> Option<TokenTree> {
    for tree in item {
        match tree {
            TokenTree::Literal(text) if text.to_string().starts_with('"') => return Some(text.into()),
            TokenTree::Group(group) => {
                if let Some(found) = message(group.stream()) {
                    return Some(found);
                }
            }
            _ => {}
        }
    }
    None
}

#[proc_macro_derive(Error, attributes(error))]
pub fn error(item: TokenStream) -> TokenStream {
    let text = message(item).expect("EncodeError has a message");
    let display = format!(
        "impl std::fmt::Display for EncodeError {{
            fn fmt(&self, f: &mut std::fmt::Formatter<'_>) -> std::fmt::Result {{
                let EncodeError::InvalidSymbol {{ alphabet, byte, ch, position }} = self;
                write!(f, {text})
            }}
        }}
        impl std::error::Error for EncodeError {{}}"
    );
    format!("{display}{INSIDE}").parse().expect("the planted code is Rust")
}
