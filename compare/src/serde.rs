//! Stand-in for the crate `serde`, for the oracle alone.
//!
//! The Rust derives `Serialize` and `Deserialize` on `AlphabetType`; serialisation is outside the port, so the derives
//! write none. `Serialize` plants a child module instead: a child sees its parent's private items, which is how the
//! comparison reaches the guesser's mask while the file itself stays as published.

extern crate proc_macro;
use proc_macro::TokenStream;

const INSIDE: &str = "
pub mod inside {
    use super::*;

    /// The table behind the guesser.
    pub fn alphabet_mask() -> [u8; 256] {
        ALPHABET_MASK
    }
    /// A guesser whose mask is `acc`.
    pub fn guesser(acc: u8) -> AlphabetGuesser {
        AlphabetGuesser { acc }
    }
    /// The mask of a guesser.
    pub fn acc(guesser: &AlphabetGuesser) -> u8 {
        guesser.acc
    }
}";

#[proc_macro_derive(Serialize)]
pub fn serialize(_item: TokenStream) -> TokenStream {
    INSIDE.parse().expect("the planted module is Rust")
}

#[proc_macro_derive(Deserialize)]
pub fn deserialize(_item: TokenStream) -> TokenStream {
    TokenStream::new()
}
