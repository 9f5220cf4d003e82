//! The oracle: the three Rust files as published, and nothing else. `compare/oracle` lays copies of them in `digest/`
//! beside a copy of this file, under target/compare.

pub mod digest {
    pub mod alphabet;
    pub mod encoder;
    pub mod streaming_decoder;
}
