//! The C ABI as it is: the structs and functions of include/fantailclock.h, under the same names.
//!
//! Every number is 64 bits wide; structs go in and come back by value, and a host may forge any of them: each call tests
//! the state that it is handed.
//!
//! # Safety
//!
//! A pointer with a length names memory that the caller owns; where the length is 0 nothing is read or written through it,
//! and it may be null. Input and output memory of one call must not overlap: the bases would be wrong, and no refusal
//! would tell.

macro_rules! structs {
    ($($(#[$about:meta])* $name:ident { $($field:ident: $kind:ty),* })*) => {$(
        $(#[$about])*
        #[repr(C)]
        #[derive(Clone, Copy, Debug, Default, PartialEq, Eq, Hash)]
        #[allow(missing_docs)]
        pub struct $name { $(pub $field: $kind),* }
    )*};
}

structs! {
    /// `fc_number`
    Number { refusal: u64, value: u64 }
    /// `fc_count`
    Count { refusal: u64, count: u64 }
    /// `fc_covered`: where the refusal is 18, the first base of the window whose code is no symbol's, else 0.
    Covered { refusal: u64, count: u64, value: u64 }
    /// `fc_range`
    Range { refusal: u64, start: u64, end: u64 }
    /// `fc_packed`: where the refusal is 5, the first non-member and the number of all of them, else 0.
    Packed { refusal: u64, count: u64, position: u64, byte: u64, bad_count: u64 }

    /// `fc_guesser`: the mask of the alphabets that hold every byte seen, 16 to 31; whether it folds, 0 or 1.
    Guesser { mask: u64, fold: u64 }
    /// `fc_guessing`
    Guessing { refusal: u64, next: Guesser }

    /// `fc_encoder`: symbols seen; bits that fill no byte yet and their value; whether a byte was no member, and the
    /// first such byte's position over all pieces and its value as received (both ignored where `has_bad` is 0); whether
    /// it folds, 0 or 1; how many bytes of all accepted pieces were no members: 0 exactly where `has_bad` is 0, else at most
    /// `seen - bad_position`; with any other count the state is refused by 1.
    Encoder { alphabet: u64, seen: u64, pending_bits: u64, pending: u64, has_bad: u64, bad_position: u64, bad_byte: u64, fold: u64, bad_count: u64 }
    /// `fc_encoder_started`
    EncoderStarted { refusal: u64, next: Encoder }
    /// `fc_updated`
    Updated { refusal: u64, count: u64, next: Encoder }

    /// `fc_stream`: bits still to be passed over, bases still to come, bits taken and not used and their value.
    Stream { alphabet: u64, skip: u64, budget: u64, pending_bits: u64, pending: u64 }
    /// `fc_stream_started`
    StreamStarted { refusal: u64, next: Stream }
    /// `fc_streamed`: status 1 Hungry, 2 Done, 3 Full; 0 on a refusal.
    Streamed { refusal: u64, taken: u64, written: u64, status: u64, next: Stream }
    /// `fc_ended`
    Ended { refusal: u64, outstanding: u64 }
}

/// A zero-filling read of a window that takes alphabet, lent bytes, byte_offset, start and end.
pub type Window = unsafe extern "C" fn(u64, *const u8, usize, u64, u64, u64, *mut u8, usize) -> Count;
/// An engine that serves one alphabet.
pub type Engine = unsafe extern "C" fn(*const u8, usize, u64, u64, u64, *mut u8, usize) -> Count;

#[rustfmt::skip]
#[allow(missing_docs)] // the header says what each does
extern "C" {
    pub fn fc_abi_version() -> u64;
    pub fn fc_bits_per_symbol(alphabet: u64) -> Number;
    pub fn fc_contains(alphabet: u64, byte: u64) -> Number;
    pub fn fc_display_name(alphabet: u64, out: *mut u8, room: usize) -> Count;
    pub fn fc_guesser_new(fold: u64) -> Guesser;
    pub fn fc_guesser_update(state: Guesser, text: *const u8, len: usize) -> Guessing;
    pub fn fc_guesser_guess(state: Guesser) -> Number;
    pub fn fc_guess_alphabet(fold: u64, text: *const u8, len: usize) -> Number;
    pub fn fc_later_alphabet(one: u64, other: u64) -> Number;

    pub fn fc_encoder_new(alphabet: u64, fold: u64) -> EncoderStarted;
    pub fn fc_encoder_update(state: Encoder, piece: *const u8, len: usize, out: *mut u8, room: usize) -> Updated;
    pub fn fc_encoder_ask(state: Encoder, piece: *const u8, len: usize, room: u64) -> Updated;
    pub fn fc_encoder_finalize(state: Encoder, out: *mut u8, room: usize) -> Packed;
    pub fn fc_encode_sequence(alphabet: u64, fold: u64, text: *const u8, len: usize, out: *mut u8, room: usize) -> Packed;
    pub fn fc_byte_range_for_bases(start: u64, end: u64, bits: u64) -> Range;

    pub fn fc_decode_substring_from_bytes_at_offset(alphabet: u64, bytes: *const u8, len: usize, byte_offset: u64, start: u64, end: u64, out: *mut u8, room: usize) -> Count;
    pub fn fc_decode_substring_from_bytes(alphabet: u64, bytes: *const u8, len: usize, start: u64, end: u64, out: *mut u8, room: usize) -> Count;
    pub fn fc_decode_string_from_bytes(alphabet: u64, bytes: *const u8, len: usize, seq_len: u64, out: *mut u8, room: usize) -> Count;
    pub fn fc_decode_covered(alphabet: u64, bytes: *const u8, len: usize, byte_offset: u64, start: u64, end: u64, out: *mut u8, room: usize) -> Covered;
    pub fn fc_decode_rolling(alphabet: u64, bytes: *const u8, len: usize, byte_offset: u64, start: u64, end: u64, out: *mut u8, room: usize) -> Count;
    pub fn fc_decode_2bit(bytes: *const u8, len: usize, byte_offset: u64, start: u64, end: u64, out: *mut u8, room: usize) -> Count;
    pub fn fc_decode_3bit(bytes: *const u8, len: usize, byte_offset: u64, start: u64, end: u64, out: *mut u8, room: usize) -> Count;
    pub fn fc_decode_4bit(bytes: *const u8, len: usize, byte_offset: u64, start: u64, end: u64, out: *mut u8, room: usize) -> Count;
    pub fn fc_decode_5bit(bytes: *const u8, len: usize, byte_offset: u64, start: u64, end: u64, out: *mut u8, room: usize) -> Count;

    pub fn fc_stream_new(alphabet: u64, skip: u64, budget: u64) -> StreamStarted;
    pub fn fc_stream_read(state: Stream, source: *const u8, len: usize, out: *mut u8, room: usize) -> Streamed;
    pub fn fc_stream_end(state: Stream) -> Ended;
}
