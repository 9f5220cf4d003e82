//! One call of one entry point, or one list of calls, as data: what goes in, how it is shown and how it is made smaller.

use crate::random::mixed;

#[derive(Clone, Copy, PartialEq, Eq, Debug)]
pub enum Layer {
    Alphabet,
    Packing,
    Windows,
    Streaming,
    /// The stream's end call.
    Ending,
    /// Guesses combined.
    Genome,
    /// The encoder asked before it packs.
    Asking,
    /// Windows at the edges of blocks. It has cases and faults, and its entry points are those of `Windows`.
    Blocks,
}

impl Layer {
    pub const ALL: [Layer; 8] = [
        Layer::Alphabet,
        Layer::Packing,
        Layer::Windows,
        Layer::Streaming,
        Layer::Ending,
        Layer::Genome,
        Layer::Asking,
        Layer::Blocks,
    ];
}

/// What an entry point takes and answers, as names.
pub struct Shape {
    pub name: &'static str,
    pub layer: Layer,
    /// The numbers it takes.
    pub numbers: &'static str,
    /// Lent text and lent output memory; empty where there is none.
    pub lent: &'static str,
    /// The words of its answer before the next state.
    pub answer: &'static str,
    /// The words of the next state. A call that gets a state has its words for numbers.
    pub next: &'static str,
}

macro_rules! entries {
    ($($entry:ident: $name:literal $layer:ident ($numbers:expr; $lent:literal) -> ($answer:expr; $next:expr),)*) => {
        #[derive(Clone, Copy, PartialEq, Eq, Debug)]
        pub enum Entry { $($entry),* }

        impl Entry {
            pub const ALL: &'static [Entry] = &[$(Entry::$entry),*];

            pub fn shape(self) -> &'static Shape {
                const SHAPES: &[Shape] = &[$(Shape {
                    name: $name, layer: Layer::$layer, numbers: $numbers, lent: $lent, answer: $answer, next: $next,
                }),*];
                &SHAPES[self as usize]
            }
        }
    };
}

macro_rules! encoder {
    () => {
        "alphabet seen pending_bits pending has_bad bad_position bad_byte fold bad_count"
    };
}

const GUESSER: &str = "mask fold";
const ENCODER: &str = encoder!();
/// A state, and the length of the output memory that an update would be lent.
const ASKED: &str = concat!(encoder!(), " room");
const PACKED: &str = "refusal count position byte bad_count";
const STREAM: &str = "alphabet skip budget pending_bits pending";
const WINDOW: &str = "alphabet byte_offset start end";

entries! {
    AbiVersion: "abi_version" Alphabet (""; "") -> ("version"; ""),
    BitsPerSymbol: "bits_per_symbol" Alphabet ("alphabet"; "") -> ("refusal value"; ""),
    Contains: "contains" Alphabet ("alphabet byte"; "") -> ("refusal value"; ""),
    DisplayName: "display_name" Alphabet ("alphabet"; "out") -> ("refusal count"; ""),
    GuesserNew: "guesser_new" Alphabet ("fold"; "") -> (GUESSER; ""),
    GuesserUpdate: "guesser_update" Alphabet (GUESSER; "text") -> ("refusal"; GUESSER),
    GuesserGuess: "guesser_guess" Alphabet (GUESSER; "") -> ("refusal value"; ""),
    GuessAlphabet: "guess_alphabet" Alphabet ("fold"; "text") -> ("refusal value"; ""),
    GuesserList: "(list) guesser" Alphabet ("fold"; "text") -> ("refusal value"; ""),

    EncoderNew: "encoder_new" Packing ("alphabet fold"; "") -> ("refusal"; ENCODER),
    EncoderUpdate: "encoder_update" Packing (ENCODER; "piece out") -> ("refusal count"; ENCODER),
    EncoderFinalize: "encoder_finalize" Packing (ENCODER; "out") -> (PACKED; ""),
    EncodeSequence: "encode_sequence" Packing ("alphabet fold"; "text out") -> (PACKED; ""),
    ByteRange: "byte_range_for_bases" Packing ("start end bits"; "") -> ("refusal start end"; ""),
    EncoderList: "(list) encoder" Packing ("alphabet fold"; "text") -> (PACKED; ""),

    DecodeAtOffset: "decode_substring_from_bytes_at_offset" Windows (WINDOW; "bytes out") -> ("refusal count"; ""),
    DecodeSubstring: "decode_substring_from_bytes" Windows (WINDOW; "bytes out") -> ("refusal count"; ""),
    DecodeString: "decode_string_from_bytes" Windows (WINDOW; "bytes out") -> ("refusal count"; ""),
    DecodeCovered: "decode_covered" Windows (WINDOW; "bytes out") -> ("refusal count value"; ""),
    DecodeRolling: "decode_rolling" Windows (WINDOW; "bytes out") -> ("refusal count"; ""),
    Decode2bit: "decode_2bit" Windows (WINDOW; "bytes out") -> ("refusal count"; ""),
    Decode3bit: "decode_3bit" Windows (WINDOW; "bytes out") -> ("refusal count"; ""),
    Decode4bit: "decode_4bit" Windows (WINDOW; "bytes out") -> ("refusal count"; ""),
    Decode5bit: "decode_5bit" Windows (WINDOW; "bytes out") -> ("refusal count"; ""),

    StreamNew: "stream_new" Streaming ("alphabet skip budget"; "") -> ("refusal"; STREAM),
    StreamRead: "stream_read" Streaming (STREAM; "source out") -> ("refusal taken written status"; STREAM),
    StreamEnd: "stream_end" Ending (STREAM; "") -> ("refusal outstanding"; ""),
    StreamList: "(list) stream" Streaming ("alphabet skip budget"; "source") -> ("refusal taken written status"; ""),

    LaterAlphabet: "later_alphabet" Genome ("one other"; "") -> ("refusal value"; ""),
    GenomeList: "(list) genome" Genome ("fold order brackets"; "text") -> ("refusal value"; ""),

    EncoderAsk: "encoder_ask" Asking (ASKED; "piece") -> ("refusal count"; ENCODER),
    AskList: "(list) asks" Asking (ENCODER; "text") -> ("refusal count"; ENCODER),
}

impl Shape {
    /// How many words an answer has, those of the next state among them.
    pub fn width(&self) -> usize {
        self.answer.split_whitespace().chain(self.next.split_whitespace()).count()
    }
}

/// One call of a list: an update or a read with the next `length` bytes, or, if `last`, the call that may end the list. Of a
/// genome it is the guess of a chromosome, that of the next `length` bytes; of asks an update and all that is asked about it.
#[derive(Clone, Copy, PartialEq, Debug)]
pub struct Step {
    pub length: usize,
    pub room: usize,
    pub last: bool,
}

/// The numbers of a call: as many as an ask has, which has the most. The first nine are an encoder's state, where the call
/// gets one.
pub type Numbers = [u64; 10];

#[derive(Clone, PartialEq)]
pub struct Call {
    pub entry: Entry,
    /// The numbers of the shape, then zeros. All window reads have the four of `WINDOW`; one that fixes some of them
    /// has them at what it fixes.
    pub numbers: Numbers,
    pub text: Vec<u8>,
    pub room: usize,
    pub steps: Vec<Step>,
}

impl Call {
    pub fn new(entry: Entry, given: &[u64]) -> Call {
        let mut numbers = Numbers::default();
        numbers[..given.len()].copy_from_slice(given);
        Call { entry, numbers, text: Vec::new(), room: 0, steps: Vec::new() }.settled()
    }

    /// An ask about a piece and memory of `room` bytes, from an encoder's state.
    pub fn ask(state: &[u64], piece: &[u8], room: u64) -> Call {
        Call::new(Entry::EncoderAsk, &[&state[..9], &[room]].concat()).text(piece)
    }

    pub fn text(mut self, text: &[u8]) -> Call {
        self.text = text.to_vec();
        self
    }

    pub fn room(mut self, room: usize) -> Call {
        self.room = room;
        self
    }

    pub fn steps(mut self, steps: Vec<Step>) -> Call {
        self.steps = steps;
        self
    }

    /// The numbers that the entry point fixes for itself.
    fn settled(mut self) -> Call {
        match self.entry {
            Entry::DecodeSubstring => self.numbers[1] = 0,
            Entry::DecodeString => self.numbers[1..3].fill(0),
            Entry::Decode2bit => self.numbers[0] = 0,
            Entry::Decode3bit => self.numbers[0] = 1,
            Entry::Decode4bit => self.numbers[0] = 2,
            Entry::Decode5bit => self.numbers[0] = 3,
            _ => {}
        }
        self
    }

    /// The alphabet the call is about, if it is about one.
    pub fn alphabet(&self) -> Option<u64> {
        self.entry.shape().numbers.starts_with("alphabet").then_some(self.numbers[0])
    }

    /// The place among the numbers of the choice to fold, an argument or a state's; none where the call has no choice.
    pub fn fold_place(&self) -> Option<usize> {
        self.entry.shape().numbers.split_whitespace().position(|name| name == "fold")
    }

    /// Whether the call folds, or would if its state were sound.
    pub fn folds(&self) -> bool {
        self.fold_place().is_some_and(|place| self.numbers[place] != 0)
    }

    /// The pieces that the calls of a list get, one after another; the whole text where the call is no list.
    pub fn pieces(&self) -> impl Iterator<Item = &[u8]> {
        let whole = Step { length: self.text.len(), room: 0, last: false };
        let steps = if self.steps.is_empty() { vec![whole] } else { self.steps.clone() };
        let len = self.text.len();
        let mut from = 0;
        steps.into_iter().filter(|step| !step.last).map(move |step| {
            let piece = &self.text[from.min(len)..(from + step.length).min(len)];
            from += step.length;
            piece
        })
    }

    /// Whether a list is one of updates and a single `finalize` at its end.
    pub fn ends_once(&self) -> bool {
        self.steps.iter().position(|step| step.last) == Some(self.steps.len().wrapping_sub(1))
    }

    fn rooms(&self) -> Vec<usize> {
        if self.steps.is_empty() {
            vec![self.room]
        } else {
            self.steps.iter().map(|step| step.room).collect()
        }
    }
}

/// Output memory as a call finds it: filled with a pattern, with more of it before and behind what is lent, so that
/// a byte written anywhere else shows.
#[derive(Clone, PartialEq)]
pub struct Memory {
    bytes: Vec<u8>,
    rooms: Vec<usize>,
    /// How many bytes stand before the first that is lent; it varies, so that memory is lent at any alignment.
    front: usize,
}

const GUARD: usize = 32;

impl Memory {
    pub fn for_call(call: &Call, seed: u64) -> Memory {
        let rooms = call.rooms();
        let front = GUARD + (seed % 16) as usize;
        let size = front + rooms.iter().map(|room| room + GUARD).sum::<usize>();
        let words = (0..size as u64 / 8 + 1).map(|k| mixed(seed ^ k << 32) | 0x0101_0101_0101_0101);
        let bytes = words.flat_map(u64::to_le_bytes).take(size).collect();
        Memory { bytes, rooms, front }
    }

    /// The memory lent to call number `step` of a list, or to the only call.
    pub fn lent(&mut self, step: usize) -> &mut [u8] {
        let from = self.front + self.rooms[..step].iter().map(|room| room + GUARD).sum::<usize>();
        &mut self.bytes[from..from + self.rooms[step]]
    }

    /// The lent parts, then `!` if a byte outside them changed from `before`.
    pub fn show(&self, before: &Memory) -> String {
        let mut copy = self.clone();
        let mut rest = before.clone();
        let mut shown = Vec::new();
        for step in 0..self.rooms.len() {
            shown.push(show_bytes(copy.lent(step)));
            rest.lent(step).copy_from_slice(copy.lent(step));
        }
        let stray = if rest == copy { "" } else { " ! and bytes beside it" };
        format!("{}{stray}", shown.join(" / "))
    }
}

/// Printable bytes as text, others in hexadecimal; of a long run only the two ends.
pub fn show_bytes(bytes: &[u8]) -> String {
    let printable = !bytes.is_empty() && bytes.iter().all(|byte| (33..127).contains(byte));
    let show = |part: &[u8]| {
        if printable {
            return format!("\"{}\"", String::from_utf8_lossy(part));
        }
        let hex: Vec<String> = part.iter().map(|byte| format!("{byte:02X}")).collect();
        format!("[{}]", hex.join(" "))
    };
    match bytes.len() {
        0..=64 => show(bytes),
        len => format!("{} .. {}, {len} bytes", show(&bytes[..32]), show(&bytes[len - 16..])),
    }
}

/// Large numbers as powers of two, as document 01 writes them.
pub fn show_number(number: u64) -> String {
    for power in [64u32, 63, 60] {
        let base = 1i128 << power;
        let rest = i128::from(number) - base;
        if rest.abs() < 1 << 16 {
            return if rest == 0 { format!("2^{power}") } else { format!("2^{power}{rest:+}") };
        }
    }
    number.to_string()
}

impl std::fmt::Display for Call {
    fn fmt(&self, f: &mut std::fmt::Formatter<'_>) -> std::fmt::Result {
        let shape = self.entry.shape();
        let named = |(name, number): (&str, u64)| format!("{name} {}", show_number(number));
        let mut parts: Vec<String> = shape.numbers.split_whitespace().zip(self.numbers).map(named).collect();
        parts.extend(shape.lent.split_whitespace().map(|lent| match lent {
            "out" => format!("out of {} bytes", self.room),
            text => format!("{text} {}", show_bytes(&self.text)),
        }));
        write!(f, "{}({}", shape.name, parts.join(", "))?;
        for step in &self.steps {
            let kind = if step.last { "last call" } else { "call" };
            match self.entry {
                Entry::GenomeList => write!(f, "; chromosome of {} bytes", step.length)?,
                _ => write!(f, "; {kind} of {} bytes, out of {}", step.length, step.room)?,
            }
        }
        write!(f, ")")
    }
}

/// The words of an answer by name; a list's answer is a row of words for each call.
pub fn show_words(entry: Entry, words: &[u64]) -> String {
    show_rows(entry, words.chunks(entry.shape().width()))
}

/// The same of an answer that may tell fewer words of each row.
pub fn show_rows<'a>(entry: Entry, rows: impl Iterator<Item = &'a [u64]>) -> String {
    let shape = entry.shape();
    let next = shape.next.split_whitespace().map(|name| format!("next.{name}"));
    let names: Vec<String> = shape.answer.split_whitespace().map(str::to_string).chain(next).collect();
    let one = |row: &[u64]| {
        let pairs = names.iter().zip(row).map(|(name, &word)| format!("{name} {}", show_number(word)));
        pairs.collect::<Vec<_>>().join(", ")
    };
    rows.map(one).collect::<Vec<_>>().join(" / ")
}

/// The smallest call found that still fails, by trying smaller ones until none of them does.
pub fn shrink(call: &Call, fails: &dyn Fn(&Call) -> bool) -> Call {
    let mut best = call.clone();
    for _ in 0..2000 {
        match smaller(&best).into_iter().find(|next| fails(next)) {
            Some(next) => best = next,
            None => break,
        }
    }
    best
}

fn smaller(call: &Call) -> Vec<Call> {
    let mut found = Vec::new();
    let mut offer = |change: &dyn Fn(&mut Call)| {
        let mut next = call.clone();
        change(&mut next);
        found.push(next.settled());
    };
    for step in 0..call.steps.len() {
        offer(&|next| {
            next.steps.remove(step);
        });
        for less in less_than(call.steps[step].length as u64) {
            offer(&|next| next.steps[step].length = less as usize);
        }
        for less in less_than(call.steps[step].room as u64) {
            offer(&|next| next.steps[step].room = less as usize);
        }
    }
    for (from, to) in cuts(call.text.len()) {
        offer(&|next| drop(next.text.drain(from..to)));
    }
    for less in less_than(call.room as u64) {
        offer(&|next| next.room = less as usize);
    }
    for place in 0..call.numbers.len() {
        for less in less_than(call.numbers[place]) {
            offer(&|next| next.numbers[place] = less);
        }
    }
    for (from, to) in cuts(call.text.len()) {
        offer(&|next| next.text[from..to].fill(b'A'));
    }
    found.retain(|next| next != call);
    found
}

/// Zero first, then small numbers that leave the same remainder by 8, which a sound encoder ties to its pending bits,
/// then numbers ever nearer to `number`.
fn less_than(number: u64) -> Vec<u64> {
    let nearer = (1..64).map(|k| number >> k).filter(|&less| less > 0).map(|less| number - less);
    let mut found: Vec<u64> = [0, number % 8, number % 8 + 8].into_iter().chain(nearer).collect();
    found.retain(|&less| less < number);
    if number > 0 && !found.contains(&(number - 1)) {
        found.push(number - 1);
    }
    found
}

/// Stretches of a text to leave out or to make plain: halves, quarters and so on, down to single bytes while there are
/// few of them.
fn cuts(len: usize) -> Vec<(usize, usize)> {
    let mut found = Vec::new();
    let mut size = len;
    while size > 0 && len / size <= 256 {
        found.extend((0..len).step_by(size).map(|from| (from, len.min(from + size))));
        size /= 2;
    }
    found
}
