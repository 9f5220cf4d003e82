//! In the place of `check.rs` where the list of calls is made: a sample of the comparison's cases, spread evenly over
//! entry points, refusals and alphabets.

use crate::case::{show_words, Call, Entry, Layer, Memory};
use crate::model::{self, LIMIT};
use crate::random::Random;
use std::collections::{BTreeMap, HashSet};

/// Nothing stops the making of cases here.
pub type Go = Result<(), std::convert::Infallible>;

/// The most lines of an entry point. Those that have the choice to fold get more, and the read that asks the most; an
/// encoder's start has little else, and what an engine reads, the reads of its alphabet have too.
fn lines(entry: Entry) -> usize {
    match entry {
        Entry::EncoderNew => 120,
        Entry::Decode4bit | Entry::Decode5bit => 150,
        Entry::DecodeCovered => 350,
        _ if entry.shape().numbers.contains("fold") => 350,
        _ => 300,
    }
}

/// By how many bytes a call lends, as text or as output memory, whichever is more: the most bytes of its class, and the
/// most lines of a group of that class. An entry point has several groups in each: one for each refusal in each
/// alphabet, and more. From 64 bases on the port may read Dna2bit by vectors.
const CLASSES: [(usize, usize); 3] = [(40, 60), (255, 3), (320, 2)];

/// Some calls of a group, each of those offered as likely as another, and how many were offered.
#[derive(Default)]
struct Kept {
    calls: Vec<Call>,
    offered: u64,
}

pub struct Checker {
    random: Random,
    /// The groups of an entry point, by what tells them apart.
    groups: Vec<BTreeMap<[u64; 5], Kept>>,
    /// The rows of the worked table, which are taken whole.
    rows: Vec<Call>,
}

impl Checker {
    pub fn new(seed: u64) -> Checker {
        let groups = Entry::ALL.iter().map(|_| BTreeMap::new()).collect();
        Checker { random: Random::new(seed), groups, rows: Vec::new() }
    }

    /// Offers a call to the sample. Lists of calls are left out: each line gives the state of its call itself. So are
    /// long calls that are refused unread, by any number but 5 and 18.
    pub fn call(&mut self, call: &Call) -> Go {
        let lent = call.text.len().max(call.room);
        let Some(class) = CLASSES.iter().position(|&(most, _)| lent <= most) else { return Ok(()) };
        let words = model::answer(call, &mut Memory::for_call(call, 0));
        let [refusal, alphabet, told, fold] = group(call, &words);
        if !call.steps.is_empty() || (class > 0 && !matches!(refusal, 0 | 5 | 18)) {
            return Ok(());
        }
        let kept = self.groups[call.entry as usize].entry([class as u64, refusal, alphabet, told, fold]).or_default();
        kept.offered += 1;
        if kept.calls.len() < CLASSES[class].1 {
            kept.calls.push(call.clone());
        } else if let Some(place) = kept.calls.get_mut(self.random.below(kept.offered) as usize) {
            *place = call.clone();
        }
        Ok(())
    }

    /// Takes a row of the worked table, to which the model is held first.
    pub fn row(&mut self, call: &Call, words: &[u64], bytes: &[u8]) -> Go {
        let mut memory = Memory::for_call(call, 0);
        let found = model::answer(call, &mut memory);
        let same = found.starts_with(words) && memory.lent(0).starts_with(bytes);
        assert!(same, "{call}: the model is not the worked table's {}", show_words(call.entry, words));
        if call.steps.is_empty() {
            self.rows.push(call.clone());
        }
        Ok(())
    }

    /// The calls of an entry point: its rows of the worked table, then one of each group in turn while there are any.
    pub fn calls(&self, entry: Entry) -> Vec<&Call> {
        let groups = &self.groups[entry as usize];
        let rows = self.rows.iter().filter(|call| call.entry == entry);
        let turns = (0..CLASSES[0].1).flat_map(|turn| groups.values().filter_map(move |kept| kept.calls.get(turn)));
        let mut seen = HashSet::new();
        rows.chain(turns).filter(|call| seen.insert(call.to_string())).take(lines(entry)).collect()
    }
}

/// What tells the groups of an entry point apart: the refusal, the alphabet or what stands for it, what else the answer
/// tells, and the choice to fold: 0, 1 or a number above.
fn group(call: &Call, words: &[u64]) -> [u64; 4] {
    let refusal = if call.entry.shape().answer.starts_with("refusal") { words[0] } else { 0 };
    let alphabet = match call.entry {
        Entry::GuesserUpdate if refusal > 0 => 0,
        Entry::GuessAlphabet | Entry::GuesserGuess | Entry::GuesserUpdate | Entry::LaterAlphabet => words[1],
        Entry::ByteRange => call.numbers[2].min(9),
        _ => call.alphabet().map_or(0, |number| number.min(6)),
    };
    let told = match call.entry {
        // How many non-members are told, known or said to be known: none, one or more.
        Entry::EncoderFinalize | Entry::EncodeSequence if refusal == 5 => words[4].min(2),
        Entry::EncoderUpdate if refusal == 0 => words[10].min(2),
        // The same, and whether more memory is asked about than a host can lend.
        Entry::EncoderAsk if refusal == 0 => words[10].min(2) + 3 * u64::from(call.numbers[9] >= LIMIT),
        Entry::EncoderUpdate | Entry::EncoderFinalize | Entry::EncoderAsk if refusal == 1 => call.numbers[8].min(2),
        // Whether the memory asked about is none, or some.
        Entry::EncoderAsk => call.numbers[9].min(1),
        Entry::Contains | Entry::EncoderFinalize => words[1],
        Entry::StreamRead => words[3], // the status
        Entry::ByteRange => u64::from(call.numbers[0] > call.numbers[1]),
        // Which base of the window is told: the first, one of the first eleven, one behind these, or one far out.
        Entry::DecodeCovered if refusal == 18 => match words[2] - call.numbers[2] {
            _ if words[2] > 1 << 32 => 3,
            0 => 0,
            1..=10 => 1,
            _ => 2,
        },
        // Which of the two numbers is told, or is no alphabet: the first, the second or both.
        Entry::LaterAlphabet => match [call.numbers[0], call.numbers[1]] {
            [one, other] if one == other || one.min(other) > 5 => 2,
            [one, other] => u64::from(one < other),
        },
        // From which base of a block of eight on, where the window is short; a long one has whole blocks in any case.
        Entry::Decode4bit | Entry::Decode5bit if (1..=40).contains(&words[1]) => 2 + call.numbers[2] % 8,
        _ if call.entry.shape().layer == Layer::Windows => words[1].min(1), // whether the answer is empty
        _ => 0,
    };
    [refusal, alphabet, told, call.fold_place().map_or(0, |place| call.numbers[place].min(2))]
}
