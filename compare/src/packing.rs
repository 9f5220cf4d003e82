//! Cases of packing: the encoder from reachable, sound and forged states, `encode_sequence`, byte ranges and lists.

use crate::case::{Call, Entry, Numbers, Step};
use crate::check::{Checker, Go};
use crate::model::{self, Intake, LIMIT};
use crate::random::{beyond, Random};

pub fn cases(check: &mut Checker, random: &mut Random, scale: u64) -> Go {
    starts(check, random)?;
    for intake in intakes() {
        short_sequences(check, random, intake)?;
        strangers_at_every_place(check, random, intake)?;
        every_byte(check, random, intake)?;
        every_cut(check, random, intake)?;
        forged_counts(check, random, intake, through_both)?;
        if intake.alphabet < 4 {
            counts(check, random, intake, scale)?;
        }
        for _ in 0..20 * scale {
            bulk(check, random, intake)?;
        }
        for _ in 0..2000 * scale {
            random_sequence(check, random, intake)?;
            random_update(check, random, intake)?;
            random_finalize(check, random, intake)?;
            random_list(check, random, intake)?;
        }
    }
    beyond_alphabets(check, random)?;
    byte_ranges(check, random, scale)?;
    intakes().into_iter().try_for_each(|intake| long_runs(check, random, intake))?;
    intakes().into_iter().try_for_each(|intake| halves(check, random, intake))
}

/// Every alphabet under both choices.
pub fn intakes() -> Vec<Intake> {
    (0..=5).flat_map(|alphabet| [false, true].map(|fold| Intake { alphabet, fold })).collect()
}

/// A fresh encoder has no input but its numbers: alphabet and choice.
fn starts(check: &mut Checker, random: &mut Random) -> Go {
    let folds: Vec<u64> = (0..=1).chain(beyond(1)).collect();
    for alphabet in (0..=5).chain(beyond(5)) {
        for &fold in &folds {
            check.call(&Call::new(Entry::EncoderNew, &[alphabet, fold]))?;
        }
    }
    for _ in 0..10_000 {
        let alphabet = if random.one_in(2) { random.below(6) } else { random.number() };
        check.call(&Call::new(Entry::EncoderNew, &[alphabet, random.number()]))?;
    }
    Ok(())
}

/// A text packed whole.
fn sequence(check: &mut Checker, random: &mut Random, intake: Intake, text: &[u8], room: usize) -> Go {
    let numbers = [intake.alphabet, random.fold(intake.fold)];
    check.call(&Call::new(Entry::EncodeSequence, &numbers).text(text).room(room))
}

/// A text packed by a list of calls.
fn list(check: &mut Checker, random: &mut Random, intake: Intake, text: &[u8], steps: Vec<Step>) -> Go {
    let numbers = [intake.alphabet, random.fold(intake.fold)];
    check.call(&Call::new(Entry::EncoderList, &numbers).text(text).steps(steps))
}

/// How many bytes `len` symbols fill.
fn need(intake: Intake, len: usize) -> usize {
    (len as u64 * intake.width()).div_ceil(8) as usize
}

/// Room around what is needed: too little by one, just enough, a little more, none.
pub fn room_near(random: &mut Random, need: usize) -> usize {
    match random.below(8) {
        0 => 0,
        1 | 2 => need.saturating_sub(1),
        3 => need + 1 + random.below(9) as usize,
        _ => need,
    }
}

/// Lengths around every byte boundary, with every room from none to more than enough.
fn short_sequences(check: &mut Checker, random: &mut Random, intake: Intake) -> Go {
    for len in 0..=33 {
        for room in 0..=need(intake, len) + 2 {
            let text = random.members(intake, len);
            sequence(check, random, intake, &text, room)?;
        }
    }
    Ok(())
}

/// One non-member at every place, and two, with enough room and too little.
fn strangers_at_every_place(check: &mut Checker, random: &mut Random, intake: Intake) -> Go {
    for len in 1..=20 {
        for place in 0..len {
            for second in place..len {
                let mut text = random.members(intake, len);
                text[place] = random.stranger(intake);
                text[second] = random.stranger(intake);
                let room = room_near(random, need(intake, len));
                sequence(check, random, intake, &text, room)?;
                let state = sound_state(random, intake);
                let room = room_near(random, completed(&state, len));
                check.call(&Call::new(Entry::EncoderUpdate, &state).text(&text).room(room))?;
            }
        }
    }
    Ok(())
}

/// Every byte by itself, among members, and as a state's first non-member, which it may not be.
fn every_byte(check: &mut Checker, random: &mut Random, intake: Intake) -> Go {
    for byte in 0..=255 {
        for len in [1, 2, 9, 70] {
            let mut text = random.members(intake, len);
            text[random.below(len as u64) as usize] = byte;
            sequence(check, random, intake, &text, need(intake, len))?;
            let mut state = sound_state(random, intake);
            check.call(&Call::new(Entry::EncoderUpdate, &state).text(&text).room(completed(&state, len)))?;
            let position = random.below(state[1].max(1));
            bad(random, &mut state, position, u64::from(byte));
            check.call(&Call::new(Entry::EncoderUpdate, &state).text(&text).room(completed(&state, len)))?;
            check.call(&Call::new(Entry::EncoderFinalize, &state).room(1))?;
        }
    }
    Ok(())
}

/// Long texts of bases, with another member and a non-member near the places where a search by blocks or by chunks turns.
fn long_runs(check: &mut Checker, random: &mut Random, intake: Intake) -> Go {
    for len in [63, 64, 65, 128, 129, 4095, 4096, 4097, 4160, 8191, 8192, 8256, 8257] {
        for place in [0, 7, 8, 63, 64, 127, 128, 4032, 4095, 4096, 4097, 4159, 4160, 8191, 8192, len - 1, len] {
            let mut text: Vec<u8> = (0..len).map(|_| random.pick(b"ACGT")).collect();
            if intake.fold {
                random.soft_mask(&mut text);
            }
            if random.one_in(2) {
                text[random.below(len as u64) as usize] = random.members(intake, 1)[0];
            }
            if place < len {
                text[place] = random.stranger(intake);
            }
            sequence(check, random, intake, &text, need(intake, len))?;
            let state = sound_state(random, intake);
            check.call(&Call::new(Entry::EncoderUpdate, &state).text(&text).room(completed(&state, len)))?;
        }
    }
    Ok(())
}

/// Texts around the length from which a search goes by halves of whole blocks, with no non-member and with one at the ends of
/// either half and behind them.
pub fn halved(random: &mut Random, intake: Intake) -> Vec<Vec<u8>> {
    let mut texts = Vec::new();
    for len in [16_383, 16_384, 16_385, 16_447, 16_448, 16_511, 16_512, 20_001] {
        let half = len / 128 * 64;
        for place in [len, 0, 63, half - 64, half - 1, half, half + 63, 2 * half - 1, 2 * half, len - 1] {
            let mut text = random.members(intake, len);
            if place < len {
                text[place] = random.stranger(intake);
            }
            texts.push(text);
        }
    }
    texts
}

fn halves(check: &mut Checker, random: &mut Random, intake: Intake) -> Go {
    for text in halved(random, intake) {
        sequence(check, random, intake, &text, need(intake, text.len()))?;
        let state = sound_state(random, intake);
        check.call(&Call::new(Entry::EncoderUpdate, &state).text(&text).room(completed(&state, text.len())))?;
    }
    Ok(())
}

fn random_sequence(check: &mut Checker, random: &mut Random, intake: Intake) -> Go {
    let len = random.pick(&[8, 20, 70, 300]);
    let len = random.below(len) as usize;
    let rarity = random.pick(&[1, 10, 100, 100_000]);
    let text = random.mixed(intake, len, rarity);
    let room = room_near(random, need(intake, len));
    sequence(check, random, intake, &text, room)
}

/// Gives a state a first non-member, and a count that goes with it: one, all symbols from there on, or between.
pub fn bad(random: &mut Random, state: &mut Numbers, position: u64, byte: u64) {
    let most = state[1].saturating_sub(position).max(1);
    let (some, near) = (1 + random.below(most), most - random.below(most.min(3)));
    state[4..7].copy_from_slice(&[1, position, byte]);
    state[8] = random.pick(&[1, some, near, most]);
}

/// A state with a first non-member that is one, at a position that may be none.
fn stray(random: &mut Random, intake: Intake, state: &mut Numbers, position: u64) {
    let byte = random.stranger(intake);
    bad(random, state, position, u64::from(byte));
}

/// A state that has seen so many symbols and no non-member, with any bits pending.
pub fn clean_state(random: &mut Random, intake: Intake, seen: u64) -> Numbers {
    let pending_bits = seen * intake.width() % 8;
    let pending = random.below(1 << pending_bits);
    [intake.alphabet, seen, pending_bits, pending, 0, 0, 0, u64::from(intake.fold), 0, 0]
}

/// A state that answers every part of question 4 with yes, whether or not a text leads there.
pub fn sound_state(random: &mut Random, intake: Intake) -> Numbers {
    let seen = match random.below(5) {
        0 => random.below(9),
        1 => LIMIT - random.below(30),
        2 => random.below(LIMIT + 1),
        _ => random.below(200),
    };
    let mut state = clean_state(random, intake, seen);
    if intake.alphabet < 4 && seen > 0 && random.one_in(3) {
        let position = random.below(seen);
        let position = random.pick(&[0, seen - 1, position]);
        stray(random, intake, &mut state, position);
    } else if random.one_in(4) {
        // With no first non-member these two mean nothing, whatever they hold.
        state[5..7].copy_from_slice(&[random.number(), random.number()]);
    }
    state
}

/// A sound state with something changed that may leave it unsound.
pub fn forged_state(random: &mut Random, intake: Intake) -> Numbers {
    let mut state = sound_state(random, intake);
    let seen = state[1];
    match random.below(14) {
        0 => state[1] = LIMIT + 1 + random.below(16),
        // Seen so large that seen·b passes 64 bits, with the remainder that it leaves there.
        1 => {
            state[1] = random.number();
            state[2] = state[1].wrapping_mul(intake.width()) % 8;
            state[3] = 0;
        }
        2 => state[2] = random.number(),
        3 => state[2] = (state[2] + 1 + random.below(7)) % 8,
        4 => state[3] = (1 << state[2]) + random.below(3),
        5 => state[3] = random.number(),
        6 => state[4] = random.number(),
        7 => {
            let byte = random.next() & 0xFF;
            bad(random, &mut state, seen.wrapping_sub(1) % LIMIT, byte);
        }
        8 => {
            let position = seen + random.below(3);
            stray(random, intake, &mut state, position);
        }
        9 => {
            stray(random, intake, &mut state, seen / 2);
            state[6] += 256 * (1 + random.below(5));
        }
        10 => state[7] = random.number(),
        // A letter that is a member with folding and may be none without, with either choice.
        11 => {
            let byte = random.members(intake, 1)[0].to_ascii_lowercase();
            bad(random, &mut state, seen / 2, u64::from(byte));
            state[7] = random.below(2);
        }
        12 => state[8] = random.number(),
        // A count of none, or of more than there may be.
        _ => {
            stray(random, intake, &mut state, seen / 2);
            state[8] = random.pick(&[0, seen - seen / 2 + 1, seen + 1, u64::MAX]);
        }
    }
    state
}

/// How many bytes an update from a sound state writes for a piece.
pub fn completed(state: &Numbers, len: usize) -> usize {
    ((state[2] + len as u64 * model::width(state[0])) / 8) as usize
}

fn random_update(check: &mut Checker, random: &mut Random, intake: Intake) -> Go {
    let forged = random.one_in(4);
    let state = if forged { forged_state(random, intake) } else { sound_state(random, intake) };
    let len = random.pick(&[2, 9, 40, 120]);
    let len = random.below(len) as usize;
    let rarity = random.pick(&[1, 5, 50, 100_000]);
    let piece = random.mixed(intake, len, rarity);
    let enough = if forged { len + 8 } else { completed(&state, len) };
    let room = room_near(random, enough);
    check.call(&Call::new(Entry::EncoderUpdate, &state).text(&piece).room(room))
}

/// Long texts, for whatever the encoder does in bulk: whole, as one piece from any state, and in pieces.
fn bulk(check: &mut Checker, random: &mut Random, intake: Intake) -> Go {
    let len = 500 + random.below(4000) as usize;
    let rarity = random.pick(&[1500, 100_000_000]);
    let text = random.mixed(intake, len, rarity);
    let room = room_near(random, need(intake, len));
    sequence(check, random, intake, &text, room)?;
    let state = sound_state(random, intake);
    let room = room_near(random, completed(&state, len));
    check.call(&Call::new(Entry::EncoderUpdate, &state).text(&text).room(room))?;
    let first = random.below(len as u64) as usize;
    let steps = exact(intake, &[first, len - first]);
    list(check, random, intake, &text, steps)
}

fn random_finalize(check: &mut Checker, random: &mut Random, intake: Intake) -> Go {
    let state = if random.one_in(3) { forged_state(random, intake) } else { sound_state(random, intake) };
    let room = random.pick(&[0, 0, 1, 1, 2, 7]);
    check.call(&Call::new(Entry::EncoderFinalize, &state).room(room))
}

/// What makes the calls that a state goes through.
type Through = fn(&mut Checker, &mut Random, Intake, &Numbers) -> Go;

/// Every count near those that question 4 tells apart, with every kind of `has_bad` and of position.
pub fn forged_counts(check: &mut Checker, random: &mut Random, intake: Intake, through: Through) -> Go {
    for seen in [0, 1, 2, 9, 64, LIMIT - 8, LIMIT] {
        for position in [0, 1, seen.saturating_sub(1), seen, seen + 1, u64::MAX] {
            let most = seen.saturating_sub(position);
            for count in [0, 1, 2, most.saturating_sub(1), most, most + 1, seen + 1, 1 << 32, LIMIT, u64::MAX] {
                for has_bad in [0, 1, 2, 256, u64::MAX] {
                    let mut state = sound_state(random, intake);
                    state[1..4].copy_from_slice(&[seen, seen * intake.width() % 8, 0]);
                    stray(random, intake, &mut state, position);
                    (state[4], state[8]) = (has_bad, count);
                    through(check, random, intake, &state)?;
                }
            }
        }
    }
    Ok(())
}

/// The state through `update`, with a piece that may hold non-members, and through `finalize`.
fn through_both(check: &mut Checker, random: &mut Random, intake: Intake, state: &Numbers) -> Go {
    let len = random.below(9) as usize;
    let piece = random.mixed(intake, len, 3);
    check.call(&Call::new(Entry::EncoderUpdate, state).text(&piece).room(completed(state, len)))?;
    check.call(&Call::new(Entry::EncoderFinalize, state).room(1))
}

/// Texts with many non-members, in the alphabets that have any.
fn counts(check: &mut Checker, random: &mut Random, intake: Intake, scale: u64) -> Go {
    counted_texts(check, random, intake)?;
    counted_borders(check, random, intake)?;
    for _ in 0..500 * scale {
        counted_list(check, random, intake)?;
    }
    // More non-members than 16 bits count.
    let len = (1 << 16) + random.below(99) as usize;
    let text = random.mixed(intake, len, 1);
    counted(check, random, intake, &text, len)
}

/// A text whole, as one piece from any state, and cut in two from a fresh one.
fn counted(check: &mut Checker, random: &mut Random, intake: Intake, text: &[u8], cut: usize) -> Go {
    let len = text.len();
    sequence(check, random, intake, text, need(intake, len))?;
    let state = sound_state(random, intake);
    check.call(&Call::new(Entry::EncoderUpdate, &state).text(text).room(completed(&state, len)))?;
    list(check, random, intake, text, exact(intake, &[cut, len - cut]))
}

/// Nothing but non-members, every other byte, few, hardly any and none, at lengths around those at which a count by words
/// of 8 bytes, by blocks of 64 or by chunks of 4,096 turns. The text may be made for the other choice, so that letters in
/// lowercase are members with folding and non-members without.
fn counted_texts(check: &mut Checker, random: &mut Random, intake: Intake) -> Go {
    let around = |turn: usize| turn - 1..=turn + 1;
    for len in [8, 16, 64, 72, 128, 256, 4096, 4104, 4160, 8192, 8256, 12_288].into_iter().flat_map(around) {
        for rarity in [1, 2, 9, 90, 2000, u64::MAX] {
            let made_for = Intake { fold: random.one_in(2), ..intake };
            let text = random.mixed(made_for, len, rarity);
            let cut = random.below(len as u64 + 1) as usize;
            counted(check, random, intake, &text, cut)?;
        }
    }
    Ok(())
}

/// Members, but for non-members just before, at and behind the places where such a count turns, in every combination; the
/// text ends near another such place, and is cut at one of these.
fn counted_borders(check: &mut Checker, random: &mut Random, intake: Intake) -> Go {
    for border in [8, 16, 64, 128, 4096, 4104, 4160, 8192] {
        for chosen in 0..8 {
            let len = border + random.pick(&[2, 7, 8, 9, 63, 64, 65]);
            let mut text = random.members(intake, len);
            for k in (0..3).filter(|k| chosen >> k & 1 == 1) {
                text[border - 1 + k] = random.stranger(intake);
            }
            let cut = border - 1 + random.below(4) as usize;
            counted(check, random, intake, &text, cut)?;
        }
    }
    Ok(())
}

/// A list of pieces that are clean, full of non-members or between; some have no room, and are refused if they complete a
/// byte. A `finalize` here and there tells the count so far.
fn counted_list(check: &mut Checker, random: &mut Random, intake: Intake) -> Go {
    let longest = if random.one_in(200) { 5000 } else { random.pick(&[9, 40, 150]) };
    let (mut text, mut steps) = (Vec::new(), Vec::new());
    for _ in 0..1 + random.below(6) {
        let length = random.below(longest) as usize;
        let rarity = random.pick(&[1, 2, 20, u64::MAX]);
        text.extend(random.mixed(intake, length, rarity));
        let room = if random.one_in(4) { 0 } else { length + 1 };
        steps.push(Step { length, room, last: false });
        if random.one_in(3) {
            steps.push(last(0));
        }
    }
    steps.push(last(1));
    list(check, random, intake, &text, steps)
}

/// Numbers that name no alphabet, in a parameter and in states sound and unsound.
fn beyond_alphabets(check: &mut Checker, random: &mut Random) -> Go {
    for alphabet in beyond(5).into_iter().cycle().take(3000) {
        let intake = Intake { alphabet: alphabet % 6, fold: random.one_in(2) };
        let mut state = forged_state(random, intake);
        state[0] = alphabet;
        let len = random.below(9) as usize;
        let (text, room) = (random.bytes(len), random.below(9) as usize);
        check.call(&Call::new(Entry::EncodeSequence, &[alphabet, random.number()]).text(&text).room(room))?;
        check.call(&Call::new(Entry::EncoderUpdate, &state).text(&text).room(room))?;
        check.call(&Call::new(Entry::EncoderFinalize, &state).room(room))?;
    }
    Ok(())
}

fn last(room: usize) -> Step {
    Step { length: 0, room, last: true }
}

/// Steps for pieces of the given lengths, each with the room it needs.
fn exact(intake: Intake, lengths: &[usize]) -> Vec<Step> {
    let b = intake.width() as usize;
    let mut seen = 0;
    let mut steps = Vec::new();
    for &length in lengths {
        steps.push(Step { length, room: (seen + length) * b / 8 - seen * b / 8, last: false });
        seen += length;
    }
    steps.push(last(usize::from(seen * b % 8 > 0)));
    steps
}

/// Every way to cut texts of up to eight bytes into pieces, with members only, with one non-member and with any number.
fn every_cut(check: &mut Checker, random: &mut Random, intake: Intake) -> Go {
    for len in 1..=8usize {
        for cuts in 0..1usize << (len - 1) {
            let mut lengths = vec![1];
            for place in 0..len - 1 {
                match cuts >> place & 1 {
                    0 => *lengths.last_mut().expect("not empty") += 1,
                    _ => lengths.push(1),
                }
            }
            let mut text = random.members(intake, len);
            list(check, random, intake, &text, exact(intake, &lengths))?;
            text[random.below(len as u64) as usize] = random.stranger(intake);
            list(check, random, intake, &text, exact(intake, &lengths))?;
            let text = random.mixed(intake, len, 2);
            list(check, random, intake, &text, exact(intake, &lengths))?;
        }
    }
    Ok(())
}

/// A list with empty pieces, refused calls, a `finalize` too early and one at the end.
fn random_list(check: &mut Checker, random: &mut Random, intake: Intake) -> Go {
    let calls = random.below(7) as usize;
    let longest = random.pick(&[3, 9, 40]);
    let lengths: Vec<usize> = (0..calls).map(|_| random.below(longest) as usize).collect();
    let mut steps = exact(intake, &lengths);
    for step in &mut steps {
        if random.one_in(6) {
            step.room = random.below(6) as usize;
        }
    }
    if random.one_in(4) {
        steps.insert(random.below(calls as u64 + 1) as usize, last(random.below(2) as usize));
    }
    let rarity = random.pick(&[2, 20, 100_000]);
    let text = random.mixed(intake, lengths.iter().sum(), rarity);
    list(check, random, intake, &text, steps)
}

/// Every small range, ranges near 2^60, and numbers beyond.
fn byte_ranges(check: &mut Checker, random: &mut Random, scale: u64) -> Go {
    for bits in (0..=9).chain(beyond(8)) {
        for start in 0..=17 {
            for end in 0..=17 {
                check.call(&Call::new(Entry::ByteRange, &[start, end, bits]))?;
            }
            for end in LIMIT - 3..=LIMIT + 3 {
                check.call(&Call::new(Entry::ByteRange, &[start, end, bits]))?;
                check.call(&Call::new(Entry::ByteRange, &[end, start, bits]))?;
                check.call(&Call::new(Entry::ByteRange, &[end, LIMIT - start, bits]))?;
            }
        }
    }
    for _ in 0..6000 * scale {
        let bits = if random.one_in(8) { random.number() } else { random.below(9) };
        let start = if random.one_in(2) { random.below(LIMIT + 1) } else { random.number() };
        let end = if random.one_in(2) { random.below(LIMIT + 1) } else { random.number() };
        check.call(&Call::new(Entry::ByteRange, &[start, end, bits]))?;
    }
    Ok(())
}
