//! Cases of asks: the answer of an update that is not made, with a length of memory that need not be there. Wherever memory
//! of that length can be lent, the update is made too, and asked about again: a list of calls.

use crate::case::{Call, Entry, Numbers, Step};
use crate::check::{Checker, Go};
use crate::model::{Intake, LIMIT};
use crate::packing::{
    bad, clean_state, completed, forged_counts, forged_state, halved, intakes, room_near, sound_state,
};
use crate::random::{beyond, Random};

/// The longest memory that is lent.
const LENT: u64 = 1 << 20;

pub fn cases(check: &mut Checker, random: &mut Random, scale: u64) -> Go {
    for intake in intakes() {
        short_pieces(check, random, intake)?;
        strangers_at_every_place(check, random, intake)?;
        every_byte(check, random, intake)?;
        turns(check, random, intake)?;
        long_pieces(check, random, intake)?;
        forged_counts(check, random, intake, counted)?;
        for _ in 0..400 * scale {
            random_ask(check, random, intake)?;
        }
        for _ in 0..100 * scale {
            random_list(check, random, intake)?;
        }
    }
    beyond_alphabets(check, random)?;
    intakes().into_iter().try_for_each(|intake| halves(check, random, intake))
}

/// An ask; then, where memory of that length can be lent, the list of that one piece.
fn put(check: &mut Checker, state: &Numbers, piece: &[u8], room: u64) -> Go {
    check.call(&Call::ask(state, piece, room))?;
    if room > LENT {
        return Ok(());
    }
    list(check, state, piece, vec![Step { length: piece.len(), room: room as usize, last: false }])
}

/// Pieces packed and asked about, from a state on.
fn list(check: &mut Checker, state: &Numbers, text: &[u8], steps: Vec<Step>) -> Go {
    check.call(&Call::new(Entry::AskList, &state[..9]).text(text).steps(steps))
}

/// Lengths around the one that is just enough; none, the largest, and those that a port may take for another: near a power
/// of two, past what 32 bits or a signed number hold, past 2^60.
fn rooms(random: &mut Random, enough: usize) -> Vec<u64> {
    let enough = enough as u64;
    let power = 1u64 << random.below(64);
    let near = power.wrapping_add(random.below(3)).wrapping_sub(1);
    let past = |power: u64| power + enough.saturating_sub(1);
    let around = [0, enough.saturating_sub(1), enough, enough + 1];
    let far = [near, past(power), past(1 << 32), LIMIT, LIMIT + 1, 1 << 63, u64::MAX - 1, u64::MAX];
    let mut rooms = [&around[..], &far, &[random.number(), random.next()]].concat();
    rooms.sort_unstable();
    rooms.dedup();
    rooms
}

/// One of these, every other time one of the first.
fn room(random: &mut Random, enough: usize) -> u64 {
    let rooms = rooms(random, enough);
    if random.one_in(2) {
        room_near(random, enough) as u64
    } else {
        random.pick(&rooms)
    }
}

/// Pieces of up to nine bytes from every count of pending bits on, with every length of memory up to more than enough and
/// with all the others.
fn short_pieces(check: &mut Checker, random: &mut Random, intake: Intake) -> Go {
    for seen in 0..8 {
        for len in 0..=9 {
            let state = clean_state(random, intake, seen);
            let piece = random.mixed(intake, len, 6);
            let enough = completed(&state, len);
            let mut rooms = rooms(random, enough);
            rooms.extend(1..(enough as u64).saturating_sub(1));
            rooms.into_iter().try_for_each(|room| put(check, &state, &piece, room))?;
        }
    }
    Ok(())
}

/// One non-member at every place, and two.
fn strangers_at_every_place(check: &mut Checker, random: &mut Random, intake: Intake) -> Go {
    for len in 1..=16 {
        for place in 0..len {
            let mut piece = random.members(intake, len);
            piece[place] = random.stranger(intake);
            if random.one_in(2) {
                piece[random.below(len as u64) as usize] = random.stranger(intake);
            }
            let state = sound_state(random, intake);
            let room = room(random, completed(&state, len));
            put(check, &state, &piece, room)?;
        }
    }
    Ok(())
}

/// Every byte by itself, among members, and as a state's first non-member, which it may not be.
fn every_byte(check: &mut Checker, random: &mut Random, intake: Intake) -> Go {
    for byte in 0..=255 {
        for len in [1, 9] {
            let mut piece = random.members(intake, len);
            piece[random.below(len as u64) as usize] = byte;
            let mut state = sound_state(random, intake);
            let room = room(random, completed(&state, len));
            put(check, &state, &piece, room)?;
            let position = random.below(state[1].max(1));
            bad(random, &mut state, position, u64::from(byte));
            put(check, &state, &piece, room)?;
        }
    }
    Ok(())
}

/// Lengths around those at which a search or a count by words of 8 bytes, by blocks of 64 or by chunks of 4,096 turns: with no
/// non-member, with one at such a place or at either end, with some, and with nothing else.
fn turns(check: &mut Checker, random: &mut Random, intake: Intake) -> Go {
    let around = |turn: usize| turn - 1..=turn + 1;
    for len in [8, 16, 64, 72, 128, 4096, 4160, 8192].into_iter().flat_map(around) {
        let places: Vec<usize> = [8, 64, 4096].into_iter().flat_map(around).filter(|&place| place < len).collect();
        let mut one = random.members(intake, len);
        one[random.pick(&[&places[..], &[0, len - 1]].concat())] = random.stranger(intake);
        let mut pieces = vec![one];
        pieces.extend([u64::MAX, 900, 9, 1].map(|rarity| random.mixed(intake, len, rarity)));
        for piece in pieces {
            let state = sound_state(random, intake);
            let enough = completed(&state, len);
            for room in [enough as u64, room(random, enough)] {
                put(check, &state, &piece, room)?;
            }
        }
    }
    Ok(())
}

/// More bytes, and more non-members, than 16 bits count.
fn long_pieces(check: &mut Checker, random: &mut Random, intake: Intake) -> Go {
    for rarity in [1, 50_000] {
        let len = (1 << 16) + random.below(99) as usize;
        let piece = random.mixed(intake, len, rarity);
        let state = sound_state(random, intake);
        let enough = completed(&state, len) as u64;
        for room in [enough - 1, enough, u64::MAX] {
            put(check, &state, &piece, room)?;
        }
    }
    Ok(())
}

/// Pieces around the length from which a search goes by halves.
fn halves(check: &mut Checker, random: &mut Random, intake: Intake) -> Go {
    for piece in halved(random, intake) {
        let state = sound_state(random, intake);
        put(check, &state, &piece, completed(&state, piece.len()) as u64)?;
    }
    Ok(())
}

/// A state whose count may be none, with a piece that may hold non-members.
fn counted(check: &mut Checker, random: &mut Random, intake: Intake, state: &Numbers) -> Go {
    let len = random.below(9) as usize;
    let piece = random.mixed(intake, len, 3);
    let room = room(random, completed(state, len));
    put(check, state, &piece, room)
}

fn random_ask(check: &mut Checker, random: &mut Random, intake: Intake) -> Go {
    let forged = random.one_in(4);
    let state = if forged { forged_state(random, intake) } else { sound_state(random, intake) };
    let len = random.pick(&[2, 9, 40, 120, 300]);
    let len = random.below(len) as usize;
    let rarity = random.pick(&[1, 5, 50, 100_000]);
    let piece = random.mixed(intake, len, rarity);
    // A forged state may say that any number of bits pends.
    let enough = if forged { len * intake.width() as usize / 8 } else { completed(&state, len) };
    let room = room(random, enough);
    put(check, &state, &piece, room)
}

/// Up to six pieces from one state on, most of them with the memory that they need, so that each gets the state that the
/// update before it left.
fn random_list(check: &mut Checker, random: &mut Random, intake: Intake) -> Go {
    let start = if random.one_in(2) { clean_state(random, intake, 0) } else { sound_state(random, intake) };
    let longest = random.pick(&[3, 9, 40, 150]);
    let mut state = start;
    let (mut text, mut steps) = (Vec::new(), Vec::new());
    for _ in 0..1 + random.below(6) {
        let length = random.below(longest) as usize;
        let rarity = random.pick(&[1, 4, 40, u64::MAX]);
        text.extend(random.mixed(intake, length, rarity));
        let enough = completed(&state, length);
        let room = if random.one_in(3) { room_near(random, enough) } else { enough };
        steps.push(Step { length, room, last: false });
        if enough <= room {
            state[2] = (state[2] + length as u64 * intake.width()) % 8;
        }
    }
    list(check, &start, &text, steps)
}

/// Numbers that name no alphabet, in states sound and unsound.
fn beyond_alphabets(check: &mut Checker, random: &mut Random) -> Go {
    for alphabet in beyond(5).into_iter().cycle().take(1000) {
        let intake = Intake { alphabet: alphabet % 6, fold: random.one_in(2) };
        let mut state = forged_state(random, intake);
        state[0] = alphabet;
        let len = random.below(9) as usize;
        let piece = random.bytes(len);
        let room = room(random, len);
        put(check, &state, &piece, room)?;
    }
    Ok(())
}
