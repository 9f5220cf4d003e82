//! Cases of the stream: every small state, source and memory, forged states, far budgets, and lists of calls.

use crate::case::{Call, Entry, Step};
use crate::check::{Checker, Go};
use crate::model;
use crate::random::{beyond, Random};

pub fn cases(check: &mut Checker, random: &mut Random, scale: u64) -> Go {
    starts(check, random, scale)?;
    for alphabet in 0..=5 {
        every_read(check, random, alphabet)?;
        every_cut(check, random, alphabet)?;
        for _ in 0..2000 * scale {
            random_read(check, random, alphabet)?;
            random_list(check, random, alphabet)?;
        }
    }
    beyond_alphabets(check, random)
}

/// End calls from every small state, from random and forged ones, and with numbers that name no alphabet.
pub fn ends(check: &mut Checker, random: &mut Random, scale: u64) -> Go {
    for alphabet in 0..=5 {
        for (skip, pending_bits) in skips() {
            for budget in (0..=24).chain([1 << 32, u64::MAX]) {
                let state = [alphabet, skip, budget, pending_bits, random.below(1 << pending_bits)];
                check.call(&Call::new(Entry::StreamEnd, &state))?;
            }
        }
        for _ in 0..2000 * scale {
            random_end(check, random, alphabet)?;
        }
    }
    for alphabet in beyond(5).into_iter().cycle().take(3000) {
        random_end(check, random, alphabet)?;
    }
    Ok(())
}

/// Every skip, and every count of pending bits.
fn skips() -> impl Iterator<Item = (u64, u64)> {
    (0..8).map(|skip| (skip, 0)).chain((1..8).map(|bits| (0, bits)))
}

fn starts(check: &mut Checker, random: &mut Random, scale: u64) -> Go {
    for alphabet in (0..=5).chain(beyond(5)) {
        for skip in (0..=16).chain(beyond(7)) {
            let budget = random.number();
            for budget in [0, 1, budget, u64::MAX] {
                check.call(&Call::new(Entry::StreamNew, &[alphabet, skip, budget]))?;
            }
        }
    }
    for _ in 0..1000 * scale {
        check.call(&Call::new(Entry::StreamNew, &[random.number(), random.number(), random.number()]))?;
    }
    Ok(())
}

/// Every skip and every count of pending bits with every small budget, source and memory.
fn every_read(check: &mut Checker, random: &mut Random, alphabet: u64) -> Go {
    let most = 24 / model::width(alphabet) + 2;
    for (skip, pending_bits) in skips() {
        for budget in (0..=most).chain([1 << 32, u64::MAX]) {
            let pending = random.below(1 << pending_bits);
            let state = [alphabet, skip, budget, pending_bits, pending];
            for len in 0..=3 {
                for room in 0..=most as usize {
                    let source = random.bytes(len);
                    check.call(&Call::new(Entry::StreamRead, &state).text(&source).room(room))?;
                }
            }
        }
    }
    Ok(())
}

fn sound_state(random: &mut Random, alphabet: u64) -> [u64; 5] {
    let budget = if random.one_in(3) { random.number() } else { random.below(60) };
    if random.one_in(2) {
        return [alphabet, random.below(8), budget, 0, 0];
    }
    let pending_bits = random.below(8);
    [alphabet, 0, budget, pending_bits, random.below(1 << pending_bits)]
}

/// A sound state with something changed that may leave it unsound.
fn forged_state(random: &mut Random, alphabet: u64) -> [u64; 5] {
    let mut state = sound_state(random, alphabet);
    match random.below(7) {
        0 => state[1] = random.number(),
        1 => state[1] = 8 + random.below(3),
        2 => state[3] = random.number(),
        3 => state[3] = 8 + random.below(3),
        4 => state[4] = (1 << state[3]) + random.below(3),
        5 => state[4] = random.number(),
        // Bits pending while the skip is due.
        _ => {
            state[1] = random.below(8);
            state[3..].copy_from_slice(&[random.below(8), random.below(2)]);
        }
    }
    state
}

fn random_read(check: &mut Checker, random: &mut Random, alphabet: u64) -> Go {
    let state = if random.one_in(4) { forged_state(random, alphabet) } else { sound_state(random, alphabet) };
    let longest = if random.one_in(50) { 2000 } else { random.pick(&[2, 12, 60]) };
    let len = random.below(longest) as usize;
    let room = random.below(longest * 3) as usize;
    let source = random.bytes(len);
    check.call(&Call::new(Entry::StreamRead, &state).text(&source).room(room))
}

fn random_end(check: &mut Checker, random: &mut Random, alphabet: u64) -> Go {
    let mut state = if random.one_in(4) { forged_state(random, alphabet) } else { sound_state(random, alphabet) };
    if random.one_in(2) {
        state[2] = random.below(2);
    }
    check.call(&Call::new(Entry::StreamEnd, &state))
}

fn beyond_alphabets(check: &mut Checker, random: &mut Random) -> Go {
    for alphabet in beyond(5).into_iter().cycle().take(3000) {
        let state = if random.one_in(2) { forged_state(random, alphabet) } else { sound_state(random, alphabet) };
        let len = random.below(5) as usize;
        let (source, room) = (random.bytes(len), random.below(9) as usize);
        check.call(&Call::new(Entry::StreamRead, &state).text(&source).room(room))?;
    }
    Ok(())
}

/// Every way to lend four bytes in up to three reads with memory for none to all of their bases, for every skip, with an
/// end call after each read.
fn every_cut(check: &mut Checker, random: &mut Random, alphabet: u64) -> Go {
    let all = 32 / model::width(alphabet) as usize;
    for skip in 0..8 {
        for (first, second) in (0..=4usize).flat_map(|first| (0..=4usize).map(move |second| (first, second))) {
            for room in 0..=all {
                let bytes = random.bytes(4);
                let budget = random.below(all as u64 + 2);
                let second_room = random.below(all as u64) as usize;
                let reads = [(first, room), (second, second_room), (4, all + 1)];
                let steps = reads.iter().flat_map(|&(length, room)| with_end(length, room)).collect();
                check.call(&Call::new(Entry::StreamList, &[alphabet, skip, budget]).text(&bytes).steps(steps))?;
            }
        }
    }
    Ok(())
}

/// A read and an end call.
fn with_end(length: usize, room: usize) -> Vec<Step> {
    vec![Step { length, room, last: false }, Step { length: 0, room: 0, last: true }]
}

fn random_list(check: &mut Checker, random: &mut Random, alphabet: u64) -> Go {
    let longest = random.pick(&[2, 5, 20]);
    let reads = 1 + random.below(8);
    let mut steps = Vec::new();
    for _ in 0..reads {
        let (length, room) = (random.below(longest) as usize, random.below(longest * 3) as usize);
        let kept = 1 + usize::from(random.one_in(4));
        steps.extend(with_end(length, room).into_iter().take(kept));
    }
    let len = random.below(reads * longest + 1) as usize;
    let bytes = random.bytes(len);
    let bases = 8 * len as u64 / model::width(alphabet);
    let (near, far) = (random.below(bases + 3), random.number());
    let budget = random.pick(&[bases, near, near, far]);
    let skip = random.below(8);
    check.call(&Call::new(Entry::StreamList, &[alphabet, skip, budget]).text(&bytes).steps(steps))
}
