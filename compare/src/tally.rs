//! Document 01's record: what a list of calls answers, told from the text or the lent bytes alone and not from states.

use crate::case::{Call, Memory};
use crate::model::{base, chosen, first_stranger, packed, strangers, stream_status, width, Intake, HUNGRY, LIMIT};

/// A list of `update` and `finalize` calls from a fresh encoder. Each update gets the next bytes of the call's text,
/// also after a refusal; an accepted `finalize` ends the list.
pub fn encoder(call: &Call, memory: &mut Memory) -> Vec<u64> {
    let intake = Intake { alphabet: call.numbers[0], fold: chosen(call.numbers[1]) };
    let b = intake.width();
    let mut text: Vec<u8> = Vec::new();
    let mut pieces = call.pieces();
    let mut words = Vec::new();
    for (at, step) in call.steps.iter().enumerate() {
        let n = text.len() as u64;
        let out = memory.lent(at);
        if step.last {
            let answer = finalize(intake, &text, out);
            words.extend(answer);
            if answer[0] == 0 {
                break;
            }
            continue;
        }
        let piece = pieces.next().unwrap_or(&[]);
        let m = piece.len() as u64;
        let whole = (n * b / 8) as usize..((n + m) * b / 8) as usize;
        let refusal = if n + m > LIMIT {
            2
        } else if out.len() < whole.len() {
            4
        } else {
            0
        };
        if refusal == 0 {
            text.extend(piece);
            out[..whole.len()].copy_from_slice(&packed(intake, &text)[whole.clone()]);
        }
        words.extend([refusal, if refusal == 0 { whole.len() as u64 } else { 0 }, 0, 0, 0]);
    }
    words
}

/// The text is that of the accepted pieces joined, and the count that of its non-members.
fn finalize(intake: Intake, text: &[u8], out: &mut [u8]) -> [u64; 5] {
    if let Some((position, byte)) = first_stranger(intake, text) {
        return [5, 0, position, u64::from(byte), strangers(intake, text)];
    }
    if text.len() as u64 * intake.width() % 8 == 0 {
        return [0, 0, 0, 0, 0];
    }
    match (out.first_mut(), packed(intake, text).last()) {
        (Some(place), Some(&last)) => {
            *place = last;
            [0, 1, 0, 0, 0]
        }
        _ => [4, 0, 0, 0, 0],
    }
}

/// A list of stream and end calls from a fresh stream. Each read gets a run of the call's text from the first byte not
/// yet taken. With k bases written in all, ceil((q + k·b) / 8) bytes are taken in all, once the skip is done.
pub fn stream(call: &Call, memory: &mut Memory) -> Vec<u64> {
    let [alphabet, q, budget, ..] = call.numbers;
    let b = width(alphabet);
    let (mut k, mut taken, mut skip_due) = (0u64, 0u64, q > 0);
    let mut words = Vec::new();
    for (at, step) in call.steps.iter().enumerate() {
        if step.last {
            let over = skip_due || k < budget;
            words.extend(if over { [7, budget - k, 0, 0] } else { [0, 0, 0, 0] });
            if !over {
                break;
            }
            continue;
        }
        let length = (step.length as u64).min(call.text.len() as u64 - taken);
        if skip_due && length == 0 {
            words.extend([0, 0, 0, HUNGRY]);
            continue;
        }
        skip_due = false;
        let most = budget.min(k + step.room as u64);
        let fits = |bases: u64| (q + bases * b).div_ceil(8) <= taken + length;
        let all = (k..=most).take_while(|&bases| fits(bases)).last().unwrap_or(k);
        let in_all = (q + all * b).div_ceil(8);
        for (place, i) in memory.lent(at).iter_mut().zip(k..all) {
            *place = base_at(alphabet, q + i * b, &call.text);
        }
        words.extend([0, in_all - taken, all - k, stream_status(budget - all, step.room as u64 - (all - k))]);
        (k, taken) = (all, in_all);
    }
    words
}

/// The base whose code begins at a bit of the lent bytes: shifted to the front of two bytes, it is base 0 of them.
fn base_at(alphabet: u64, bit: u64, bytes: &[u8]) -> u8 {
    let lent = |place: u64| u16::from(bytes.get(place as usize).copied().unwrap_or(0));
    let pair = (lent(bit / 8) << 8 | lent(bit / 8 + 1)) << (bit % 8);
    base(alphabet, 0, &|place| pair.to_be_bytes()[place as usize])
}
