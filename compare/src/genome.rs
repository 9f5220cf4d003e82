//! Cases of genomes: two alphabets combined, and the guesses of chromosomes combined to that of all of them joined. Every
//! guess here is one of a text. Of forged masks that no text leaves, such as 17 and 18, the law does not hold, and none is
//! asked.

use crate::case::{Call, Entry, Step};
use crate::check::{Checker, Go};
use crate::model::{self, Intake};
use crate::random::{beyond, Random};

pub fn cases(check: &mut Checker, random: &mut Random, scale: u64) -> Go {
    pairs(check, random, scale)?;
    for fold in [false, true] {
        every_way(check, random, fold)?;
        every_cut(check, random, scale, fold)?;
        odd_bytes(check, random, fold)?;
        edges(check, random, scale, fold)?;
        random_cuts(check, random, scale, fold)?;
        genomes(check, random, scale, fold)?;
    }
    Ok(())
}

/// Every pair of the alphabets and of numbers beyond them, those among them that a port which narrows would take for one;
/// any two numbers, and any with an alphabet.
fn pairs(check: &mut Checker, random: &mut Random, scale: u64) -> Go {
    let numbers: Vec<u64> = (0..=5).chain(beyond(5)).collect();
    for &one in &numbers {
        for &other in &numbers {
            check.call(&Call::new(Entry::LaterAlphabet, &[one, other]))?;
        }
    }
    for _ in 0..1000 * scale {
        check.call(&Call::new(Entry::LaterAlphabet, &[random.number(), random.number()]))?;
        let mut pair = [random.below(6), random.number()];
        if random.one_in(2) {
            pair.reverse();
        }
        check.call(&Call::new(Entry::LaterAlphabet, &pair))?;
    }
    Ok(())
}

/// A way to combine: the order in which the guesses are laid out, and which neighbours are combined first.
type Way = [u64; 2];

/// One after another, from the first on, every other time; else any order and any neighbours.
fn way(random: &mut Random) -> Way {
    match random.below(4) {
        0 | 1 => [0, 0],
        2 => [random.next(), 0],
        _ => [random.next(), random.next()],
    }
}

/// Puts a text as a genome that is cut into chromosomes of such lengths.
fn put(check: &mut Checker, fold: u64, [order, brackets]: Way, text: &[u8], lengths: &[usize]) -> Go {
    let steps = lengths.iter().map(|&length| Step { length, room: 0, last: false }).collect();
    check.call(&Call::new(Entry::GenomeList, &[fold, order, brackets]).text(text).steps(steps))
}

/// The lengths between the places at which a text of so many bytes is cut; a place that comes twice gives an empty one.
fn between(mut places: Vec<usize>, len: usize) -> Vec<usize> {
    places.sort_unstable();
    let ends = places.iter().copied().chain([len]);
    ends.scan(0, |from, to| Some(to - std::mem::replace(from, to))).collect()
}

/// A byte that an alphabet holds and the one before it does not.
fn telling(random: &mut Random, intake: Intake) -> u8 {
    let earlier = intake.alphabet.checked_sub(1).map(|alphabet| Intake { alphabet, ..intake });
    loop {
        let byte = random.members(intake, 1)[0];
        if !earlier.is_some_and(|earlier| earlier.code(byte).is_some()) {
            return byte;
        }
    }
}

/// One to three chromosomes, of one to three bytes, with every guess each; the guesses, and Dna2bit from which a genome
/// starts, combined in every order, any two neighbours first.
fn every_way(check: &mut Checker, random: &mut Random, fold: bool) -> Go {
    for count in 1..=3u32 {
        for guesses in 0..5u64.pow(count) {
            let (mut text, mut lengths) = (Vec::new(), Vec::new());
            for place in 0..count {
                let intake = Intake { alphabet: guesses / 5u64.pow(place) % 5, fold };
                let mut chromosome = random.members(intake, place as usize + 1);
                chromosome[random.below(u64::from(place) + 1) as usize] = telling(random, intake);
                assert_eq!(model::guess(fold, &chromosome), intake.alphabet, "a chromosome of that guess");
                lengths.push(chromosome.len());
                text.extend(chromosome);
            }
            let neighbours: u64 = (1..=u64::from(count)).product();
            for order in 0..neighbours * u64::from(count + 1) {
                for brackets in 0..neighbours {
                    put(check, random.fold(fold), [order, brackets], &text, &lengths)?;
                }
            }
        }
    }
    Ok(())
}

/// Short texts cut in two at every place, either half empty too.
fn every_cut(check: &mut Checker, random: &mut Random, scale: u64, fold: bool) -> Go {
    for len in 0..=12 {
        for alphabet in (0..5).cycle().take(5 * scale as usize) {
            let text = random.mixed(Intake { alphabet, fold }, len, 12);
            for cut in 0..=len {
                put(check, random.fold(fold), way(random), &text, &between(vec![cut], len))?;
            }
        }
    }
    Ok(())
}

/// One byte of another alphabet: that of a later one, a non-member or any.
fn odd(random: &mut Random, intake: Intake) -> u8 {
    match random.below(3) {
        0 => {
            let alphabet = random.below(5);
            telling(random, Intake { alphabet, ..intake })
        }
        1 => random.stranger(intake),
        _ => random.next() as u8,
    }
}

/// A text of one alphabet with one odd byte at every place, cut before it, behind it and anywhere.
fn odd_bytes(check: &mut Checker, random: &mut Random, fold: bool) -> Go {
    for alphabet in 0..5 {
        let intake = Intake { alphabet, fold };
        for len in 1..=24usize {
            for place in 0..len {
                let mut text = random.members(intake, len);
                text[place] = odd(random, intake);
                for cut in [place, place + 1, random.below(len as u64 + 1) as usize] {
                    put(check, random.fold(fold), way(random), &text, &between(vec![cut], len))?;
                }
            }
        }
    }
    Ok(())
}

/// Lengths and cuts around 64, 4,096 and 8,192, with nothing odd, or one odd byte beside a cut or such a place.
fn edges(check: &mut Checker, random: &mut Random, scale: u64, fold: bool) -> Go {
    let near = |edge: usize| [edge - 1, edge, edge + 1];
    for len in [64, 128, 4096, 8192].into_iter().flat_map(near) {
        let edges: Vec<usize> = [64, 4096, 8192].into_iter().flat_map(near).filter(|&edge| edge < len).collect();
        for alphabet in (0..5).cycle().take(5 * scale.min(4) as usize) {
            let intake = Intake { alphabet, fold };
            let text = random.members(intake, len);
            let cut = random.pick(&[&edges[..], &[0, len]].concat());
            put(check, random.fold(fold), way(random), &text, &between(vec![cut], len))?;
            for place in [0, cut.saturating_sub(1), cut, random.pick(&[&edges[..], &[0]].concat()), len - 1] {
                let mut changed = text.clone();
                changed[place.min(len - 1)] = odd(random, intake);
                put(check, random.fold(fold), way(random), &changed, &between(vec![cut], len))?;
            }
        }
    }
    Ok(())
}

/// A text of one alphabet, with something odd in it or not, cut anywhere into two or up to twelve.
fn random_cuts(check: &mut Checker, random: &mut Random, scale: u64, fold: bool) -> Go {
    for _ in 0..1000 * scale {
        let intake = Intake { alphabet: random.below(5), fold };
        let len = random.pick(&[10, 50, 200, 4096, 9000]) >> random.below(3);
        let rarity = random.pick(&[100, 2000, 50_000]);
        let text = random.mixed(intake, len, rarity);
        let cuts = if random.one_in(2) { 1 } else { random.below(12) };
        let places = (0..cuts).map(|_| random.below(len as u64 + 1) as usize).collect();
        put(check, random.fold(fold), way(random), &text, &between(places, len))?;
    }
    Ok(())
}

/// Up to 19 chromosomes, each of an alphabet of its own, empty ones among them; in some genomes one odd byte. Without
/// folding some are soft-masked all the same. As many guesses, and Dna2bit, come in any order that a number can name.
fn genomes(check: &mut Checker, random: &mut Random, scale: u64, fold: bool) -> Go {
    for _ in 0..2000 * scale {
        let kinds = 1 + random.below(5);
        let longest = if random.one_in(50) { 5000 } else { random.pick(&[4, 20, 60]) };
        let (mut text, mut lengths) = (Vec::new(), Vec::new());
        for _ in 0..1 + random.below(19) {
            let intake = Intake { alphabet: random.below(kinds), fold };
            let len = if random.one_in(4) { 0 } else { random.below(longest) as usize };
            text.extend(random.members(intake, len));
            lengths.push(len);
        }
        if !fold && random.one_in(8) {
            random.soft_mask(&mut text);
        }
        if !text.is_empty() && random.one_in(3) {
            let place = random.below(text.len() as u64) as usize;
            text[place] = odd(random, Intake { alphabet: kinds - 1, fold });
        }
        put(check, random.fold(fold), way(random), &text, &lengths)?;
    }
    Ok(())
}
