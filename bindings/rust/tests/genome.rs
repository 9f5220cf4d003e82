//! A genome's alphabet out of its chromosomes' guesses: texts of every alphabet, cut at every place, beside the model's guess
//! for the whole; any order and grouping; the combining itself, over all alphabets and over numbers that are none's. Which of
//! two alphabets is the later stands in the worked table, every pair of them.

mod support;

use fantailclock::*;
use std::borrow::Cow;
use std::cell::Cell;
use support::guard::{Guarded, PLACES};
use support::model;
use support::random::Random;

const CHOICES: [Folding; 2] = [Folding::Off, Folding::On];

/// Numbers of no alphabet: those next to the last one, those whose lowest bits are an alphabet's, the greatest.
const NONE: [u64; 12] =
    [6, 7, 8, 255, 256, 260, 1 << 32, (1 << 32) + 5, 1 << 63, (1 << 63) + 3, u64::MAX - 5, u64::MAX];

/// For each alphabet that is guessed, a byte that it has and none before it has, folded or not.
const OWN: [(Alphabet, u8); 5] = [
    (Alphabet::Dna2bit, b'A'),
    (Alphabet::Dna3bit, b'N'),
    (Alphabet::DnaIupac, b'S'),
    (Alphabet::Protein, b'X'),
    (Alphabet::Ascii, b'{'),
];

/// Texts of each alphabet, so long: members at random, and bases with one byte that only it has at the front, inside and at
/// the end. Each as it is, soft-masked, and in lowercase.
fn texts(len: usize) -> Vec<Vec<u8>> {
    let mut random = Random(len as u64);
    let mut texts = vec![];
    for (alphabet, own) in OWN {
        texts.push(random.members(alphabet, len));
        for place in [0, len / 2, len - 1] {
            let mut bases = random.members(Alphabet::Dna2bit, len);
            bases[place] = own;
            texts.push(bases);
        }
    }
    let masked: Vec<_> = texts.iter().map(|text| random.soft_masked(text)).collect();
    let lowercase: Vec<_> = texts.iter().map(|text| text.to_ascii_lowercase()).collect();
    [texts, masked, lowercase].concat()
}

/// Genomes by either choice: up to seven chromosomes, empty ones among them, mostly bases.
fn genomes(seed: u64, count: usize) -> Vec<(Folding, Vec<Vec<u8>>)> {
    let mut random = Random(seed);
    let mut chromosome = |latest: u64| {
        let alphabet = Alphabet::ALL[random.below(latest + 1) as usize];
        let longest = [1, 9, 70, 700, 9000][random.below(5) as usize];
        let len = random.below(longest) as usize;
        let text = random.members(alphabet, len);
        if random.below(3) == 0 {
            random.soft_masked(&text)
        } else {
            text
        }
    };
    let genome = |case: usize| {
        let latest = case as u64 / 2 % 5;
        (CHOICES[case % 2], (0..case / 10 % 8).map(|_| chromosome(latest)).collect())
    };
    (0..count).map(genome).collect()
}

/// A list in all its orders.
fn orders<T: Copy>(list: &[T]) -> Vec<Vec<T>> {
    if list.is_empty() {
        return vec![vec![]];
    }
    let without = |at: usize| [&list[..at], &list[at + 1..]].concat();
    let beginning = |at: usize| orders(&without(at)).into_iter().map(move |rest| [&list[at..=at], &rest].concat());
    (0..list.len()).flat_map(beginning).collect()
}

#[test]
fn the_texts_are_of_every_alphabet() {
    for folding in CHOICES {
        let guesses: Vec<_> = texts(24).iter().map(|text| model::guess(folding, text)).collect();
        for (alphabet, _) in OWN {
            assert!(guesses.iter().filter(|&&guess| guess == alphabet).count() >= 4, "{alphabet} {folding:?}");
        }
    }
}

#[test]
fn cut_in_two_at_every_place() {
    for len in [1, 2, 24, 200] {
        for (text, folding) in texts(len).iter().flat_map(|text| CHOICES.map(|folding| (text, folding))) {
            let whole = model::guess(folding, text);
            assert_eq!(guess_alphabet(folding, text), whole);
            for cut in 0..=len {
                let (one, other) = text.split_at(cut);
                let [first, second] = [one, other].map(|part| guess_alphabet(folding, part));
                assert_eq!(first.later(second), whole, "{folding:?} {text:?} at {cut}");
                assert_eq!(guess_genome(folding, [one, other]), whole, "{folding:?} {text:?} at {cut}");
                assert_eq!(guess_genome(folding, [other, one]), whole, "{folding:?} {text:?} at {cut}");
            }
        }
    }
}

#[test]
fn cut_in_three_at_every_two_places() {
    for len in [1, 2, 24, 40] {
        for (text, folding) in texts(len).iter().flat_map(|text| CHOICES.map(|folding| (text, folding))) {
            let whole = model::guess(folding, text);
            for first in 0..=len {
                for second in first..=len {
                    let parts = [&text[..first], &text[first..second], &text[second..]];
                    assert_eq!(guess_genome(folding, parts), whole, "{folding:?} {text:?} at {first} and {second}");
                }
            }
        }
    }
}

#[test]
fn in_any_order_and_grouping() {
    for (folding, genome) in genomes(11, 300) {
        let whole = model::guess(folding, &genome.concat());
        let chromosomes: Vec<&[u8]> = genome.iter().map(Vec::as_slice).collect();
        assert_eq!(guess_genome(folding, chromosomes.iter().rev()), whole);
        for order in orders(&chromosomes[..chromosomes.len().min(5)]) {
            let all = order.iter().chain(&chromosomes[order.len()..]);
            assert_eq!(guess_genome(folding, all), whole, "{folding:?}");
        }
        for cut in 0..=chromosomes.len() {
            let [one, other] = [&chromosomes[..cut], &chromosomes[cut..]].map(|part| guess_genome(folding, part));
            assert_eq!(one.later(other), whole, "two parts of a genome, each by itself");
        }
        let twice = chromosomes.iter().chain(&chromosomes);
        assert_eq!(guess_genome(folding, twice), whole, "each chromosome twice");
    }
}

/// Beside the model's guess for all chromosomes joined: whole, and in pieces by a guesser for each.
#[test]
fn many_genomes() {
    let mut random = Random(12);
    for (folding, genome) in genomes(13, 3000) {
        let whole = model::guess(folding, &genome.concat());
        assert_eq!(guess_genome(folding, &genome), whole);
        let mut in_pieces = Alphabet::Dna2bit;
        for chromosome in &genome {
            let mut guesser = Guesser::new(folding);
            let piece = 1 + random.below(1 + chromosome.len() as u64) as usize;
            chromosome.chunks(piece).for_each(|piece| guesser.update(piece).unwrap());
            in_pieces = in_pieces.later(guesser.guess().unwrap());
        }
        assert_eq!(in_pieces, whole);
    }
}

#[test]
fn no_chromosomes_and_empty_ones() {
    for folding in CHOICES {
        assert_eq!(guess_genome(folding, [""; 0]), Alphabet::Dna2bit);
        assert_eq!(guess_genome(folding, Vec::<Vec<u8>>::new()), Alphabet::Dna2bit);
        assert_eq!(guess_genome(folding, std::iter::empty::<&[u8]>()), Alphabet::Dna2bit);
        for count in 1..9 {
            assert_eq!(guess_genome(folding, vec![b""; count]), Alphabet::Dna2bit);
        }
        for (alphabet, own) in OWN {
            let (one, none): (&[u8], &[u8]) = (&[own], b"");
            for chromosomes in [[one, none, none], [none, one, none], [none, none, one]] {
                assert_eq!(guess_genome(folding, chromosomes), alphabet, "beside empty ones");
            }
        }
    }
}

/// The first alphabet that packs every chromosome: it refuses none, and each one before it refuses one at least.
#[test]
fn the_genome_s_alphabet_packs_every_chromosome() {
    for (folding, genome) in genomes(14, 600) {
        let alphabet = guess_genome(folding, &genome);
        for chromosome in &genome {
            let packed = encode_sequence(alphabet, folding, chromosome).unwrap();
            assert_eq!(packed, model::pack(alphabet, &model::taken(alphabet, folding, chromosome)));
        }
        for earlier in Alphabet::ALL.into_iter().filter(|&each| each < alphabet) {
            let refused = genome.iter().filter_map(|chromosome| encode_sequence(earlier, folding, chromosome).err());
            let refused: Vec<Error> = refused.collect();
            assert!(!refused.is_empty() && refused.iter().all(|refusal| refusal.number() == 5), "{earlier}");
        }
    }
}

#[test]
fn every_two_and_three_alphabets() {
    for one in Alphabet::ALL {
        assert_eq!(one.later(one), one, "combined with itself");
        assert_eq!([one.later(Alphabet::Dna2bit), Alphabet::Dna2bit.later(one)], [one, one], "Dna2bit is neutral");
        assert_eq!([one.later(Alphabet::Unknown), Alphabet::Unknown.later(one)], [Alphabet::Unknown; 2]);
        for other in Alphabet::ALL {
            assert!([one, other].contains(&one.later(other)), "{one} {other}");
            assert_eq!(one.later(other), other.later(one), "{one} {other}");
            for third in Alphabet::ALL {
                assert_eq!(one.later(other).later(third), one.later(other.later(third)), "{one} {other} {third}");
            }
        }
    }
}

#[test]
fn numbers_of_no_alphabet() {
    let later = |one, other| unsafe { raw::fc_later_alphabet(one, other) };
    let refused = raw::Number { refusal: 8, value: 0 };
    for one in 0..6 {
        for none in NONE {
            assert_eq!([later(one, none), later(none, one)], [refused; 2], "{one} {none}");
        }
    }
    for (one, other) in NONE.into_iter().flat_map(|one| NONE.map(|other| (one, other))) {
        assert_eq!(later(one, other), refused, "{one} {other}");
    }
}

/// Chromosomes at either end of pages that may only be read, between pages that may not be touched.
#[test]
fn between_guard_pages() {
    let mut pages = [(); 4].map(|()| Guarded::new());
    let mut random = Random(15);
    for len in (0..=72).chain(509..=516).chain([4095, 4096]) {
        for ((alphabet, _), folding) in OWN.into_iter().flat_map(|own| CHOICES.map(|folding| (own, folding))) {
            let bases = random.members(Alphabet::Dna2bit, len);
            let members = random.members(alphabet, len);
            let chromosomes = [random.soft_masked(&bases), vec![], members, bases];
            let whole = model::guess(folding, &chromosomes.concat());
            for place in PLACES {
                let lent = pages.iter_mut().zip(&chromosomes).map(|(page, text)| page.lend_read_only(place, text));
                assert_eq!(guess_genome(folding, lent), whole, "{folding:?}, {len} bytes at {place:?}");
            }
        }
    }
}

/// A chromosome that counts how often its bytes are asked for, and tells when it is gone.
struct Counted<'a> {
    text: &'static [u8],
    asked: &'a Cell<u32>,
    held: &'a Cell<u32>,
}

impl AsRef<[u8]> for Counted<'_> {
    fn as_ref(&self) -> &[u8] {
        self.asked.set(self.asked.get() + 1);
        self.text
    }
}

impl Drop for Counted<'_> {
    fn drop(&mut self) {
        self.held.set(self.held.get() - 1);
    }
}

#[test]
fn every_chromosome_is_taken_once_and_none_is_kept() {
    let texts: [&[u8]; 4] = [b"ACGT", b"{}", b"ACGN", b""]; // Ascii from the second on
    let (asked, held) = (Cell::new(0), Cell::new(0));
    let chromosomes = texts.into_iter().map(|text| {
        assert_eq!(held.get(), 0, "one is still held when the next is asked for");
        held.set(1);
        Counted { text, asked: &asked, held: &held }
    });
    assert_eq!(guess_genome(Folding::Off, chromosomes), Alphabet::Ascii);
    assert_eq!((asked.get(), held.get()), (4, 0));
}

#[test]
fn chromosomes_of_every_kind() {
    let expected = Alphabet::Dna3bit;
    let lines = "ACGT\nACGTN\nGATTACA\n";
    let strings: Vec<String> = lines.lines().map(String::from).collect();
    let bytes: Vec<Vec<u8>> = lines.lines().map(|line| line.as_bytes().to_vec()).collect();
    assert_eq!(guess_genome(Folding::Off, lines.lines()), expected);
    assert_eq!(guess_genome(Folding::Off, &strings), expected);
    assert_eq!(guess_genome(Folding::Off, strings), expected);
    assert_eq!(guess_genome(Folding::Off, &bytes), expected);
    assert_eq!(guess_genome(Folding::Off, bytes.iter().map(Vec::as_slice)), expected);
    assert_eq!(guess_genome(Folding::Off, bytes.iter().map(|each| each.clone().into_boxed_slice())), expected);
    assert_eq!(guess_genome(Folding::Off, bytes.iter().map(|each| Cow::<[u8]>::Borrowed(each))), expected);
    assert_eq!(guess_genome(Folding::Off, bytes), expected);
    assert_eq!(guess_genome(Folding::Off, [b"ACGT", b"ACGN"]), expected);
    assert_eq!(guess_genome(Folding::Off, Some("ACGN")), expected);
    assert_eq!(guess_genome(Folding::Off, lines.as_bytes().split(|&byte| byte == b'\n')), expected);
}

/// Guesses of several choices combined are the guess of nothing in particular: the law wants one choice.
#[test]
fn one_choice_for_all() {
    let (one, other) = (b"ACGT", b"acgt");
    let mixed = guess_alphabet(Folding::Off, one).later(guess_alphabet(Folding::On, other));
    assert_eq!(mixed, Alphabet::Dna2bit);
    assert_eq!(guess_genome(Folding::Off, [one, other]), Alphabet::Ascii);
    assert_eq!(guess_genome(Folding::On, [one, other]), Alphabet::Dna2bit);
    assert_eq!(encode_sequence(mixed, Folding::Off, other).unwrap_err().number(), 5);
}
