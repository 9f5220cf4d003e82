//! Document 01's worked table, row by row: it holds the model to the document's own figures. Its rows do not fold; those
//! of document 02's first request, which do, stand behind them, those of its fifth, which count non-members, those of its
//! seventh, in which a code is no symbol's, those of its ninth, in which guesses are combined, those of its tenth, in which
//! an update is asked about, and those of its twelfth, in which the engines of DnaIupac and Protein read.

use crate::case::{Call, Entry, Step};
use crate::check::{Checker, Go};
use crate::model::{DONE, FULL, HUNGRY, LIMIT};

/// All rows.
pub fn rows(check: &mut Checker) -> Go {
    let of_01 = [guesses(), packings(), windows(), streams()].concat();
    let of_02 = [folded(), counted(), lacking(), combined(), asked(), engines()].concat();
    for (call, words, bytes) in [of_01, of_02].concat() {
        check.row(&call, &words, &bytes)?;
    }
    Ok(())
}

/// A call, the first words of its answer and the first bytes of its memory.
type Row = (Call, Vec<u64>, Vec<u8>);

fn guesses() -> Vec<Row> {
    let texts: [&[u8]; 5] = [b"", b"ACGU", b"ACGTS", b"ACGX", b"acgt"];
    let guess = |(place, text): (usize, &&[u8])| {
        (Call::new(Entry::GuessAlphabet, &[0]).text(text), vec![0, place as u64], vec![])
    };
    texts.iter().enumerate().map(guess).collect()
}

fn packings() -> Vec<Row> {
    let packed = |alphabet: u64, text: &[u8], bytes: &[u8]| {
        let call = Call::new(Entry::EncodeSequence, &[alphabet, 0]).text(text).room(bytes.len() + 1);
        (call, vec![0, bytes.len() as u64, 0, 0, 0], bytes.to_vec())
    };
    let steps = vec![Step { length: 4, room: 1, last: false }, Step { length: 0, room: 1, last: true }];
    vec![
        packed(0, b"ACGT", &[0x9C]),
        packed(0, b"TCAG", &[0x1B]),
        packed(1, b"ACGTNRYU", &[0x05, 0x39, 0x77]),
        packed(2, b"NACM", &[0x01, 0x23]),
        packed(3, b"MK*", &[0x52, 0x28]),
        (Call::new(Entry::EncodeSequence, &[0, 0]).text(b"ACNT").room(1), vec![5, 0, 2, 0x4E, 1], vec![]),
        (
            Call::new(Entry::EncoderList, &[0, 0]).text(b"ACNT").steps(steps),
            vec![0, 1, 0, 0, 0, 5, 0, 2, 0x4E, 1],
            vec![0x9C],
        ),
        (Call::new(Entry::ByteRange, &[2, 6, 3]), vec![0, 0, 3], vec![]),
        (Call::new(Entry::ByteRange, &[5, 5, 2]), vec![0, 1, 2], vec![]),
    ]
}

fn windows() -> Vec<Row> {
    let read = |entry: Entry, numbers: [u64; 4], bytes: &[u8], answer: &[u8]| {
        let call = Call::new(entry, &numbers).text(bytes).room(answer.len() + 1);
        (call, vec![0, answer.len() as u64], answer.to_vec())
    };
    let refused = |entry: Entry, numbers: [u64; 4], bytes: &[u8], room: usize, number: u64| {
        (Call::new(entry, &numbers).text(bytes).room(room), vec![number, 0], vec![])
    };
    let (zero, covered) = (Entry::DecodeAtOffset, Entry::DecodeCovered);
    vec![
        read(zero, [1, 0, 2, 6], &[0x05, 0x39, 0x77], b"GTNR"),
        read(covered, [1, 0, 2, 6], &[0x05, 0x39, 0x77], b"GTNR"),
        read(zero, [0, 0, 0, 6], &[0x9C], b"ACGTTT"),
        refused(covered, [0, 0, 0, 6], &[0x9C], 6, 3),
        read(zero, [0, 1, 2, 5], &[0x80], b"TTA"),
        refused(covered, [0, 1, 2, 5], &[0x80], 3, 3),
        read(zero, [3, 0, 0, 1], &[0xE8], b"X"),
        refused(zero, [0, 0, 0, LIMIT], &[], 0, 4),
        refused(zero, [0, 0, 0, LIMIT + 1], &[], 0, 2),
    ]
}

fn streams() -> Vec<Row> {
    // A read, then an end call: four words each.
    let list = |numbers: [u64; 3], source: &[u8], room: usize, words: [u64; 8]| {
        let read = Step { length: source.len(), room, last: false };
        let end = Step { length: 0, room: 0, last: true };
        (Call::new(Entry::StreamList, &numbers).text(source).steps(vec![read, end]), words.to_vec(), vec![])
    };
    let read = |state: [u64; 5], source: &[u8], room: usize, words: [u64; 4]| {
        (Call::new(Entry::StreamRead, &state).text(source).room(room), words.to_vec(), vec![])
    };
    vec![
        list([1, 6, 4], &[0x05], 4, [0, 1, 0, HUNGRY, 7, 4, 0, 0]),
        list([0, 3, 0], &[], 0, [0, 0, 0, HUNGRY, 7, 0, 0, 0]),
        // Not rows of the table but what its status rule says of pending bits alone and of space used up.
        read([0, 0, 9, 6, 0], &[], 9, [0, 0, 3, HUNGRY]),
        read([0, 0, 9, 6, 0], &[], 3, [0, 0, 3, FULL]),
        read([0, 0, 3, 6, 0], &[], 3, [0, 0, 3, DONE]),
    ]
}

/// What the choice to fold makes of rows of the table; that of a state, and the sentences on Ascii and on a refusal 5.
fn folded() -> Vec<Row> {
    let guess = |text: &[u8], number: u64| (Call::new(Entry::GuessAlphabet, &[1]).text(text), vec![0, number], vec![]);
    let packed = |alphabet: u64, fold: u64, text: &[u8], words: [u64; 5], bytes: &[u8]| {
        let call = Call::new(Entry::EncodeSequence, &[alphabet, fold]).text(text).room(text.len());
        (call, words.to_vec(), bytes.to_vec())
    };
    let finalize = |alphabet: u64, byte: u64, fold: u64, words: [u64; 5]| {
        (Call::new(Entry::EncoderFinalize, &[alphabet, 4, 0, 0, 1, 2, byte, fold, 1]), words.to_vec(), vec![])
    };
    vec![
        guess(b"acgt", 0),
        guess(b"acgu", 1),
        guess(b"acgts", 2),
        guess(b"acgx", 3),
        guess(b"ac`gt", 4),
        guess(b"acgt{", 4),
        packed(0, 1, b"acGT", [0, 1, 0, 0, 0], &[0x9C]),
        packed(0, 1, b"acnt", [5, 0, 2, 0x6E, 1], &[]),
        packed(0, 1, b"AC{t", [5, 0, 2, 0x7B, 1], &[]),
        packed(0, 0, b"acnt", [5, 0, 0, 0x61, 4], &[]),
        packed(3, 1, b"mk*", [0, 2, 0, 0, 0], &[0x52, 0x28]),
        packed(4, 1, b"aZ", [0, 2, 0, 0, 0], b"aZ"),
        packed(5, 1, b"aZ", [0, 2, 0, 0, 0], b"aZ"),
        finalize(0, 0x61, 0, [5, 0, 2, 0x61, 1]),
        finalize(0, 0x61, 1, [1, 0, 0, 0, 0]),
        finalize(0, 0x6E, 1, [5, 0, 2, 0x6E, 1]),
        finalize(0, 0x6E, 2, [1, 0, 0, 0, 0]),
        finalize(6, 0x6E, 2, [8, 0, 0, 0, 0]),
    ]
}

/// What the sentences on the count of non-members make of texts, pieces and states, told by hand.
fn counted() -> Vec<Row> {
    let packed = |fold: u64, text: &[u8], words: [u64; 5]| {
        (Call::new(Entry::EncodeSequence, &[0, fold]).text(text).room(text.len()), words.to_vec(), vec![])
    };
    // Four symbols seen, N at 2 the first that is no base, and so many in all.
    let finalize = |has_bad: u64, count: u64, words: [u64; 5]| {
        let state = [0, 4, 0, 0, has_bad, 2, 0x4E, 0, count];
        (Call::new(Entry::EncoderFinalize, &state), words.to_vec(), vec![])
    };
    vec![
        packed(0, b"NCNT", [5, 0, 0, 0x4E, 2]),
        packed(0, b"ACgtN", [5, 0, 2, 0x67, 3]),
        packed(1, b"ACgtN", [5, 0, 4, 0x4E, 1]),
        pieces(&[(b"ACGT", 1), (b"NANN", 1)], &[[0, 1, 0, 0, 0], [0, 1, 0, 0, 0], [5, 0, 4, 0x4E, 3]]),
        pieces(&[(b"ANNA", 1), (b"NNNN", 0)], &[[0, 1, 0, 0, 0], [4, 0, 0, 0, 0], [5, 0, 1, 0x4E, 2]]),
        finalize(1, 2, [5, 0, 2, 0x4E, 2]),
        finalize(1, 3, [1, 0, 0, 0, 0]),
        finalize(1, 0, [1, 0, 0, 0, 0]),
        finalize(0, 0, [0, 0, 0, 0, 0]),
        finalize(0, 1, [1, 0, 0, 0, 0]),
    ]
}

/// Pieces of Dna2bit, each with its room, then `finalize`.
fn pieces(pieces: &[(&[u8], usize)], answers: &[[u64; 5]]) -> Row {
    let text: Vec<u8> = pieces.iter().flat_map(|(piece, _)| piece.to_vec()).collect();
    let updates = pieces.iter().map(|&(piece, room)| Step { length: piece.len(), room, last: false });
    let steps = updates.chain([Step { length: 0, room: 1, last: true }]).collect();
    (Call::new(Entry::EncoderList, &[0, 0]).text(&text).steps(steps), answers.concat(), vec![])
}

/// The covered half of the table's Protein row, and what the sentences on codes that the list lacks make of other windows,
/// told by hand. E8 begins with code 29, A8 with 21, which is X's own, E0 with 28, J's; 07 40 holds codes 0 and 29.
fn lacking() -> Vec<Row> {
    let zero_filling = |numbers: [u64; 4], bytes: &[u8], answer: &[u8]| {
        let call = Call::new(Entry::DecodeAtOffset, &numbers).text(bytes).room(answer.len());
        (call, vec![0, answer.len() as u64], answer.to_vec())
    };
    let covered = |numbers: [u64; 4], bytes: &[u8], room: usize, words: [u64; 3], answer: &[u8]| {
        (Call::new(Entry::DecodeCovered, &numbers).text(bytes).room(room), words.to_vec(), answer.to_vec())
    };
    let pair = [0x07, 0x40];
    vec![
        covered([3, 0, 0, 1], &[0xE8], 1, [18, 0, 0], b""),
        covered([3, 0, 0, 1], &[0xE8], 0, [4, 0, 0], b""),
        covered([3, 0, 0, 1], &[0xA8], 1, [0, 1, 0], b"X"),
        covered([3, 0, 0, 1], &[0xE0], 1, [0, 1, 0], b"J"),
        covered([3, 0, 0, 1], &[0xF0], 1, [18, 0, 0], b""),
        covered([3, 0, 0, 1], &[0xF8], 1, [18, 0, 0], b""),
        zero_filling([3, 0, 0, 2], &pair, b"AX"),
        covered([3, 0, 0, 2], &pair, 2, [18, 0, 1], b""),
        covered([3, 0, 0, 1], &pair, 1, [0, 1, 0], b"A"),
        covered([3, 0, 0, 2], &pair[..1], 2, [3, 0, 0], b""),
        // The base is counted from the sequence's start, and those beside the window are not asked.
        covered([3, 5, 8, 10], &pair, 2, [18, 0, 9], b""),
        covered([3, 5, 9, 10], &pair, 1, [18, 0, 9], b""),
        covered([3, 5, 8, 9], &pair, 1, [0, 1, 0], b"A"),
        covered([3, 0, 2, 3], &pair, 1, [0, 1, 0], b"A"),
        // An empty window asks nothing, and a byte of Ascii is its own code.
        covered([3, 0, 1, 1], &[0xFF], 0, [0, 0, 0], b""),
        covered([4, 0, 0, 3], &[0x1D, 0x1E, 0x1F], 3, [0, 3, 0], &[0x1D, 0x1E, 0x1F]),
    ]
}

/// What the sentences on guesses of chromosomes make of two alphabets and of two texts, told by hand. Of texts the guesses
/// are combined; the guess of both joined is a row of its own, with the same answer.
fn combined() -> Vec<Row> {
    let later = |one: u64, other: u64, words: [u64; 2]| {
        (Call::new(Entry::LaterAlphabet, &[one, other]), words.to_vec(), vec![])
    };
    let chromosome = |text: &[u8]| Step { length: text.len(), room: 0, last: false };
    let texts = |fold: u64, one: &[u8], other: &[u8], alphabet: u64| {
        let (whole, steps) = ([one, other].concat(), [one, other].map(chromosome).to_vec());
        let genome = Call::new(Entry::GenomeList, &[fold, 0, 0]).text(&whole).steps(steps);
        let joined = Call::new(Entry::GuessAlphabet, &[fold]).text(&whole);
        [genome, joined].map(|call| (call, vec![0, alphabet], vec![]))
    };
    let alphabets = [
        later(0, 0, [0, 0]),
        later(0, 4, [0, 4]),
        later(3, 2, [0, 3]),
        later(4, 5, [0, 5]),
        later(5, 5, [0, 5]),
        later(6, 0, [8, 0]),
        later(0, 6, [8, 0]),
    ];
    let genomes = [
        texts(0, b"ACGT", b"ACGU", 1),
        texts(0, b"ACGTS", b"ACGX", 3),
        texts(0, b"acgt", b"ACGT", 4),
        texts(1, b"acgt", b"ACGT", 0),
    ];
    [alphabets.to_vec(), genomes.concat()].concat()
}

/// What the sentences on the ask make of states, pieces and lengths of memory, told by hand. Where memory of that length can
/// be lent, a list has the same answer twice at its front: of the ask, and of the update that is then made.
fn asked() -> Vec<Row> {
    let row = |state: [u64; 9], piece: &[u8], room: u64, answer: [u64; 2], next: [u64; 9]| {
        let words = [&answer[..], &next].concat();
        let mut rows = vec![(Call::ask(&state, piece, room), words.clone(), vec![])];
        if room < u64::MAX {
            let step = Step { length: piece.len(), room: room as usize, last: false };
            let list = Call::new(Entry::AskList, &state).text(piece).steps(vec![step]);
            rows.push((list, words.repeat(2), vec![]));
        }
        rows
    };
    let refused = |number: u64, state: [u64; 9], piece: &[u8], room: u64| row(state, piece, room, [number, 0], state);
    let fresh = [0; 9];
    let folding = [0, 0, 0, 0, 0, 0, 0, 1, 0];
    // Three symbols seen, ACG, whose bits are 100111; and four, N at 2 the only one that is no base.
    let (three, one_bad) = ([0, 3, 6, 39, 0, 0, 0, 0, 0], [0, 4, 0, 0, 1, 2, 0x4E, 0, 1]);
    let (unsound, full) = ([0, 4, 2, 0, 0, 0, 0, 0, 0], [0, LIMIT, 0, 0, 0, 0, 0, 0, 0]);
    let rows = [
        refused(4, fresh, b"ACGT", 0),
        row(fresh, b"ACG", 0, [0, 0], three),
        row(fresh, b"", 0, [0, 0], fresh),
        row(fresh, b"ACGT", 1, [0, 1], [0, 4, 0, 0, 0, 0, 0, 0, 0]),
        refused(4, fresh, b"ACGTACGT", 1),
        row(fresh, b"ACGTACGT", u64::MAX, [0, 2], [0, 8, 0, 0, 0, 0, 0, 0, 0]),
        // Bits that pend come first: 100111 00 is a byte, and 10 pends.
        refused(4, three, b"TA", 0),
        row(three, b"TA", 1, [0, 1], [0, 5, 2, 2, 0, 0, 0, 0, 0]),
        // A non-member is no refusal; it packs as ones, and the next state knows of it.
        row(fresh, b"ANNT", 1, [0, 1], [0, 4, 0, 0, 1, 1, 0x4E, 0, 2]),
        row(one_bad, b"N", 0, [0, 0], [0, 5, 2, 3, 1, 2, 0x4E, 0, 2]),
        row(folding, b"acnt", 1, [0, 1], [0, 4, 0, 0, 1, 2, 0x6E, 1, 1]),
        // Without a first non-member its place and byte mean nothing; a refusal hands them back.
        row([0, 0, 0, 0, 0, 7, 9, 0, 0], b"A", 0, [0, 0], [0, 1, 2, 2, 0, 0, 0, 0, 0]),
        refused(4, [0, 0, 0, 0, 0, 7, 9, 0, 0], b"ACGT", 0),
        row([0, LIMIT - 4, 0, 0, 0, 0, 0, 0, 0], b"ACGT", 1, [0, 1], full),
        refused(2, full, b"ACGT", 0),
        refused(1, unsound, b"ACGT", 0),
        refused(8, [6, 4, 2, 0, 0, 0, 0, 0, 0], b"ACGT", 0),
        refused(8, [6, 4, 2, 0, 0, 0, 0, 0, 0], b"ACGT", u64::MAX),
        refused(1, unsound, b"ACGT", u64::MAX),
        refused(2, full, b"A", u64::MAX),
    ];
    rows.concat()
}

/// What the sentences on the engines of DnaIupac and Protein make of windows, told by hand. 01 23 45 holds codes 0 to 5 of
/// DnaIupac; C6 75 BE 77 DF holds codes 24 to 31 of Protein, a block of eight, and the last three of them are no symbol's.
fn engines() -> Vec<Row> {
    let call = |entry: Entry, [byte_offset, start, end]: [u64; 3], bytes: &[u8], room: usize| {
        Call::new(entry, &[0, byte_offset, start, end]).text(bytes).room(room)
    };
    let read = |entry: Entry, numbers: [u64; 3], bytes: &[u8], answer: &[u8]| {
        (call(entry, numbers, bytes, answer.len() + 1), vec![0, answer.len() as u64], answer.to_vec())
    };
    let refused = |entry: Entry, numbers: [u64; 3], room: usize, number: u64| {
        (call(entry, numbers, &[0xC6], room), vec![number, 0], vec![])
    };
    let (four, five) = (Entry::Decode4bit, Entry::Decode5bit);
    let (pairs, block) = ([0x01, 0x23, 0x45], [0xC6, 0x75, 0xBE, 0x77, 0xDF]);
    vec![
        read(four, [0, 0, 6], &pairs, b"NACMGR"),
        read(four, [0, 1, 4], &pairs, b"ACM"),
        read(four, [0, 3, 4], &pairs, b"M"),
        read(five, [0, 0, 8], &block, b"UBZOJXXX"),
        read(five, [0, 3, 6], &block, b"OJX"),
        read(five, [5, 8, 16], &block, b"UBZOJXXX"),
        // Bytes that are not lent are zeros, before those that are and behind them.
        read(four, [1, 1, 7], &pairs[1..2], b"NCMNNN"),
        read(five, [1, 0, 8], &block[1..], b"ACZOJXXX"),
        read(five, [0, 0, 8], &block[..4], b"UBZOJXUA"),
        read(five, [LIMIT, 0, 1], &block, b"A"),
        // An empty window asks nothing; then comes 2, of the end and of byte_offset, then 4.
        read(four, [u64::MAX, LIMIT + 1, LIMIT + 1], &pairs, b""),
        read(five, [0, 3, 2], &block, b""),
        refused(four, [0, 0, LIMIT + 1], 0, 2),
        refused(five, [LIMIT + 1, 0, 1], 0, 2),
        refused(four, [0, 0, LIMIT], 0, 4),
        refused(five, [0, 0, 2], 1, 4),
    ]
}
