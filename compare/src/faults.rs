//! Planted faults: each turns the port's calls or answers into those of a port that is wrong in one way, to show that
//! the comparison would notice. A fault changes what goes in (`call`) or what comes out (`answer`); of a genome it may change
//! what a host makes of the chromosomes' guesses (`guesses`).

use crate::case::{Call, Entry, Layer, Memory, Numbers};
use crate::model::{self, Intake, DONE, FULL, HUNGRY, LIMIT};

macro_rules! faults {
    ($($fault:ident $layer:ident $text:literal,)*) => {
        #[derive(Clone, Copy, PartialEq, Debug)]
        pub enum Fault { $($fault),* }

        impl Fault {
            pub const ALL: &'static [(Fault, Layer, &'static str)] = &[$((Fault::$fault, Layer::$layer, $text)),*];
        }
    };
}

faults! {
    GuesserStartsAt15 Alphabet "a guesser starts at 15",
    MaskEntryOff Alphabet "one mask entry is off by one bit",
    MaskNarrowed Alphabet "a guesser's mask is narrowed to a byte before it is tested",
    FirstChunkOnly Alphabet "only the first 4,096 bytes are looked at",
    ChunkEndSkipped Alphabet "the last byte of the first chunk is skipped",
    GuesserReset Alphabet "a refused guesser comes back fresh",
    NameOff Alphabet "one letter of a display name is off",
    NameRoom Alphabet "a name that just fits is refused",
    LowercaseMember Alphabet "contains is true for lowercase",
    ByteNarrowed Alphabet "contains takes byte 321 for A",
    AlphabetNarrowed Alphabet "alphabet 256 is taken for 0",
    BeyondName Alphabet "a byte is written beyond the count of a name",
    GuessFoldsUnasked Alphabet "a guess folds when told not to",
    GuessFoldsBases Alphabet "a guess folds a, c, g and t alone",
    GuessClearsBit Alphabet "a guess folds by clearing bit 5 of every byte",
    GuessFoldsBrace Alphabet "a folded mask takes 60 to 7B for letters",
    MaskLosesAscii Alphabet "a folded mask loses Ascii",
    GuesserForgets Alphabet "a guesser's update forgets the choice",
    GuesserKeepsNumber Alphabet "a fresh guesser keeps the choice's number as it came",
    GuessNarrows Alphabet "a guess narrows the choice to a byte",
    GuesserTakesTwo Alphabet "a guesser's choice of 2 is taken as sound",

    AlphabeticalCodes Packing "Dna2bit packs by codes in alphabetical order",
    MaskedBeforeTest Packing "FF is masked to the width before the member test, so N passes as G",
    StrangerAsZeros Packing "a non-member packs as zeros",
    FirstHalfSearched Packing "encode_sequence looks for non-members of 16,384 bytes and more in their first half alone",
    PiecePosition Packing "a position is counted from the latest piece",
    LatestStranger Packing "the latest non-member replaces the first",
    PendingLost Packing "a pending bit is lost",
    PendingTooBig Packing "a pending value of 2^p is taken as sound",
    SpareOnes Packing "spare bits of the last byte are ones",
    MemberBeforeMemory Packing "encode_sequence asks 10 before 9",
    MemoryBeforeMember Packing "finalize asks 9 before 8",
    PositionBeforeBits Packing "a byte range asks 5 before 2",
    RangeLimit Packing "a byte range refuses 2^60",
    UpdateLimit Packing "an update that reaches 2^60 is refused",
    RangeRoundedDown Packing "the end of a byte range is rounded down",
    RefusalWrites Packing "a refused encode_sequence writes",
    RefusalZeroes Packing "a refused update hands back zeros",
    BeyondPacked Packing "a byte is written beyond the count when packing",
    PacksFoldedUnasked Packing "packing folds when told not to",
    FoldsAscii Packing "Ascii and Unknown fold",
    PackingClearsBit Packing "packing folds by clearing bit 5 of every byte",
    ReportsUppercase Packing "a refusal 5 reports the uppercased byte",
    ReportsBeyond Packing "a reported byte 60, or 7B to 7F, is folded too",
    EncoderForgets Packing "an update forgets the choice",
    UpdateUnchosen Packing "an update keeps the choice and does not fold",
    SoundUnchosen Packing "finalize asks whether a first non-member is one without the choice",
    EncoderKeepsNumber Packing "a fresh encoder keeps the choice's number as it came",
    StartNormalised Packing "a refused start hands back 1 for any choice that folds",
    PackingNarrows Packing "encode_sequence narrows the choice to a byte",
    EncoderTakesTwo Packing "an encoder's choice of 2 is taken as sound",
    ChoiceBeforeAlphabet Packing "a choice above 1 is refused before the alphabet",
    CountAnew Packing "the count of non-members starts anew with each piece",
    CountStays Packing "the count stays at one, the first non-member",
    CountEndsWithFirst Packing "pieces behind the one with the first non-member are not counted",
    CountsRefused Packing "a refused piece is counted",
    CountsFolded Packing "letters that fold to members are counted",
    SequenceCountsFirst Packing "encode_sequence stops counting at the first non-member",
    FirstChunkCounted Packing "only the chunk of 4,096 bytes with the first non-member is counted",
    RestUncounted Packing "bytes behind the last whole 8 are not counted",
    CountInByte Packing "a piece's count is kept in a byte",
    CountInShort Packing "a piece's count is kept in 16 bits",
    CountNarrowed Packing "a state's count is narrowed to 32 bits",
    CountWithoutFirst Packing "a count with no first non-member is taken as sound",
    FirstWithoutCount Packing "a first non-member with a count of zero is taken as sound",
    CountUnbounded Packing "a count above the symbols from the first non-member on is taken as sound",
    CountPastByOne Packing "a count one above the symbols from the first non-member on is taken as sound",
    CountOfAllRefused Packing "a count of all symbols from the first non-member on is refused",
    CountBeforeAlphabet Packing "an unsound count is refused before the alphabet",
    CountUntold Packing "finalize tells no count",
    CountForPosition Packing "finalize tells the count in the position's place, and the position in its",

    AlphabeticalSymbols Windows "Dna2bit decodes by codes in alphabetical order",
    LowBitsFirst Windows "Dna2bit decodes a byte from its low bits on",
    OneByteForFour Windows "four bases of Dna2bit that begin within a byte are taken from that byte alone",
    LongRunCut Windows "a window of 512 bases of Dna2bit and more loses four of them",
    BlockAtEdge Windows "the 3-bit block engine runs at an edge without all three bytes",
    NoFillBefore Windows "bytes before byte_offset do not read as zero",
    NoFillBehind Windows "bytes behind those lent do not read as zero",
    WindowLimit Windows "a window that ends at 2^60 is refused",
    WindowPastLimit Windows "a window that ends at 2^60 + 1 is taken",
    AlphabetBeforeEmpty Windows "an empty window is asked for its alphabet",
    CoverShort Windows "the covered read does without the last byte",
    MemoryBeforeCover Windows "the covered read asks 9 before 6",
    BeyondWindow Windows "a byte is written beyond the count of a window",
    InventsX Windows "the covered read gives X for a code that no symbol has",
    LackingFrom30 Windows "the covered read takes code 29 for a symbol's",
    LackingBut31 Windows "the covered read takes code 31 for a symbol's",
    LackingFrom28 Windows "the covered read refuses code 28, which is J's",
    LackingX Windows "the covered read refuses X itself, code 21",
    LackingOnes Windows "the covered read refuses a code of all ones in every packed alphabet",
    LackingInAscii Windows "the covered read refuses bytes 1D to 1F in Ascii and Unknown",
    LackingFromWindow Windows "a refusal 18 tells the base as counted from the window's start",
    LackingFromOne Windows "a refusal 18 tells the base as counted from 1",
    LackingNarrowed Windows "a refusal 18 tells the base in 32 bits",
    LackingCounts Windows "a refusal 18 counts the bases before the one that it tells",
    LackingUntold Windows "a refusal 18 tells no base",
    LastLacking Windows "a refusal 18 tells the last such base",
    LackingBefore Windows "the base before the window is asked for its code",
    LackingBehind Windows "the base behind the window is asked for its code",
    LackingBeforeMemory Windows "the covered read asks for codes before the memory",
    LackingBeforeCover Windows "the covered read asks for codes before the bytes lent",
    LackingBeforeEmpty Windows "an empty window is asked for a code",
    LackingWrites Windows "a read refused by 18 has written the bases before the one that it tells",
    LackingTold Windows "a read refused by 4 tells a base that 18 would",
    ElevenLessOne Windows "the last of each eleven bases is not asked for its code",
    FirstEleven Windows "only the first eleven bases are asked for their codes",
    RestUnasked Windows "bases behind the last whole eleven are not asked for their codes",
    WholeElevens Windows "eleven bases are asked for their codes where fewer are left",
    FirstUnasked Windows "the first base of a window is not asked for its code",
    LastUnasked Windows "the last base of a window is not asked for its code",
    ZeroFillingRefuses Windows "the zero-filling reads refuse a code that no symbol has",
    RollingRefuses Windows "the rolling engine refuses a code that no symbol has",

    DoneWithSkip Streaming "a zero budget is answered Done while a skip is due",
    SkipCounted Streaming "the count of bases includes the skip",
    SkipNeedsSpace Streaming "no byte is taken for the skip without output memory",
    ReadsAhead Streaming "a byte more than needed is taken",
    StreamBitLost Streaming "a stream's pending bit is lost",
    FullBeforeDone Streaming "Full is answered before Done",
    HungryBeforeFull Streaming "Hungry is answered before Full",
    EndIgnoresSkip Ending "the end call does not ask for the skip",
    SkipOfEight Streaming "a skip of 8 is taken",
    BudgetNarrowed Streaming "a budget is narrowed to 32 bits",
    BeyondStream Streaming "a byte is written beyond the count of a stream",

    LaterIsEarlier Genome "the earlier of two alphabets is answered",
    LaterIsFirst Genome "of two alphabets the first is answered",
    LaterIsSecond Genome "of two alphabets the second is answered",
    AlikeIsDna2bit Genome "two alphabets that are alike give Dna2bit",
    LaterByWidth Genome "the later has more bits per symbol; of Ascii and Unknown it is the first",
    UnknownBeforeAscii Genome "Unknown is counted before Ascii",
    ProteinBeforeIupac Genome "Protein is counted before DnaIupac",
    NumbersAnded Genome "two numbers are combined by AND",
    NumbersOred Genome "two numbers are combined by OR",
    OneUnasked Genome "the first number may be that of no alphabet",
    OtherUnasked Genome "the second number may be that of no alphabet",
    NeitherRefused Genome "two numbers are refused only where neither is an alphabet",
    SixTaken Genome "6 is taken for an alphabet",
    UnknownRefused Genome "Unknown is refused",
    LaterNarrowed Genome "256 is taken for Dna2bit where two alphabets are combined",
    LaterSigned Genome "numbers from 2^63 on are taken for negative ones, which come before Dna2bit",
    NoAlphabetIsOne Genome "a number that is no alphabet is refused by 1",
    NoAlphabetTold Genome "a refusal 8 tells the number that is no alphabet",
    GenomeFromAscii Genome "a genome starts from Ascii",
    GenomeLosesLast Genome "the last chromosome of a genome is left out",
    GenomeStopsEarly Genome "a genome is done with its first chromosome that is not Dna2bit",
    GenomeByLongest Genome "the guess of its longest chromosome stands for a genome",
    EmptyIsAscii Genome "an empty chromosome counts as Ascii",
    FirstFolded Genome "the first chromosome is folded where the others are not",
    LastUnfolded Genome "the last chromosome is not folded where the others are",
    ChromosomeEndLost Genome "the last byte of a chromosome is not looked at",

    AskWithoutMemory Asking "an ask with no memory is refused by 4, though the piece completes no byte",
    AskOneTooFew Asking "an ask takes memory that is one byte too short",
    AskJustEnough Asking "an ask refuses memory that is just enough",
    AskNarrowed Asking "an ask narrows the length of memory to 32 bits",
    AskSigned Asking "an ask takes a length of memory from 2^63 on for a negative one",
    AskLimitsMemory Asking "an ask refuses a length of memory above 2^60 by 2",
    AskMemoryBeforeLimit Asking "an ask asks 9 before 5",
    AskMemoryBeforeState Asking "an ask asks 9 before 4",
    AskUnsound Asking "an ask takes an unsound state",
    AskLimit Asking "an ask about a piece that reaches 2^60 is refused",
    AskAlphabetNarrowed Asking "an ask takes alphabet 256 for 0",
    AskMember Asking "an ask refuses a piece with a non-member by 5",
    AskRefusedNext Asking "an ask refused by 4 tells the next state",
    AskRefusedCount Asking "an ask refused by 4 tells how many bytes are needed",
    AskRefusedZeroes Asking "a refused ask hands back zeros",
    AskBefore Asking "an ask tells the state before the piece as the next",
    AskPendingStays Asking "an ask tells the bits that pended before the piece",
    AskPendingZero Asking "an ask tells a pending value of 0",
    AskPendingFirst Asking "an ask takes the pending bits from the first symbols of the piece",
    AskPendingUnjoined Asking "an ask does not join the bits of a piece that completes no byte with those before it",
    AskPieceAlone Asking "an ask counts the bytes of the piece without the bits before it",
    AskRoundedUp Asking "an ask counts the byte that finalize would write",
    AskCountsMemory Asking "an ask tells the length of memory in the count's place",
    AskBlind Asking "an ask does not look for non-members",
    AskCountsFirst Asking "an ask counts the first non-member of a piece alone",
    AskCountsAnew Asking "an ask counts the non-members of the piece alone",
    AskPiecePosition Asking "an ask counts a position from the piece's start",
    AskForgets Asking "an ask forgets the choice",
    AskUnchosen Asking "an ask keeps the choice and does not fold",
    AskFirstChunk Asking "an ask looks for non-members in the first 4,096 bytes alone",
    AskFirstHalf Asking "an ask of 16,384 bytes and more looks for non-members in the first half alone",
    UpdateWantsMore Asking "an update refuses the memory that an ask tells to be just enough",
    UpdateLeavesOther Asking "an update leaves another bit pending than an ask tells",

    HalvesSwapped Blocks "the 4-bit engine takes the low half of a byte for the first of its two bases",
    OddFromFront Blocks "the 4-bit engine takes a first base that is the second of its byte from the high half",
    FiveAtEdge Blocks "the 5-bit engine reads a byte of a block that is not lent as FF",
    EdgeUnwritten Blocks "the 5-bit engine writes nothing of a block of which a byte is not lent",
    BlockFromByte Blocks "the 5-bit engine reads a block that begins within a byte from that byte's first bit on",
    FourForEight Blocks "the 5-bit engine takes eight bases from the first four of their five bytes",
    BlockOffsetIgnored Blocks "the 4-bit and the 5-bit engine take byte_offset for 0",
    FiveBitRefuses Blocks "the 5-bit engine refuses a code that no symbol has",
}

impl Fault {
    /// What a port with this fault makes of its input.
    pub fn call(self, call: &Call) -> Call {
        let mut wrong = call.clone();
        let numbers = &mut wrong.numbers;
        let text = &mut wrong.text;
        let two_bit = call.alphabet() == Some(0) && !text.is_empty();
        match (self, call.entry) {
            (_, Entry::EncoderAsk) => self.asking(&mut wrong),
            // S has the mask of U without Dna3bit's bit.
            (Fault::MaskEntryOff, _) => text.iter_mut().filter(|byte| **byte == b'U').for_each(|byte| *byte = b'S'),
            (Fault::MaskNarrowed, Entry::GuesserUpdate | Entry::GuesserGuess) => numbers[0] &= 0xFF,
            (Fault::FirstChunkOnly, _) => text.truncate(4096),
            (Fault::ChunkEndSkipped, _) if text.len() > 4095 => text[4095] = text[0],
            (Fault::ByteNarrowed, Entry::Contains) => numbers[1] &= 0xFF,
            (Fault::AlphabetNarrowed, _) if call.alphabet().is_some() => numbers[0] &= 0xFF,
            (Fault::AlphabeticalCodes, _) if two_bit => swap(text, b"ACGT", b"TCAG"),
            (Fault::MaskedBeforeTest, _) if two_bit => replace_strangers(intake(call), text, b'G'),
            (Fault::FirstHalfSearched, Entry::EncodeSequence) if text.len() >= 16_384 => {
                let half = text.len() / 2;
                replace_strangers(intake(call), &mut text[half..], b'A');
            }
            (Fault::StrangerAsZeros, Entry::EncoderUpdate) if numbers[0] < 4 => {
                replace_strangers(intake(call), text, model::LISTS[numbers[0] as usize][0]);
            }
            (Fault::PendingTooBig, Entry::EncoderUpdate) if numbers[3].checked_sub(1) == mask(numbers[2]) => {
                numbers[3] -= 1
            }
            (Fault::NoFillBefore, _) if numbers[1] < 16 && !text.is_empty() && call.entry != Entry::DecodeCovered => {
                let before = vec![text[0]; numbers[1] as usize];
                text.splice(..0, before);
                numbers[1] = 0;
            }
            (Fault::NoFillBehind, _) if call.entry != Entry::DecodeCovered => text.resize(text.len() + 8, 0xFF),
            (Fault::WindowPastLimit, _) if numbers[3] == LIMIT + 1 && numbers[2] < LIMIT => numbers[3] = LIMIT,
            (Fault::CoverShort, Entry::DecodeCovered) => text.push(0),
            (Fault::BlockOffsetIgnored, Entry::Decode4bit | Entry::Decode5bit) if numbers[1] <= LIMIT => numbers[1] = 0,
            (Fault::BudgetNarrowed, Entry::StreamNew) => numbers[2] &= 0xFFFF_FFFF,
            (Fault::LaterNarrowed, Entry::LaterAlphabet) => numbers.iter_mut().for_each(|number| *number &= 0xFF),
            (Fault::ChromosomeEndLost, Entry::GuessAlphabet) => drop(text.pop()),
            (_, Entry::EncoderUpdate | Entry::EncoderFinalize) if self.lenient() => numbers[8] = self.believed(numbers),
            _ => self.folding(&mut wrong),
        }
        wrong
    }

    /// Whether a port with this fault takes a state's count for a sound one.
    fn lenient(self) -> bool {
        matches!(
            self,
            Fault::CountNarrowed
                | Fault::CountWithoutFirst
                | Fault::FirstWithoutCount
                | Fault::CountUnbounded
                | Fault::CountPastByOne
        )
    }

    /// The count for which such a port takes that of a state.
    fn believed(self, state: &Numbers) -> u64 {
        let [_, seen, _, _, has_bad, position, _, _, count, _] = *state;
        let most = seen.saturating_sub(position);
        match (self, has_bad) {
            (Fault::CountNarrowed, _) => count & 0xFFFF_FFFF,
            (Fault::CountWithoutFirst, 0) => 0,
            (Fault::FirstWithoutCount, 1) => count.max(1),
            (Fault::CountUnbounded, 1) => count.min(most),
            (Fault::CountPastByOne, 1) if count == most + 1 => most,
            _ => count,
        }
    }

    /// What a port whose folding has this fault makes of its input.
    fn folding(self, call: &mut Call) {
        let Some(place) = call.fold_place() else { return };
        let (packs, fold) = (call.alphabet().unwrap_or(0) < 4, call.numbers[place]);
        let text = &mut call.text;
        match (self, call.entry) {
            (Fault::GuessFoldsUnasked, _) if fold == 0 => text.make_ascii_uppercase(),
            (Fault::PacksFoldedUnasked, _) if fold == 0 && packs => uppercase_members(call.numbers[0], text),
            (Fault::FoldsAscii, _) if fold != 0 && !packs => text.make_ascii_uppercase(),
            (Fault::GuessFoldsBases, _) if fold != 0 => {
                let other = |byte: &&mut u8| byte.is_ascii_lowercase() && !b"acgt".contains(byte);
                text.iter_mut().filter(other).for_each(|byte| *byte = b'{');
            }
            (Fault::GuessClearsBit, _) if fold != 0 => text.iter_mut().for_each(|byte| *byte &= 0xDF),
            // Of Protein's members those that are no letters.
            (Fault::PackingClearsBit, _) if fold != 0 && call.numbers[0] == 3 => swap(text, b"*-.", b"\x0a\x0d\x0e"),
            // A letter whose membership its neighbours 60 and 7B get.
            (Fault::GuessFoldsBrace, _) if fold != 0 => swap(text, b"`{", b"JZ"),
            (Fault::GuessNarrows, Entry::GuessAlphabet) => call.numbers[place] &= 0xFF,
            (Fault::PackingNarrows, Entry::EncodeSequence) => call.numbers[place] &= 0xFF,
            (Fault::GuesserTakesTwo, Entry::GuesserUpdate | Entry::GuesserGuess)
            | (Fault::EncoderTakesTwo, Entry::EncoderUpdate | Entry::EncoderFinalize)
                if fold == 2 =>
            {
                call.numbers[place] = 1
            }
            (Fault::UpdateUnchosen, Entry::EncoderUpdate) if fold == 1 => call.numbers[place] = 0,
            (Fault::SoundUnchosen, Entry::EncoderFinalize) if fold == 1 => call.numbers[place] = 0,
            _ => {}
        }
    }

    /// What a port with this fault makes of its answer to `call`; `before` is what the memory held.
    pub fn answer(self, call: &Call, before: &[u8], words: &mut [u64], out: &mut [u8]) {
        let beyond = match self {
            Fault::BeyondName => call.entry == Entry::DisplayName,
            Fault::BeyondPacked => matches!(call.entry, Entry::EncoderUpdate | Entry::EncodeSequence),
            Fault::BeyondWindow => call.entry.shape().layer == Layer::Windows,
            Fault::BeyondStream => call.entry == Entry::StreamRead,
            _ => false,
        };
        if beyond && words[0] == 0 {
            let count = if call.entry == Entry::StreamRead { words[2] } else { words[1] };
            out.iter_mut().skip(count as usize).take(1).for_each(|byte| *byte ^= 0x55);
        }
        match call.entry.shape().layer {
            Layer::Alphabet => self.alphabet(call, before, words, out),
            Layer::Packing => self.packing(call, before, words, out),
            Layer::Windows | Layer::Blocks => self.windows(call, before, words, out),
            Layer::Streaming | Layer::Ending => self.streaming(call, words),
            Layer::Genome => self.combining(call, words),
            Layer::Asking => self.foretelling(call, words),
        }
    }

    fn alphabet(self, call: &Call, before: &[u8], words: &mut [u64], out: &mut [u8]) {
        let [alphabet, byte, ..] = call.numbers;
        match (self, call.entry) {
            (Fault::GuesserStartsAt15, Entry::GuesserNew) => words[0] = 15,
            (Fault::GuesserReset, Entry::GuesserUpdate) if words[0] != 0 => words[1] = 31,
            (Fault::NameOff, Entry::DisplayName) if alphabet == 2 && words[0] == 0 => out[4] = b'u',
            (Fault::NameRoom, Entry::DisplayName) if words[0] == 0 && words[1] as usize == out.len() => {
                refuse(4, call, before, words, out);
            }
            (Fault::LowercaseMember, Entry::Contains) if words[0] == 0 && (97..123).contains(&byte) => words[1] = 1,
            (Fault::MaskLosesAscii, Entry::GuesserUpdate) if words[0] == 0 && call.folds() => {
                let lowercase = call.text.iter().any(u8::is_ascii_lowercase);
                words[1] &= if lowercase { 15 } else { 31 };
            }
            (Fault::GuesserForgets, Entry::GuesserUpdate) if words[0] == 0 => words[2] = 0,
            (Fault::GuesserKeepsNumber, Entry::GuesserNew) => words[1] = call.numbers[0],
            _ => {}
        }
    }

    fn packing(self, call: &Call, before: &[u8], words: &mut [u64], out: &mut [u8]) {
        let [_, seen, pending_bits, _, has_bad, position, _, _, count, _] = call.numbers;
        let stranger = model::first_stranger(intake(call), &call.text);
        let strangers = model::strangers(intake(call), &call.text);
        match (self, call.entry, stranger) {
            (Fault::StrangerAsZeros, Entry::EncoderUpdate, Some((place, byte))) if words[0] == 0 => {
                words[10] += strangers;
                if has_bad == 0 {
                    words[6..9].copy_from_slice(&[1, seen + place, u64::from(byte)]);
                }
            }
            (Fault::PiecePosition, Entry::EncoderUpdate, Some((place, _))) if has_bad == 0 && words[0] == 0 => {
                words[7] = place
            }
            (Fault::LatestStranger, Entry::EncoderUpdate, Some((place, byte))) if words[0] == 0 => {
                words[7..9].copy_from_slice(&[seen + place, u64::from(byte)]);
            }
            (Fault::PendingLost, Entry::EncoderUpdate, _) if words[0] == 0 && words[4] > 0 => {
                words[5] &= (1 << (words[4] - 1)) - 1
            }
            (Fault::SpareOnes, Entry::EncoderFinalize, _) if words[1] == 1 => out[0] |= 0xFF >> pending_bits,
            (Fault::MemberBeforeMemory, Entry::EncodeSequence, Some((place, byte))) if words[0] == 4 => {
                words.copy_from_slice(&[5, 0, place, u64::from(byte), strangers]);
            }
            (Fault::MemoryBeforeMember, Entry::EncoderFinalize, _)
                if words[0] == 5 && pending_bits > 0 && out.is_empty() =>
            {
                refuse(4, call, before, words, out);
            }
            (Fault::UpdateLimit, Entry::EncoderUpdate, _) if words[0] == 0 && words[3] == LIMIT => {
                refuse(2, call, before, words, out)
            }
            (Fault::RefusalWrites, Entry::EncodeSequence, _) if words[0] == 5 && !out.is_empty() => out[0] ^= 0x55,
            (Fault::RefusalZeroes, Entry::EncoderUpdate, _) if words[0] != 0 => words[1..].fill(0),
            (Fault::CountOfAllRefused, Entry::EncoderUpdate | Entry::EncoderFinalize, _)
                if words[0] != 8 && has_bad == 1 && seen.checked_sub(position) == Some(count) =>
            {
                refuse(1, call, before, words, out)
            }
            (_, Entry::ByteRange, _) => self.byte_range(call, words),
            _ => {
                self.choosing(call, words);
                self.counting(call, words);
                self.unforetold(call, before, words, out);
            }
        }
    }

    /// What a port whose update is not what its ask tells makes of an update's answer.
    fn unforetold(self, call: &Call, before: &[u8], words: &mut [u64], out: &mut [u8]) {
        match (self, call.entry) {
            (Fault::UpdateWantsMore, Entry::EncoderUpdate) if words[0] == 0 && words[1] as usize == out.len() => {
                refuse(4, call, before, words, out)
            }
            (Fault::UpdateLeavesOther, Entry::EncoderUpdate) if words[0] == 0 && words[4] > 0 => words[5] ^= 1,
            _ => {}
        }
    }

    /// What a port whose count of non-members has this fault makes of an answer of packing.
    fn counting(self, call: &Call, words: &mut [u64]) {
        let [_, _, _, _, has_bad, _, _, _, count, _] = call.numbers;
        match (self, call.entry, words[0]) {
            (Fault::CountAnew, Entry::EncoderUpdate, 0) => words[10] -= count,
            (Fault::CountStays, Entry::EncoderUpdate, 0) => words[10] = words[6],
            (Fault::CountEndsWithFirst, Entry::EncoderUpdate, 0) if has_bad == 1 => words[10] = count,
            (Fault::CountsRefused, Entry::EncoderUpdate, 4) => words[10] += self.counted(call),
            (Fault::SequenceCountsFirst, Entry::EncodeSequence, 5) => words[4] = 1,
            (Fault::CountUntold, Entry::EncoderFinalize, 5) => words[4] = 0,
            (Fault::CountForPosition, Entry::EncoderFinalize, 5) => words.swap(2, 4),
            (Fault::CountBeforeAlphabet, Entry::EncoderUpdate, 8) if has_bad == 0 && count > 0 => words[0] = 1,
            (_, Entry::EncoderUpdate, 0) if self.miscounts() => words[10] = count + self.counted(call),
            (_, Entry::EncodeSequence, 5) if self.miscounts() => words[4] = self.counted(call),
            // A refused state goes back as it came.
            (_, Entry::EncoderUpdate, 1..) if self.lenient() => words[10] = count,
            _ => {}
        }
    }

    /// Whether a port with this fault takes a text's non-members for more or fewer than they are.
    fn miscounts(self) -> bool {
        matches!(
            self,
            Fault::CountsFolded
                | Fault::FirstChunkCounted
                | Fault::RestUncounted
                | Fault::CountInByte
                | Fault::CountInShort
        )
    }

    /// How many non-members such a port counts in a call's text; any other counts all.
    fn counted(self, call: &Call) -> u64 {
        let (intake, text) = (intake(call), &call.text[..]);
        match self {
            Fault::CountsFolded => model::strangers(Intake { fold: false, ..intake }, text),
            Fault::FirstChunkCounted => {
                let mut chunks = text.chunks(4096).map(|chunk| model::strangers(intake, chunk));
                chunks.find(|&count| count > 0).unwrap_or(0)
            }
            Fault::RestUncounted => model::strangers(intake, &text[..text.len() / 8 * 8]),
            Fault::CountInByte => model::strangers(intake, text) & 0xFF,
            Fault::CountInShort => model::strangers(intake, text) & 0xFFFF,
            _ => model::strangers(intake, text),
        }
    }

    /// What a port whose folding has this fault makes of an answer of packing.
    fn choosing(self, call: &Call, words: &mut [u64]) {
        let [alphabet, second, _, _, _, _, _, fold, ..] = call.numbers;
        let mut none = 0;
        let reported = match call.entry {
            Entry::EncodeSequence if words[0] == 5 && call.folds() => &mut words[3],
            Entry::EncoderUpdate if words[0] == 0 && words[6] == 1 && call.folds() => &mut words[8],
            _ => &mut none,
        };
        match (self, *reported) {
            (Fault::ReportsUppercase, 0x61..=0x7A) | (Fault::ReportsBeyond, 0x60 | 0x7B..=0x7F) => *reported -= 0x20,
            _ => {}
        }
        match (self, call.entry) {
            (Fault::EncoderForgets, Entry::EncoderUpdate) if words[0] == 0 => words[9] = 0,
            (Fault::UpdateUnchosen, Entry::EncoderUpdate) => words[9] = fold,
            (Fault::EncoderKeepsNumber, Entry::EncoderNew) if words[0] == 0 => words[8] = second,
            (Fault::StartNormalised, Entry::EncoderNew) if words[0] != 0 => words[8] = second.min(1),
            (Fault::ChoiceBeforeAlphabet, Entry::EncoderUpdate) if alphabet > 5 && fold > 1 => words[0] = 1,
            _ => {}
        }
    }

    fn byte_range(self, call: &Call, words: &mut [u64]) {
        let [start, end, bits, ..] = call.numbers;
        match self {
            Fault::PositionBeforeBits if words[0] == 9 && start > LIMIT => words[0] = 2,
            Fault::RangeLimit if words[0] == 0 && (start == LIMIT || end == LIMIT) => words.copy_from_slice(&[2, 0, 0]),
            Fault::RangeRoundedDown if words[0] == 0 => words[2] = end * bits / 8,
            _ => {}
        }
    }

    fn windows(self, call: &Call, before: &[u8], words: &mut [u64], out: &mut [u8]) {
        let [alphabet, _, start, end, ..] = call.numbers;
        match self {
            Fault::AlphabeticalSymbols if alphabet == 0 => {
                let count = words[1] as usize;
                swap(&mut out[..count], b"TCAG", b"ACGT");
            }
            Fault::LowBitsFirst if alphabet == 0 && words[0] == 0 => low_bits_first(call, out),
            Fault::OneByteForFour if alphabet == 0 && words[0] == 0 && start < end => {
                for k in (0..(end - start) / 4 * 4).filter(|k| start % 4 + k % 4 >= 4) {
                    out[k as usize] = b'T';
                }
            }
            Fault::LongRunCut if alphabet == 0 && words[0] == 0 && end.saturating_sub(start) >= 512 => {
                out[508..512].copy_from_slice(&before[508..512])
            }
            Fault::BlockAtEdge if alphabet == 1 && words[0] == 0 => block_at_edge(call, out),
            Fault::WindowLimit if end == LIMIT && start < end && words[0] != 8 => refuse(2, call, before, words, out),
            Fault::AlphabetBeforeEmpty if end <= start && alphabet > 5 => refuse(8, call, before, words, out),
            Fault::MemoryBeforeCover if words[0] == 3 && (out.len() as u64) < end - start => words[0] = 4,
            _ if call.entry == Entry::DecodeCovered => self.lacking(call, before, words, out),
            Fault::ZeroFillingRefuses if matches!(call.entry, Entry::DecodeRolling | Entry::Decode5bit) => {}
            Fault::RollingRefuses if call.entry != Entry::DecodeRolling => {}
            Fault::FiveBitRefuses if call.entry != Entry::Decode5bit => {}
            Fault::ZeroFillingRefuses | Fault::RollingRefuses | Fault::FiveBitRefuses
                if words[0] == 0 && first_lacking(call).is_some() =>
            {
                refuse(18, call, before, words, out);
            }
            _ if words[0] == 0 => self.blocks(call, before, out),
            _ => {}
        }
    }

    /// What an engine that reads blocks wrongly in this way makes of the bases of a window.
    fn blocks(self, call: &Call, before: &[u8], out: &mut [u8]) {
        let [alphabet, byte_offset, start, end, ..] = call.numbers;
        let (file, behind) = (model::file(call), byte_offset.saturating_add(call.text.len() as u64));
        let lent = |place: u64| (byte_offset..behind).contains(&place);
        let base = |i: u64, file: &dyn Fn(u64) -> u8| model::base(alphabet, i, file);
        for (k, i) in (start..end).enumerate() {
            // Whether the window has all bases of this one's block, and whether its five bytes are lent, if of Protein.
            let inside = |bases: u64| start <= i / bases * bases && i / bases * bases + bases <= end;
            let whole = || (i / 8 * 5..i / 8 * 5 + 5).all(lent);
            out[k] = match (self, call.entry) {
                (Fault::HalvesSwapped, Entry::Decode4bit) if inside(2) => base(i ^ 1, &file),
                (Fault::OddFromFront, Entry::Decode4bit) if i == start && i % 2 == 1 => base(i - 1, &file),
                (Fault::FiveAtEdge, Entry::Decode5bit) if inside(8) => {
                    base(i, &|place| if lent(place) { file(place) } else { 0xFF })
                }
                (Fault::EdgeUnwritten, Entry::Decode5bit) if inside(8) && !whole() => before[k],
                (Fault::BlockFromByte, Entry::Decode5bit) if i < end - (end - start) % 8 => {
                    base(i - start, &|place| file(start * 5 / 8 + place))
                }
                (Fault::FourForEight, Entry::Decode5bit) if inside(8) && whole() => {
                    base(i, &|place| if place % 5 < 4 { file(place) } else { 0 })
                }
                _ => continue,
            };
        }
    }

    /// What a port whose question about codes that no symbol has is wrong in this way makes of a covered read's answer.
    fn lacking(self, call: &Call, before: &[u8], words: &mut [u64], out: &mut [u8]) {
        let [alphabet, _, start, end, ..] = call.numbers;
        match (self, words[0]) {
            (Fault::LackingFromWindow, 18) => words[2] -= start,
            (Fault::LackingFromOne, 18) => words[2] += 1,
            (Fault::LackingNarrowed, 18) => words[2] &= 0xFFFF_FFFF,
            (Fault::LackingCounts, 18) => words[1] = words[2] - start,
            (Fault::LackingUntold, 18) => words[2] = 0,
            (Fault::LackingWrites, 18) => {
                let written = (words[2] - start) as usize;
                out[..written].copy_from_slice(&bases(call)[..written]);
            }
            (Fault::LackingTold, 4) => words[2] = first_lacking(call).unwrap_or(0),
            (Fault::LackingBeforeMemory, 4) | (Fault::LackingBeforeCover, 3) => {
                if let Some(base) = first_lacking(call) {
                    words.copy_from_slice(&[18, 0, base]);
                }
            }
            (Fault::LackingBeforeEmpty, 0) if start == end && alphabet == 3 && start < LIMIT => {
                if model::lacks(3, model::code(3, start, &model::file(call))) {
                    words.copy_from_slice(&[18, 0, start]);
                }
            }
            (_, 0 | 18) if start < end => self.asked_of(call, before, words, out),
            _ => {}
        }
    }

    /// The answer of a covered read that asks about other codes, or about the codes of other bases, than the port does.
    fn asked_of(self, call: &Call, before: &[u8], words: &mut [u64], out: &mut [u8]) {
        let [alphabet, _, start, end, ..] = call.numbers;
        let (file, count) = (model::file(call), end - start);
        let code = |i: u64| model::code(alphabet, i, &file);
        let lacks = |&i: &u64| model::lacks(alphabet, code(i));
        // Refused is what the port refuses, but for one code, or with others.
        let but = |spared: u64| (start..end).find(|i| lacks(i) && code(*i) != spared);
        let with = |refused: &dyn Fn(u64) -> bool| (start..end).find(|i| lacks(i) || refused(code(*i)));
        let told = match (self, alphabet) {
            (Fault::InventsX, _) => None,
            (Fault::LackingFrom30, 3) => but(29),
            (Fault::LackingBut31, 3) => but(31),
            (Fault::LackingFrom28, 3) => with(&|code| code == 28),
            (Fault::LackingX, 3) => with(&|code| code == 21),
            (Fault::LackingOnes, 0..=3) => with(&|code| code + 1 == 1 << model::width(alphabet)),
            (Fault::LackingInAscii, 4 | 5) => with(&|code| (0x1D..=0x1F).contains(&code)),
            (Fault::LastLacking, _) => (start..end).rev().find(lacks),
            (Fault::LackingBefore, _) => (start.saturating_sub(1)..end).find(lacks),
            (Fault::LackingBehind, _) => (start..=end).find(lacks),
            (Fault::ElevenLessOne, _) => (start..end).find(|i| lacks(i) && (i - start) % 11 < 10),
            (Fault::FirstEleven, _) => (start..end.min(start + 11)).find(lacks),
            (Fault::RestUnasked, _) => (start..start + count / 11 * 11).find(lacks),
            (Fault::WholeElevens, _) => (start..start + count.div_ceil(11) * 11).find(lacks),
            (Fault::FirstUnasked, _) => (start + 1..end).find(lacks),
            (Fault::LastUnasked, _) => (start..end - 1).find(lacks),
            _ => return,
        };
        out.copy_from_slice(before);
        match told {
            Some(base) => words.copy_from_slice(&[18, 0, base]),
            None => {
                out[..count as usize].copy_from_slice(&bases(call));
                words.copy_from_slice(&[0, count, 0]);
            }
        }
    }

    fn streaming(self, call: &Call, words: &mut [u64]) {
        let [_, skip, budget, ..] = call.numbers;
        let (len, accepted) = (call.text.len() as u64, words[0] == 0);
        match (self, call.entry) {
            (Fault::DoneWithSkip, Entry::StreamRead) if accepted && skip > 0 && budget == 0 => words[3] = DONE,
            (Fault::SkipCounted, Entry::StreamRead) if accepted && skip > 0 && len > 0 => words[2] += 1,
            (Fault::SkipNeedsSpace, Entry::StreamRead) if accepted && skip > 0 && words[3] == FULL && words[2] == 0 => {
                words[1] = 0;
                words[4..].copy_from_slice(&call.numbers[..5]);
            }
            (Fault::ReadsAhead, Entry::StreamRead) if accepted && words[1] < len => words[1] += 1,
            (Fault::StreamBitLost, Entry::StreamRead) if accepted && words[7] > 0 => {
                words[8] &= (1 << (words[7] - 1)) - 1
            }
            (Fault::FullBeforeDone, Entry::StreamRead) if words[3] == DONE && words[2] == call.room as u64 => {
                words[3] = FULL
            }
            (Fault::HungryBeforeFull, Entry::StreamRead) if words[3] == FULL && words[1] == len => words[3] = HUNGRY,
            (Fault::EndIgnoresSkip, Entry::StreamEnd) if words[0] == 7 && budget == 0 => words[0] = 0,
            (Fault::SkipOfEight, Entry::StreamNew) if words[0] == 6 && skip == 8 => words[0] = 0,
            _ => {}
        }
    }

    /// What a port that combines two alphabets wrongly in this way answers.
    fn combining(self, call: &Call, words: &mut [u64]) {
        let [one, other, ..] = call.numbers;
        let (first, last) = (one.min(other), one.max(other));
        let signed = [one, other].map(|number| number as i64);
        let told = match self {
            Fault::OneUnasked if other <= 5 => [0, last],
            Fault::OtherUnasked if one <= 5 => [0, last],
            Fault::NeitherRefused if first <= 5 => [0, last],
            Fault::SixTaken if last == 6 => [0, last],
            Fault::LaterSigned if signed.iter().all(|&number| number <= 5) => [0, signed[0].max(signed[1]) as u64],
            Fault::NoAlphabetIsOne if last > 5 => [1, 0],
            Fault::NoAlphabetTold if last > 5 => [8, last],
            _ if last > 5 => return,
            Fault::UnknownRefused if last == 5 => [8, 0],
            Fault::LaterIsEarlier => [0, first],
            Fault::LaterIsFirst => [0, one],
            Fault::LaterIsSecond => [0, other],
            Fault::AlikeIsDna2bit if one == other => [0, 0],
            Fault::LaterByWidth if model::width(one) == model::width(other) => [0, one],
            Fault::UnknownBeforeAscii if [first, last] == [4, 5] => [0, 4],
            Fault::ProteinBeforeIupac if [first, last] == [2, 3] => [0, 2],
            Fault::NumbersAnded => [0, one & other],
            Fault::NumbersOred => [0, one | other],
            _ => return,
        };
        words.copy_from_slice(&told);
    }

    /// What a port whose ask has this fault makes of its input.
    fn asking(self, call: &mut Call) {
        let intake = intake(call);
        let [alphabet, _, _, _, _, _, _, fold, _, room] = &mut call.numbers;
        match self {
            Fault::AskAlphabetNarrowed => *alphabet &= 0xFF,
            Fault::AskUnchosen if *fold == 1 => *fold = 0,
            Fault::AskOneTooFew => *room = room.saturating_add(1),
            Fault::AskNarrowed => *room &= 0xFFFF_FFFF,
            Fault::AskFirstHalf if call.text.len() >= 16_384 => {
                let half = call.text.len() / 2;
                replace_strangers(intake, &mut call.text[half..], b'A');
            }
            Fault::AskFirstChunk if call.text.len() > 4096 => {
                replace_strangers(intake, &mut call.text[4096..], b'A');
            }
            _ => {}
        }
    }

    /// What a port whose ask has this fault answers.
    fn foretelling(self, call: &Call, words: &mut [u64]) {
        let [.., fold, _, room] = call.numbers;
        let stranger = model::first_stranger(intake(call), &call.text);
        let number = match (self, words[0]) {
            (Fault::AskWithoutMemory, 0) if room == 0 => 4,
            (Fault::AskJustEnough, 0) if room == words[1] => 4,
            (Fault::AskSigned, 0) if (room as i64) < 0 => 4,
            (Fault::AskLimitsMemory, 0) if room > LIMIT => 2,
            (Fault::AskLimit, 0) if words[3] == LIMIT => 2,
            (Fault::AskMember, 0) if stranger.is_some() => 5,
            (Fault::AskMemoryBeforeLimit, 2) | (Fault::AskMemoryBeforeState, 1) if room < completed(call) => 4,
            (_, number) => number,
        };
        match (self, number) {
            (Fault::AskAlphabetNarrowed, _) => {}
            (Fault::AskUnchosen, _) => words[9] = fold,
            (Fault::AskUnsound, 1) => words[0] = 0,
            (Fault::AskRefusedNext, 4) => {
                let enough = Call::ask(&call.numbers, &call.text, u64::MAX);
                words[2..].copy_from_slice(&model::answer(&enough, &mut Memory::for_call(&enough, 0))[2..]);
            }
            (Fault::AskRefusedCount, 4) => words[1] = completed(call),
            (Fault::AskRefusedZeroes, 1..) => words[2..].fill(0),
            (_, 0) => self.taking(call, words),
            _ => refuse(number, call, &[], words, &mut []),
        }
    }

    /// What a port whose ask has this fault tells of a piece that is taken.
    fn taking(self, call: &Call, words: &mut [u64]) {
        let [alphabet, _, pending_bits, pending, has_bad, _, _, _, bad_count, room] = call.numbers;
        let (intake, text) = (intake(call), &call.text[..]);
        let bits = text.len() as u64 * model::width(alphabet);
        let strangers = model::strangers(intake, text);
        match (self, model::first_stranger(intake, text)) {
            (Fault::AskBefore, _) => words[2..].copy_from_slice(&call.numbers[..9]),
            (Fault::AskPendingStays, _) => words[4..6].copy_from_slice(&[pending_bits, pending]),
            (Fault::AskPendingZero, _) => words[5] = 0,
            (Fault::AskPendingFirst, _) if bits >= words[4] && bits > 0 => {
                words[5] = u64::from(model::packed(intake, text)[0]) >> (8 - words[4]);
            }
            (Fault::AskPendingUnjoined, _) if words[1] == 0 => words[5] &= (1 << bits) - 1,
            (Fault::AskPieceAlone, _) => words[1] = bits / 8,
            (Fault::AskRoundedUp, _) => words[1] += u64::from(words[4] > 0),
            (Fault::AskCountsMemory, _) => words[1] = room,
            (Fault::AskBlind, Some(_)) => {
                words[10] = bad_count;
                if has_bad == 0 {
                    words[6..9].fill(0);
                }
            }
            (Fault::AskCountsFirst, Some(_)) => words[10] = bad_count + 1,
            (Fault::AskCountsAnew, _) => words[10] = strangers,
            (Fault::AskPiecePosition, Some((place, _))) if has_bad == 0 => words[7] = place,
            (Fault::AskForgets, _) => words[9] = 0,
            _ => {}
        }
    }

    /// What a host that is wrong in this way takes for the guesses of a genome: Dna2bit, then those of its chromosomes.
    pub fn guesses(self, call: &Call, guesses: &mut Vec<u64>) {
        let chromosomes: Vec<&[u8]> = call.pieces().collect();
        let count = chromosomes.len();
        match self {
            Fault::GenomeFromAscii => guesses[0] = 4,
            Fault::GenomeLosesLast => drop(guesses.pop()),
            Fault::GenomeStopsEarly => {
                let done = guesses.iter().position(|&guess| guess > 0).unwrap_or(count);
                guesses.truncate(done + 1);
            }
            Fault::GenomeByLongest => {
                let longest = (0..count).max_by_key(|&place| chromosomes[place].len()).expect("at least one");
                *guesses = vec![guesses[longest + 1]];
            }
            Fault::EmptyIsAscii => {
                let empty = |place: &usize| chromosomes[*place].is_empty();
                (0..count).filter(empty).for_each(|place| guesses[place + 1] = 4);
            }
            Fault::FirstFolded => guesses[1] = model::guess(true, chromosomes[0]),
            Fault::LastUnfolded => guesses[count] = model::guess(false, chromosomes[count - 1]),
            _ => {}
        }
    }
}

/// Turns an answer into a refusal that leaves the memory alone and hands the state back.
fn refuse(number: u64, call: &Call, before: &[u8], words: &mut [u64], out: &mut [u8]) {
    out.copy_from_slice(before);
    let next = call.entry.shape().next.split_whitespace().count();
    let (answer, state) = words.split_at_mut(words.len() - next);
    answer.fill(0);
    answer[0] = number;
    state.copy_from_slice(&call.numbers[..next]);
}

/// How many bytes an update would write, whatever else is asked of it.
fn completed(call: &Call) -> u64 {
    let [alphabet, _, pending_bits, ..] = call.numbers;
    pending_bits.saturating_add(call.text.len() as u64 * model::width(alphabet)) / 8
}

/// Writes each byte of `from` as the one of `to` at its place.
fn swap(text: &mut [u8], from: &[u8], to: &[u8]) {
    for byte in text {
        if let Some(place) = from.iter().position(|one| one == byte) {
            *byte = to[place];
        }
    }
}

/// How a call takes its bytes in.
fn intake(call: &Call) -> Intake {
    Intake { alphabet: call.alphabet().unwrap_or(0), fold: call.folds() }
}

fn replace_strangers(intake: Intake, text: &mut [u8], symbol: u8) {
    for byte in text {
        if intake.code(*byte).is_none() {
            *byte = symbol;
        }
    }
}

/// Writes the letters in uppercase that are members with folding.
fn uppercase_members(alphabet: u64, text: &mut [u8]) {
    let member = |byte: &&mut u8| Intake { alphabet, fold: true }.code(**byte).is_some();
    text.iter_mut().filter(member).for_each(|byte| byte.make_ascii_uppercase());
}

/// The largest number of `bits` bits.
fn mask(bits: u64) -> Option<u64> {
    1u64.checked_shl(bits as u32).map(|power| power - 1)
}

/// A window of Dna2bit with each byte's four bases in reverse.
fn low_bits_first(call: &Call, out: &mut [u8]) {
    let [_, byte_offset, start, end, ..] = call.numbers;
    for i in start..end.max(start) {
        let place = (i / 4).checked_sub(byte_offset).map_or(usize::MAX, |place| place as usize);
        let byte = call.text.get(place).copied().unwrap_or(0);
        out[(i - start) as usize] = b"TCAG"[usize::from(byte >> (i % 4 * 2) & 3)];
    }
}

/// The bases of a window, each code that no symbol has read as X.
fn bases(call: &Call) -> Vec<u8> {
    let [alphabet, _, start, end, ..] = call.numbers;
    let file = model::file(call);
    (start..end).map(|i| model::base(alphabet, i, &file)).collect()
}

/// The first base of a window whose code no symbol has, whatever else is asked; bytes that are not lent are zeros. Of a
/// window without end, which a read may refuse, no more is looked at than a case lends.
fn first_lacking(call: &Call) -> Option<u64> {
    let [alphabet, _, start, end, ..] = call.numbers;
    let (file, end) = (model::file(call), end.min(start.saturating_add(2000)));
    (start..end).find(|&i| model::lacks(alphabet, model::code(alphabet, i, &file)))
}

/// Eight bases from three bytes of which not all are lent: taken for absent, they read as zeros.
fn block_at_edge(call: &Call, out: &mut [u8]) {
    let [_, byte_offset, start, end, ..] = call.numbers;
    let behind = byte_offset.saturating_add(call.text.len() as u64);
    for block in start.div_ceil(8)..end / 8 {
        let whole = block * 3 >= byte_offset && block * 3 + 3 <= behind;
        if !whole {
            let from = (block * 8 - start) as usize;
            out[from..from + 8].fill(b'A');
        }
    }
}
