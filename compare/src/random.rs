//! A small seeded generator (SplitMix64), so that a run can be repeated anywhere from the seed it prints.

use crate::model::{self, Intake};

pub struct Random(u64);

impl Random {
    pub fn new(seed: u64) -> Random {
        Random(seed)
    }

    pub fn next(&mut self) -> u64 {
        self.0 = self.0.wrapping_add(0x9E37_79B9_7F4A_7C15);
        mixed(self.0)
    }

    /// A number below `limit`, which is not zero.
    pub fn below(&mut self, limit: u64) -> u64 {
        ((u128::from(self.next()) * u128::from(limit)) >> 64) as u64
    }

    pub fn one_in(&mut self, count: u64) -> bool {
        self.below(count) == 0
    }

    pub fn pick<T: Copy>(&mut self, from: &[T]) -> T {
        from[self.below(from.len() as u64) as usize]
    }

    pub fn bytes(&mut self, len: usize) -> Vec<u8> {
        (0..len).map(|_| self.next() as u8).collect()
    }

    /// A text of members; where lowercase is folded, soft-masked in some way or not at all.
    pub fn members(&mut self, intake: Intake, len: usize) -> Vec<u8> {
        let Some(list) = model::LISTS.get(intake.alphabet as usize) else { return self.bytes(len) };
        let mut text: Vec<u8> = (0..len).map(|_| self.pick(list)).collect();
        if intake.fold {
            self.soft_mask(&mut text);
        }
        text
    }

    /// Writes letters of a text in lowercase: none, one, all, some by chance, or runs of them.
    pub fn soft_mask(&mut self, text: &mut [u8]) {
        let len = text.len() as u64;
        match self.below(6) {
            1 if len > 0 => text[self.below(len) as usize].make_ascii_lowercase(),
            2 => text.make_ascii_lowercase(),
            3 => text.iter_mut().filter(|_| self.one_in(3)).for_each(|byte| byte.make_ascii_lowercase()),
            4 | 5 => {
                let longest = self.pick(&[3, 20, 300]);
                let mut from = self.below(longest);
                while from < len {
                    let to = len.min(from + 1 + self.below(longest));
                    text[from as usize..to as usize].make_ascii_lowercase();
                    from = to + 1 + self.below(longest);
                }
            }
            _ => {}
        }
    }

    /// A byte that is no member; a byte of no meaning where all are. Lowercase letters, their neighbours and those of
    /// members come as often as the rest.
    pub fn stranger(&mut self, intake: Intake) -> u8 {
        for _ in 0..1000 {
            let byte = match self.below(4) {
                0 | 1 => self.next() as u8,
                2 => b'a' + self.below(26) as u8,
                _ => self.pick(b"ANBRUXZ*@[`{|}~\0\x7f\x80\xc1\xe1\xfa\xff"),
            };
            if intake.code(byte).is_none() {
                return byte;
            }
        }
        b'a'
    }

    /// Members with a stranger here and there, one in about `rarity` bytes. Without folding some of the texts are
    /// soft-masked all the same, in the bit-packed alphabets a text with runs of strangers.
    pub fn mixed(&mut self, intake: Intake, len: usize, rarity: u64) -> Vec<u8> {
        let mut text = self.members(intake, len);
        if !intake.fold && self.one_in(8) {
            self.soft_mask(&mut text);
        }
        for byte in &mut text {
            if self.one_in(rarity) {
                *byte = self.stranger(intake);
            }
        }
        text
    }

    /// The choice as an argument: 0, or any number that folds.
    pub fn fold(&mut self, fold: bool) -> u64 {
        match (fold, self.below(3)) {
            (false, _) => 0,
            (true, 0) => self.number().max(1),
            (true, _) => 1,
        }
    }

    /// A number around one of those that a port may get wrong: small, near 2^60, or past what a narrow type holds.
    pub fn number(&mut self) -> u64 {
        let near = self.below(9);
        match self.below(6) {
            0 | 1 => near,
            2 => model::LIMIT - 4 + near,
            3 => (1u64 << self.below(64)).wrapping_add(near),
            4 => 0u64.wrapping_sub(near + 1),
            _ => self.next() >> self.below(64),
        }
    }
}

/// A well-spread function of a number, also used to fill memory before a call.
pub fn mixed(mut x: u64) -> u64 {
    x = (x ^ (x >> 30)).wrapping_mul(0xBF58_476D_1CE4_E5B9);
    x = (x ^ (x >> 27)).wrapping_mul(0x94D0_49BB_1331_11EB);
    x ^ (x >> 31)
}

/// Numbers above `limit`, among them those that a port which narrows first would take for a small number.
pub fn beyond(limit: u64) -> Vec<u64> {
    let mut found: Vec<u64> = (1..=8).map(|k| limit + k).collect();
    for bits in [8, 16, 31, 32, 33, 48, 59, 60, 61, 62, 63] {
        found.extend((0..=limit.min(8)).map(|k| (1 << bits) + k));
    }
    found.extend((0..8).map(|k| u64::MAX - k));
    found.retain(|&n| n > limit);
    found
}
