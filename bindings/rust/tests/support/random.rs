//! A seeded generator (SplitMix64).

use super::model;
use fantailclock::Alphabet;

pub struct Random(pub u64);

impl Random {
    pub fn next(&mut self) -> u64 {
        self.0 = self.0.wrapping_add(0x9E37_79B9_7F4A_7C15);
        let mut x = self.0;
        x = (x ^ (x >> 30)).wrapping_mul(0xBF58_476D_1CE4_E5B9);
        x = (x ^ (x >> 27)).wrapping_mul(0x94D0_49BB_1331_11EB);
        x ^ (x >> 31)
    }

    /// A number below `limit`, which is not zero.
    pub fn below(&mut self, limit: u64) -> u64 {
        self.next() % limit
    }

    pub fn bytes(&mut self, len: usize) -> Vec<u8> {
        (0..len).map(|_| self.next() as u8).collect()
    }

    /// A text with runs of its letters in lowercase, as soft masking leaves it.
    pub fn soft_masked(&mut self, text: &[u8]) -> Vec<u8> {
        let (mut masked, mut low, longest) = (text.to_vec(), self.below(2) == 1, 1 + self.below(40));
        let mut at = 0;
        while at < masked.len() {
            let end = masked.len().min(at + 1 + self.below(longest) as usize);
            if low {
                masked[at..end].make_ascii_lowercase();
            }
            (at, low) = (end, !low);
        }
        masked
    }

    /// A text of members of one alphabet.
    pub fn members(&mut self, alphabet: Alphabet, len: usize) -> Vec<u8> {
        let list = model::symbols(alphabet);
        (0..len).map(|_| list[self.below(list.len() as u64) as usize]).collect()
    }
}
