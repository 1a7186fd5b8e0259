//! GETATTR: bitmaps aimed at the attributes that there are, and the cases that come by turns.

use super::operations::with_number;
use super::Maker;
use crate::wire;

/// The attributes that there are.
const OURS: [u32; 5] = [0, 4, 45, 77, 78];

/// What a bitmap has at most: words, and the bits in them.
const WORDS_MAX: u32 = 4;
const BITS: u32 = 32 * WORDS_MAX;

/// Where the count stands in the operation.
const COUNT: usize = 4;

/// A bitmap with these bits, of at least so many words.
fn bitmap(bits: &[u32], least: u32) -> Vec<u32> {
    let past = bits.iter().map(|bit| bit / 32 + 1).max().unwrap_or(0);
    let mut words = vec![0; past.max(least) as usize];
    for bit in bits {
        words[*bit as usize / 32] |= 1 << (bit % 32);
    }
    words
}

/// Each attribute alone, in the shortest bitmap and in the longest; and each count with its words,
/// cut after each byte.
pub fn cases() -> Vec<Vec<u8>> {
    let alone = (0..BITS).flat_map(|bit| [0, WORDS_MAX].map(|least| bitmap(&[bit], least)));
    let mut cases: Vec<_> = alone.map(|words| wire::getattr(&words)).collect();
    for count in (0..=WORDS_MAX + 1).chain([u32::MAX]) {
        let words = vec![u32::MAX; count.min(WORDS_MAX + 1) as usize];
        let whole = with_number(wire::getattr(&words), COUNT, count);
        cases.extend((0..=whole.len()).map(|length| whole[..length].to_vec()));
    }
    cases
}

impl Maker<'_> {
    /// GETATTR, mostly of attributes that there are.
    pub fn getattr(&mut self) -> Vec<u8> {
        wire::getattr(&self.asked())
    }

    fn asked(&mut self) -> Vec<u32> {
        let least = match self.random.below(4) {
            0 => self.random.within(1..=WORDS_MAX.into()) as u32,
            _ => 0,
        };
        match self.random.below(12) {
            0..=4 => bitmap(&self.some_of_ours(), least),
            5..=6 => bitmap(&OURS, least),
            7 => bitmap(&[self.random.pick(&OURS)], least),
            8 => bitmap(&[self.random.below(BITS.into()) as u32], least),
            9 => vec![0; self.random.below(5) as usize],
            10 => vec![u32::MAX; self.random.below(5) as usize],
            _ => self.any_words(4),
        }
    }

    fn some_of_ours(&mut self) -> Vec<u32> {
        let mut bits = OURS.to_vec();
        bits.retain(|_| self.random.once_in(2));
        bits
    }

    fn any_words(&mut self, most: u64) -> Vec<u32> {
        let count = self.random.within(0..=most);
        (0..count).map(|_| self.random.any() as u32).collect()
    }

    /// GETATTR with too many words, or with another count than that of its words.
    pub fn malformed_getattr(&mut self) -> Vec<u8> {
        let words = self.any_words(6);
        let small = self.random.below(7) as u32;
        let count = self
            .random
            .pick(&[words.len() as u32, small, 5, 6, 1 << 31, u32::MAX]);
        with_number(wire::getattr(&words), COUNT, count)
    }
}

#[cfg(test)]
mod tests {
    use super::*;

    #[test]
    fn every_bit_alone() {
        for place in 0..4 {
            for bit in 0..32 {
                let mut longest = [0; 4];
                longest[place] = 1 << bit;
                for words in [&longest[..], &longest[..=place]] {
                    assert!(cases().contains(&wire::getattr(words)));
                }
            }
        }
    }

    #[test]
    fn every_count_cut_after_every_byte() {
        for count in [0, 1, 2, 3, 4, 5, u32::MAX] {
            let words = vec![255; 4 * count.min(5) as usize];
            let whole = [wire::int(9), wire::int(count), words].concat();
            for length in 0..=whole.len() {
                assert!(cases().contains(&whole[..length].to_vec()));
            }
        }
    }
}
