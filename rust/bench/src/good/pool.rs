//! How many slots hold each block.

use super::Fast;

/// So many words or counts are looked at together.
const GROUP: usize = 8;

/// So many slots are passed over together where none is reserved.
const STRETCH: usize = 64;

pub(super) struct Pool {
    /// For each block its holders. Before them stand numbers for holes, one for each place in a group:
    /// so a hole needs no branch, and none waits for the one before it. The last of these is always
    /// above 1, so that a reserved hole is owed as a reserved slot with a shared block is.
    counts: Vec<u32>,
    /// No block below this one is free.
    lowest: usize,
    /// Whether a slot may be reserved. Always true in `Good`, which so counts every time.
    reserved: bool,
    /// The server whose counts these are.
    pub server: Fast,
}

/// The block that a slot word names.
pub(super) fn block_of(word: u32) -> Option<usize> {
    (word as usize / 2).checked_sub(1)
}

pub(super) fn is_hole(word: u32) -> bool {
    word < 2
}

fn has_reserved(words: &[u32]) -> bool {
    words.iter().fold(0, |any, word| any | word) % 2 == 1
}

fn word_of(block: usize, reserved: u32) -> u32 {
    2 * (block as u32 + 1) + reserved
}

/// Counts slots that hold blocks.
fn add_held(counts: &mut [u32], group: &[u32]) -> Option<()> {
    // Half a word is its block's number and one.
    let counts = &mut counts[GROUP - 1..];
    for &word in group {
        *counts.get_mut(word as usize / 2)? += 1;
    }
    Some(())
}

/// Counts any slots, at most a group of them.
fn add_mixed(counts: &mut [u32], group: &[u32]) -> Option<()> {
    for (turn, &word) in group.iter().enumerate() {
        let place = match is_hole(word) {
            true => turn,
            false => word as usize / 2 + GROUP - 1,
        };
        *counts.get_mut(place)? += 1;
    }
    Some(())
}

impl Pool {
    pub fn new(server: Fast, blocks: u64) -> Pool {
        let mut counts = vec![0; GROUP + blocks as usize];
        counts[GROUP - 1] = 2;
        Pool {
            counts,
            lowest: 0,
            reserved: server == Fast::Good,
            server,
        }
    }

    fn blocks(&self) -> u32 {
        (self.counts.len() - GROUP) as u32
    }

    fn holders(&mut self, block: usize) -> &mut u32 {
        &mut self.counts[GROUP + block]
    }

    /// Counts these slots; nothing where a word names a block that the pool doesn't have.
    pub fn add(&mut self, words: &[u32]) -> Option<()> {
        self.reserved = self.reserved || has_reserved(words);
        let counts = &mut self.counts[..];
        let (groups, rest) = words.as_chunks::<GROUP>();
        for group in groups {
            match group.iter().any(|&word| is_hole(word)) {
                true => add_mixed(counts, group)?,
                false => add_held(counts, group)?,
            }
        }
        add_mixed(counts, rest)
    }

    pub fn used(&self) -> u32 {
        let counts = self.counts[GROUP..].iter();
        counts.map(|&count| u32::from(count > 0)).sum()
    }

    /// The owed slots among these.
    pub fn owed(&self, words: &[u32]) -> u32 {
        let counts = &self.counts[GROUP - 1..];
        let is_owed = |&word: &u32| word & u32::from(counts[word as usize / 2] > 1);
        let stretches = words.chunks(STRETCH).filter(|words| has_reserved(words));
        let owed = stretches.map(|words| words.iter().map(is_owed).sum::<u32>());
        owed.sum()
    }

    /// Used and owed blocks. `counted` has all words but zeros.
    pub fn counts<'a>(&self, counted: impl Iterator<Item = &'a [u32]>) -> (u32, u32) {
        let owed = match self.reserved {
            true => counted.map(|words| self.owed(words)).sum(),
            false => 0,
        };
        (self.used(), owed)
    }

    /// Whether used and owed blocks fit the pool. Used ones alone always do.
    pub fn has_room<'a>(&self, counted: impl Iterator<Item = &'a [u32]>) -> bool {
        if !self.reserved {
            return true;
        }
        let (used, owed) = self.counts(counted);
        used + owed <= self.blocks()
    }

    /// Puts another word in a slot.
    pub fn set(&mut self, slot: &mut u32, word: u32) {
        if let Some(new) = block_of(word) {
            *self.holders(new) += 1;
        }
        if let Some(old) = block_of(*slot) {
            let left = self.holders(old);
            *left -= 1;
            if *left == 0 {
                self.lowest = self.lowest.min(old);
            }
        }
        self.reserved |= word % 2 == 1;
        *slot = word;
    }

    /// Gives a slot a block that no other slot holds; nothing where none is free.
    pub fn own(&mut self, slot: &mut u32) -> Option<()> {
        let alone = block_of(*slot).is_some_and(|block| *self.holders(block) == 1);
        if !alone {
            let block = self.free()?;
            self.set(slot, word_of(block, *slot % 2));
        }
        Some(())
    }

    /// The lowest-numbered free block.
    fn free(&mut self) -> Option<usize> {
        let counts = &self.counts[GROUP + self.lowest..];
        let all_held = |group: &&[u32]| group.iter().fold(true, |all, &count| all & (count > 0));
        let held = GROUP * counts.chunks_exact(GROUP).take_while(all_held).count();
        let free = counts[held..].iter().position(|&count| count == 0)?;
        self.lowest += held + free;
        Some(self.lowest)
    }

    /// The blocks that no slot holds but these.
    pub fn held_only_by(&mut self, words: &[u32]) -> u32 {
        let mut freed = 0;
        for block in words.iter().filter_map(|&word| block_of(word)) {
            let left = self.holders(block);
            *left -= 1;
            freed += u32::from(*left == 0);
        }
        for block in words.iter().filter_map(|&word| block_of(word)) {
            *self.holders(block) += 1;
        }
        freed
    }
}
