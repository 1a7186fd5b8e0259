//! The four numbers of a store and the places that follow from them.

use std::ops::Range;

/// Files F, slots per file S, blocks in the pool N, bytes per block B. Any numbers may stand here;
/// all methods but `is_valid` are for valid ones.
#[derive(Clone, Copy, Debug, PartialEq, Eq)]
pub struct Geometry {
    pub files: u64,
    pub slots: u64,
    pub blocks: u64,
    pub block_size: u64,
}

impl Geometry {
    pub fn is_valid(&self) -> bool {
        (1..=64).contains(&self.files)
            && (1..=1024).contains(&self.slots)
            && (1..=65_536).contains(&self.blocks)
            && [512, 1024, 2048, 4096].contains(&self.block_size)
    }

    /// The largest size of a file, S×B.
    pub fn capacity(&self) -> u64 {
        self.slots * self.block_size
    }

    pub(crate) fn words(&self) -> u64 {
        self.files * self.slots
    }

    pub(crate) fn mem(&self) -> u64 {
        self.blocks * self.block_size
    }

    /// Where a file's words stand in the word table.
    pub fn words_of(&self, file: usize) -> Range<usize> {
        let slots = self.slots as usize;
        file * slots..(file + 1) * slots
    }

    /// Where a block's bytes stand in the block memory.
    pub fn bytes_of(&self, block: usize) -> Range<usize> {
        let size = self.block_size as usize;
        block * size..(block + 1) * size
    }

    /// The slots of a file with at least one byte in the region.
    pub fn touched(&self, region: &Range<u64>) -> Range<usize> {
        if region.is_empty() {
            return 0..0;
        }
        let first = region.start / self.block_size;
        let past = region.end.div_ceil(self.block_size);
        first as usize..past as usize
    }

    /// The bytes of the file that a slot stands for.
    pub fn span(&self, slot: usize) -> Range<u64> {
        let start = slot as u64 * self.block_size;
        start..start + self.block_size
    }

    /// The part of a slot that lies in the region, counted from the slot's start.
    pub fn within(&self, slot: usize, region: &Range<u64>) -> Range<usize> {
        let span = self.span(slot);
        let part = common(&span, region);
        (part.start - span.start) as usize..(part.end - span.start) as usize
    }
}

/// The bytes common to two regions that meet.
pub(crate) fn common(a: &Range<u64>, b: &Range<u64>) -> Range<u64> {
    a.start.max(b.start)..a.end.min(b.end)
}

/// Whether all bytes of a region lie in another.
pub(crate) fn lies_in(part: &Range<u64>, whole: &Range<u64>) -> bool {
    whole.start <= part.start && part.end <= whole.end
}
