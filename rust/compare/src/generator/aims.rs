//! Places, lengths and other arguments, aimed at where the rules change.

use super::Maker;
use crate::wire::{Stateid, ONES, ZEROS};

impl Maker<'_> {
    /// True once in that many times, or every other time in a error_prone call.
    pub fn rarely(&mut self, times: u64) -> bool {
        self.random
            .once_in(if self.error_prone { 2 } else { times })
    }

    pub fn block_size(&self) -> u64 {
        self.geometry.block_size
    }

    /// The largest size of a file.
    pub fn capacity(&self) -> u64 {
        self.geometry.slots * self.geometry.block_size
    }

    pub fn size(&self, file: usize) -> u64 {
        self.store.sizes[file]
    }

    /// One of the first files, or the last.
    pub fn file(&mut self) -> usize {
        let files = self.geometry.files;
        let near = self.random.below(files.min(4));
        self.random.pick(&[near, near, near, near, files - 1]) as usize
    }

    /// A file that isn't empty, if one of a few tries finds one.
    pub fn source(&mut self) -> usize {
        let mut file = self.file();
        for _ in 0..4 {
            if self.size(file) == 0 {
                file = self.file();
            }
        }
        file
    }

    /// Another file, if one of a few tries finds one.
    pub fn other(&mut self, than: usize) -> usize {
        let mut file = self.file();
        for _ in 0..3 {
            if file == than {
                file = self.file();
            }
        }
        file
    }

    /// One of the first slots, or of the last.
    pub fn slot(&mut self) -> u64 {
        let slots = self.geometry.slots;
        let near = self.random.below(slots.min(12));
        match self.random.below(8) {
            0 => slots - 1 - near,
            _ => near,
        }
    }

    /// A slot's start, or just beside it.
    fn edge(&mut self) -> u64 {
        let start = self.slot() * self.block_size();
        match self.random.below(6) {
            0 => start + 1,
            1 => start + self.block_size() - 1,
            _ => start,
        }
    }

    /// A place in a file or past it.
    pub fn offset(&mut self, file: usize) -> u64 {
        let (size, capacity, b) = (self.size(file), self.capacity(), self.block_size());
        match self.random.below(30) {
            _ if self.rarely(30) => self.huge(),
            0..=9 => self.edge(),
            10..=12 => size,
            13 => size + 1,
            14 => size.saturating_sub(1),
            15..=16 => size.next_multiple_of(b),
            17 => capacity - 1 + self.random.below(3),
            _ => self.slot() * b + self.random.below(b),
        }
    }

    /// A number that takes more than 32 bits.
    pub fn huge(&mut self) -> u64 {
        let near = self.random.below(2 * self.block_size());
        self.random.pick(&[
            u64::MAX,
            u64::MAX - near,
            1 << 63,
            (1 << 32) + near,
            1 << 32,
            u64::from(u32::MAX),
        ])
    }

    /// A place to read from, mostly below the size.
    pub fn place(&mut self, file: usize) -> u64 {
        let size = self.size(file);
        match self.random.below(4) {
            0 => self.offset(file),
            1 => self.random.below(size.max(1)),
            _ => self.slot() * self.block_size() % size.max(1),
        }
    }

    /// A length from that place on, mostly within what a file may have.
    pub fn length(&mut self, file: usize, offset: u64) -> u64 {
        let length = self.any_length(file, offset);
        match self.capacity().checked_sub(offset) {
            Some(room) if room > 0 && !self.random.once_in(6) => length.min(room),
            _ => length,
        }
    }

    fn any_length(&mut self, file: usize, offset: u64) -> u64 {
        let (size, capacity, b) = (self.size(file), self.capacity(), self.block_size());
        match self.random.below(20) {
            0..=3 => self.random.within(1..=2 * b),
            4..=5 => self.random.pick(&[1, b - 1, b, b + 1]),
            6..=9 => self.random.within(1..=4) * b,
            10..=12 => size.saturating_sub(offset),
            13 => size.saturating_sub(offset) + 1,
            14 => capacity.saturating_sub(offset) + self.random.below(2),
            15..=16 => b - offset % b,
            17 => (b - offset % b) + b * self.random.below(3) + self.random.below(b),
            18 => 0,
            _ => self.length_to_the_last_number(offset),
        }
    }

    /// An end at, just below or just above 2^64.
    fn length_to_the_last_number(&mut self, offset: u64) -> u64 {
        let to_end = u64::MAX - offset;
        let past = to_end.saturating_add(1);
        let huge = self.huge();
        self.random.pick(&[to_end, to_end, past, past, huge])
    }

    /// The count of READ and READ_PLUS.
    pub fn count(&mut self) -> u32 {
        let any = self.random.below(3000) as u32;
        self.random
            .pick(&[any, any, any, 2048, 2048, 2047, 2049, 0, 1, 4096, u32::MAX])
    }

    /// A stateid, mostly one that may read.
    pub fn reading(&mut self) -> Stateid {
        match self.random.below(5) {
            _ if self.rarely(60) => self.near_stateid(),
            0 => ONES,
            _ => ZEROS,
        }
    }

    /// A stateid, mostly the one that may write.
    pub fn writing(&mut self) -> Stateid {
        match self.random.below(2) {
            _ if !self.rarely(60) => ZEROS,
            0 => self.near_stateid(),
            _ => ONES,
        }
    }

    /// A stateid that differs in one bit from one that may pass.
    fn near_stateid(&mut self) -> Stateid {
        let mut stateid = self.random.pick(&[ZEROS, ONES]);
        stateid[self.random.below(16) as usize] ^= 1 << self.random.below(8);
        stateid
    }
}
