//! The operations, each with arguments for a file.

use super::Maker;
use crate::wire::{self, Transfer};

/// The most data that a WRITE has.
const DATA_MAX: u64 = 60_000;

impl Maker<'_> {
    pub fn putfh(&mut self, file: usize) -> Vec<u8> {
        match self.random.below(60) {
            0 => self.bad_handle(),
            _ => wire::putfh_file(file),
        }
    }

    fn bad_handle(&mut self) -> Vec<u8> {
        let files = self.geometry.files as u32;
        let stale = self.random.pick(&[files, files + 1, 1 << 24, u32::MAX]);
        let length = self.random.pick(&[0, 1, 3, 5, 8, 127, 128, 129, 132]);
        match self.random.below(4) {
            0 => wire::putfh(&stale.to_be_bytes()),
            1 | 2 => wire::putfh(&vec![0; length]),
            _ => with_number(wire::putfh(&[0; 4]), 4, self.wrong_length()),
        }
    }

    /// A length that isn't that of what follows.
    fn wrong_length(&mut self) -> u32 {
        let small = self.random.below(9) as u32;
        let large = u32::MAX - self.random.below(5) as u32;
        self.random.pick(&[small, large, 129, 1 << 31])
    }

    /// GETATTR, READ, READ_PLUS or SEEK.
    pub fn look(&mut self, file: usize) -> Vec<u8> {
        let number = self.random.pick(&[
            wire::GETATTR,
            wire::READ,
            wire::READ_PLUS,
            wire::READ_PLUS,
            wire::SEEK,
        ]);
        let count = match number {
            wire::GETATTR => return self.getattr(),
            wire::SEEK => self.sought(),
            _ => self.count(),
        };
        wire::look(number, self.reading(), self.place(file), count)
    }

    /// What SEEK looks for.
    fn sought(&mut self) -> u32 {
        match self.random.below(20) {
            0 => self.random.pick(&[2, 3, 1 << 24, u32::MAX]),
            other => (other % 2) as u32,
        }
    }

    pub fn write(&mut self, file: usize) -> Vec<u8> {
        let offset = self.offset(file);
        let most = self.random.pick(&[5000, 9000, DATA_MAX]);
        let length = self.length(file, offset).min(most);
        self.write_at(offset, length)
    }

    /// WRITE of that many bytes, or as many as a request has room for.
    pub fn write_at(&mut self, offset: u64, length: u64) -> Vec<u8> {
        let length = length.min(DATA_MAX) as usize;
        let data = match self.random.below(10) {
            0 => vec![0; length],
            _ => self.random.bytes(length),
        };
        let stable = self.random.below(3) as u32;
        wire::write(self.writing(), offset, stable, &data)
    }

    pub fn allocate(&mut self, file: usize) -> Vec<u8> {
        let offset = self.offset(file);
        let length = self.length(file, offset);
        self.allocate_at(offset, length)
    }

    pub fn allocate_at(&mut self, offset: u64, length: u64) -> Vec<u8> {
        wire::region(wire::ALLOCATE, self.writing(), offset, length)
    }

    pub fn deallocate(&mut self, file: usize) -> Vec<u8> {
        let (offset, length) = match self.random.below(2) {
            0 => self.within_slots(file),
            _ => {
                let offset = self.offset(file);
                (offset, self.length(file, offset))
            }
        };
        wire::region(wire::DEALLOCATE, self.writing(), offset, length)
    }

    /// A region below the size from inside one slot to inside another.
    fn within_slots(&mut self, file: usize) -> (u64, u64) {
        let b = self.block_size();
        let slots = self.size(file).min(self.capacity()).div_ceil(b).max(1);
        let first = self.random.below(slots);
        let last = first + self.random.below(slots - first);
        let start = first * b + self.random.pick(&[0, 1, b / 2, b - 1]);
        let end = last * b + self.random.pick(&[1, b / 2, b - 1, b]);
        (start, end.saturating_sub(start))
    }

    pub fn edit(&mut self, file: usize) -> Vec<u8> {
        match self.random.below(8) {
            0..=3 => self.write(file),
            4..=5 => self.allocate(file),
            _ => self.deallocate(file),
        }
    }

    pub fn copy(&mut self, source: usize, target: usize) -> Vec<u8> {
        let (from, count) = self.part(source);
        let to = self.offset(target);
        let flags = match self.rarely(20) {
            true => [0; 3].map(|_| self.random.pick(&[0, 0, 1, 2, 1 << 24, u32::MAX])),
            false => [self.random.below(2) as u32, self.random.below(2) as u32, 0],
        };
        self.transfer([from, to], count).copy_op(flags)
    }

    /// An offset and a count of the source, mostly within its size.
    fn part(&mut self, source: usize) -> (u64, u64) {
        let size = self.size(source);
        let from = match self.random.below(16) {
            0 => self.offset(source),
            1 => size,
            2..=7 => self.edge_below(size),
            _ => self.random.below(size + 1),
        };
        let to_end = size.saturating_sub(from);
        let count = match self.random.below(16) {
            0..=2 => 0,
            3..=5 => to_end,
            6 => to_end + 1,
            7 => self.length(source, from),
            _ => self.length(source, from).min(to_end),
        };
        (from, count)
    }

    /// The start of a slot that begins below the size.
    fn edge_below(&mut self, size: u64) -> u64 {
        let b = self.block_size();
        self.random.below(size.div_ceil(b).max(1)) * b
    }

    pub fn clone(&mut self, source: usize, target: usize) -> Vec<u8> {
        if self.random.once_in(10) {
            let (from, count) = self.part(source);
            let to = self.offset(target);
            return self.transfer([from, to], count).clone_op();
        }
        let b = self.block_size();
        let from = self.edge_below(self.size(source));
        let to_end = self.size(source).saturating_sub(from);
        let count = match self.random.below(4) {
            0 => to_end,
            1 => 0,
            _ => (b * self.random.within(1..=3)).min(to_end / b * b),
        };
        let mut to = self.slot() * b;
        if source == target && to.abs_diff(from) < count {
            to = from + count.next_multiple_of(b);
        }
        let mut numbers = [from, to, count];
        if self.random.once_in(10) {
            let number = &mut numbers[self.random.below(3) as usize];
            *number = self.random.pick(&[number.saturating_sub(1), *number + 1]);
        }
        let [from, to, count] = numbers;
        self.transfer([from, to], count).clone_op()
    }

    pub fn transfer(&mut self, offsets: [u64; 2], count: u64) -> Transfer {
        Transfer {
            stateids: [self.reading(), self.writing()],
            offsets,
            count,
        }
    }

    /// An operation that isn't served, or whose arguments don't decode.
    pub fn malformed(&mut self) -> Vec<u8> {
        let file = self.file();
        match self.random.below(11) {
            0 => wire::int(wire::SEQUENCE),
            1..=2 => wire::int(self.random.within(3..=71) as u32),
            3 => wire::int(self.random.pick(&[0, 1, 2, 72, 73, 256, 10044, u32::MAX])),
            4 => self.bad_handle(),
            5..=6 => self.malformed_write(file),
            7 => self.malformed_getattr(),
            _ => self.truncated(file),
        }
    }

    /// WRITE with a stable_how, a length or a pad that doesn't decode.
    fn malformed_write(&mut self, file: usize) -> Vec<u8> {
        const STABLE: usize = 28;
        const LENGTH: usize = 32;
        let offset = self.offset(file);
        let length = self.random.within(1..=7);
        let mut write = self.write_at(offset, length);
        match self.random.below(3) {
            0 => with_number(write, STABLE, self.random.pick(&[3, 4, 1 << 24, u32::MAX])),
            1 => with_number(write, LENGTH, self.wrong_length()),
            _ => {
                let end = write.len();
                write[end - 1] = 1;
                write
            }
        }
    }

    /// An operation without some of its last bytes.
    fn truncated(&mut self, file: usize) -> Vec<u8> {
        let mut operation = match self.random.below(6) {
            0 => self.copy(file, file),
            1 => self.clone(file, file),
            2 => self.look(file),
            3 => self.getattr(),
            _ => self.edit(file),
        };
        let cut = self.random.within(1..=operation.len().min(40) as u64);
        operation.truncate(operation.len() - cut as usize);
        operation
    }
}

/// The operation with another number at that place.
pub fn with_number(mut operation: Vec<u8>, at: usize, number: u32) -> Vec<u8> {
    operation[at..at + 4].copy_from_slice(&number.to_be_bytes());
    operation
}
