//! Compounds of several operations that belong together.

use second::survey;

use super::{Maker, OPERATIONS_MAX};
use crate::wire;

impl Maker<'_> {
    pub fn scenario(&mut self) -> Vec<Vec<u8>> {
        match self.random.below(26) {
            0..=4 => self.edits(),
            5..=8 => self.transfers(),
            9 => self.fill_pool(),
            10 => self.give_back(),
            11 => self.share_in_file(),
            12..=13 => self.reserve(),
            14..=15 => self.share_edges(),
            16 => self.looks(),
            17 => self.longest_reply(),
            18 => self.gauges(),
            19 => self.gauge_clones(),
            20..=22 => self.sparse_copy(),
            23 => self.copy_in_full_pool(),
            _ => self.mixture(),
        }
    }

    fn edits(&mut self) -> Vec<Vec<u8>> {
        let file = self.file();
        let mut operations = vec![self.putfh(file)];
        for _ in 0..self.random.within(1..=3) {
            operations.push(self.edit(file));
        }
        operations.push(self.look(file));
        operations
    }

    fn looks(&mut self) -> Vec<Vec<u8>> {
        let file = self.file();
        let mut operations = vec![self.putfh(file)];
        for _ in 0..self.random.within(1..=6) {
            operations.push(self.look(file));
        }
        operations
    }

    /// COPY or CLONE, the same file for both now and then.
    fn transfers(&mut self) -> Vec<Vec<u8>> {
        let (source, target) = (self.source(), self.file());
        let mut operations = vec![
            self.putfh(source),
            wire::int(wire::SAVEFH),
            self.putfh(target),
        ];
        for _ in 0..self.random.within(1..=2) {
            operations.push(match self.random.below(8) {
                0 => self.copy(source, target),
                1..=3 if source != target => self.copy(source, target),
                _ => self.clone(source, target),
            });
        }
        operations.push(self.edit(target));
        operations.push(self.look(target));
        operations
    }

    /// Asks for as many blocks as are left, or for one more, or for one less.
    fn fill_pool(&mut self) -> Vec<Vec<u8>> {
        let surveyed = survey(&self.geometry, self.store);
        let left = self.geometry.blocks - surveyed.used - surveyed.owed;
        let wanted = (left + self.random.below(3)).saturating_sub(1).max(1);
        let b = self.block_size();
        let file = self.file();
        let start = self.hole(file) * b + self.random.pick(&[0, 0, 1, b - 1]);
        let length = (wanted * b).saturating_sub(self.random.pick(&[0, 0, 1, b - 1]));
        let operation = match self.random.below(2) {
            0 => self.allocate_at(start, length),
            _ => self.write_at(start, length),
        };
        vec![self.putfh(file), operation, self.edit(file)]
    }

    /// The first slot that is a hole, or the first of all.
    pub fn hole(&self, file: usize) -> u64 {
        let slots = self.geometry.slots as usize;
        let words = &self.store.words[file * slots..(file + 1) * slots];
        let hole = words.iter().position(|word| word / 2 == 0);
        hole.unwrap_or_default() as u64
    }

    /// Frees most or all of a file, or of two.
    fn give_back(&mut self) -> Vec<Vec<u8>> {
        let (file, other) = (self.source(), self.source());
        let slots = self.random.pick(&[0, 0, 1]);
        let offset = slots * self.block_size();
        let whole = wire::region(wire::DEALLOCATE, wire::ZEROS, offset, self.capacity());
        vec![
            self.putfh(file),
            whole.clone(),
            self.putfh(other),
            whole,
            self.edit(other),
            self.look(other),
        ]
    }

    /// A slot cloned inside its file, then one WRITE over both.
    fn share_in_file(&mut self) -> Vec<Vec<u8>> {
        let b = self.block_size();
        let file = self.file();
        let (first, second) = (self.slot(), self.slot());
        let (low, high) = (first.min(second), first.max(second));
        let part = self.random.pick(&[0, 1, b / 2]);
        let over = (high - low + 1) * b - part - self.random.below(2);
        let clone = self.transfer([first * b, second * b], b);
        vec![
            self.putfh(file),
            self.write_at(first * b, b),
            wire::int(wire::SAVEFH),
            clone.clone_op(),
            self.write_at(low * b + part, over),
            self.look(file),
        ]
    }

    /// A reserve, a clone of it, WRITEs into both.
    fn reserve(&mut self) -> Vec<Vec<u8>> {
        let b = self.block_size();
        let file = self.file();
        let other = self.other(file);
        let slots = self.random.within(1..=3);
        let (first, second) = (self.slot() * b, self.slot() * b);
        let clone = self.transfer([first, second], slots * b);
        let [inside, within] = [first, second].map(|start| start + self.random.below(b));
        vec![
            self.putfh(file),
            self.allocate_at(first, slots * b),
            self.write_at(inside, b),
            wire::int(wire::SAVEFH),
            self.putfh(other),
            clone.clone_op(),
            self.write_at(within, b),
            wire::int(wire::RESTOREFH),
            self.write_at(inside, b),
            self.look(file),
        ]
    }

    /// A file cloned to another, then a DEALLOCATE whose edges are shared.
    fn share_edges(&mut self) -> Vec<Vec<u8>> {
        let file = self.source();
        let other = self.other(file);
        vec![
            self.putfh(file),
            wire::int(wire::SAVEFH),
            self.putfh(other),
            self.transfer([0, 0], 0).clone_op(),
            wire::int(wire::RESTOREFH),
            self.deallocate(file),
            self.look(file),
        ]
    }

    /// The attributes of some files.
    fn gauges(&mut self) -> Vec<Vec<u8>> {
        let mut operations = Vec::new();
        for _ in 0..self.random.within(1..=4) {
            let file = self.source();
            operations.push(self.putfh(file));
            operations.extend(self.gauge());
        }
        operations
    }

    /// GETATTR behind GETFH, so that the reply tells the file.
    fn gauge(&mut self) -> [Vec<u8>; 2] {
        [wire::int(wire::GETFH), self.getattr()]
    }

    /// A slot cloned inside its file and to another file, reserved before or not; then the
    /// attributes of both.
    fn gauge_clones(&mut self) -> Vec<Vec<u8>> {
        let b = self.block_size();
        let file = self.file();
        let other = self.other(file);
        let [first, second, third] = [(); 3].map(|()| self.slot() * b);
        let slots = self.random.within(1..=3);
        let before = match self.random.below(3) {
            0 => self.write_at(second, b),
            _ => self.allocate_at(first, slots * b),
        };
        let mut operations = vec![
            self.putfh(file),
            before,
            self.write_at(first, b),
            wire::int(wire::SAVEFH),
            self.transfer([first, second], b).clone_op(),
            self.putfh(other),
            self.transfer([first, third], b).clone_op(),
        ];
        operations.extend(self.gauge());
        operations.push(wire::int(wire::RESTOREFH));
        operations.extend(self.gauge());
        operations
    }

    /// As many and as long reads as a compound has.
    fn longest_reply(&mut self) -> Vec<Vec<u8>> {
        let file = self.file();
        let mut operations = vec![wire::putfh_file(file)];
        while operations.len() < OPERATIONS_MAX as usize {
            let number = self.random.pick(&[wire::READ, wire::READ_PLUS]);
            let offset = self.slot() * self.block_size() + self.random.below(4);
            operations.push(wire::look(number, wire::ZEROS, offset, 2048));
        }
        operations
    }

    /// Any operations in any order.
    fn mixture(&mut self) -> Vec<Vec<u8>> {
        let (mut current, mut saved) = (self.file(), self.file());
        let mut operations = vec![self.putfh(current)];
        for _ in 0..self.random.within(1..=OPERATIONS_MAX) {
            operations.push(match self.random.below(12) {
                0 => wire::int(wire::GETFH),
                1..=2 => {
                    saved = current;
                    wire::int(wire::SAVEFH)
                }
                3 => {
                    current = saved;
                    wire::int(wire::RESTOREFH)
                }
                4..=5 => {
                    current = self.file();
                    self.putfh(current)
                }
                6 => self.copy(saved, current),
                7 => self.clone(saved, current),
                8 => self.look(current),
                _ => self.edit(current),
            });
        }
        operations
    }
}
