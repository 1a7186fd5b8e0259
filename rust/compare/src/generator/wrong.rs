//! Arguments that a call refuses, and damages of the store.

use second::{Geometry, REPLY_MIN, REQUEST_MAX};

use super::Maker;
use crate::list::{Call, Damage, Edit, Table};

impl Maker<'_> {
    /// One wrong argument, now and then several.
    pub fn wrong_arguments(&mut self) -> Call {
        let mut call = self.usual();
        loop {
            self.add_wrong(&mut call);
            if !self.random.once_in(3) {
                return call;
            }
        }
    }

    fn add_wrong(&mut self, call: &mut Call) {
        match self.random.below(8) {
            0..=1 => call.lent.geometry = Some(self.other_geometry()),
            2..=3 => call.lent.lengths.push(self.other_length()),
            4 => {
                let length = self.random.pick(&[0, 1, 7, 9, 16]);
                call.verifier = self.random.bytes(length);
            }
            5 => call.reply_length = self.random.pick(&[0, 1, REPLY_MIN / 2, REPLY_MIN - 1]),
            6 => {
                let length = self
                    .random
                    .pick(&[REQUEST_MAX, REQUEST_MAX + 1, 2 * REQUEST_MAX]);
                call.request.edits.push(Edit::Extend { length });
            }
            _ => call.request.edits.push(Edit::Cut {
                length: self.random.below(13) as usize,
            }),
        }
    }

    /// The geometry with one number changed, or with the same lengths by other numbers.
    pub fn other_geometry(&mut self) -> Geometry {
        let mut geometry = self.geometry;
        if self.random.once_in(6) {
            geometry.blocks *= 2;
            geometry.block_size /= 2;
            return geometry;
        }
        let (number, last) = match self.random.below(4) {
            0 => (&mut geometry.files, 64),
            1 => (&mut geometry.slots, 1024),
            2 => (&mut geometry.blocks, 65_536),
            _ => (&mut geometry.block_size, 4096),
        };
        let old = *number;
        let wrapped = old + (1 << 32);
        *number = self.random.pick(&[
            0,
            last,
            last + 1,
            2 * last,
            old + 1,
            old / 2,
            2 * old,
            wrapped,
            1 << 63,
            u64::MAX,
        ]);
        geometry
    }

    pub fn other_length(&mut self) -> (Table, usize) {
        let b = self.block_size() as usize;
        let (table, length, step) = match self.random.below(3) {
            0 => (Table::Sizes, self.store.sizes.len(), 1),
            1 => (Table::Words, self.store.words.len(), 1),
            _ => (Table::Mem, self.store.mem.len(), b),
        };
        let other = self.random.pick(&[
            0,
            1,
            length - 1,
            length + 1,
            length - step,
            length + step,
            2 * length,
        ]);
        (table, other)
    }

    /// One place of the store, harmless or not.
    pub fn damage(&mut self) -> Damage {
        match self.random.below(4) {
            0 => self.damaged_size(),
            1 => self.damaged_word(),
            2 => self.damaged_tail().unwrap_or_else(|| self.damaged_byte()),
            _ => self.damaged_byte(),
        }
    }

    fn damaged_size(&mut self) -> Damage {
        let (b, capacity) = (self.block_size(), self.capacity());
        let file = self.file();
        let size = self.size(file);
        let any = self.random.below(capacity + 1);
        let value = self.random.pick(&[
            0,
            any,
            size.wrapping_sub(1),
            size + 1,
            size.saturating_sub(b),
            size + b,
            capacity,
            capacity + 1,
            1 << 32,
            u64::MAX,
        ]);
        Damage::Size { file, value }
    }

    fn damaged_word(&mut self) -> Damage {
        let words = &self.store.words;
        let index = self.file() * self.geometry.slots as usize + self.slot() as usize;
        let other = words[self.random.below(words.len() as u64) as usize];
        let blocks = self.geometry.blocks as u32;
        let any = self.random.below(2 * u64::from(blocks) + 2) as u32;
        let value = self.random.pick(&[
            words[index] ^ 1,
            words[index] ^ 1,
            words[index] ^ 2,
            other,
            any,
            0,
            2 * blocks,
            2 * blocks + 1,
            2 * blocks + 2,
            1 << 31,
            u32::MAX,
        ]);
        Damage::Word { index, value }
    }

    /// A byte past a size, in the block of the last slot, if some file has one.
    fn damaged_tail(&mut self) -> Option<Damage> {
        let (b, slots) = (self.block_size(), self.geometry.slots);
        let files = self.store.sizes.iter().zip(0..);
        let tails: Vec<(u64, u64)> = files
            .filter(|(size, _)| *size % b != 0)
            .map(|(size, file)| (size % b, file * slots + size / b))
            .map(|(tail, index)| (tail, u64::from(self.store.words[index as usize] / 2)))
            .filter(|&(_, block)| block != 0)
            .collect();
        let (tail, block) = match tails[..] {
            [] => return None,
            _ => self.random.pick(&tails),
        };
        let any = self.random.within(tail..=b - 1);
        let place = self.random.pick(&[tail, b - 1, any]);
        let index = ((block - 1) * b + place) as usize;
        let value = self.random.pick(&[1, 128, 255]);
        Some(Damage::Byte { index, value })
    }

    fn damaged_byte(&mut self) -> Damage {
        let index = self.random.below(self.store.mem.len() as u64) as usize;
        let value = self.byte();
        Damage::Byte { index, value }
    }
}
