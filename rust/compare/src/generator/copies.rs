//! COPYs from a file with holes onto slots that are holes, written, reserved or shared.

use second::survey;

use super::Maker;
use crate::wire;

/// From where to where a COPY goes.
struct Way {
    source: usize,
    target: usize,
    from: u64,
    to: u64,
    count: u64,
}

impl Maker<'_> {
    /// A target made ready, a source with holes made in it, and a COPY.
    pub fn sparse_copy(&mut self) -> Vec<Vec<u8>> {
        let source = self.source();
        let target = self.other(source);
        let (holes, size) = self.holes_made(source);
        let way = self.way(source, target, size);
        let mut operations = self.ready(&way);
        operations.push(wire::putfh_file(source));
        operations.extend(holes);
        operations.extend(self.copied(&way));
        operations
    }

    /// A COPY in a pool that is full, or has a block or two left.
    pub fn copy_in_full_pool(&mut self) -> Vec<Vec<u8>> {
        let surveyed = survey(&self.geometry, self.store);
        let left = self.geometry.blocks - surveyed.used - surveyed.owed;
        let left = left.saturating_sub(self.random.pick(&[0, 0, 0, 1, 2]));
        let b = self.block_size();
        let (source, filled) = (self.source(), self.file());
        let target = self.other(source);
        let mut operations = Vec::new();
        if left > 0 {
            let start = self.hole(filled) * b;
            operations.push(wire::putfh_file(filled));
            operations.push(match self.random.below(2) {
                0 => self.allocate_at(start, left * b),
                _ => self.write_at(start, left * b),
            });
        }
        operations.push(wire::putfh_file(source));
        let way = self.way(source, target, self.size(source));
        operations.extend(self.copied(&way));
        operations
    }

    /// The COPY with its handles, the source's being current, and something after it.
    fn copied(&mut self, way: &Way) -> Vec<Vec<u8>> {
        let copy = self.transfer([way.from, way.to], way.count);
        let inside = way.to + self.random.below(way.count.max(1));
        let after = match self.random.below(3) {
            0 => self.write_at(inside, 1),
            _ => self.look(way.target),
        };
        vec![
            wire::int(wire::SAVEFH),
            wire::putfh_file(way.target),
            copy.copy_op([1, 1, 0]),
            after,
        ]
    }

    /// Operations that make holes in the current file, and its size after them.
    fn holes_made(&mut self, file: usize) -> (Vec<Vec<u8>>, u64) {
        let b = self.block_size();
        let size = self.size(file);
        let end = self.slot() * b + self.random.pick(&[1, b / 2, b]);
        let longer = match self.random.below(4) {
            0 => self.allocate_at(end - 1, 1),
            _ => self.write_at(end - 1, 1),
        };
        let (first, slots) = (self.slot(), self.random.within(1..=3));
        let back = wire::region(wire::DEALLOCATE, wire::ZEROS, first * b, slots * b);
        match self.random.below(4) {
            0 if size > 0 => (Vec::new(), size),
            1 if size > 0 => (vec![back], size),
            2 => (vec![longer], size.max(end)),
            _ => (vec![longer, back], size.max(end)),
        }
    }

    /// Offsets that agree or differ modulo B, and an end at, before or behind an edge of a slot, the
    /// source's end or the target's.
    fn way(&mut self, source: usize, target: usize, size: u64) -> Way {
        let b = self.block_size();
        let first = self.random.below(size.div_ceil(b).max(1)) * b;
        let shift = self.random.pick(&[0, 0, 0, 0, 1, b / 2, b - 1]);
        let from = (first + shift).min(size.saturating_sub(1));
        let to_end = size.saturating_sub(from);
        let whole = self.random.within(1..=4) * b;
        let to = self.slot() * b + self.random.pick(&[0, 0, 0, shift, 1, b - 1]);
        let to_target_end = self.size(target).saturating_sub(to);
        let any = self.random.within(1..=2 * b);
        let count = self.random.pick(&[
            to_end,
            to_end,
            whole,
            whole,
            whole - 1,
            whole + 1,
            whole - to % b,
            to_target_end,
            to_target_end.saturating_sub(1),
            any,
        ]);
        let count = count.clamp(to_end.min(1), to_end);
        Way {
            source,
            target,
            from,
            to: to.min(self.capacity().saturating_sub(count)),
            count,
        }
    }

    /// Operations that fill, reserve or share the slots of the target.
    fn ready(&mut self, way: &Way) -> Vec<Vec<u8>> {
        let b = self.block_size();
        let end = way.to + way.count;
        let first = way.to / b * b;
        let cut = self
            .random
            .pick(&[end.next_multiple_of(b), end, end - 1, end + 1]);
        let length = cut.max(first + 1) - first;
        let mut operations = vec![wire::putfh_file(way.target)];
        let (reserve, fill) = (self.random.once_in(3), !self.random.once_in(3));
        if reserve {
            operations.push(self.allocate_at(first, length));
        }
        if fill {
            operations.push(self.write_at(first, length));
        }
        match self.random.below(8) {
            0 => return self.shared_with_source(way),
            1..=2 => operations.extend(self.shared_inside(first, end)),
            3..=4 => operations.extend(self.shared_with_another(first)),
            5 => {
                operations.extend(self.shared_inside(first, end));
                operations.extend(self.shared_with_another(first));
            }
            _ => {}
        }
        operations
    }

    /// A slot of the current file cloned to the next one, or to any other; the file is saved then.
    fn shared_inside(&mut self, first: u64, end: u64) -> Vec<Vec<u8>> {
        let b = self.block_size();
        let slots = (end.div_ceil(b) - first / b).max(1);
        let inside = first + self.random.below(slots) * b;
        let any = self.slot() * b;
        let other = self.random.pick(&[first + b, inside, any]);
        let clone = self.transfer([first, other], b);
        vec![wire::int(wire::SAVEFH), clone.clone_op()]
    }

    /// The source's slots, cloned to where the COPY goes.
    fn shared_with_source(&mut self, way: &Way) -> Vec<Vec<u8>> {
        let b = self.block_size();
        let from = way.from / b * b;
        let whole = (self.size(way.source).saturating_sub(from) / b).min(3) * b;
        let clone = self.transfer([from, way.to / b * b], whole);
        vec![
            wire::putfh_file(way.source),
            wire::int(wire::SAVEFH),
            wire::putfh_file(way.target),
            clone.clone_op(),
        ]
    }

    /// A slot of the current file, cloned to another file.
    fn shared_with_another(&mut self, first: u64) -> Vec<Vec<u8>> {
        let b = self.block_size();
        let place = self.slot() * b;
        let clone = self.transfer([first, place], b);
        vec![
            wire::int(wire::SAVEFH),
            wire::putfh_file(self.file()),
            clone.clone_op(),
        ]
    }
}
