//! The edits. An edit is carried out on a draft: a copy of the target file's slots and size, with
//! its own copies of the blocks it writes. Where the pool has no free block, the draft numbers on
//! from N. Then the blocks are counted, and the draft is either kept or dropped whole.

use std::collections::BTreeMap;
use std::ops::Range;

use crate::geometry::{common, lies_in, Geometry};
use crate::status::Status;
use crate::store::{decoded, holders, tally, Slot, Store};

pub(crate) struct Draft<'a> {
    geometry: &'a Geometry,
    store: &'a Store,
    file: usize,
    size: u64,
    slots: Vec<Slot>,
    /// For each block, drafted ones included, the slots of all files that hold it.
    holders: Vec<u32>,
    /// No block below this one is free.
    lowest: usize,
    /// The blocks written by this edit, whole.
    written: BTreeMap<usize, Vec<u8>>,
}

/// A finished edit for which there is room.
pub(crate) struct Kept {
    file: usize,
    size: u64,
    slots: Vec<Slot>,
    written: BTreeMap<usize, Vec<u8>>,
}

impl<'a> Draft<'a> {
    pub fn new(geometry: &'a Geometry, store: &'a Store, file: usize) -> Draft<'a> {
        Draft {
            geometry,
            store,
            file,
            size: store.sizes[file],
            slots: store.slots_of(geometry, file).collect(),
            holders: holders(decoded(&store.words), geometry.blocks),
            lowest: 0,
            written: BTreeMap::new(),
        }
    }

    /// WRITE: each touched slot ends with a block of its own.
    pub fn write(&mut self, offset: u64, data: &[u8]) {
        let region = offset..offset + data.len() as u64;
        for index in self.geometry.touched(&region) {
            self.put(index, &region, data);
        }
        self.grow(region.end);
    }

    /// COPY: covered slots that get nothing but holes become holes first, then the others are
    /// written. `holes` are the parts of the region that come from holes, none beside another.
    pub fn copy(&mut self, offset: u64, data: &[u8], holes: &[Range<u64>]) {
        let region = offset..offset + data.len() as u64;
        self.grow(region.end);
        let (emptied, written): (Vec<_>, Vec<_>) =
            self.geometry.touched(&region).partition(|&index| {
                let part = common(&self.geometry.span(index), &region);
                self.is_covered(index, &region) && holes.iter().any(|hole| lies_in(&part, hole))
            });
        for index in emptied {
            self.hold(index, None);
        }
        for index in written {
            self.put(index, &region, data);
        }
    }

    /// ALLOCATE: each touched slot is reserved.
    pub fn allocate(&mut self, region: Range<u64>) {
        for index in self.geometry.touched(&region) {
            self.slots[index].reserved = true;
        }
        self.grow(region.end);
    }

    /// DEALLOCATE: covered slots are given back first, then the edges are zeroed.
    pub fn deallocate(&mut self, region: Range<u64>) {
        let region = region.start..region.end.min(self.size);
        let (covered, edges): (Vec<_>, Vec<_>) = self
            .geometry
            .touched(&region)
            .partition(|&index| self.is_covered(index, &region));
        for index in covered {
            self.hold(index, None);
            self.slots[index] = Slot::EMPTY;
        }
        for index in edges {
            if self.slots[index].block.is_some() {
                let block = self.own(index);
                let part = self.geometry.within(index, &region);
                self.bytes_mut(block)[part].fill(0);
            }
        }
    }

    /// CLONE: the target slots take the source slots' blocks or holes. `target` starts at a slot.
    pub fn clone_blocks(&mut self, source: usize, source_offset: u64, target: Range<u64>) {
        let from = (source_offset / self.geometry.block_size) as usize;
        let blocks: Vec<_> = self
            .store
            .slots_of(self.geometry, source)
            .map(|slot| slot.block)
            .skip(from)
            .collect();
        for (index, block) in self.geometry.touched(&target).zip(blocks) {
            self.hold(index, block);
        }
        self.grow(target.end);
    }

    /// Counts used and owed blocks over all files, this one as drafted.
    pub fn finish(self) -> Result<Kept, Status> {
        let own = self.geometry.words_of(self.file);
        let before = decoded(&self.store.words[..own.start]);
        let after = decoded(&self.store.words[own.end..]);
        let all = before.chain(self.slots.iter().copied()).chain(after);
        let (used, owed) = tally(all, self.geometry.blocks);
        if used + owed > self.geometry.blocks {
            return Err(Status::NoSpc);
        }
        Ok(Kept {
            file: self.file,
            size: self.size,
            slots: self.slots,
            written: self.written,
        })
    }

    fn grow(&mut self, end: u64) {
        self.size = self.size.max(end);
    }

    /// Whether all of the slot's bytes below the size lie in the region.
    fn is_covered(&self, index: usize, region: &Range<u64>) -> bool {
        let span = self.geometry.span(index);
        lies_in(&(span.start..span.end.min(self.size)), region)
    }

    /// Stores the slot's part of a region's bytes in a block of its own.
    fn put(&mut self, index: usize, region: &Range<u64>, data: &[u8]) {
        let start = common(&self.geometry.span(index), region).start - region.start;
        let part = self.geometry.within(index, region);
        let piece = &data[start as usize..][..part.len()];
        let block = self.own(index);
        self.bytes_mut(block)[part].copy_from_slice(piece);
    }

    /// Makes the slot hold a block of its own and names it.
    fn own(&mut self, index: usize) -> usize {
        let bytes = match self.slots[index].block {
            Some(block) if self.holders[block] == 1 => return block,
            Some(shared) => self.bytes(shared).to_vec(),
            None => vec![0; self.geometry.block_size as usize],
        };
        let block = self.lowest_free();
        self.written.insert(block, bytes);
        self.hold(index, Some(block));
        block
    }

    fn lowest_free(&mut self) -> usize {
        while self.holders.get(self.lowest).is_some_and(|&n| n > 0) {
            self.lowest += 1;
        }
        if self.lowest == self.holders.len() {
            self.holders.push(0);
        }
        self.lowest
    }

    /// Puts a block, or a hole, in the slot and lets go of what it held.
    fn hold(&mut self, index: usize, block: Option<usize>) {
        if let Some(new) = block {
            self.holders[new] += 1;
        }
        if let Some(old) = self.slots[index].block {
            self.holders[old] -= 1;
            if self.holders[old] == 0 {
                self.lowest = self.lowest.min(old);
            }
        }
        self.slots[index].block = block;
    }

    fn bytes(&self, block: usize) -> &[u8] {
        match self.written.get(&block) {
            Some(bytes) => bytes,
            None => &self.store.mem[self.geometry.bytes_of(block)],
        }
    }

    fn bytes_mut(&mut self, block: usize) -> &mut [u8] {
        let old = &self.store.mem[..];
        let place = self.geometry.bytes_of(block);
        self.written
            .entry(block)
            .or_insert_with(|| old[place].to_vec())
    }
}

impl Kept {
    pub fn commit(self, geometry: &Geometry, store: &mut Store) {
        store.sizes[self.file] = self.size;
        let words = &mut store.words[geometry.words_of(self.file)];
        for (word, slot) in words.iter_mut().zip(self.slots) {
            *word = slot.word();
        }
        for (block, bytes) in self.written {
            store.mem[geometry.bytes_of(block)].copy_from_slice(&bytes);
        }
    }
}
