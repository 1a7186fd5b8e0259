//! The edits: first the slot words, then, where there is room for these, the bytes.

use std::ops::Range;

use second::{Geometry, Status, Store};

use super::judge::counted;
use super::pool::{block_of, is_hole, Pool};

pub(super) struct Editor<'a> {
    pub geometry: &'a Geometry,
    pub store: &'a mut Store,
    pub pool: Pool,
    /// The words of an edit's slots before it.
    old: Vec<u32>,
}

impl<'a> Editor<'a> {
    pub fn new(geometry: &'a Geometry, store: &'a mut Store, pool: Pool) -> Editor<'a> {
        Editor {
            geometry,
            store,
            pool,
            old: Vec::new(),
        }
    }

    pub fn write(&mut self, file: usize, region: &Range<u64>, data: &[u8]) -> Result<(), Status> {
        self.change(file, region, region.end, |pool, words, slots| {
            words[slots].iter_mut().try_for_each(|slot| pool.own(slot))
        })?;
        self.fill(file, region, |_, mem, place, at| {
            let data = &data[(at - region.start) as usize..][..place.len()];
            mem[place].copy_from_slice(data);
        });
        Ok(())
    }

    pub fn allocate(&mut self, file: usize, region: &Range<u64>) -> Result<(), Status> {
        self.change(file, region, region.end, |pool, words, slots| {
            for slot in &mut words[slots] {
                pool.set(slot, *slot | 1);
            }
            Some(())
        })
    }

    pub fn deallocate(&mut self, file: usize, region: &Range<u64>) -> Result<(), Status> {
        let (geometry, size) = (self.geometry, self.store.sizes[file]);
        let region = region.start..region.end.min(size);
        self.change(file, &region, size, |pool, words, slots| {
            let words = &mut words[slots];
            for (slot, word) in geometry.touched(&region).zip(words.iter_mut()) {
                if is_covered(geometry, slot, size, &region) {
                    pool.set(word, 0);
                }
            }
            let mut edges = words.iter_mut().filter(|word| !is_hole(**word));
            edges.try_for_each(|word| pool.own(word))
        })?;
        self.fill(file, &region, |_, mem, place, _| mem[place].fill(0));
        Ok(())
    }

    pub fn clone_slots(&mut self, way: &Way) -> Result<(), Status> {
        let first = self.slots(way.source_file, &way.source).start;
        let Way { target, .. } = way;
        self.change(way.target_file, target, target.end, |pool, words, slots| {
            for (from, to) in (first..).zip(slots) {
                let word = words[from] & !1 | words[to] & 1;
                pool.set(&mut words[to], word);
            }
            Some(())
        })
    }

    pub fn copy(&mut self, way: &Way) -> Result<(), Status> {
        let (geometry, target) = (self.geometry, &way.target);
        let source = geometry.words_of(way.source_file);
        let size = self.store.sizes[way.target_file].max(target.end);
        let is_cleared = |words: &[u32], slot: usize| {
            is_covered(geometry, slot, size, target)
                && way.is_hole(geometry, &words[source.clone()], slot)
        };
        self.change(way.target_file, target, target.end, |pool, words, slots| {
            let touched = geometry.touched(target).zip(slots);
            for (slot, at) in touched.clone() {
                if is_cleared(words, slot) {
                    let word = words[at] & 1;
                    pool.set(&mut words[at], word);
                }
            }
            for (slot, at) in touched {
                if !is_cleared(words, slot) {
                    pool.own(&mut words[at])?;
                }
            }
            Some(())
        })?;
        self.fill(way.target_file, target, |words, mem, place, at| {
            way.put(geometry, &words[source.clone()], mem, place, at);
        });
        Ok(())
    }

    /// Where the words of the touched slots stand.
    fn slots(&self, file: usize, region: &Range<u64>) -> Range<usize> {
        let first = self.geometry.words_of(file).start;
        let touched = self.geometry.touched(region);
        first + touched.start..first + touched.end
    }

    /// Changes the words of the touched slots and lets the file grow; neither where there is no room
    /// for that.
    fn change(
        &mut self,
        file: usize,
        region: &Range<u64>,
        end: u64,
        change: impl FnOnce(&mut Pool, &mut [u32], Range<usize>) -> Option<()>,
    ) -> Result<(), Status> {
        let slots = self.slots(file, region);
        let Store { sizes, words, .. } = &mut *self.store;
        self.old.clear();
        self.old.extend_from_slice(&words[slots.clone()]);
        let size = sizes[file];
        sizes[file] = size.max(end);
        let done = change(&mut self.pool, words, slots.clone()).is_some();
        let is_same = || words[slots.clone()] == self.old[..];
        let counted = || counted(self.pool.server, self.geometry, sizes, words);
        if done && (is_same() || self.pool.has_room(counted())) {
            return Ok(());
        }
        sizes[file] = size;
        for (slot, &word) in words[slots].iter_mut().zip(&self.old) {
            self.pool.set(slot, word);
        }
        Err(Status::NoSpc)
    }

    /// Hands out the part of each touched slot's block that lies in the region, by its place in the
    /// memory and by its place in the file. Around it a block has what its slot had before the edit.
    /// Holes are left out.
    fn fill(
        &mut self,
        file: usize,
        region: &Range<u64>,
        mut fill: impl FnMut(&[u32], &mut [u8], Range<usize>, u64),
    ) {
        let Store { words, mem, .. } = &mut *self.store;
        let geometry = self.geometry;
        let now = &words[geometry.words_of(file)];
        for (slot, &old) in geometry.touched(region).zip(&self.old) {
            let Some(block) = block_of(now[slot]) else {
                continue;
            };
            let whole = geometry.bytes_of(block);
            let part = geometry.within(slot, region);
            let place = whole.start + part.start..whole.start + part.end;
            if block_of(old) != Some(block) {
                put(geometry, mem, old, &(0..part.start), whole.start);
                put(geometry, mem, old, &(part.end..whole.len()), place.end);
            }
            fill(words, mem, place, part_of(geometry, slot, region).start);
        }
    }
}

/// Stores a part of a slot's bytes at a place of the memory, a hole's as zeros.
fn put(geometry: &Geometry, mem: &mut [u8], word: u32, part: &Range<usize>, to: usize) {
    match block_of(word) {
        Some(block) => {
            let start = geometry.bytes_of(block).start;
            mem.copy_within(start + part.start..start + part.end, to);
        }
        None => mem[to..to + part.len()].fill(0),
    }
}

/// The bytes of a slot that lie in the region.
fn part_of(geometry: &Geometry, slot: usize, region: &Range<u64>) -> Range<u64> {
    let span = geometry.span(slot);
    span.start.max(region.start)..span.end.min(region.end)
}

/// Whether all of a slot's bytes below the size lie in the region.
fn is_covered(geometry: &Geometry, slot: usize, size: u64, region: &Range<u64>) -> bool {
    let span = geometry.span(slot);
    region.start <= span.start && span.end.min(size) <= region.end
}

/// From where to where COPY or CLONE goes.
pub(super) struct Way {
    pub source_file: usize,
    pub source_size: u64,
    pub source: Range<u64>,
    pub target_file: usize,
    pub target: Range<u64>,
}

impl Way {
    /// Where a part of the target comes from.
    fn matched(&self, part: &Range<u64>) -> Range<u64> {
        let place = |at: u64| at - self.target.start + self.source.start;
        place(part.start)..place(part.end)
    }

    /// Whether a target slot gets nothing but holes. The words are the source's.
    fn is_hole(&self, geometry: &Geometry, words: &[u32], slot: usize) -> bool {
        let matched = self.matched(&part_of(geometry, slot, &self.target));
        let mut words = words[geometry.touched(&matched)].iter();
        words.all(|&word| is_hole(word))
    }

    /// Stores what the target has from `at` on at a place of the memory. The words are the source's.
    fn put(
        &self,
        geometry: &Geometry,
        words: &[u32],
        mem: &mut [u8],
        place: Range<usize>,
        at: u64,
    ) {
        let matched = self.matched(&(at..at + place.len() as u64));
        let mut to = place.start;
        for slot in geometry.touched(&matched) {
            let part = geometry.within(slot, &matched);
            put(geometry, mem, words[slot], &part, to);
            to += part.len();
        }
    }

    pub fn overlaps(&self) -> bool {
        self.source_file == self.target_file
            && self.source.start < self.target.end
            && self.target.start < self.source.end
    }

    pub fn is_aligned(&self, block_size: u64) -> bool {
        self.source.start.is_multiple_of(block_size)
            && self.target.start.is_multiple_of(block_size)
            && (self.source.end.is_multiple_of(block_size) || self.source.end == self.source_size)
    }
}
