//! What READ, READ_PLUS and SEEK see of a file.

use std::ops::Range;

use second::{Geometry, Kind, Store};

use super::pool::{block_of, is_hole};
use super::reply::Reply;

const DATA: u32 = 0;
const HOLE: u32 = 1;

pub(super) struct View<'a> {
    geometry: &'a Geometry,
    words: &'a [u32],
    mem: &'a [u8],
    pub size: u64,
}

impl<'a> View<'a> {
    pub fn new(geometry: &'a Geometry, store: &'a Store, file: usize) -> View<'a> {
        View {
            geometry,
            words: &store.words[geometry.words_of(file)],
            mem: &store.mem,
            size: store.sizes[file],
        }
    }

    /// The region cut at the size.
    pub fn cut(&self, region: Range<u64>) -> Range<u64> {
        let start = region.start.min(self.size);
        start..region.end.clamp(start, self.size)
    }

    /// The bytes of a region below the size as an opaque, holes as zeros.
    pub fn put_bytes(&self, region: &Range<u64>, reply: &mut Reply) {
        let length = region.end - region.start;
        reply.u32(length as u32);
        for slot in self.geometry.touched(region) {
            let part = self.geometry.within(slot, region);
            match block_of(self.words[slot]) {
                Some(block) => reply.raw(&self.mem[self.geometry.bytes_of(block)][part]),
                None => reply.zeros(part.len()),
            }
        }
        reply.pad(length as usize);
    }

    /// A region below the size as data and holes by turns, their number first.
    pub fn put_pieces(&self, region: &Range<u64>, reply: &mut Reply) {
        let place = reply.at();
        reply.u32(0);
        let mut left = region.clone();
        for pieces in 1.. {
            if left.is_empty() {
                break;
            }
            let (kind, end) = self.run(&left);
            self.put_piece(kind, left.start..end, reply);
            reply.set(place, pieces);
            left.start = end;
        }
    }

    fn put_piece(&self, kind: Kind, region: Range<u64>, reply: &mut Reply) {
        match kind {
            Kind::Data => {
                reply.u32(DATA);
                reply.u64(region.start);
                self.put_bytes(&region, reply);
            }
            Kind::Hole => {
                reply.u32(HOLE);
                reply.u64(region.start);
                reply.u64(region.end - region.start);
            }
        }
    }

    /// The first place from the offset on that is of the kind, or the size.
    pub fn seek(&self, offset: u64, kind: Kind) -> u64 {
        if offset == self.size {
            return offset;
        }
        match self.run(&(offset..self.size)) {
            (first, _) if first == kind => offset,
            (_, end) => end,
        }
    }

    /// What a region that isn't empty starts with, and where that ends.
    fn run(&self, region: &Range<u64>) -> (Kind, u64) {
        let touched = self.geometry.touched(region);
        let words = &self.words[touched.clone()];
        let hole = is_hole(words[0]);
        let other = words.iter().position(|&word| is_hole(word) != hole);
        let end = match other {
            Some(slots) => self.geometry.span(touched.start + slots).start,
            None => region.end,
        };
        (if hole { Kind::Hole } else { Kind::Data }, end)
    }
}
