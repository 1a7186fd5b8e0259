//! What READ, READ_PLUS, SEEK and COPY see of a file.

use std::ops::Range;

use crate::geometry::{common, Geometry};
use crate::store::{Kind, Slot, Store};

/// A run of bytes of one kind.
#[derive(Clone, Debug, PartialEq, Eq)]
pub(crate) struct Piece {
    pub kind: Kind,
    pub region: Range<u64>,
}

/// One file, to be read.
pub(crate) struct View<'a> {
    geometry: &'a Geometry,
    store: &'a Store,
    slots: Vec<Slot>,
    pub size: u64,
}

impl<'a> View<'a> {
    pub fn new(geometry: &'a Geometry, store: &'a Store, file: usize) -> View<'a> {
        View {
            geometry,
            store,
            slots: store.slots_of(geometry, file).collect(),
            size: store.sizes[file],
        }
    }

    /// The region cut at the size; empty where it starts at or past it.
    pub fn cut(&self, region: Range<u64>) -> Range<u64> {
        let start = region.start.min(self.size);
        start..region.end.clamp(start, self.size)
    }

    /// The bytes of a region below the size, holes as zeros.
    pub fn bytes(&self, region: Range<u64>) -> Vec<u8> {
        let mut bytes = Vec::with_capacity((region.end - region.start) as usize);
        for index in self.geometry.touched(&region) {
            let part = self.geometry.within(index, &region);
            match self.slots[index].block {
                Some(block) => {
                    let whole = &self.store.mem[self.geometry.bytes_of(block)];
                    bytes.extend_from_slice(&whole[part]);
                }
                None => bytes.resize(bytes.len() + part.len(), 0),
            }
        }
        bytes
    }

    /// The region as data and holes by turns, none empty.
    pub fn pieces(&self, region: Range<u64>) -> Vec<Piece> {
        let mut pieces: Vec<Piece> = Vec::new();
        for index in self.geometry.touched(&region) {
            let kind = self.kind(index);
            let part = common(&self.geometry.span(index), &region);
            match pieces.last_mut() {
                Some(last) if last.kind == kind => last.region.end = part.end,
                _ => pieces.push(Piece { kind, region: part }),
            }
        }
        pieces
    }

    /// The parts of the region that are holes, each as long as it can be.
    pub fn holes(&self, region: Range<u64>) -> impl Iterator<Item = Range<u64>> {
        let pieces = self.pieces(region).into_iter();
        pieces
            .filter(|piece| piece.kind == Kind::Hole)
            .map(|piece| piece.region)
    }

    /// The first place from the offset on that is of the kind, or the size.
    pub fn seek(&self, offset: u64, kind: Kind) -> u64 {
        self.pieces(offset..self.size)
            .into_iter()
            .find(|piece| piece.kind == kind)
            .map_or(self.size, |piece| piece.region.start)
    }

    fn kind(&self, index: usize) -> Kind {
        match self.slots[index].block {
            Some(_) => Kind::Data,
            None => Kind::Hole,
        }
    }
}
