//! The attributes that GETATTR answers, by RFC 5661 and RFC 7862.

use crate::geometry::Geometry;
use crate::store::{decoded, holders, Store};
use crate::xdr::Writer;

#[derive(Clone, Copy)]
enum Attribute {
    SupportedAttrs = 0,
    Size = 4,
    SpaceUsed = 45,
    CloneBlksize = 77,
    SpaceFreed = 78,
}

impl Attribute {
    /// In rising order.
    const ALL: [Attribute; 5] = [
        Attribute::SupportedAttrs,
        Attribute::Size,
        Attribute::SpaceUsed,
        Attribute::CloneBlksize,
        Attribute::SpaceFreed,
    ];

    /// Its word and its bit in a bitmap.
    fn place(self) -> (usize, u32) {
        let number = self as usize;
        (number / 32, 1 << (number % 32))
    }

    fn is_in(self, bitmap: &[u32]) -> bool {
        let (word, bit) = self.place();
        bitmap.get(word).is_some_and(|word| word & bit != 0)
    }
}

/// The bitmap of attributes in rising order. The last one's word is the last, so it isn't zero.
fn bitmap(attributes: &[Attribute]) -> Vec<u32> {
    let mut words = Vec::new();
    for attribute in attributes {
        let (word, bit) = attribute.place();
        words.resize(word + 1, 0);
        words[word] |= bit;
    }
    words
}

/// One file, to be asked for its attributes.
pub(crate) struct Gauge<'a> {
    pub geometry: &'a Geometry,
    pub store: &'a Store,
    pub file: usize,
}

impl Gauge<'_> {
    /// Writes which of the attributes asked for there are, and their values.
    pub fn answer(&self, asked: &[u32], body: &mut Writer) {
        let mut found = Attribute::ALL.to_vec();
        found.retain(|attribute| attribute.is_in(asked));
        let mut values = Writer::default();
        for &attribute in &found {
            self.value(attribute, &mut values);
        }
        body.words(&bitmap(&found));
        body.opaque(&values.into_bytes());
    }

    fn value(&self, attribute: Attribute, values: &mut Writer) {
        let block_size = self.geometry.block_size;
        match attribute {
            Attribute::SupportedAttrs => values.words(&bitmap(&Attribute::ALL)),
            Attribute::Size => values.u64(self.store.sizes[self.file]),
            Attribute::SpaceUsed => values.u64(block_size * self.charged()),
            Attribute::CloneBlksize => values.u32(block_size as u32),
            Attribute::SpaceFreed => values.u64(block_size * self.freed()),
        }
    }

    /// The slots that hold a block or are reserved.
    fn charged(&self) -> u64 {
        let slots = self.store.slots_of(self.geometry, self.file);
        let charged = slots.filter(|slot| slot.block.is_some() || slot.reserved);
        charged.count() as u64
    }

    /// The blocks that no other file holds, and the owed slots.
    fn freed(&self) -> u64 {
        let blocks = self.geometry.blocks;
        let slots = self.store.slots_of(self.geometry, self.file);
        let here = holders(slots.clone(), blocks);
        let anywhere = holders(decoded(&self.store.words), blocks);
        let both = here.iter().zip(&anywhere);
        let alone = both.filter(|(here, anywhere)| **here > 0 && here == anywhere);
        let owed = slots.filter(|slot| slot.is_owed(&anywhere));
        (alone.count() + owed.count()) as u64
    }
}
