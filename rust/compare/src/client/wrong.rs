//! What can't be written: one thing wrong with a request that could be.

use std::fmt;

use super::record::{Layout, Part, Record};
use super::writing::{Maker, OPERATIONS_MAX, TAG_MAX};
use crate::wire;

/// In the order in which they are made, where there are several.
#[derive(Clone, Copy, Debug, PartialEq, Eq, PartialOrd, Ord)]
pub enum Wrong {
    Length,
    Operations,
    Rest,
    Tag,
    Number,
    Span,
    Stateid,
    Handle,
    BitmapWord,
    BitmapLength,
    StableHow,
    Flag,
    Count,
}

impl Wrong {
    pub const ALL: [Wrong; 13] = [
        Wrong::Length,
        Wrong::Operations,
        Wrong::Rest,
        Wrong::Tag,
        Wrong::Number,
        Wrong::Span,
        Wrong::Stateid,
        Wrong::Handle,
        Wrong::BitmapWord,
        Wrong::BitmapLength,
        Wrong::StableHow,
        Wrong::Flag,
        Wrong::Count,
    ];
}

impl fmt::Display for Wrong {
    fn fmt(&self, f: &mut fmt::Formatter) -> fmt::Result {
        f.write_str(match self {
            Wrong::Length => "length",
            Wrong::Operations => "operations",
            Wrong::Rest => "rest",
            Wrong::Tag => "tag",
            Wrong::Number => "number",
            Wrong::Span => "span",
            Wrong::Stateid => "stateid",
            Wrong::Handle => "handle",
            Wrong::BitmapWord => "bitmap's last word",
            Wrong::BitmapLength => "bitmap's length",
            Wrong::StableHow => "stable_how",
            Wrong::Flag => "boolean",
            Wrong::Count => "count",
        })
    }
}

/// Where a record's start, length and numbers are.
const START: usize = 1;
const LENGTH: usize = 2;
const NUMBERS: usize = 5;

impl Maker<'_> {
    /// Makes one thing wrong.
    pub fn spoil(&mut self, wrong: Wrong) {
        match wrong {
            Wrong::Length => {
                let more = self.random.pick(&[1, 1, 2, 3, 4, 5, 300]);
                self.overfill(more);
            }
            Wrong::Operations => {
                let more = self.random.pick(&[1, 1, 2, 88]);
                self.add_until(OPERATIONS_MAX + more);
            }
            Wrong::Rest => {
                let record = self.record();
                self.insert(record);
                self.rest = self.random.within(1..=9) as usize;
            }
            Wrong::Tag => {
                let length = TAG_MAX + self.random.pick(&[1, 2, 4, 1024]);
                self.tag = self.random.bytes(length);
            }
            Wrong::Number => self.unserved(),
            Wrong::Span => self.outside(),
            Wrong::Stateid => self.misfit(Part::Stateid, &[0, 4, 12, 15, 17, 32]),
            Wrong::Handle => self.misfit(Part::Handle, &[129, 130, 132, 160]),
            Wrong::BitmapWord => self.misfit(Part::Bitmap, &[1, 2, 3, 5, 7, 10, 15]),
            Wrong::BitmapLength => self.misfit(Part::Bitmap, &[17, 18, 20, 24, 128]),
            Wrong::StableHow => self.above(2),
            Wrong::Flag => self.above(1),
            Wrong::Count => self.above(u32::MAX.into()),
        }
    }

    /// Puts a record anywhere among the others.
    fn insert(&mut self, record: Record) {
        let place = self.random.below(self.records.len() as u64 + 1);
        self.records.insert(place as usize, record);
    }

    fn unserved(&mut self) {
        let served = |number: &u64| u32::try_from(*number).is_ok_and(|n| Layout::of(n).is_some());
        let mut record = self.record();
        let any = self.random.within(0..=80);
        let number = self.random.pick(&[
            any,
            any,
            wire::SEQUENCE.into(),
            72,
            wire::ILLEGAL.into(),
            record[0] + (1 << 32),
            u64::MAX,
        ]);
        record[0] = Some(number).filter(|n| !served(n)).unwrap_or_default();
        self.insert(record);
    }

    /// A span with its end past the data's, or with its start past it; often a WRITE's data.
    fn outside(&mut self) {
        if self.random.once_in(2) {
            return self.data_outside();
        }
        let (mut record, layout) = self.record_with(|layout| !layout.parts.is_empty());
        let span = self.random.below(layout.parts.len() as u64) as usize;
        let place = &mut record[START + 2 * span..][..2];
        let (data, length) = (self.data.len() as u64, place[1]);
        place[0] = self.random.pick(&[
            data - length + 1,
            data + 1,
            place[0] + (1 << 32),
            1 << 63,
            u64::MAX - length,
            0u64.wrapping_sub(length).max(data + 1),
            u64::MAX,
        ]);
        self.insert(record);
    }

    /// A WRITE whose data start inside and end outside, perhaps past 2^64.
    fn data_outside(&mut self) {
        let (mut record, _) = self.record_with(|layout| layout.number == wire::WRITE);
        let data = self.data.len() as u64;
        let start = self.random.within(0..=data);
        let least = data - start + 1;
        let wrapped = 0u64.wrapping_sub(start).max(least);
        let huge = [1 << 32, 1 << 63, wrapped, u64::MAX];
        let huge = self.random.pick(&huge);
        let length = self.random.pick(&[least, least + 3, huge, huge]);
        record[START + 2..][..2].copy_from_slice(&[start, length]);
        self.insert(record);
    }

    /// A span within the data that has a wrong length.
    fn misfit(&mut self, part: Part, lengths: &[u64]) {
        let (mut record, layout) = self.record_with(|layout| layout.parts.contains(&part));
        let spans = (0..layout.parts.len()).filter(|&span| layout.parts[span] == part);
        let span = self.random.pick(&spans.collect::<Vec<_>>());
        let length = self.random.pick(lengths);
        record[LENGTH + 2 * span] = length;
        record[START + 2 * span] = self.random.within(0..=self.data.len() as u64 - length);
        self.insert(record);
    }

    /// A number above what it can be.
    fn above(&mut self, most: u64) {
        let (mut record, layout) = self.record_with(|layout| layout.most.contains(&most));
        let numbers = (0..layout.most.len()).filter(|&number| layout.most[number] == most);
        let number = self.random.pick(&numbers.collect::<Vec<_>>());
        let wrapped = record[NUMBERS + number] + (1 << 32);
        record[NUMBERS + number] =
            self.random
                .pick(&[most + 1, most + 1, wrapped, 1 << 32, 1 << 63, u64::MAX]);
        self.insert(record);
    }
}
