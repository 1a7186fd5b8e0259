//! The fields of the operations: what they take of a record, and how they stand in a request.

use crate::wire;

/// An operation as ten numbers: its number, start and length of two spans, five numbers.
pub type Record = [u64; 10];

/// The bytes of a span.
#[derive(Clone, Copy, Debug, PartialEq, Eq)]
pub enum Part {
    /// Words with their number before them.
    Bitmap,
    /// Bytes with their length before them.
    Handle,
    Stateid,
    /// Bytes with their length before them, behind all other fields.
    Data,
}

pub const STATEID_LENGTH: usize = 16;

/// A number of 64 bits; all others have 32 bits.
pub const LONG: u64 = u64::MAX;
const INT: u64 = u32::MAX as u64;

/// The spans of an operation, and the largest of each of its numbers.
pub struct Layout {
    pub number: u32,
    pub parts: &'static [Part],
    pub most: &'static [u64],
}

const fn layout(number: u32, parts: &'static [Part], most: &'static [u64]) -> Layout {
    Layout {
        number,
        parts,
        most,
    }
}

pub const LAYOUTS: [Layout; 13] = [
    layout(wire::GETATTR, &[Part::Bitmap], &[]),
    layout(wire::GETFH, &[], &[]),
    layout(wire::PUTFH, &[Part::Handle], &[]),
    layout(wire::READ, &[Part::Stateid], &[LONG, INT]),
    layout(wire::RESTOREFH, &[], &[]),
    layout(wire::SAVEFH, &[], &[]),
    layout(wire::WRITE, &[Part::Stateid, Part::Data], &[LONG, 2]),
    layout(wire::ALLOCATE, &[Part::Stateid], &[LONG, LONG]),
    layout(
        wire::COPY,
        &[Part::Stateid, Part::Stateid],
        &[LONG, LONG, LONG, 1, 1],
    ),
    layout(wire::DEALLOCATE, &[Part::Stateid], &[LONG, LONG]),
    layout(wire::READ_PLUS, &[Part::Stateid], &[LONG, INT]),
    layout(wire::SEEK, &[Part::Stateid], &[LONG, INT]),
    layout(
        wire::CLONE,
        &[Part::Stateid, Part::Stateid],
        &[LONG, LONG, LONG],
    ),
];

impl Layout {
    pub fn of(number: u32) -> Option<&'static Layout> {
        LAYOUTS.iter().find(|layout| layout.number == number)
    }
}

/// The bytes of a record's span.
pub fn part<'a>(record: &Record, span: usize, data: &'a [u8]) -> Option<&'a [u8]> {
    let [start, length] = [record[1 + 2 * span], record[2 + 2 * span]];
    data.get(start as usize..)?.get(..length as usize)
}

/// Reads the operations of requests; the spans of the records are parts of the bytes read.
pub struct Walk<'a> {
    bytes: &'a [u8],
    at: usize,
}

impl<'a> Walk<'a> {
    pub fn new(bytes: &'a [u8], at: usize) -> Walk<'a> {
        Walk { bytes, at }
    }

    pub fn is_at_end(&self) -> bool {
        self.at == self.bytes.len()
    }

    fn take(&mut self, length: usize) -> Option<&'a [u8]> {
        let taken = self.bytes.get(self.at..)?.get(..length)?;
        self.at += length;
        Some(taken)
    }

    pub fn int(&mut self) -> Option<u32> {
        let bytes = self.take(4)?.first_chunk()?;
        Some(u32::from_be_bytes(*bytes))
    }

    fn long(&mut self) -> Option<u64> {
        let bytes = self.take(8)?.first_chunk()?;
        Some(u64::from_be_bytes(*bytes))
    }

    /// Bytes and the zeros behind them.
    fn span(&mut self, length: usize) -> Option<[u64; 2]> {
        let start = self.at;
        self.take(length)?;
        let pad = self.take(length.next_multiple_of(4) - length)?;
        let zeros = pad.iter().all(|&byte| byte == 0);
        zeros.then_some([start as u64, length as u64])
    }

    /// The place and length of bytes with their length before them.
    pub fn opaque(&mut self) -> Option<[u64; 2]> {
        let length = self.int()?;
        self.span(length as usize)
    }

    fn part(&mut self, part: Part) -> Option<[u64; 2]> {
        match part {
            Part::Bitmap => {
                let words = self.int().filter(|words| *words <= 4)?;
                self.span(4 * words as usize)
            }
            Part::Handle => self.opaque().filter(|span| span[1] <= 128),
            Part::Stateid => self.span(STATEID_LENGTH),
            Part::Data => self.opaque(),
        }
    }

    fn number(&mut self, most: u64) -> Option<u64> {
        match most {
            LONG => self.long(),
            _ => self.int().map(u64::from).filter(|number| *number <= most),
        }
    }

    /// The next operation, where it is one that is served and decodes.
    pub fn operation(&mut self) -> Option<Record> {
        let layout = Layout::of(self.int()?)?;
        let mut record = [0; 10];
        record[0] = layout.number.into();
        let (last, parts) = match layout.parts.split_last() {
            Some((Part::Data, parts)) => (Some(Part::Data), parts),
            _ => (None, layout.parts),
        };
        for (place, &part) in record[1..5].chunks_mut(2).zip(parts) {
            place.copy_from_slice(&self.part(part)?);
        }
        for (place, &most) in record[5..].iter_mut().zip(layout.most) {
            *place = self.number(most)?;
        }
        if let Some(part) = last {
            record[3..5].copy_from_slice(&self.part(part)?);
        }
        let servers = match layout.number {
            wire::COPY => self.int()?,
            _ => 0,
        };
        (servers == 0).then_some(record)
    }
}
