//! Operations, and the request written from them.

use std::ops::Range;

use crate::calls;
use crate::Refused;

/// Where bytes stand in the data that is lent with a request.
#[derive(Clone, Copy, Debug, PartialEq, Eq)]
pub struct Span {
    pub start: u64,
    pub len: u64,
}

impl From<Range<usize>> for Span {
    fn from(range: Range<usize>) -> Span {
        Span {
            start: range.start as u64,
            len: range.len() as u64,
        }
    }
}

/// An operation, its bytes as spans of the data.
#[derive(Clone, Copy, Debug, PartialEq, Eq)]
pub enum Operation {
    /// With the bitmap's words, four bytes each with the highest first.
    GetAttr(Span),
    GetFh,
    /// With the handle.
    PutFh(Span),
    Read(Look),
    RestoreFh,
    SaveFh,
    Write(Write),
    Allocate(Region),
    Copy {
        transfer: Transfer,
        consecutive: bool,
        synchronous: bool,
    },
    Deallocate(Region),
    ReadPlus(Look),
    /// With what to look for as the count: data 0, a hole 1.
    Seek(Look),
    Clone(Transfer),
}

/// What READ, READ_PLUS and SEEK ask for.
#[derive(Clone, Copy, Debug, PartialEq, Eq)]
pub struct Look {
    pub stateid: Span,
    pub offset: u64,
    pub count: u32,
}

#[derive(Clone, Copy, Debug, PartialEq, Eq)]
pub struct Write {
    pub stateid: Span,
    pub data: Span,
    pub offset: u64,
    pub stable_how: u32,
}

/// The region of ALLOCATE and DEALLOCATE.
#[derive(Clone, Copy, Debug, PartialEq, Eq)]
pub struct Region {
    pub stateid: Span,
    pub offset: u64,
    pub length: u64,
}

/// What COPY and CLONE ask for.
#[derive(Clone, Copy, Debug, PartialEq, Eq)]
pub struct Transfer {
    pub source_stateid: Span,
    pub target_stateid: Span,
    pub source_offset: u64,
    pub target_offset: u64,
    pub count: u64,
}

/// An operation as the archive takes it: number, two spans, five numbers; what it has not is 0.
pub type Record = [u64; 10];

fn record(number: u64, spans: &[Span], numbers: &[u64]) -> Record {
    let mut record = [0; 10];
    record[0] = number;
    for (place, span) in record[1..5].chunks_mut(2).zip(spans) {
        place.copy_from_slice(&[span.start, span.len]);
    }
    record[5..][..numbers.len()].copy_from_slice(numbers);
    record
}

impl Operation {
    /// The operation's number.
    pub fn number(&self) -> u32 {
        match self {
            Operation::GetAttr(_) => 9,
            Operation::GetFh => 10,
            Operation::PutFh(_) => 22,
            Operation::Read(_) => 25,
            Operation::RestoreFh => 31,
            Operation::SaveFh => 32,
            Operation::Write(_) => 38,
            Operation::Allocate(_) => 59,
            Operation::Copy { .. } => 60,
            Operation::Deallocate(_) => 62,
            Operation::ReadPlus(_) => 68,
            Operation::Seek(_) => 69,
            Operation::Clone(_) => 71,
        }
    }

    pub fn record(&self) -> Record {
        let number = self.number().into();
        match *self {
            Operation::GetFh | Operation::RestoreFh | Operation::SaveFh => record(number, &[], &[]),
            Operation::GetAttr(span) | Operation::PutFh(span) => record(number, &[span], &[]),
            Operation::Read(look) | Operation::ReadPlus(look) | Operation::Seek(look) => {
                let numbers = [look.offset, look.count.into()];
                record(number, &[look.stateid], &numbers)
            }
            Operation::Write(write) => {
                let spans = [write.stateid, write.data];
                record(number, &spans, &[write.offset, write.stable_how.into()])
            }
            Operation::Allocate(region) | Operation::Deallocate(region) => {
                record(number, &[region.stateid], &[region.offset, region.length])
            }
            Operation::Copy {
                transfer,
                consecutive,
                synchronous,
            } => transfer.record(number, &[consecutive.into(), synchronous.into()]),
            Operation::Clone(transfer) => transfer.record(number, &[]),
        }
    }
}

impl Transfer {
    fn record(&self, number: u64, flags: &[u64]) -> Record {
        let spans = [self.source_stateid, self.target_stateid];
        let numbers = [self.source_offset, self.target_offset, self.count];
        record(number, &spans, &[&numbers[..], flags].concat())
    }
}

/// Writes the request to the buffer's start; its length, or refusal 9 or 11.
pub fn write_request(
    tag: &[u8],
    operations: &[Operation],
    data: &[u8],
    request: &mut [u8],
) -> Result<usize, Refused> {
    let records: Vec<u64> = operations.iter().flat_map(Operation::record).collect();
    let answer = calls::write_request(tag, &records, data, request);
    match answer.number {
        0 => Ok(answer.told[0] as usize),
        number => Err(Refused(number)),
    }
}
