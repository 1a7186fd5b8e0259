//! Requests of a seed, written from random records.

use second::REQUEST_MAX;

use super::pair::{odd, Pair, Parted, Writing};
use super::record::{part, Layout, Part, Record, Walk, LAYOUTS, LONG, STATEID_LENGTH};
use super::tally::ClientTally;
use super::wrong::Wrong;
use super::Client;
use crate::random::Random;
use crate::wire;

pub const OPERATIONS_MAX: usize = 12;
pub const TAG_MAX: usize = 1024;

/// A buffer that is long enough for any request.
const BUFFER: usize = REQUEST_MAX + 20;

/// How many requests a seed has.
const REQUESTS: u64 = 10;

/// The least data, so that each operation finds its bytes and each wrong length.
const DATA_MIN: u64 = 160;

/// Writes the requests of a seed to buffers of several lengths.
pub fn try_requests(
    seed: u64,
    clients: [&dyn Client; 2],
    tally: &mut ClientTally,
) -> Result<(), Box<Parted>> {
    let mut pair = Pair { clients, tally };
    let mut random = Random::new(seed.rotate_left(32));
    for _ in 0..REQUESTS {
        let maker = Maker::new(&mut random);
        match maker.random.below(10) {
            0..=4 => try_written(&mut pair, maker)?,
            5..=8 => try_refused(&mut pair, maker, 1)?,
            _ => try_refused(&mut pair, maker, 3)?,
        }
    }
    Ok(())
}

/// A request that can be written, to buffers that are long enough and to some that aren't.
fn try_written(pair: &mut Pair, mut maker: Maker) -> Result<(), Box<Parted>> {
    match maker.random.below(16) {
        0 => {
            let less = maker.random.below(4);
            maker.fill(less);
        }
        1 => maker.add_until(OPERATIONS_MAX),
        2 => maker.start_with_little(),
        _ => {}
    }
    let more = maker.random.within(1..=70) as usize;
    let any = maker.random.any() as usize;
    let writing = maker.writing();
    let request = pair.write(&writing, BUFFER, 0)?;
    if !reads_back(&writing, &request) {
        return Err(odd("a request that isn't what was written", &writing));
    }
    let length = request.len();
    pair.tally.longest += u64::from(length == REQUEST_MAX);
    for longer in [length, length + 1, length + more] {
        if pair.write(&writing, longer, 0)? != request {
            return Err(odd("another request to another buffer", &writing));
        }
    }
    for shorter in [length - 1, any % length, 0] {
        pair.write(&writing, shorter, 9)?;
    }
    Ok(())
}

/// A request with so many things wrong, to any buffer.
fn try_refused(pair: &mut Pair, mut maker: Maker, count: usize) -> Result<(), Box<Parted>> {
    let mut wrong = vec![Wrong::Tag; count];
    wrong.fill_with(|| maker.random.pick(&Wrong::ALL));
    wrong.sort();
    wrong.iter().for_each(|&wrong| maker.spoil(wrong));
    let any = maker.random.below(2000) as usize;
    let writing = maker.writing();
    for length in [BUFFER, any, 12, 0] {
        pair.write(&writing, length, 11)?;
    }
    if let [wrong] = wrong[..] {
        pair.tally.add_wrong(wrong);
    }
    Ok(())
}

/// Whether a request decodes to the tag and the operations that it was written from.
fn reads_back(writing: &Writing, request: &[u8]) -> bool {
    let mut walk = Walk::new(request, 0);
    let header = |walk: &mut Walk| Some((walk.opaque()?, walk.int()?, walk.int()?));
    let Some(([start, length], minor, count)) = header(&mut walk) else {
        return false;
    };
    let tag = &request[start as usize..][..length as usize];
    let (records, []) = writing.records.as_chunks::<10>() else {
        return false;
    };
    let mut same = records.iter().map(|record| {
        let read = walk.operation();
        read.is_some_and(|read| same_operation((record, &writing.data), (&read, request)))
    });
    tag == writing.tag
        && [minor, count] == [2, records.len() as u32]
        && same.all(|same| same)
        && walk.is_at_end()
}

/// Whether two records have the same operation, each with its data.
fn same_operation(left: (&Record, &[u8]), right: (&Record, &[u8])) -> bool {
    let Some(layout) = Layout::of(left.0[0] as u32) else {
        return false;
    };
    let bytes =
        |(record, data): (&Record, &[u8]), span| part(record, span, data).map(<[u8]>::to_vec);
    let numbers = |record: &Record| record[5..][..layout.most.len()].to_vec();
    left.0[0] == right.0[0]
        && numbers(left.0) == numbers(right.0)
        && (0..layout.parts.len()).all(|span| bytes(left, span) == bytes(right, span))
}

/// A request in the making, which can be written until something is made wrong.
pub struct Maker<'a> {
    pub random: &'a mut Random,
    pub tag: Vec<u8>,
    pub records: Vec<Record>,
    /// How many numbers are missing of the last record, or stand behind it where that is odd.
    pub rest: usize,
    pub data: Vec<u8>,
}

impl<'a> Maker<'a> {
    pub fn new(random: &'a mut Random) -> Maker<'a> {
        let tag = match random.below(16) {
            0 => random.within(TAG_MAX as u64 - 3..=TAG_MAX as u64),
            1..=9 => random.below(14),
            _ => 0,
        };
        let length = random.within(DATA_MIN..=1500);
        let mut maker = Maker {
            tag: random.bytes(tag as usize),
            records: Vec::new(),
            rest: 0,
            data: random.bytes(length as usize),
            random,
        };
        let most = maker.random.pick(&[3, 6, OPERATIONS_MAX as u64 - 1]);
        let count = maker.random.within(0..=most);
        maker.add_until(count as usize);
        maker
    }

    fn writing(self) -> Writing {
        let mut records = self.records.concat();
        match self.rest % 2 {
            0 => records.truncate(records.len() - self.rest),
            _ => records.extend(vec![10; self.rest]),
        }
        Writing {
            tag: self.tag,
            records,
            data: self.data,
        }
    }

    pub fn record(&mut self) -> Record {
        let room = self.data.len() >= STATEID_LENGTH;
        let fits = |layout: &Layout| room || !layout.parts.contains(&Part::Stateid);
        self.record_with(fits).0
    }

    /// An operation of those that have what is asked for.
    pub fn record_with(&mut self, has: impl Fn(&Layout) -> bool) -> (Record, &'static Layout) {
        let layouts: Vec<&Layout> = LAYOUTS.iter().filter(|layout| has(layout)).collect();
        let layout = self.random.pick(&layouts);
        (self.record_of(layout), layout)
    }

    pub fn add_until(&mut self, count: usize) {
        while self.records.len() < count {
            let record = self.record();
            self.records.push(record);
        }
    }

    /// Starts again with less data than a stateid has.
    fn start_with_little(&mut self) {
        let length = self.random.below(STATEID_LENGTH as u64);
        self.data.truncate(length as usize);
        self.records.clear();
        let count = self.random.below(OPERATIONS_MAX as u64 + 1);
        self.add_until(count as usize);
    }

    /// An operation that can be written; what it doesn't have is anything.
    pub fn record_of(&mut self, layout: &Layout) -> Record {
        let mut record = [(); 10].map(|()| self.anything());
        record[0] = layout.number.into();
        for (place, &part) in record[1..5].chunks_mut(2).zip(layout.parts) {
            let length = self.length(part);
            let room = self.data.len() as u64 - length;
            let any = self.random.within(0..=room);
            place.copy_from_slice(&[self.random.pick(&[0, any, any, room]), length]);
        }
        for (place, &most) in record[5..].iter_mut().zip(layout.most) {
            let any = self.random.any();
            let value = match most {
                LONG => any,
                most => any % (most + 1),
            };
            *place = self.random.pick(&[0, 1, value, value, most]);
        }
        record
    }

    fn anything(&mut self) -> u64 {
        let any = self.random.any();
        self.random.pick(&[0, 1, 16, any, u64::MAX])
    }

    /// How long a span is; not longer than the data.
    fn length(&mut self, part: Part) -> u64 {
        let (any, most) = (self.random.below(150), self.data.len() as u64);
        let handle = [0, 1, 2, 3, 4, 4, 5, 127, 128, any % 129];
        match part {
            Part::Bitmap => 4 * self.random.below(5).min(most / 4),
            Part::Handle => self.random.pick(&handle).min(most),
            Part::Stateid => STATEID_LENGTH as u64,
            Part::Data => self.random.pick(&[0, 1, 2, 3, 4, 5, any, any]),
        }
    }

    /// How long the request is.
    fn size(&self) -> usize {
        let opaque = |length: usize| 4 + length.next_multiple_of(4);
        let operation = |record: &Record| {
            let layout = Layout::of(record[0] as u32).expect("an operation that is served");
            let parts = layout.parts.iter().zip(record[2..].iter().step_by(2));
            let parts = parts.map(|(part, &length)| match part {
                Part::Stateid => STATEID_LENGTH,
                _ => opaque(length as usize),
            });
            let numbers = layout
                .most
                .iter()
                .map(|most| if *most == LONG { 8 } else { 4 });
            let servers = if layout.number == wire::COPY { 4 } else { 0 };
            4 + parts.sum::<usize>() + numbers.sum::<usize>() + servers
        };
        let operations: usize = self.records.iter().map(operation).sum();
        opaque(self.tag.len()) + 8 + operations
    }

    /// Adds a WRITE with as much data as a request has room for, or up to three bytes less.
    fn fill(&mut self, less: u64) {
        self.add_write();
        let room = REQUEST_MAX - self.size();
        self.resize_write(room as u64 - less);
    }

    /// Adds a WRITE with more data than a request has room for.
    pub fn overfill(&mut self, more: u64) {
        self.add_write();
        let room = REQUEST_MAX.saturating_sub(self.size());
        self.resize_write(room as u64 + more);
    }

    /// A last WRITE of no bytes.
    fn add_write(&mut self) {
        let layout = Layout::of(wire::WRITE).expect("WRITE's layout");
        let mut write = self.record_of(layout);
        write[3..5].copy_from_slice(&[0, 0]);
        self.records.push(write);
    }

    fn resize_write(&mut self, length: u64) {
        let missing = (length as usize).saturating_sub(self.data.len());
        let more = self.random.below(20) as usize;
        let bytes = self.random.bytes(missing + more);
        self.data.extend(bytes);
        if let Some(write) = self.records.last_mut() {
            write[4] = length;
        }
    }
}
