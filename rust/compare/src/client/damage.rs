//! Replies of every operation and status, as they are and changed: at every byte, in their results,
//! and opened as the reply to another request.

use std::collections::BTreeMap;

use super::calls::Client;
use super::pair::{odd, Opening, Pair, Parted};
use super::rebuild::Read;
use super::replies::{refused, replies};
use super::serving::{serve_list, Sample};
use super::tally::{possible, ClientTally};
use crate::random::Random;
use crate::server::Server;
use crate::wire::{self, int, opaque};

/// So many lists meet every operation with every status.
const LISTS: u64 = 400;

/// A longer reply is changed only near the places of its results and pieces, and near its end.
const LONG: usize = 700;
const NEAR: usize = 14;

/// What each number of a reply is set to, besides numbers near its own.
const VALUES: [u32; 17] = [
    0,
    1,
    2,
    3,
    4,
    5,
    127,
    128,
    129,
    1023,
    1024,
    1025,
    1 << 30,
    1 << 31,
    u32::MAX - 7,
    u32::MAX - 3,
    u32::MAX,
];

/// Reads replies made by hand and those of a server, and all that becomes of them by a change.
pub fn try_replies(
    server: &dyn Server,
    clients: [&dyn Client; 2],
    tally: &mut ClientTally,
) -> Result<(), Box<Parted>> {
    let mut pair = Pair { clients, tally };
    for sample in refused() {
        let opening = sample.opening();
        if pair.read(opening)?.is_some() {
            return Err(odd(
                "a reply that opens with a value out of range",
                &opening,
            ));
        }
        ask_everywhere(&mut pair, &sample.reply)?;
    }
    let mut samples = replies();
    samples.extend(served(server, &mut pair)?);
    for (index, sample) in samples.iter().enumerate() {
        let results = pair.read(sample.opening())?;
        let results = results.ok_or_else(|| odd("a reply that doesn't open", &sample.opening()))?;
        let other = &samples[(index + 1) % samples.len()];
        ask_everywhere(&mut pair, &sample.reply)?;
        let mut subject = Subject::new(&mut pair, sample, &results);
        subject.change_bytes()?;
        subject.change_numbers()?;
        subject.change_results()?;
        subject.open_as_others(other)?;
    }
    Ok(())
}

/// The shortest replies of a server, for each operation with each status.
fn served(server: &dyn Server, pair: &mut Pair) -> Result<Vec<Sample>, Box<Parted>> {
    let mut shortest: BTreeMap<(u32, u32), Sample> = BTreeMap::new();
    for seed in 1..=LISTS {
        serve_list(seed, server, pair, |_, sample, results| {
            for read in results {
                let key = (read.told[0] as u32, read.told[1] as u32);
                let kept = shortest.get(&key);
                if kept.is_none_or(|kept| kept.reply.len() > sample.reply.len()) {
                    shortest.insert(key, sample.clone());
                }
            }
            Ok(())
        })?;
    }
    for (number, status) in possible() {
        if !shortest.contains_key(&(number, status)) {
            pair.tally.add_unchanged(number, status);
        }
    }
    let mut samples: Vec<Sample> = shortest.into_values().collect();
    samples.sort();
    samples.dedup();
    Ok(samples)
}

/// Results and pieces at each place, and at places past the end.
fn ask_everywhere(pair: &mut Pair, reply: &[u8]) -> Result<(), Box<Parted>> {
    let length = reply.len() as u64;
    let inside = 0..length.min(LONG as u64);
    let wrapped = inside.clone().map(|at| at + (1 << 32));
    let outside = (length..length + 9).chain([1 << 63, u64::MAX - 7, u64::MAX]);
    for at in inside.chain(wrapped).chain(outside) {
        pair.result(reply, at)?;
        pair.piece(reply, at)?;
    }
    Ok(())
}

/// A reply that opens, to be changed.
struct Subject<'a, 'b> {
    pair: &'a mut Pair<'b>,
    sample: &'a Sample,
    /// The places of results and pieces, and behind them.
    places: Vec<u64>,
    /// The numbers, statuses and bytes of the results.
    results: Vec<(u32, u32, &'a [u8])>,
}

impl<'a, 'b> Subject<'a, 'b> {
    fn new(pair: &'a mut Pair<'b>, sample: &'a Sample, read: &[Read]) -> Subject<'a, 'b> {
        let length = sample.reply.len() as u64;
        let tag = sample.tag.len().next_multiple_of(4);
        let mut at = 12 + tag;
        let mut places = vec![at as u64, length];
        let mut results = Vec::new();
        for result in read {
            let next = result.told[2] as usize;
            let bytes = &sample.reply[at..next];
            results.push((result.told[0] as u32, result.told[1] as u32, bytes));
            at = next;
            places.push(result.told[2]);
            let first = result.pieces.first().map(|_| result.told[5]);
            let others = result.pieces.iter().map(|piece| piece[4]);
            places.extend(first.into_iter().chain(others));
        }
        places.sort();
        places.dedup();
        Subject {
            pair,
            sample,
            places,
            results,
        }
    }

    fn status(&self) -> u32 {
        let status = self.sample.reply.first_chunk();
        u32::from_be_bytes(*status.expect("a status"))
    }

    /// The bytes that are changed one by one.
    fn bytes(&self) -> Vec<usize> {
        let all = 0..self.sample.reply.len();
        if all.len() <= LONG {
            return all.collect();
        }
        let near = |at: &usize| {
            let marks = self.places.iter().map(|&place| place as usize);
            marks.chain([0]).any(|mark| mark.abs_diff(*at) < NEAR)
        };
        all.filter(near).collect()
    }

    /// Reads changed bytes: the whole, and each place where something stood before.
    fn read(&mut self, reply: &[u8]) -> Result<(), Box<Parted>> {
        self.pair.read(Opening {
            reply,
            ..self.sample.opening()
        })?;
        for &place in &self.places {
            self.pair.result(reply, place)?;
            self.pair.piece(reply, place)?;
        }
        Ok(())
    }

    /// Each byte with each bit changed and with all; cut after each byte; up to four bytes longer.
    fn change_bytes(&mut self) -> Result<(), Box<Parted>> {
        let mut reply = self.sample.reply.clone();
        for at in self.bytes() {
            for mask in (0..8).map(|bit| 1 << bit).chain([255]) {
                reply[at] ^= mask;
                self.read(&reply)?;
                reply[at] ^= mask;
            }
            self.read(&reply[..at])?;
        }
        for fill in [0, 255] {
            for more in 1..=4 {
                self.read(&[&reply[..], &vec![fill; more]].concat())?;
            }
        }
        Ok(())
    }

    /// Each number with another value, left out, and with a zero before it.
    fn change_numbers(&mut self) -> Result<(), Box<Parted>> {
        let mut reply = self.sample.reply.clone();
        let bytes = self.bytes().into_iter();
        let starts: Vec<usize> = bytes.filter(|at| at.is_multiple_of(4)).collect();
        for at in starts {
            let (before, after) = self.sample.reply.split_at(at);
            let (word, rest) = after.split_first_chunk().expect("four bytes");
            let old = u32::from_be_bytes(*word);
            let near = (1..=4).flat_map(|step| [old.wrapping_add(step), old.wrapping_sub(step)]);
            for value in VALUES.into_iter().chain(near) {
                reply[at..at + 4].copy_from_slice(&value.to_be_bytes());
                self.read(&reply)?;
            }
            reply[at..at + 4].copy_from_slice(word);
            self.read(&[before, rest].concat())?;
            self.read(&[before, &[0; 4], after].concat())?;
        }
        Ok(())
    }

    /// A result left out, repeated, exchanged with the next one, or one more; with the right count
    /// and with others, the right status and the old one, for the same request and for one with the
    /// operations of these results.
    fn change_results(&mut self) -> Result<(), Box<Parted>> {
        let count = self.results.len();
        let handle = [int(wire::GETFH), int(0), opaque(&[3; 4])].concat();
        let failed = [int(wire::READ), int(10025)].concat();
        let bare = [int(wire::PUTFH), int(0)].concat();
        let mut lists = vec![self.results.clone()];
        for more in [
            (wire::GETFH, 0, &handle[..]),
            (wire::READ, 10025, &failed),
            (wire::PUTFH, 0, &bare),
        ] {
            lists.push([&self.results[..], &[more]].concat());
            lists.push([&[more], &self.results[..]].concat());
        }
        for at in 0..count {
            let (before, after) = self.results.split_at(at);
            lists.push([before, &after[1..]].concat());
            lists.push([before, &after[..1], after].concat());
            let mut swapped = self.results.clone();
            swapped.swap(at, (at + 1) % count);
            lists.push(swapped);
        }
        for list in lists {
            self.read_list(&list)?;
        }
        Ok(())
    }

    fn read_list(&mut self, list: &[(u32, u32, &[u8])]) -> Result<(), Box<Parted>> {
        let numbers: Vec<u32> = list.iter().map(|result| result.0).collect();
        let longer = [&numbers[..], &[wire::GETFH]].concat();
        let results: Vec<&[u8]> = list.iter().map(|result| result.2).collect();
        let results = results.concat();
        let last = list.last().map_or(0, |last| last.1);
        let right = list.len() as u32;
        for status in [last, self.status(), 0, 28] {
            for count in [right, right + 1, right.wrapping_sub(1), 1 << 31] {
                let header = [int(status), opaque(&self.sample.tag), int(count)].concat();
                let reply = [header, results.clone()].concat();
                for numbers in [&numbers, &longer, &self.sample.numbers] {
                    self.pair.read(Opening {
                        tag: &self.sample.tag,
                        numbers,
                        reply: &reply,
                    })?;
                }
            }
        }
        Ok(())
    }

    /// With other tags and other operation numbers, those of another reply among them.
    fn open_as_others(&mut self, other: &Sample) -> Result<(), Box<Parted>> {
        for tag in tags(&self.sample.tag).iter().chain([&other.tag]) {
            self.open_as(tag, &self.sample.numbers)?;
        }
        for numbers in numbers(&self.sample.numbers).iter().chain([&other.numbers]) {
            self.open_as(&self.sample.tag, numbers)?;
        }
        self.open_as(&other.tag, &other.numbers)
    }

    /// Opens the reply as it is; by its tag and its numbers alone it is one to that request or not.
    fn open_as(&mut self, tag: &[u8], numbers: &[u32]) -> Result<(), Box<Parted>> {
        let reply = &self.sample.reply[..];
        let opening = Opening {
            tag,
            numbers,
            reply,
        };
        let opens = self.pair.read(opening)?.is_some();
        let answered: Vec<u32> = self.results.iter().map(|result| result.0).collect();
        let follow = match self.status() {
            0 => numbers == answered,
            _ => numbers.starts_with(&answered),
        };
        match opens == (tag == self.sample.tag && follow) {
            true => Ok(()),
            false => Err(odd("a reply opened, or not, as another's", &opening)),
        }
    }
}

/// Reads a reply changed at up to three places.
pub fn read_changed(
    pair: &mut Pair,
    sample: &Sample,
    random: &mut Random,
) -> Result<(), Box<Parted>> {
    let mut reply = sample.reply.clone();
    for _ in 0..random.within(1..=3) {
        let at = random.below(reply.len() as u64 + 1) as usize;
        let word = at - at % 4;
        let value = random.pick(&VALUES).to_be_bytes();
        let next = (word + 4).min(reply.len());
        match random.below(6) {
            0 => reply.truncate(at),
            1 => drop(reply.drain(word..next)),
            2 => drop(reply.splice(word..word, value)),
            3 => drop(reply.splice(word..next, value)),
            _ => {
                let flipped = reply.get_mut(at).into_iter();
                flipped.for_each(|byte| *byte ^= 1 << random.below(8));
            }
        }
    }
    pair.read(Opening {
        reply: &reply,
        ..sample.opening()
    })?;
    Ok(())
}

/// Tags that differ in one bit or in length.
fn tags(tag: &[u8]) -> Vec<Vec<u8>> {
    let mut tags = vec![
        vec![],
        [tag, &[0]].concat(),
        [tag, tag].concat(),
        vec![0; 1025],
    ];
    tags.push(tag[..tag.len().saturating_sub(1)].to_vec());
    let ends = (0..tag.len()).filter(|at| *at < 8 || *at + 8 > tag.len());
    tags.extend(ends.map(|at| {
        let mut changed = tag.to_vec();
        changed[at] ^= 1;
        changed
    }));
    tags
}

/// Lists of numbers that are shorter or longer, in another order, or that differ in one number.
fn numbers(numbers: &[u32]) -> Vec<Vec<u32>> {
    let mut lists = vec![vec![], numbers.repeat(2)];
    for more in [0, wire::GETFH, wire::PUTFH, u32::MAX] {
        lists.push([numbers, &[more]].concat());
        lists.push([&[more], numbers].concat());
    }
    for at in 0..numbers.len() {
        lists.push(numbers[..at].to_vec());
        lists.push(numbers[at..].to_vec());
        lists.push([&numbers[..at], &numbers[at + 1..]].concat());
        for change in [1, 1 << 31] {
            let mut changed = numbers.to_vec();
            changed[at] ^= change;
            lists.push(changed);
        }
        let mut swapped = numbers.to_vec();
        swapped.swap(at, (at + 1) % numbers.len());
        lists.push(swapped);
    }
    lists
}
