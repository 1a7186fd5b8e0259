//! A reply made again of what was told of it: bytes that are opened have no other form.

use crate::wire::{self, long};

/// A result as it was told, and the pieces of a READ_PLUS.
pub struct Read {
    pub told: [u64; 10],
    pub pieces: Vec<[u64; 5]>,
}

/// The reply with these results, whose starts are places of `reply`; nothing where a part of it lies
/// outside.
pub fn rebuilt(status: u64, tag: &[u8], results: &[Read], reply: &[u8]) -> Option<Vec<u8>> {
    let header = [int(status), wire::opaque(tag), int(results.len() as u64)];
    let mut bytes = header.concat();
    for read in results {
        let [number, status, next, values @ ..] = read.told;
        bytes.extend([int(number), int(status)].concat());
        let body = match status {
            0 => body(number as u32, values, read, reply)?,
            _ => Vec::new(),
        };
        bytes.extend(body);
        let unused = &values[used(number as u32, status)..];
        if next != bytes.len() as u64 || unused.iter().any(|&value| value != 0) {
            return None;
        }
    }
    Some(bytes)
}

fn int(value: u64) -> Vec<u8> {
    wire::int(value as u32)
}

fn body(number: u32, values: [u64; 7], read: &Read, reply: &[u8]) -> Option<Vec<u8>> {
    let part = |at: usize| part(reply, values[at], values[at + 1]);
    let stored = || Some([int(values[1]), part(2)?.to_vec()].concat());
    Some(match number {
        wire::GETATTR => {
            let words = part(0)?;
            let count = int(words.len() as u64 / 4);
            [&count, words, &wire::opaque(part(2)?)].concat()
        }
        wire::GETFH => wire::opaque(part(0)?),
        wire::READ => [int(values[0]), wire::opaque(part(1)?)].concat(),
        wire::WRITE => [int(values[0]), stored()?].concat(),
        wire::COPY => {
            let flags = [int(values[4]), int(values[5])].concat();
            [int(0), long(values[0]), stored()?, flags].concat()
        }
        wire::READ_PLUS => {
            let pieces = read.pieces.iter().map(|told| piece(told, reply));
            let pieces = pieces.collect::<Option<Vec<_>>>()?.concat();
            [int(values[0]), int(values[1]), pieces].concat()
        }
        wire::SEEK => [int(values[0]), long(values[1])].concat(),
        _ => Vec::new(),
    })
}

fn piece(told: &[u64; 5], reply: &[u8]) -> Option<Vec<u8>> {
    let [kind, offset, length, start, _] = *told;
    let rest = match kind {
        0 => wire::opaque(part(reply, start, length)?),
        _ => long(length),
    };
    Some([int(kind), long(offset), rest].concat())
}

fn part(reply: &[u8], start: u64, length: u64) -> Option<&[u8]> {
    reply.get(start as usize..)?.get(..length as usize)
}

/// How many values are told of a result; those behind them are 0.
fn used(number: u32, status: u64) -> usize {
    match number {
        _ if status != 0 => 0,
        wire::GETATTR | wire::WRITE => 4,
        wire::GETFH | wire::SEEK => 2,
        wire::READ | wire::READ_PLUS => 3,
        wire::COPY => 6,
        _ => 0,
    }
}
