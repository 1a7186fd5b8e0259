//! Replies that XDR allows, with values that our server doesn't answer too.

use super::record::LAYOUTS;
use super::serving::Sample;
use crate::wire::{self, int, long, opaque};

const VERIFIER: [u8; 8] = [1, 2, 3, 4, 5, 6, 7, 8];

/// The statuses of failed operations, and some that nobody has named.
const STATUSES: [u32; 16] = [
    1,
    6,
    22,
    27,
    28,
    70,
    10001,
    10004,
    10020,
    10025,
    10036,
    10044,
    10064,
    10090,
    1 << 31,
    u32::MAX,
];

/// Numbers that have no layout for an OK.
const UNSERVED: [u32; 6] = [0, 53, 70, 72, wire::ILLEGAL, u32::MAX];

pub fn replies() -> Vec<Sample> {
    let mut samples = Vec::new();
    for (number, body) in bodies() {
        samples.push(sample(b"", 0, &[(number, 0, body.clone())], &[]));
        let results = [(wire::PUTFH, 0, vec![]), (number, 0, body), getfh()];
        samples.push(sample(b"where", 0, &results, &[]));
    }
    let served = LAYOUTS.iter().map(|layout| layout.number);
    for number in served.chain(UNSERVED) {
        for status in STATUSES {
            let failed = (number, status, vec![]);
            samples.push(sample(b"", status, std::slice::from_ref(&failed), &[]));
            samples.push(sample(b"ab", status, &[getfh(), failed], &[wire::READ; 2]));
        }
    }
    for status in [0, 1, 10021, 10070, u32::MAX] {
        let more: &[u32] = if status == 0 { &[] } else { &[wire::GETFH; 13] };
        samples.push(sample(b"abc", status, &[], more));
    }
    samples.push(sample(b"", 0, &vec![getfh(); 20], &[]));
    for length in [4, 1021, 1024] {
        samples.push(sample(&vec![b't'; length], 0, &[getfh()], &[]));
    }
    samples
}

/// Replies with one value out of range each, all else as it should be.
pub fn refused() -> Vec<Sample> {
    let mut samples = Vec::new();
    for (number, body) in bodies_out_of_range() {
        samples.push(sample(b"", 0, &[(number, 0, body.clone())], &[]));
        let results = [getfh(), (number, 0, body), getfh()];
        samples.push(sample(b"a", 0, &results, &[]));
    }
    for length in [1025, 1026, 1028, 4096] {
        samples.push(sample(&vec![b't'; length], 0, &[getfh()], &[]));
        samples.push(sample(&vec![b't'; length], 1, &[], &[wire::GETFH]));
    }
    for status in [0, 28] {
        let failed = (wire::READ, 28 - status, vec![]);
        samples.push(sample(b"", status, &[failed], &[]));
    }
    samples.push(sample(b"", 0, &[getfh()], &[wire::GETFH]));
    samples.push(sample(b"", 0, &[], &[wire::GETFH]));
    samples
}

/// An operation's number, its status and its body.
type Answered = (u32, u32, Vec<u8>);

/// A reply to a request that has more operations behind those answered.
fn sample(tag: &[u8], status: u32, results: &[Answered], more: &[u32]) -> Sample {
    let mut numbers: Vec<u32> = results.iter().map(|result| result.0).collect();
    numbers.extend_from_slice(more);
    let header = [int(status), opaque(tag), int(results.len() as u32)];
    let mut reply = header.concat();
    for (number, status, body) in results {
        reply.extend([&int(*number), &int(*status), &body[..]].concat());
    }
    Sample {
        tag: tag.to_vec(),
        numbers,
        reply,
    }
}

fn getfh() -> Answered {
    (wire::GETFH, 0, opaque(&[0, 0, 0, 7]))
}

/// Each operation's OK, with every pad that its bytes can have.
fn bodies() -> Vec<(u32, Vec<u8>)> {
    let bare = LAYOUTS.iter().map(|layout| layout.number);
    let bare = bare.filter(|number| !TELLING.contains(number));
    let mut bodies: Vec<(u32, Vec<u8>)> = bare.map(|number| (number, vec![])).collect();
    for (words, length) in [(0, 0), (1, 8), (2, 1), (3, 2), (4, 3), (6, 5)] {
        let bitmap = [int(words), vec![0xf0; 4 * words as usize]];
        let values = opaque(&vec![9; length]);
        bodies.push((wire::GETATTR, [bitmap.concat(), values].concat()));
    }
    for length in [0, 1, 2, 3, 4, 5, 127, 128] {
        bodies.push((wire::GETFH, opaque(&vec![7; length])));
    }
    for (length, eof) in (0..=5).zip([0, 1].into_iter().cycle()) {
        let data = opaque(&vec![6; length]);
        bodies.push((wire::READ, [int(eof), data].concat()));
    }
    bodies.push((wire::READ, [int(1), opaque(&vec![5; 70_001])].concat()));
    for committed in 0..=2 {
        let stored = [int(committed), VERIFIER.to_vec()].concat();
        bodies.push((wire::WRITE, [int(u32::MAX), stored.clone()].concat()));
        let flags = [int(committed % 2), int(u32::from(committed > 1))].concat();
        let count = long(u64::MAX - u64::from(committed));
        bodies.push((wire::COPY, [int(0), count, stored, flags].concat()));
    }
    for (eof, offset) in [(0, 0), (1, u64::MAX)] {
        bodies.push((wire::SEEK, [int(eof), long(offset)].concat()));
    }
    bodies.extend(plus().into_iter().map(|body| (wire::READ_PLUS, body)));
    bodies
}

/// Bodies that no OK has.
fn bodies_out_of_range() -> Vec<(u32, Vec<u8>)> {
    let mut bodies: Vec<(u32, Vec<u8>)> = UNSERVED.map(|number| (number, vec![])).to_vec();
    for length in [129, 130, 131, 132, 256] {
        bodies.push((wire::GETFH, opaque(&vec![7; length])));
    }
    for eof in [2, 256, 1 << 31] {
        bodies.push((wire::READ, [int(eof), opaque(&[6])].concat()));
        bodies.push((wire::READ_PLUS, [int(eof), int(0)].concat()));
        bodies.push((wire::SEEK, [int(eof), long(0)].concat()));
    }
    let copied = |callbacks: Vec<u8>, committed, flags: [u32; 2]| {
        let stored = [long(5), int(committed), VERIFIER.to_vec()].concat();
        [callbacks, stored, flags.map(int).concat()].concat()
    };
    bodies.push((wire::WRITE, [int(5), int(3), VERIFIER.to_vec()].concat()));
    for body in [
        copied([int(1), vec![0; 16]].concat(), 2, [1, 1]),
        copied(int(0), 3, [1, 1]),
        copied(int(0), 2, [2, 1]),
        copied(int(0), 2, [1, 2]),
    ] {
        bodies.push((wire::COPY, body));
    }
    for kind in [2, 3, 1 << 8] {
        let piece = [int(kind), long(0), long(0)].concat();
        bodies.push((wire::READ_PLUS, [int(0), int(1), piece].concat()));
    }
    bodies
}

/// The operations whose OK has a body.
const TELLING: [u32; 7] = [
    wire::GETATTR,
    wire::GETFH,
    wire::READ,
    wire::WRITE,
    wire::COPY,
    wire::READ_PLUS,
    wire::SEEK,
];

/// The bodies of READ_PLUS: pieces of each kind, alone and behind each other.
fn plus() -> Vec<Vec<u8>> {
    let hole = |offset| [int(1), long(offset), long(1 << 33)].concat();
    let data = |length: usize| [int(0), long(3), opaque(&vec![4; length])].concat();
    let mut lists = vec![vec![], vec![hole(0)], vec![hole(u64::MAX), data(2)]];
    lists.extend((0..=4).map(|length| vec![data(length)]));
    lists.push(vec![data(0), data(1), hole(5)]);
    lists.push(vec![hole(9); 13]);
    let bodies = lists.into_iter().zip([1, 0].into_iter().cycle());
    bodies
        .map(|(pieces, eof)| [int(eof), int(pieces.len() as u32), pieces.concat()].concat())
        .collect()
}
