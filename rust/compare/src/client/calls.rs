//! What is compared: a client behind its four calls.

use second::client::{Body, Kind, Reported, Stored};

use crate::server::{start_of, Second};

/// A call's number, 0 or another, and what it tells.
#[derive(Clone, Copy, Debug, PartialEq, Eq)]
pub struct Answer<const COUNT: usize> {
    pub number: u32,
    pub told: [u64; COUNT],
}

/// The number of `next_result` behind the last result.
pub const DONE: u32 = 1;

pub trait Client {
    /// Writes a request from records of ten numbers each; tells its length.
    fn write_request(
        &self,
        tag: &[u8],
        records: &[u64],
        data: &[u8],
        request: &mut [u8],
    ) -> Answer<1>;

    /// Opens a reply; tells its status and the place of the first result.
    fn open_reply(&self, tag: &[u8], numbers: &[u32], reply: &[u8]) -> Answer<2>;

    /// Tells the result at a place: its number, its status, the next place and its values.
    fn next_result(&self, reply: &[u8], at: u64) -> Answer<10>;

    /// Tells the piece at a place: its kind, offset, length, start and the next place.
    fn next_piece(&self, reply: &[u8], at: u64) -> Answer<5>;
}

impl<const COUNT: usize> Answer<COUNT> {
    fn zeros(number: u32) -> Answer<COUNT> {
        Answer {
            number,
            told: [0; COUNT],
        }
    }
}

impl Client for Second {
    fn write_request(
        &self,
        tag: &[u8],
        records: &[u64],
        data: &[u8],
        request: &mut [u8],
    ) -> Answer<1> {
        let written = second::client::write_request(tag, records, data, request);
        Answer {
            number: written.number,
            told: [written.written as u64],
        }
    }

    fn open_reply(&self, tag: &[u8], numbers: &[u32], reply: &[u8]) -> Answer<2> {
        let opened = second::client::open_reply(tag, numbers, reply);
        Answer {
            number: opened.number,
            told: [opened.status.into(), opened.first as u64],
        }
    }

    fn next_result(&self, reply: &[u8], at: u64) -> Answer<10> {
        match second::client::next_result(reply, at) {
            Ok(Some(reported)) => Answer {
                number: 0,
                told: numbers(reply, &reported),
            },
            Ok(None) => Answer::zeros(DONE),
            Err(refusal) => Answer::zeros(refusal.number()),
        }
    }

    fn next_piece(&self, reply: &[u8], at: u64) -> Answer<5> {
        let piece = match second::client::next_piece(reply, at) {
            Ok(piece) => piece,
            Err(refusal) => return Answer::zeros(refusal.number()),
        };
        let [kind, length, start] = match piece.kind {
            Kind::Data(data) => [0, data.len() as u64, start_of(data, reply)],
            Kind::Hole { length } => [1, length, 0],
        };
        Answer {
            number: 0,
            told: [kind, piece.offset, length, start, piece.next as u64],
        }
    }
}

/// A result in the order of `next_result`.
fn numbers(reply: &[u8], reported: &Reported) -> [u64; 10] {
    let part = |bytes: &[u8]| [start_of(bytes, reply), bytes.len() as u64];
    let stored = |stored: &Stored| {
        let [start, length] = part(stored.verifier);
        [stored.count, stored.committed.into(), start, length]
    };
    let values = match &reported.body {
        Body::Nothing => vec![],
        Body::Attributes { words, values } => [part(words), part(values)].concat(),
        Body::Handle(handle) => part(handle).to_vec(),
        Body::Read { eof, data } => [&[u64::from(*eof)], &part(data)[..]].concat(),
        Body::Written(written) => stored(written).to_vec(),
        Body::Copied {
            stored: written,
            consecutive,
            synchronous,
        } => {
            let flags = [*consecutive, *synchronous].map(u64::from);
            [&stored(written)[..], &flags].concat()
        }
        Body::Pieces { eof, count, first } => {
            vec![u64::from(*eof), u64::from(*count), *first as u64]
        }
        Body::Sought { eof, offset } => vec![u64::from(*eof), *offset],
    };
    let mut told = [0; 10];
    told[0] = reported.number.into();
    told[1] = reported.status.into();
    told[2] = reported.next as u64;
    told[3..][..values.len()].copy_from_slice(&values);
    told
}

#[cfg(feature = "proved")]
mod proved {
    use client_sys::calls::{self, Told};

    use super::*;
    use crate::server::Proved;

    fn answer<const COUNT: usize>(told: Told<COUNT>) -> Answer<COUNT> {
        Answer {
            number: told.number,
            told: told.told,
        }
    }

    impl Client for Proved {
        fn write_request(
            &self,
            tag: &[u8],
            records: &[u64],
            data: &[u8],
            request: &mut [u8],
        ) -> Answer<1> {
            answer(calls::write_request(tag, records, data, request))
        }

        fn open_reply(&self, tag: &[u8], numbers: &[u32], reply: &[u8]) -> Answer<2> {
            answer(calls::open_reply(tag, numbers, reply))
        }

        fn next_result(&self, reply: &[u8], at: u64) -> Answer<10> {
            answer(calls::next_result(reply, at))
        }

        fn next_piece(&self, reply: &[u8], at: u64) -> Answer<5> {
            answer(calls::next_piece(reply, at))
        }
    }
}
