//! A reply together with the place of its next result. Bytes are handed out as parts of the reply.

use crate::calls;
use crate::Refused;

/// A reply that was opened; hands out its results, one at a time.
#[derive(Clone, Debug)]
pub struct Reply<'a> {
    bytes: &'a [u8],
    at: u64,
    status: u32,
}

impl<'a> Reply<'a> {
    /// Opens the reply to a request with this tag and these operation numbers; else refusal 10.
    pub fn open(tag: &[u8], numbers: &[u32], bytes: &'a [u8]) -> Result<Reply<'a>, Refused> {
        let answer = calls::open_reply(tag, numbers, bytes);
        let [status, at] = answer.told;
        match answer.number {
            0 => Ok(Reply {
                bytes,
                at,
                status: status as u32,
            }),
            number => Err(Refused(number)),
        }
    }

    /// The whole reply's status.
    pub fn status(&self) -> u32 {
        self.status
    }
}

impl<'a> Iterator for Reply<'a> {
    type Item = Answered<'a>;

    fn next(&mut self) -> Option<Answered<'a>> {
        let answer = calls::next_result(self.bytes, self.at);
        if answer.number == calls::DONE {
            return None;
        }
        assert_eq!(answer.number, 0, "a result of a reply that was opened");
        let [number, status, next, rest @ ..] = answer.told;
        self.at = next;
        Some(Answered {
            number: number as u32,
            status: status as u32,
            body: match status {
                0 => Body::of(self.bytes, number, rest),
                _ => Body::Nothing,
            },
        })
    }
}

/// One result.
#[derive(Clone, Debug)]
pub struct Answered<'a> {
    pub number: u32,
    pub status: u32,
    pub body: Body<'a>,
}

/// What stands behind a status.
#[derive(Clone, Debug)]
pub enum Body<'a> {
    Nothing,
    /// Of GETATTR: the bitmap's words, four bytes each with the highest first, and the values.
    Attributes {
        words: &'a [u8],
        values: &'a [u8],
    },
    Handle(&'a [u8]),
    Read {
        eof: bool,
        data: &'a [u8],
    },
    Written(Stored<'a>),
    Copied {
        stored: Stored<'a>,
        consecutive: bool,
        synchronous: bool,
    },
    ReadPlus {
        eof: bool,
        pieces: Pieces<'a>,
    },
    Sought {
        eof: bool,
        offset: u64,
    },
}

/// What WRITE and COPY tell of the bytes they stored.
#[derive(Clone, Copy, Debug, PartialEq, Eq)]
pub struct Stored<'a> {
    pub count: u64,
    pub committed: u32,
    pub verifier: &'a [u8],
}

impl<'a> Body<'a> {
    fn of(reply: &'a [u8], number: u64, told: [u64; 7]) -> Body<'a> {
        let part = |at: usize| part(reply, told[at], told[at + 1]);
        let flag = |at: usize| told[at] == 1;
        let stored = || Stored {
            count: told[0],
            committed: told[1] as u32,
            verifier: part(2),
        };
        match number {
            9 => Body::Attributes {
                words: part(0),
                values: part(2),
            },
            10 => Body::Handle(part(0)),
            25 => Body::Read {
                eof: flag(0),
                data: part(1),
            },
            38 => Body::Written(stored()),
            60 => Body::Copied {
                stored: stored(),
                consecutive: flag(4),
                synchronous: flag(5),
            },
            68 => Body::ReadPlus {
                eof: flag(0),
                pieces: Pieces {
                    reply,
                    left: told[1],
                    at: told[2],
                },
            },
            69 => Body::Sought {
                eof: flag(0),
                offset: told[1],
            },
            _ => Body::Nothing,
        }
    }
}

fn part(reply: &[u8], start: u64, length: u64) -> &[u8] {
    &reply[start as usize..][..length as usize]
}

/// The pieces of a READ_PLUS; hands out one at a time.
#[derive(Clone, Debug)]
pub struct Pieces<'a> {
    reply: &'a [u8],
    left: u64,
    at: u64,
}

/// A piece of a file from its offset on.
#[derive(Clone, Copy, Debug, PartialEq, Eq)]
pub enum Piece<'a> {
    Data { offset: u64, data: &'a [u8] },
    Hole { offset: u64, length: u64 },
}

impl<'a> Iterator for Pieces<'a> {
    type Item = Piece<'a>;

    fn next(&mut self) -> Option<Piece<'a>> {
        self.left = self.left.checked_sub(1)?;
        let answer = calls::next_piece(self.reply, self.at);
        assert_eq!(answer.number, 0, "a piece of a reply that was opened");
        let [kind, offset, length, start, next] = answer.told;
        self.at = next;
        Some(match kind {
            0 => Piece::Data {
                offset,
                data: part(self.reply, start, length),
            },
            _ => Piece::Hole { offset, length },
        })
    }
}
