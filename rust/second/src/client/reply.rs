//! A reply taken apart, one result at a time. Bytes are handed out as parts of the reply.

use crate::compound::TAG_MAX;
use crate::operation::{number, HANDLE_MAX};
use crate::status::{Refusal, Status};
use crate::xdr::{BadXdr, Reader};

/// The status told of a reply that isn't opened.
pub const NO_STATUS: u32 = 4_294_967_295;

const VERIFIER_LENGTH: usize = 8;
const COMMITTED_LAST: u32 = 2;
const WORD_LENGTH: usize = 4;

const DATA: u32 = 0;
const HOLE: u32 = 1;

/// The answer of `open_reply`: 0, the reply's status and the place of the first result, or a
/// refusal's number, no status and the reply's length.
#[derive(Clone, Copy, Debug, PartialEq, Eq)]
pub struct Opened {
    pub number: u32,
    pub status: u32,
    pub first: usize,
}

/// One result, and the place behind it.
#[derive(Clone, Debug, PartialEq, Eq)]
pub struct Reported<'a> {
    pub number: u32,
    pub status: u32,
    pub body: Body<'a>,
    pub next: usize,
}

/// What stands behind a status.
#[derive(Clone, Debug, PartialEq, Eq)]
pub enum Body<'a> {
    Nothing,
    Attributes {
        words: &'a [u8],
        values: &'a [u8],
    },
    Handle(&'a [u8]),
    Read {
        eof: bool,
        data: &'a [u8],
    },
    Written(Stored<'a>),
    Copied {
        stored: Stored<'a>,
        consecutive: bool,
        synchronous: bool,
    },
    /// READ_PLUS: how many pieces there are, and the place of the first.
    Pieces {
        eof: bool,
        count: u32,
        first: usize,
    },
    Sought {
        eof: bool,
        offset: u64,
    },
}

/// What WRITE and COPY tell of the bytes they stored.
#[derive(Clone, Debug, PartialEq, Eq)]
pub struct Stored<'a> {
    pub count: u64,
    pub committed: u32,
    pub verifier: &'a [u8],
}

/// One piece of READ_PLUS, and the place behind it.
#[derive(Clone, Debug, PartialEq, Eq)]
pub struct Piece<'a> {
    pub offset: u64,
    pub kind: Kind<'a>,
    pub next: usize,
}

#[derive(Clone, Debug, PartialEq, Eq)]
pub enum Kind<'a> {
    Data(&'a [u8]),
    Hole { length: u64 },
}

/// Opens the reply to a request with this tag and these operation numbers.
pub fn open_reply(tag: &[u8], numbers: &[u32], reply: &[u8]) -> Opened {
    match Header::read(reply) {
        Ok(header) if header.answers(tag, numbers) => Opened {
            number: 0,
            status: header.status,
            first: header.first,
        },
        _ => Opened {
            number: Refusal::NotTheReply.number(),
            status: NO_STATUS,
            first: reply.len(),
        },
    }
}

/// The result at a place of a reply; none behind the last byte.
pub fn next_result(reply: &[u8], at: u64) -> Result<Option<Reported<'_>>, Refusal> {
    match Reader::from(reply, at) {
        Some(mut reader) if !reader.is_at_end() => {
            let reported = result(&mut reader).map_err(|_| Refusal::NotTheReply)?;
            Ok(Some(reported))
        }
        _ => Ok(None),
    }
}

/// The piece at a place of a reply.
pub fn next_piece(reply: &[u8], at: u64) -> Result<Piece<'_>, Refusal> {
    let mut reader = Reader::from(reply, at).ok_or(Refusal::NotTheReply)?;
    piece(&mut reader).map_err(|_| Refusal::NotTheReply)
}

/// Bytes that are no reply.
struct NoReply;

impl From<BadXdr> for NoReply {
    fn from(_: BadXdr) -> NoReply {
        NoReply
    }
}

/// A whole reply: its start, and the numbers and statuses of its results.
struct Header<'a> {
    status: u32,
    tag: &'a [u8],
    first: usize,
    results: Vec<(u32, u32)>,
}

impl<'a> Header<'a> {
    /// Reads the reply to its last byte.
    fn read(reply: &'a [u8]) -> Result<Header<'a>, NoReply> {
        let mut reader = Reader::new(reply);
        let status = reader.u32()?;
        let tag = reader.opaque(TAG_MAX)?;
        let count = reader.u32()?;
        let first = reader.at();
        let mut results = Vec::new();
        for _ in 0..count {
            let reported = result(&mut reader)?;
            results.push((reported.number, reported.status));
        }
        if !reader.is_at_end() {
            return Err(NoReply);
        }
        Ok(Header {
            status,
            tag,
            first,
            results,
        })
    }

    /// Whether it is a reply to that request.
    fn answers(&self, tag: &[u8], numbers: &[u32]) -> bool {
        let is_ok = |status: u32| status == Status::Ok.number();
        let answered: Vec<u32> = self.results.iter().map(|result| result.0).collect();
        let all = answered.len() == numbers.len();
        let told = match self.results.split_last() {
            None => true,
            Some((last, before)) => {
                before.iter().all(|result| is_ok(result.1)) && last.1 == self.status
            }
        };
        self.tag == tag && numbers.starts_with(&answered) && (all || !is_ok(self.status)) && told
    }
}

fn result<'a>(reader: &mut Reader<'a>) -> Result<Reported<'a>, NoReply> {
    let number = reader.u32()?;
    let status = reader.u32()?;
    let body = match status == Status::Ok.number() {
        true => body(number, reader)?,
        false => Body::Nothing,
    };
    Ok(Reported {
        number,
        status,
        body,
        next: reader.at(),
    })
}

fn body<'a>(number: u32, reader: &mut Reader<'a>) -> Result<Body<'a>, NoReply> {
    Ok(match number {
        number::GETATTR => Body::Attributes {
            words: words(reader)?,
            values: reader.opaque(u32::MAX)?,
        },
        number::GETFH => Body::Handle(reader.opaque(HANDLE_MAX)?),
        number::READ => Body::Read {
            eof: reader.boolean()?,
            data: reader.opaque(u32::MAX)?,
        },
        number::WRITE => {
            let count = reader.u32()?;
            Body::Written(stored(count.into(), reader)?)
        }
        number::COPY => copied(reader)?,
        number::READ_PLUS => pieces(reader)?,
        number::SEEK => Body::Sought {
            eof: reader.boolean()?,
            offset: reader.u64()?,
        },
        number::PUTFH
        | number::RESTOREFH
        | number::SAVEFH
        | number::ALLOCATE
        | number::DEALLOCATE
        | number::CLONE => Body::Nothing,
        _ => return Err(NoReply),
    })
}

/// The bytes of any number of words, with the number before them.
fn words<'a>(reader: &mut Reader<'a>) -> Result<&'a [u8], NoReply> {
    let count = reader.u32()? as usize;
    Ok(reader.take(WORD_LENGTH * count)?)
}

fn stored<'a>(count: u64, reader: &mut Reader<'a>) -> Result<Stored<'a>, NoReply> {
    Ok(Stored {
        count,
        committed: reader.up_to(COMMITTED_LAST)?,
        verifier: reader.take(VERIFIER_LENGTH)?,
    })
}

/// A COPY that is done has no callback id.
fn copied<'a>(reader: &mut Reader<'a>) -> Result<Body<'a>, NoReply> {
    let _callbacks = reader.up_to(0)?;
    let count = reader.u64()?;
    Ok(Body::Copied {
        stored: stored(count, reader)?,
        consecutive: reader.boolean()?,
        synchronous: reader.boolean()?,
    })
}

fn pieces<'a>(reader: &mut Reader<'a>) -> Result<Body<'a>, NoReply> {
    let eof = reader.boolean()?;
    let count = reader.u32()?;
    let first = reader.at();
    for _ in 0..count {
        piece(reader)?;
    }
    Ok(Body::Pieces { eof, count, first })
}

fn piece<'a>(reader: &mut Reader<'a>) -> Result<Piece<'a>, NoReply> {
    let content = reader.u32()?;
    let offset = reader.u64()?;
    let kind = match content {
        DATA => Kind::Data(reader.opaque(u32::MAX)?),
        HOLE => Kind::Hole {
            length: reader.u64()?,
        },
        _ => return Err(NoReply),
    };
    Ok(Piece {
        offset,
        kind,
        next: reader.at(),
    })
}
