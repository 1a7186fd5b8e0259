//! The compound: its header, its operations in order, its reply.

use crate::geometry::Geometry;
use crate::operation::{decode, Undecoded, Why};
use crate::runner::Runner;
use crate::status::{Refusal, Status};
use crate::store::{check_shape, check_sound, Store};
use crate::xdr::{BadXdr, Reader, Writer};

/// The longest request that is looked at.
pub const REQUEST_MAX: usize = 65_536;
/// The shortest reply buffer that is taken.
pub const REPLY_MIN: usize = 32_768;

pub const VERIFIER_LENGTH: usize = 8;
pub(crate) const TAG_MAX: u32 = 1024;
pub const MINOR_VERSION: u32 = 2;
pub const OPERATIONS_MAX: u32 = 12;

/// The place where no byte of a request is wrong.
pub const NOWHERE: usize = 4_294_967_295;

/// The answer of `serve`: 0, bytes read and bytes written, or a refusal's number and zeros; and the
/// place where the request went wrong.
#[derive(Clone, Copy, Debug, PartialEq, Eq)]
pub struct Served {
    pub number: u32,
    pub read: usize,
    pub written: usize,
    pub place: usize,
}

impl Served {
    fn refused(refusal: Refusal, place: usize) -> Served {
        Served {
            number: refusal.number(),
            read: 0,
            written: 0,
            place,
        }
    }
}

/// Runs one compound on the store and writes its reply.
pub fn serve(
    geometry: &Geometry,
    store: &mut Store,
    verifier: &[u8],
    request: &[u8],
    reply: &mut [u8],
) -> Served {
    if let Err(refusal) = admit(geometry, store, verifier, request, reply) {
        return Served::refused(refusal, NOWHERE);
    }
    match Header::decode(request) {
        Ok(header) => {
            let run = header.run(Runner::new(geometry, store, verifier));
            let answer = run.reply(header.tag);
            reply[..answer.len()].copy_from_slice(&answer);
            Served {
                number: 0,
                read: run.read,
                written: answer.len(),
                place: run.place,
            }
        }
        Err(bad) => Served::refused(Refusal::Header, bad.place),
    }
}

/// Refusals 1 to 5, in this order.
fn admit(
    geometry: &Geometry,
    store: &Store,
    verifier: &[u8],
    request: &[u8],
    reply: &[u8],
) -> Result<(), Refusal> {
    check_shape(geometry, store)?;
    if verifier.len() != VERIFIER_LENGTH {
        return Err(Refusal::Length);
    }
    check_sound(geometry, store)?;
    if request.len() > REQUEST_MAX {
        return Err(Refusal::RequestTooLong);
    }
    if reply.len() < REPLY_MIN {
        return Err(Refusal::ReplyTooShort);
    }
    Ok(())
}

/// The start of a request, and the reader of what follows it.
pub struct Header<'a> {
    pub tag: &'a [u8],
    pub minor_version: u32,
    pub operations: u32,
    pub rest: Reader<'a>,
}

impl<'a> Header<'a> {
    pub fn decode(request: &'a [u8]) -> Result<Header<'a>, BadXdr> {
        let mut reader = Reader::new(request);
        Ok(Header {
            tag: reader.opaque(TAG_MAX)?,
            minor_version: reader.u32()?,
            operations: reader.u32()?,
            rest: reader,
        })
    }

    fn run(&self, mut runner: Runner) -> Run {
        let mut reader = self.rest.clone();
        let mut run = Run {
            status: Status::Ok,
            read: reader.at(),
            place: NOWHERE,
            results: Vec::new(),
        };
        if self.minor_version != MINOR_VERSION {
            run.status = Status::MinorVersMismatch;
        } else if self.operations > OPERATIONS_MAX {
            run.status = Status::TooManyOps;
        } else {
            for _ in 0..self.operations {
                match decode(&mut reader) {
                    Ok((number, operation)) => {
                        run.read = reader.at();
                        run.add(number, runner.run(operation));
                    }
                    Err(undecoded) => run.stop(undecoded),
                }
                if run.status != Status::Ok {
                    break;
                }
            }
        }
        run
    }
}

/// What running a compound has given so far.
struct Run {
    /// The last result's status, which is also the whole reply's.
    status: Status,
    read: usize,
    place: usize,
    results: Vec<Vec<u8>>,
}

impl Run {
    fn stop(&mut self, undecoded: Undecoded) {
        let status = match undecoded.why {
            Why::Bytes(bad) => {
                self.place = bad.place;
                Status::BadXdr
            }
            Why::Status(status) => status,
        };
        self.add(undecoded.number, Err(status));
    }

    fn add(&mut self, number: u32, outcome: Result<Vec<u8>, Status>) {
        let (status, body) = match outcome {
            Ok(body) => (Status::Ok, body),
            Err(status) => (status, Vec::new()),
        };
        let mut result = Writer::default();
        result.u32(number);
        result.u32(status.number());
        result.raw(&body);
        self.status = status;
        self.results.push(result.into_bytes());
    }

    fn reply(&self, tag: &[u8]) -> Vec<u8> {
        let mut reply = Writer::default();
        reply.u32(self.status.number());
        reply.opaque(tag);
        reply.u32(self.results.len() as u32);
        reply.raw(&self.results.concat());
        reply.into_bytes()
    }
}
