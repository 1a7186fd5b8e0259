//! The operations and their arguments, by RFC 5662 and RFC 7862.

use crate::status::Status;
use crate::xdr::{BadXdr, Reader};

pub type Stateid = [u8; 16];

/// The longest handle that decodes.
pub(crate) const HANDLE_MAX: u32 = 128;

/// The most words of a bitmap that decodes.
pub(crate) const BITMAP_MAX: u32 = 4;

/// The result number of an operation that has none of its own.
const ILLEGAL: u32 = 10044;

pub(crate) mod number {
    pub const GETATTR: u32 = 9;
    pub const GETFH: u32 = 10;
    pub const PUTFH: u32 = 22;
    pub const READ: u32 = 25;
    pub const RESTOREFH: u32 = 31;
    pub const SAVEFH: u32 = 32;
    pub const WRITE: u32 = 38;
    pub const SEQUENCE: u32 = 53;
    pub const ALLOCATE: u32 = 59;
    pub const COPY: u32 = 60;
    pub const DEALLOCATE: u32 = 62;
    pub const READ_PLUS: u32 = 68;
    pub const SEEK: u32 = 69;
    pub const CLONE: u32 = 71;
    /// The first and last operation of NFSv4.2.
    pub const FIRST: u32 = 3;
    pub const LAST: u32 = 71;
}

pub enum Operation<'a> {
    GetAttr {
        asked: Vec<u32>,
    },
    GetFh,
    PutFh {
        handle: &'a [u8],
    },
    RestoreFh,
    SaveFh,
    Read(Count),
    ReadPlus(Count),
    Seek {
        stateid: Stateid,
        offset: u64,
        what: u32,
    },
    Write {
        stateid: Stateid,
        offset: u64,
        data: &'a [u8],
    },
    Allocate(Length),
    Deallocate(Length),
    Copy(Transfer),
    Clone(Transfer),
}

/// What READ and READ_PLUS ask for.
pub struct Count {
    pub stateid: Stateid,
    pub offset: u64,
    pub count: u32,
}

/// The region of ALLOCATE and DEALLOCATE.
pub struct Length {
    pub stateid: Stateid,
    pub offset: u64,
    pub length: u64,
}

/// What COPY and CLONE ask for.
pub struct Transfer {
    pub source_stateid: Stateid,
    pub target_stateid: Stateid,
    pub source_offset: u64,
    pub target_offset: u64,
    pub count: u64,
}

/// An operation that is answered without being run: none of its bytes count as read.
pub struct Undecoded {
    pub number: u32,
    pub why: Why,
}

/// Its bytes are wrong, or it has another status.
pub enum Why {
    Bytes(BadXdr),
    Status(Status),
}

impl From<BadXdr> for Why {
    fn from(bad: BadXdr) -> Why {
        Why::Bytes(bad)
    }
}

/// Takes the next operation apart; its number comes first.
pub fn decode<'a>(reader: &mut Reader<'a>) -> Result<(u32, Operation<'a>), Undecoded> {
    let number = reader.u32().map_err(|bad| Undecoded {
        number: ILLEGAL,
        why: bad.into(),
    })?;
    if !(number::FIRST..=number::LAST).contains(&number) {
        return Err(Undecoded {
            number: ILLEGAL,
            why: Why::Status(Status::OpIllegal),
        });
    }
    arguments(number, reader)
        .map(|operation| (number, operation))
        .map_err(|why| Undecoded { number, why })
}

fn arguments<'a>(number: u32, reader: &mut Reader<'a>) -> Result<Operation<'a>, Why> {
    Ok(match number {
        number::GETATTR => Operation::GetAttr {
            asked: reader.words(BITMAP_MAX)?,
        },
        number::GETFH => Operation::GetFh,
        number::PUTFH => Operation::PutFh {
            handle: reader.opaque(HANDLE_MAX)?,
        },
        number::READ => Operation::Read(count(reader)?),
        number::RESTOREFH => Operation::RestoreFh,
        number::SAVEFH => Operation::SaveFh,
        number::WRITE => write(reader)?,
        number::SEQUENCE => return Err(Why::Status(Status::SequencePos)),
        number::ALLOCATE => Operation::Allocate(length(reader)?),
        number::COPY => Operation::Copy(copy(reader)?),
        number::DEALLOCATE => Operation::Deallocate(length(reader)?),
        number::READ_PLUS => Operation::ReadPlus(count(reader)?),
        number::SEEK => Operation::Seek {
            stateid: reader.array()?,
            offset: reader.u64()?,
            what: reader.u32()?,
        },
        number::CLONE => Operation::Clone(transfer(reader)?),
        _ => return Err(Why::Status(Status::NotSupp)),
    })
}

fn count(reader: &mut Reader) -> Result<Count, BadXdr> {
    Ok(Count {
        stateid: reader.array()?,
        offset: reader.u64()?,
        count: reader.u32()?,
    })
}

fn length(reader: &mut Reader) -> Result<Length, BadXdr> {
    Ok(Length {
        stateid: reader.array()?,
        offset: reader.u64()?,
        length: reader.u64()?,
    })
}

fn write<'a>(reader: &mut Reader<'a>) -> Result<Operation<'a>, BadXdr> {
    let stateid = reader.array()?;
    let offset = reader.u64()?;
    let _stable_how = reader.up_to(2)?;
    let data = reader.opaque(u32::MAX)?;
    Ok(Operation::Write {
        stateid,
        offset,
        data,
    })
}

fn transfer(reader: &mut Reader) -> Result<Transfer, BadXdr> {
    Ok(Transfer {
        source_stateid: reader.array()?,
        target_stateid: reader.array()?,
        source_offset: reader.u64()?,
        target_offset: reader.u64()?,
        count: reader.u64()?,
    })
}

/// A COPY from another server is not supported; the list of servers is left unread.
fn copy(reader: &mut Reader) -> Result<Transfer, Why> {
    let transfer = transfer(reader)?;
    let _consecutive = reader.boolean()?;
    let _synchronous = reader.boolean()?;
    match reader.u32()? {
        0 => Ok(transfer),
        _ => Err(Why::Status(Status::NotSupp)),
    }
}
