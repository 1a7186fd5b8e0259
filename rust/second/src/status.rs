//! The numbers of document 01: refusals of a whole call, and statuses of one operation.

/// Why a whole call is refused.
#[derive(Clone, Copy, Debug, PartialEq, Eq)]
pub enum Refusal {
    Geometry = 1,
    Length = 2,
    Unsound = 3,
    RequestTooLong = 4,
    ReplyTooShort = 5,
    Header = 6,
    Line = 7,
    NoSuchSlot = 8,
    BufferTooShort = 9,
    NotTheReply = 10,
    Unwritable = 11,
}

impl Refusal {
    pub fn number(self) -> u32 {
        self as u32
    }
}

/// How one operation, or the whole compound, is answered.
#[derive(Clone, Copy, Debug, PartialEq, Eq)]
pub enum Status {
    Ok = 0,
    Nxio = 6,
    Inval = 22,
    FBig = 27,
    NoSpc = 28,
    Stale = 70,
    BadHandle = 10001,
    NotSupp = 10004,
    NoFileHandle = 10020,
    MinorVersMismatch = 10021,
    BadStateid = 10025,
    BadXdr = 10036,
    OpIllegal = 10044,
    SequencePos = 10064,
    TooManyOps = 10070,
    UnionNotSupp = 10090,
}

impl Status {
    pub fn number(self) -> u32 {
        self as u32
    }
}
