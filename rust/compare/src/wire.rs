//! Operations and requests as bytes, and the results of a reply.

pub type Stateid = [u8; 16];

/// The stateid that always passes.
pub const ZEROS: Stateid = [0; 16];
/// The stateid that passes where bytes are only read.
pub const ONES: Stateid = [255; 16];

pub const GETATTR: u32 = 9;
pub const GETFH: u32 = 10;
pub const PUTFH: u32 = 22;
pub const READ: u32 = 25;
pub const RESTOREFH: u32 = 31;
pub const SAVEFH: u32 = 32;
pub const WRITE: u32 = 38;
pub const SEQUENCE: u32 = 53;
pub const ALLOCATE: u32 = 59;
pub const COPY: u32 = 60;
pub const DEALLOCATE: u32 = 62;
pub const READ_PLUS: u32 = 68;
pub const SEEK: u32 = 69;
pub const CLONE: u32 = 71;
/// The result number of an operation that has none of its own.
pub const ILLEGAL: u32 = 10044;

/// The operations that change the store.
pub const EDITS: [u32; 5] = [WRITE, ALLOCATE, COPY, DEALLOCATE, CLONE];

/// The numbers with a name here.
pub const NAMES: [(u32, &str); 15] = [
    (GETATTR, "GETATTR"),
    (GETFH, "GETFH"),
    (PUTFH, "PUTFH"),
    (READ, "READ"),
    (RESTOREFH, "RESTOREFH"),
    (SAVEFH, "SAVEFH"),
    (WRITE, "WRITE"),
    (ALLOCATE, "ALLOCATE"),
    (COPY, "COPY"),
    (DEALLOCATE, "DEALLOCATE"),
    (READ_PLUS, "READ_PLUS"),
    (SEEK, "SEEK"),
    (CLONE, "CLONE"),
    (SEQUENCE, "SEQUENCE"),
    (ILLEGAL, "ILLEGAL"),
];

pub fn name(number: u32) -> Option<&'static str> {
    let named = NAMES.iter().find(|named| named.0 == number);
    named.map(|named| named.1)
}

pub fn int(value: u32) -> Vec<u8> {
    value.to_be_bytes().to_vec()
}

pub fn long(value: u64) -> Vec<u8> {
    value.to_be_bytes().to_vec()
}

pub fn opaque(bytes: &[u8]) -> Vec<u8> {
    let mut all = [&int(bytes.len() as u32), bytes].concat();
    all.resize(all.len().next_multiple_of(4), 0);
    all
}

pub fn putfh(handle: &[u8]) -> Vec<u8> {
    [int(PUTFH), opaque(handle)].concat()
}

pub fn putfh_file(file: usize) -> Vec<u8> {
    putfh(&(file as u32).to_be_bytes())
}

/// GETATTR of the attributes in a bitmap.
pub fn getattr(bitmap: &[u32]) -> Vec<u8> {
    let numbers = [&[GETATTR, bitmap.len() as u32], bitmap].concat();
    numbers.into_iter().flat_map(u32::to_be_bytes).collect()
}

/// Whether a bitmap has that attribute's bit.
pub fn has_bit(bitmap: &[u32], attribute: u32) -> bool {
    let word = bitmap.get(attribute as usize / 32);
    word.is_some_and(|word| word >> (attribute % 32) & 1 == 1)
}

/// READ, READ_PLUS, or SEEK with what to look for as its count.
pub fn look(number: u32, stateid: Stateid, offset: u64, count: u32) -> Vec<u8> {
    [
        &number.to_be_bytes()[..],
        &stateid,
        &offset.to_be_bytes(),
        &count.to_be_bytes(),
    ]
    .concat()
}

pub fn write(stateid: Stateid, offset: u64, stable: u32, data: &[u8]) -> Vec<u8> {
    [look(WRITE, stateid, offset, stable), opaque(data)].concat()
}

/// ALLOCATE or DEALLOCATE.
pub fn region(number: u32, stateid: Stateid, offset: u64, length: u64) -> Vec<u8> {
    [
        &number.to_be_bytes()[..],
        &stateid,
        &offset.to_be_bytes(),
        &length.to_be_bytes(),
    ]
    .concat()
}

/// What COPY and CLONE share: the stateids and offsets of source and target, and the count.
pub struct Transfer {
    pub stateids: [Stateid; 2],
    pub offsets: [u64; 2],
    pub count: u64,
}

impl Transfer {
    fn encode(&self, number: u32) -> Vec<u8> {
        [
            &number.to_be_bytes()[..],
            &self.stateids.concat(),
            &self.offsets.map(u64::to_be_bytes).concat(),
            &self.count.to_be_bytes(),
        ]
        .concat()
    }

    pub fn clone_op(&self) -> Vec<u8> {
        self.encode(CLONE)
    }

    /// COPY with consecutive, synchronous and the number of source servers, whose list is left out.
    pub fn copy_op(&self, flags: [u32; 3]) -> Vec<u8> {
        [self.encode(COPY), flags.map(u32::to_be_bytes).concat()].concat()
    }
}

/// A request of these operations, without a tag.
pub fn request(operations: &[Vec<u8>]) -> Vec<u8> {
    let header = [0, 2, operations.len() as u32].map(u32::to_be_bytes);
    [header.concat(), operations.concat()].concat()
}

/// A reply's status and its results.
#[derive(Debug, PartialEq, Eq)]
pub struct Outcome {
    pub status: u32,
    pub results: Vec<Answered>,
}

#[derive(Debug, PartialEq, Eq)]
pub struct Answered {
    pub number: u32,
    pub status: u32,
    pub told: Told,
}

/// What is kept of a result's body: GETFH's file, GETATTR's bitmap.
#[derive(Debug, PartialEq, Eq)]
pub enum Told {
    Nothing,
    File(u32),
    Attributes(Vec<u32>),
}

/// Takes a whole reply apart; nothing where it isn't laid out as one.
pub fn outcome(reply: &[u8]) -> Option<Outcome> {
    let mut reply = Walk(reply);
    let status = reply.int()?;
    reply.opaque()?;
    let count = reply.int()?;
    let results: Vec<_> = (0..count).map(|_| reply.result()).collect::<Option<_>>()?;
    reply.0.is_empty().then_some(Outcome { status, results })
}

struct Walk<'a>(&'a [u8]);

impl<'a> Walk<'a> {
    fn take(&mut self, length: usize) -> Option<&'a [u8]> {
        let (bytes, rest) = self.0.split_at_checked(length)?;
        self.0 = rest;
        Some(bytes)
    }

    fn skip(&mut self, length: usize) -> Option<()> {
        self.take(length).map(|_| ())
    }

    fn int(&mut self) -> Option<u32> {
        let (bytes, rest) = self.0.split_first_chunk()?;
        self.0 = rest;
        Some(u32::from_be_bytes(*bytes))
    }

    fn opaque(&mut self) -> Option<()> {
        let length = self.int()? as usize;
        self.skip(length.next_multiple_of(4))
    }

    fn result(&mut self) -> Option<Answered> {
        let (number, status) = (self.int()?, self.int()?);
        let told = match (status, number) {
            (0, GETFH) => self.file()?,
            (0, GETATTR) => self.attributes()?,
            (0, _) => self.body(number).map(|()| Told::Nothing)?,
            _ => Told::Nothing,
        };
        Some(Answered {
            number,
            status,
            told,
        })
    }

    /// A handle of four bytes.
    fn file(&mut self) -> Option<Told> {
        let length = self.int()?;
        let file = self.int()?;
        (length == 4).then_some(Told::File(file))
    }

    /// A bitmap, and the values as one opaque.
    fn attributes(&mut self) -> Option<Told> {
        let count = self.int()? as usize;
        let words = self.take(count.checked_mul(4)?)?.chunks_exact(4);
        let words = words.map(|word| u32::from_be_bytes(word.try_into().expect("four bytes")));
        self.opaque()?;
        Some(Told::Attributes(words.collect()))
    }

    fn body(&mut self, number: u32) -> Option<()> {
        match number {
            READ => {
                self.int()?;
                self.opaque()
            }
            READ_PLUS => {
                self.int()?;
                let count = self.int()?;
                (0..count).try_for_each(|_| self.piece())
            }
            SEEK => self.skip(12),
            WRITE => self.skip(16),
            COPY => self.skip(32),
            _ => Some(()),
        }
    }

    /// A piece of READ_PLUS: kind, offset, and data or the length of a hole.
    fn piece(&mut self) -> Option<()> {
        let kind = self.int()?;
        self.skip(8)?;
        match kind {
            0 => self.opaque(),
            _ => self.skip(8),
        }
    }
}
