//! Requests to send, replies to expect, and a store to try them on.

use second::{serve, survey, Geometry, Served, Store, REPLY_MIN};

pub const ZEROS: [u8; 16] = [0; 16];
pub const ONES: [u8; 16] = [255; 16];
pub const VERIFIER: [u8; 8] = [1, 2, 3, 4, 5, 6, 7, 8];
/// What every reply buffer holds before a call.
pub const UNTOUCHED: u8 = 0xa5;

pub const OK: u32 = 0;

/// F 4, S 16, B 512 and a pool of that many blocks.
pub fn pool(blocks: u64) -> Geometry {
    Geometry {
        files: 4,
        slots: 16,
        blocks,
        block_size: 512,
    }
}

pub fn int(value: u32) -> Vec<u8> {
    value.to_be_bytes().to_vec()
}

pub fn long(value: u64) -> Vec<u8> {
    value.to_be_bytes().to_vec()
}

pub fn opaque(bytes: &[u8]) -> Vec<u8> {
    let mut all = [int(bytes.len() as u32), bytes.to_vec()].concat();
    while all.len() % 4 != 0 {
        all.push(0);
    }
    all
}

pub fn putfh(file: u32) -> Vec<u8> {
    [int(22), opaque(&int(file))].concat()
}

/// Numbers with their count before them.
pub fn words(words: &[u32]) -> Vec<u8> {
    let numbers: Vec<Vec<u8>> = words.iter().map(|&word| int(word)).collect();
    [int(words.len() as u32), numbers.concat()].concat()
}

pub fn getattr(asked: &[u32]) -> Vec<u8> {
    [int(9), words(asked)].concat()
}

pub fn getfh() -> Vec<u8> {
    int(10)
}

pub fn savefh() -> Vec<u8> {
    int(32)
}

pub fn restorefh() -> Vec<u8> {
    int(31)
}

/// READ (25) or READ_PLUS (68).
fn read_like(number: u32, stateid: [u8; 16], offset: u64, count: u32) -> Vec<u8> {
    [int(number), stateid.to_vec(), long(offset), int(count)].concat()
}

pub fn read(offset: u64, count: u32) -> Vec<u8> {
    read_like(25, ZEROS, offset, count)
}

pub fn read_as(stateid: [u8; 16], offset: u64, count: u32) -> Vec<u8> {
    read_like(25, stateid, offset, count)
}

pub fn read_plus(offset: u64, count: u32) -> Vec<u8> {
    read_like(68, ZEROS, offset, count)
}

pub fn read_plus_as(stateid: [u8; 16], offset: u64, count: u32) -> Vec<u8> {
    read_like(68, stateid, offset, count)
}

pub fn seek_as(stateid: [u8; 16], offset: u64, what: u32) -> Vec<u8> {
    read_like(69, stateid, offset, what)
}

pub fn seek(offset: u64, what: u32) -> Vec<u8> {
    seek_as(ZEROS, offset, what)
}

pub fn write_as(stateid: [u8; 16], offset: u64, stable: u32, data: &[u8]) -> Vec<u8> {
    [
        int(38),
        stateid.to_vec(),
        long(offset),
        int(stable),
        opaque(data),
    ]
    .concat()
}

pub fn write(offset: u64, data: &[u8]) -> Vec<u8> {
    write_as(ZEROS, offset, 0, data)
}

/// ALLOCATE (59) or DEALLOCATE (62).
fn region(number: u32, stateid: [u8; 16], offset: u64, length: u64) -> Vec<u8> {
    [int(number), stateid.to_vec(), long(offset), long(length)].concat()
}

pub fn allocate(offset: u64, length: u64) -> Vec<u8> {
    region(59, ZEROS, offset, length)
}

pub fn allocate_as(stateid: [u8; 16], offset: u64, length: u64) -> Vec<u8> {
    region(59, stateid, offset, length)
}

pub fn deallocate(offset: u64, length: u64) -> Vec<u8> {
    region(62, ZEROS, offset, length)
}

pub fn deallocate_as(stateid: [u8; 16], offset: u64, length: u64) -> Vec<u8> {
    region(62, stateid, offset, length)
}

pub fn clone_as(stateids: [[u8; 16]; 2], from: u64, to: u64, count: u64) -> Vec<u8> {
    [
        int(71),
        stateids.concat(),
        long(from),
        long(to),
        long(count),
    ]
    .concat()
}

pub fn clone(from: u64, to: u64, count: u64) -> Vec<u8> {
    clone_as([ZEROS; 2], from, to, count)
}

/// COPY with any flags and any number of servers, whose list doesn't follow.
pub fn copy_with(
    stateids: [[u8; 16]; 2],
    from: u64,
    to: u64,
    count: u64,
    flags: [u32; 3],
) -> Vec<u8> {
    [
        int(60),
        stateids.concat(),
        long(from),
        long(to),
        long(count),
        flags.map(u32::to_be_bytes).concat(),
    ]
    .concat()
}

pub fn copy(from: u64, to: u64, count: u64) -> Vec<u8> {
    copy_with([ZEROS; 2], from, to, count, [1, 1, 0])
}

/// A whole request with any header.
pub fn request_with(tag: &[u8], minor: u32, count: u32, operations: &[Vec<u8>]) -> Vec<u8> {
    [opaque(tag), int(minor), int(count), operations.concat()].concat()
}

pub fn request(operations: &[Vec<u8>]) -> Vec<u8> {
    request_with(b"", 2, operations.len() as u32, operations)
}

/// One result: number, status, body.
pub fn result(number: u32, status: u32, body: &[Vec<u8>]) -> Vec<u8> {
    [int(number), int(status), body.concat()].concat()
}

/// A whole reply.
pub fn reply_with(tag: &[u8], status: u32, results: &[Vec<u8>]) -> Vec<u8> {
    [
        int(status),
        opaque(tag),
        int(results.len() as u32),
        results.concat(),
    ]
    .concat()
}

pub fn reply(status: u32, results: &[Vec<u8>]) -> Vec<u8> {
    reply_with(b"", status, results)
}

/// The body of GETATTR's OK.
pub fn attributes_body(bitmap: &[u32], values: &[Vec<u8>]) -> Vec<u8> {
    [words(bitmap), opaque(&values.concat())].concat()
}

/// The body of READ's OK.
pub fn read_body(eof: bool, data: &[u8]) -> Vec<u8> {
    [int(eof.into()), opaque(data)].concat()
}

/// The body of SEEK's OK.
pub fn seek_body(eof: bool, place: u64) -> Vec<u8> {
    [int(eof.into()), long(place)].concat()
}

/// The body of READ_PLUS's OK.
pub fn pieces_body(eof: bool, pieces: &[Vec<u8>]) -> Vec<u8> {
    [int(eof.into()), int(pieces.len() as u32), pieces.concat()].concat()
}

pub fn data_piece(offset: u64, data: &[u8]) -> Vec<u8> {
    [int(0), long(offset), opaque(data)].concat()
}

pub fn hole_piece(offset: u64, length: u64) -> Vec<u8> {
    [int(1), long(offset), long(length)].concat()
}

/// A slot word: the block's number, if any, and whether it is reserved.
pub fn word(block: Option<u32>, reserved: bool) -> u32 {
    2 * block.map_or(0, |block| block + 1) + u32::from(reserved)
}

pub struct Bench {
    pub geometry: Geometry,
    pub store: Store,
}

impl Bench {
    pub fn new(geometry: Geometry) -> Bench {
        let store = Store::empty(&geometry);
        Bench { geometry, store }
    }

    /// Serves any bytes. Checks what holds of every call on a sound store, and hands back the
    /// answer and the reply written.
    pub fn call(&mut self, request: &[u8]) -> (Served, Vec<u8>) {
        let before = self.store.clone();
        let mut buffer = vec![UNTOUCHED; REPLY_MIN];
        let served = serve(
            &self.geometry,
            &mut self.store,
            &VERIFIER,
            request,
            &mut buffer,
        );
        assert!(buffer[served.written..].iter().all(|&b| b == UNTOUCHED));
        assert!(served.read <= request.len() && served.written <= 27_184);
        assert_eq!(survey(&self.geometry, &self.store).number, 0);
        if served.number != 0 {
            assert_eq!((served.read, served.written), (0, 0));
            assert_eq!(self.store, before);
        }
        buffer.truncate(served.written);
        (served, buffer)
    }

    /// Serves operations; the last one's status and body. Those before it must be OK without a
    /// body, and a failing one must leave the store as it is.
    pub fn last(&mut self, operations: &[Vec<u8>]) -> (u32, Vec<u8>) {
        let before = self.store.clone();
        let request = request(operations);
        let (served, reply) = self.call(&request);
        assert_eq!(served.number, 0);
        let place = 12 + 8 * (operations.len() - 1);
        assert_eq!(reply[8..12], int(operations.len() as u32));
        assert_eq!(reply[..4], reply[place + 4..place + 8]);
        let status = u32::from_be_bytes(reply[..4].try_into().unwrap());
        if status != OK {
            assert_eq!(self.store, before);
            assert_eq!(reply.len(), place + 8);
        }
        (status, reply[place + 8..].to_vec())
    }

    /// One operation on a file.
    pub fn on(&mut self, file: u32, operation: Vec<u8>) -> (u32, Vec<u8>) {
        self.last(&[putfh(file), operation])
    }

    /// One operation on a file: its status.
    pub fn status(&mut self, file: u32, operation: Vec<u8>) -> u32 {
        self.on(file, operation).0
    }

    /// COPY or CLONE between two files.
    pub fn between(&mut self, from: u32, to: u32, operation: Vec<u8>) -> (u32, Vec<u8>) {
        self.last(&[putfh(from), savefh(), putfh(to), operation])
    }

    pub fn counts(&self) -> (u64, u64) {
        let surveyed = survey(&self.geometry, &self.store);
        assert_eq!(surveyed.number, 0);
        (surveyed.used, surveyed.owed)
    }

    /// A file's slot words.
    pub fn words(&self, file: usize) -> &[u32] {
        let slots = self.geometry.slots as usize;
        &self.store.words[file * slots..(file + 1) * slots]
    }

    /// A block's bytes.
    pub fn block(&self, block: usize) -> &[u8] {
        let size = self.geometry.block_size as usize;
        &self.store.mem[block * size..(block + 1) * size]
    }

    /// A whole file, read by READs.
    pub fn file(&mut self, file: u32) -> Vec<u8> {
        let size = self.store.sizes[file as usize];
        let mut bytes = Vec::new();
        loop {
            let (status, body) = self.on(file, read(bytes.len() as u64, 2048));
            assert_eq!(status, OK);
            let length = u32::from_be_bytes(body[4..8].try_into().unwrap()) as usize;
            bytes.extend_from_slice(&body[8..8 + length]);
            if body[..4] == int(1) {
                assert_eq!(bytes.len() as u64, size);
                return bytes;
            }
        }
    }
}
