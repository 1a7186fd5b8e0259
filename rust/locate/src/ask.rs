//! Asks the proved server for the place, on an empty store of its own.

use server_sys::{make_empty, serve, Geometry, Served};

const GEOMETRY: Geometry = Geometry {
    files: 4,
    slots: 16,
    blocks: 32,
    block_size: 512,
};

const BADXDR: u32 = 10036;

/// The statuses of operations whose arguments are not read, and of compounds without a result.
const UNREAD: [(u32, &str); 5] = [
    (10004, "NOTSUPP"),
    (10021, "MINOR_VERS_MISMATCH"),
    (10044, "OP_ILLEGAL"),
    (10064, "SEQUENCE_POS"),
    (10070, "TOO_MANY_OPS"),
];

/// The part of the request that was being read.
#[derive(Clone, Copy)]
pub enum Part {
    Header,
    /// Counted from 1, and the place where it starts.
    Operation {
        number: usize,
        start: usize,
    },
}

pub enum Found {
    Nothing {
        read: usize,
    },
    /// Operation `number` ends the list, and its arguments are not looked at; 0 where there is none.
    Unread {
        number: usize,
        status: &'static str,
    },
    Refused {
        number: u32,
    },
    Fault {
        part: Part,
        place: usize,
    },
}

/// Goes on behind each operation that fails for another reason than its bytes: on the store that
/// the request was made for it may not fail.
pub fn ask(request: &[u8]) -> Found {
    let mut rest = request.to_vec();
    // The operations that were passed, and how much further on a place of `rest` is in the request.
    let (mut passed, mut shift) = (0, 0);
    loop {
        let (served, reply) = answer(&rest);
        let place = served.place as usize + shift;
        match served.number {
            0 => {}
            6 => {
                let part = Part::Header;
                return Found::Fault { part, place };
            }
            number => return Found::Refused { number },
        }
        let (status, results) = (word(&reply, 0), last_count(&rest, &reply));
        let number = passed + results;
        let read = served.read as usize;
        let start = read + shift;
        if status == BADXDR {
            let part = Part::Operation { number, start };
            return Found::Fault { part, place };
        }
        if let Some(&(_, status)) = UNREAD.iter().find(|unread| unread.0 == status) {
            return Found::Unread { number, status };
        }
        let left = operations(&rest) - results;
        if status == 0 || left == 0 {
            return Found::Nothing { read: start };
        }
        rest = [header(left).concat(), rest[read..].to_vec()].concat();
        passed = number;
        shift = start - HEADER;
    }
}

/// The bytes of a header without a tag.
const HEADER: usize = 12;

fn header(operations: usize) -> [[u8; 4]; 3] {
    [0, 2, operations as u32].map(u32::to_be_bytes)
}

fn answer(request: &[u8]) -> (Served, Vec<u8>) {
    let mut sizes = vec![0; 4];
    let mut words = vec![0; 4 * 16];
    let mut mem = vec![0; 32 * 512];
    let mut reply = vec![0; 32_768];
    make_empty(&GEOMETRY, &mut sizes, &mut words, &mut mem);
    let served = serve(
        &GEOMETRY, &mut sizes, &mut words, &mut mem, &[0; 8], request, &mut reply,
    );
    (served, reply)
}

/// The four bytes at a place.
fn word(bytes: &[u8], at: usize) -> u32 {
    let word = bytes.get(at..at + 4).and_then(|word| word.try_into().ok());
    word.map_or(0, u32::from_be_bytes)
}

/// The length of opaque data whose length has that value, with the pad.
fn padded(length: u32) -> usize {
    (length as usize).next_multiple_of(4)
}

/// The number of operations that a request names behind its tag and minor version.
fn operations(request: &[u8]) -> usize {
    word(request, 8 + padded(word(request, 0))) as usize
}

/// The number of results; the reply has the request's tag.
fn last_count(request: &[u8], reply: &[u8]) -> usize {
    word(reply, 8 + padded(word(request, 0))) as usize
}
