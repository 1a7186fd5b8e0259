//! WRITEs that take free blocks, and WRITEs that take none.

use compare::wire::{self, ZEROS};
use second::Geometry;

use crate::case::{self, Case, Work, LARGE};
use crate::measure::Timed;
use crate::stores;

/// Half of `LARGE`.
const HALF: Geometry = case::geometry(64, 512, 32_768, 512);

/// The bytes of a short and of a long WRITE, and the slots of a long one.
const SHORT: usize = 100;
const LONG: usize = 60_000;
const LONG_SLOTS: u64 = 118;

/// The WRITEs of a compound of 12 operations: PUTFH is the other.
const MANY: u64 = 11;

const CALLS: usize = 200;

/// Files of full size, whose slots hold blocks in order, but for the last ones, which are holes;
/// and WRITEs up to the last slot.
pub struct Pick {
    name: &'static str,
    geometry: Geometry,
    holes: u64,
    writes: u64,
    /// Of each WRITE.
    bytes: usize,
}

const fn pick(name: &'static str, holes: u64, writes: u64, bytes: usize) -> Pick {
    Pick {
        name,
        geometry: LARGE,
        holes,
        writes,
        bytes,
    }
}

pub const LAST: Pick = pick("100 bytes take the last free block", 1, 1, SHORT);
pub const LONG_OF_120: Pick = pick("60,000 bytes take 118 of the last 120", 120, 1, LONG);
pub const ELEVEN: Pick = pick("11 times 100 bytes take 11, half full", 32_768, MANY, SHORT);

pub const ALL: [Pick; 8] = [
    Pick {
        geometry: HALF,
        ..LAST
    },
    LAST,
    pick("60,000 bytes take the last free block", 1, 1, LONG),
    pick("60,000 bytes take the last 118", LONG_SLOTS, 1, LONG),
    ELEVEN,
    pick("100 bytes over their own block", 0, 1, SHORT),
    pick("60,000 bytes over their own blocks", 0, 1, LONG),
    pick("11 times 100 bytes over their own blocks", 0, MANY, SHORT),
];

impl Timed for Pick {
    const TITLE: &'static str = "WRITE";
    const TABLE: &'static str = "picks";
    const WORD: &'static str = "pick";
    const BLOCKS: bool = true;

    fn name(&self) -> &'static str {
        self.name
    }

    fn case(&self) -> Case {
        let work = Work::Again {
            request: self.request(),
            back: (self.holes > 0).then(|| self.back()),
        };
        let held = self.geometry.blocks - self.holes;
        Case {
            geometry: self.geometry,
            store: stores::in_order(&self.geometry, 1, held),
            calls: CALLS,
            work,
        }
    }
}

impl Pick {
    /// The slots of a WRITE.
    fn slots(&self) -> u64 {
        (self.bytes as u64).div_ceil(self.geometry.block_size)
    }

    fn last_file(&self) -> Vec<u8> {
        wire::putfh_file(self.geometry.files as usize - 1)
    }

    /// So many slots before a file's last byte.
    fn before_end(&self, slots: u64) -> u64 {
        (self.geometry.slots - slots) * self.geometry.block_size
    }

    fn request(&self) -> Vec<u8> {
        let data = vec![2; self.bytes];
        let write = |left| wire::write(ZEROS, self.before_end(left * self.slots()), 2, &data);
        let writes = (1..=self.writes).rev().map(write);
        let operations: Vec<_> = [self.last_file()].into_iter().chain(writes).collect();
        wire::request(&operations)
    }

    /// The written slots that were holes are holes again.
    fn back(&self) -> Vec<u8> {
        let taken = self.holes.min(self.writes * self.slots());
        let length = taken * self.geometry.block_size;
        let free = wire::region(wire::DEALLOCATE, ZEROS, self.before_end(taken), length);
        wire::request(&[self.last_file(), free])
    }
}
