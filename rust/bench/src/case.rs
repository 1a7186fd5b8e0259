//! What is timed.

use compare::wire::{self, Transfer, ZEROS};
use compare::Random;
use second::{Geometry, Store};

use crate::stores;

pub const SMALLEST: Geometry = geometry(1, 1, 1, 512);
/// The frames program's.
pub const FRAMES: Geometry = geometry(4, 16, 32, 512);
/// The smallest for a CLONE of 64 slots.
pub const SMALL: Geometry = geometry(4, 128, 256, 512);
pub const LARGE: Geometry = geometry(64, 1024, 65_536, 512);
pub const LARGEST: Geometry = geometry(64, 1024, 65_536, 4096);

/// The slots of a CLONE.
const CLONED: u64 = 64;
/// The bitmap of all attributes that there are.
const ATTRIBUTES: [u32; 3] = [0x11, 0x2000, 0x6000];
/// The bytes of a WRITE.
pub const WRITTEN: u64 = 100;

pub const VERIFIER: [u8; 8] = [7; 8];

pub const fn geometry(files: u64, slots: u64, blocks: u64, block_size: u64) -> Geometry {
    Geometry {
        files,
        slots,
        blocks,
        block_size,
    }
}

#[derive(Clone, Copy)]
pub enum Kind {
    Write,
    ReadPlus,
    GetAttr,
    Allocate,
    Clone,
    Survey,
}

impl Kind {
    pub const ALL: [Kind; 6] = [
        Kind::Write,
        Kind::ReadPlus,
        Kind::GetAttr,
        Kind::Allocate,
        Kind::Clone,
        Kind::Survey,
    ];

    pub fn name(self) -> &'static str {
        match self {
            Kind::Write => "WRITE of 100 bytes",
            Kind::ReadPlus => "READ_PLUS, sparse",
            Kind::GetAttr => "GETATTR of all five",
            Kind::Allocate => "ALLOCATE",
            Kind::Clone => "CLONE of 64 written slots",
            Kind::Survey => "survey",
        }
    }
}

/// A store, and what is asked of it.
pub struct Case {
    pub geometry: Geometry,
    pub store: Store,
    pub calls: usize,
    pub work: Work,
}

pub enum Work {
    /// Compounds, served one after the other.
    Serve(Vec<Vec<u8>>),
    /// One compound, again and again. Between two, and not timed, another that gives back what it took.
    Again {
        request: Vec<u8>,
        back: Option<Vec<u8>>,
    },
    Survey,
}

impl Case {
    pub fn new(kind: Kind, geometry: Geometry, calls: usize) -> Case {
        let store = match kind {
            Kind::Clone => written(&geometry, CLONED),
            _ => stores::in_order(&geometry, 2, geometry.blocks.div_ceil(2)),
        };
        Case::of(kind, geometry, store, calls)
    }

    /// The same on another store.
    pub fn of(kind: Kind, geometry: Geometry, store: Store, calls: usize) -> Case {
        let work = match kind {
            Kind::Write => writes(&geometry, calls),
            Kind::ReadPlus => reads(&geometry, calls),
            Kind::GetAttr => compounds(&geometry, calls, |_| wire::getattr(&ATTRIBUTES)),
            Kind::Allocate => allocates(&geometry, calls),
            Kind::Clone => clones(&geometry, calls),
            Kind::Survey => Work::Survey,
        };
        Case {
            geometry,
            store,
            calls,
            work,
        }
    }
}

/// The first file has that many written slots, the others are empty.
fn written(geometry: &Geometry, slots: u64) -> Store {
    let mut store = stores::in_order(geometry, 1, slots);
    store.sizes.fill(0);
    store.sizes[0] = slots * geometry.block_size;
    store
}
/// A compound of PUTFH and one operation for each call.
fn compounds(
    geometry: &Geometry,
    calls: usize,
    mut operation: impl FnMut(&mut Random) -> Vec<u8>,
) -> Work {
    let mut random = Random::new(geometry.files + geometry.slots);
    let requests = (0..calls).map(|_| {
        let file = random.below(geometry.files) as usize;
        wire::request(&[wire::putfh_file(file), operation(&mut random)])
    });
    Work::Serve(requests.collect())
}

/// The slots of a file that are edited: all, or fewer where the pool has no block for each slot.
fn reach(geometry: &Geometry) -> u64 {
    if geometry.files * geometry.slots <= geometry.blocks {
        geometry.slots
    } else {
        geometry.blocks / (2 * geometry.files)
    }
}

fn writes(geometry: &Geometry, calls: usize) -> Work {
    let places = reach(geometry) * geometry.block_size - WRITTEN;
    compounds(geometry, calls, |random| {
        let data = random.bytes(WRITTEN as usize);
        wire::write(ZEROS, random.below(places), 2, &data)
    })
}

fn reads(geometry: &Geometry, calls: usize) -> Work {
    let places = geometry.slots * geometry.block_size;
    compounds(geometry, calls, |random| {
        wire::look(wire::READ_PLUS, ZEROS, random.below(places), 2048)
    })
}

/// Four slots, or all of them.
fn allocates(geometry: &Geometry, calls: usize) -> Work {
    let slots = geometry.slots.min(4);
    compounds(geometry, calls, |random| {
        let first = random.below(reach(geometry) - slots + 1);
        let [offset, length] = [first, slots].map(|count| count * geometry.block_size);
        wire::region(wire::ALLOCATE, ZEROS, offset, length)
    })
}

/// CLONE from the first file to any place of the others.
fn clones(geometry: &Geometry, calls: usize) -> Work {
    let mut random = Random::new(1);
    let requests = (0..calls).map(|_| {
        let target = random.within(1..=geometry.files - 1) as usize;
        let first = random.below(geometry.slots - CLONED + 1);
        let clone = Transfer {
            stateids: [ZEROS; 2],
            offsets: [0, first * geometry.block_size],
            count: CLONED * geometry.block_size,
        };
        wire::request(&[
            wire::putfh_file(0),
            wire::int(wire::SAVEFH),
            wire::putfh_file(target),
            clone.clone_op(),
        ])
    });
    Work::Serve(requests.collect())
}
