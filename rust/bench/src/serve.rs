//! Served compounds: on large stores of several kinds, and on small ones.

use compare::wire::{self, ZEROS};
use compare::{Generator, Second, Server};
use second::{Store, REPLY_MIN};

use crate::case::{Case, Kind, Work, FRAMES, LARGE, VERIFIER, WRITTEN};
use crate::measure::{Timed, FEW, MANY};
use crate::pick;
use crate::stores::{at_random, full, half_full, reserved, shuffle};

/// The WRITEs into fresh slots, and the CLONEs.
const WRITES: usize = 10_000;
const CLONES: usize = 1000;

const SEED: u64 = 1;

pub struct Served {
    name: &'static str,
    case: fn() -> Case,
}

const fn served(name: &'static str, case: fn() -> Case) -> Served {
    Served { name, case }
}

pub const ALL: [Served; 14] = [
    served("10,000 WRITEs of 100 bytes, fresh slots in order", || {
        fresh(slots())
    }),
    served("10,000 WRITEs of 100 bytes, fresh slots anywhere", || {
        let mut slots = slots();
        shuffle(&mut slots);
        fresh(slots)
    }),
    served("1,000 CLONEs of 64 written slots", || {
        Case::new(Kind::Clone, LARGE, CLONES)
    }),
    served("WRITE anywhere, full, block numbers in order", || {
        anywhere(Kind::Write, full(&LARGE))
    }),
    served("WRITE anywhere, full, block numbers at random", || {
        anywhere(Kind::Write, at_random(full(&LARGE)))
    }),
    served("WRITE anywhere, half full, holes at random", || {
        anywhere(Kind::Write, half_full(&LARGE))
    }),
    served("WRITE anywhere, full, half the slots reserved", || {
        anywhere(Kind::Write, reserved(full(&LARGE), 2))
    }),
    served("WRITE anywhere, half full, 1 slot in 4 reserved", || {
        anywhere(Kind::Write, reserved(half_full(&LARGE), 4))
    }),
    served("READ_PLUS, half full, holes at random", || {
        anywhere(Kind::ReadPlus, half_full(&LARGE))
    }),
    served("WRITE that takes the last block, in order", || {
        pick::LAST.case()
    }),
    served("WRITE of 60,000 bytes, the last 120 blocks free", || {
        pick::LONG_OF_120.case()
    }),
    served("PUTFH and 11 WRITEs, half full", || pick::ELEVEN.case()),
    served("WRITE of 100 bytes", || {
        Case::new(Kind::Write, FRAMES, MANY)
    }),
    served("compounds of several operations", mixed),
];

impl Timed for Served {
    const TITLE: &'static str = "Compound";
    const TABLE: &'static str = "serve";
    const WORD: &'static str = "served";
    const BLOCKS: bool = false;

    fn name(&self) -> &'static str {
        self.name
    }

    fn case(&self) -> Case {
        (self.case)()
    }
}

fn anywhere(kind: Kind, store: Store) -> Case {
    Case::of(kind, LARGE, store, FEW)
}

/// All slots, by file and place.
fn slots() -> Vec<(u64, u64)> {
    let places = |file| (0..LARGE.slots).map(move |slot| (file, slot));
    (0..LARGE.files).flat_map(places).collect()
}

/// WRITEs into the first of these slots, from an empty store on.
fn fresh(slots: Vec<(u64, u64)>) -> Case {
    let requests = slots.iter().take(WRITES).map(|&(file, slot)| {
        let data = [2; WRITTEN as usize];
        let write = wire::write(ZEROS, slot * LARGE.block_size, 2, &data);
        wire::request(&[wire::putfh_file(file as usize), write])
    });
    Case {
        geometry: LARGE,
        store: Store::empty(&LARGE),
        calls: WRITES,
        work: Work::Serve(requests.collect()),
    }
}

/// Requests as a recording has them, those that end in OK.
fn mixed() -> Case {
    let mut generator = Generator::with_geometry(FRAMES, SEED);
    let mut store = Store::empty(&FRAMES);
    let mut reply = vec![0; REPLY_MIN];
    let mut requests = Vec::new();
    while requests.len() < MANY {
        let request = generator.request(&store);
        let mut after = store.clone();
        let served = Second.serve(&FRAMES, &mut after, &VERIFIER, &request, &mut reply);
        if served.number == 0 && reply[..4] == [0; 4] {
            store = after;
            requests.push(request);
        }
    }
    Case {
        geometry: FRAMES,
        store: Store::empty(&FRAMES),
        calls: MANY,
        work: Work::Serve(requests),
    }
}
