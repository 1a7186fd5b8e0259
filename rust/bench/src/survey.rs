//! The survey of large stores, full ones above all.

use second::Store;

use crate::case::{Case, Work, LARGE};
use crate::measure::{Timed, FEW};
use crate::stores::{at_random, full, half_full, reserved};

pub struct Surveyed {
    name: &'static str,
    store: fn() -> Store,
}

const fn surveyed(name: &'static str, store: fn() -> Store) -> Surveyed {
    Surveyed { name, store }
}

pub const ALL: [Surveyed; 6] = [
    surveyed("full, block numbers in order", || full(&LARGE)),
    surveyed("full, block numbers at random", || at_random(full(&LARGE))),
    surveyed("full, in order, half the slots reserved", || {
        reserved(full(&LARGE), 2)
    }),
    surveyed("full, at random, half the slots reserved", || {
        reserved(at_random(full(&LARGE)), 2)
    }),
    surveyed("half full, holes at random", || half_full(&LARGE)),
    surveyed("empty", || Store::empty(&LARGE)),
];

impl Timed for Surveyed {
    const TITLE: &'static str = "Survey";
    const TABLE: &'static str = "survey";
    const WORD: &'static str = "surveyed";
    const BLOCKS: bool = false;

    fn name(&self) -> &'static str {
        self.name
    }

    fn case(&self) -> Case {
        Case {
            geometry: LARGE,
            store: (self.store)(),
            calls: FEW,
            work: Work::Survey,
        }
    }
}
