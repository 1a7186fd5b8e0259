//! COPYs of a file of full size: of a sparse one, onto holes and onto blocks, and of a full one.

use compare::wire::{self, Transfer, ZEROS};
use second::{Geometry, Store};

use crate::case::{Case, Work, LARGE, LARGEST};
use crate::measure::Timed;

const CALLS: usize = 50;

/// The written slots of the image: one in so many, 16 of 1,024.
const WRITTEN_EVERY: usize = 64;

/// The files: what is copied, where to, and what fills the target again.
const IMAGE: usize = 0;
const TARGET: usize = 1;
const FULL: usize = 2;

pub struct Image {
    name: &'static str,
    geometry: Geometry,
    /// The file that is copied.
    from: usize,
    /// Whether the target's slots hold blocks before each COPY.
    onto_blocks: bool,
}

const fn onto_holes(geometry: Geometry) -> Image {
    Image {
        name: "16 written slots of 1,024, onto holes",
        geometry,
        from: IMAGE,
        onto_blocks: false,
    }
}

const fn onto_blocks(geometry: Geometry) -> Image {
    Image {
        name: "16 written slots of 1,024, onto blocks",
        geometry,
        from: IMAGE,
        onto_blocks: true,
    }
}

const fn full(geometry: Geometry) -> Image {
    Image {
        name: "1,024 written slots, onto blocks",
        geometry,
        from: FULL,
        onto_blocks: true,
    }
}

pub const ALL: [Image; 6] = [
    onto_holes(LARGE),
    onto_blocks(LARGE),
    full(LARGE),
    onto_holes(LARGEST),
    onto_blocks(LARGEST),
    full(LARGEST),
];

impl Timed for Image {
    const TITLE: &'static str = "COPY";
    const TABLE: &'static str = "copies";
    const WORD: &'static str = "copy";
    const BLOCKS: bool = true;

    fn name(&self) -> &'static str {
        self.name
    }

    fn case(&self) -> Case {
        let back = match self.onto_blocks {
            true => copied(FULL),
            false => emptied(),
        };
        let work = Work::Again {
            request: copied(self.from),
            back: Some(back),
        };
        Case {
            geometry: self.geometry,
            store: self.store(),
            calls: CALLS,
            work,
        }
    }
}

impl Image {
    /// All three files have full size.
    fn store(&self) -> Store {
        let Geometry {
            slots, block_size, ..
        } = self.geometry;
        let mut store = Store::empty(&self.geometry);
        store.sizes[..=FULL].fill(slots * block_size);
        store.mem.fill(1);
        let mut blocks = 1..;
        let mut hold = |file: usize, every: usize| {
            let words = store.words.chunks_mut(slots as usize).nth(file);
            let words = words.into_iter().flatten().step_by(every);
            words
                .zip(&mut blocks)
                .for_each(|(word, block)| *word = 2 * block);
        };
        hold(IMAGE, WRITTEN_EVERY);
        if self.onto_blocks {
            hold(TARGET, 1);
            hold(FULL, 1);
        }
        store
    }
}

/// A file copied to the target, whole.
fn copied(from: usize) -> Vec<u8> {
    let whole = Transfer {
        stateids: [ZEROS; 2],
        offsets: [0; 2],
        count: 0,
    };
    wire::request(&[
        wire::putfh_file(from),
        wire::int(wire::SAVEFH),
        wire::putfh_file(TARGET),
        whole.copy_op([1, 1, 0]),
    ])
}

/// All that the target holds given back.
fn emptied() -> Vec<u8> {
    let all = wire::region(wire::DEALLOCATE, ZEROS, 0, u64::MAX);
    wire::request(&[wire::putfh_file(TARGET), all])
}
