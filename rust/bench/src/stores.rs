//! Stores of files of full size; memory is nowhere zero.

use compare::Random;
use second::{Geometry, Store};

const SEED: u64 = 1;

/// One slot in `every` holds a block, in order, until so many are held.
pub fn in_order(geometry: &Geometry, every: usize, held: u64) -> Store {
    let mut store = Store::empty(geometry);
    store.sizes.fill(geometry.capacity());
    store.mem.fill(1);
    let blocks = 1..=held as u32;
    for (word, block) in store.words.iter_mut().step_by(every).zip(blocks) {
        *word = 2 * block;
    }
    store
}

/// Every slot holds a block.
pub fn full(geometry: &Geometry) -> Store {
    in_order(geometry, 1, geometry.blocks)
}

/// Half of the pool is held, by slots anywhere.
pub fn half_full(geometry: &Geometry) -> Store {
    at_random(in_order(geometry, 1, geometry.blocks / 2))
}

/// The slots in another order.
pub fn at_random(mut store: Store) -> Store {
    shuffle(&mut store.words);
    store
}

/// One slot in so many is reserved.
pub fn reserved(mut store: Store, times: u64) -> Store {
    let mut random = Random::new(SEED);
    for word in &mut store.words {
        *word |= u32::from(random.once_in(times));
    }
    store
}

pub fn shuffle<T>(items: &mut [T]) {
    let mut random = Random::new(SEED);
    for last in (1..items.len()).rev() {
        items.swap(last, random.below(last as u64 + 1) as usize);
    }
}
