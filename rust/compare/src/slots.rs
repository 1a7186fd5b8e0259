//! What the slots of a store hold.

use std::collections::HashMap;

use second::Geometry;

/// What a slot holds: nothing, a block of its own, or one that slots of other files hold too, that
/// other slots of its file do, that both do; each without and with its reserve.
pub const SLOTS: [&str; 10] = [
    "hole", "hole+r", "own", "own+r", "shared", "shared+r", "self", "self+r", "both", "both+r",
];

/// For each slot its place in `SLOTS`.
pub fn kinds(geometry: &Geometry, words: &[u32]) -> Vec<usize> {
    let slots = geometry.slots as usize;
    let mut holders = HashMap::<u32, u32>::new();
    let mut holders_in_file = HashMap::<(usize, u32), u32>::new();
    for (index, word) in words.iter().enumerate() {
        *holders.entry(word / 2).or_default() += 1;
        let here = (index / slots, word / 2);
        *holders_in_file.entry(here).or_default() += 1;
    }
    let kind = |(index, &word): (usize, &u32)| {
        let block = word / 2;
        let all = holders[&block];
        let held = match holders_in_file[&(index / slots, block)] {
            _ if block == 0 => 0,
            _ if all == 1 => 1,
            1 => 2,
            here if here == all => 3,
            _ => 4,
        };
        2 * held + (word % 2) as usize
    };
    words.iter().enumerate().map(kind).collect()
}
