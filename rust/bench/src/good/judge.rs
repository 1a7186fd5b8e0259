//! Whether a store is sound.

use std::ops::BitOr;

use second::{Geometry, Refusal, Store};

use super::pool::{block_of, Pool};
use super::Fast;

/// Used and owed blocks of a store of the right shape.
pub(super) fn counts(
    server: Fast,
    geometry: &Geometry,
    store: &Store,
) -> Result<(u32, u32), Refusal> {
    let pool = tally(server, geometry, store).ok_or(Refusal::Unsound)?;
    let (used, owed) = pool.counts(counted(server, geometry, &store.sizes, &store.words));
    match u64::from(used + owed) <= geometry.blocks {
        true => Ok((used, owed)),
        false => Err(Refusal::Unsound),
    }
}

/// The holders of each block of a sound store of the right shape.
pub(super) fn sound(server: Fast, geometry: &Geometry, store: &Store) -> Result<Pool, Refusal> {
    tally(server, geometry, store)
        .filter(|pool| pool.has_room(counted(server, geometry, &store.sizes, &store.words)))
        .ok_or(Refusal::Unsound)
}

/// The slots of each file that are counted.
pub(super) fn counted<'a>(
    server: Fast,
    geometry: &'a Geometry,
    sizes: &'a [u64],
    words: &'a [u32],
) -> impl Iterator<Item = &'a [u32]> {
    let files = words.chunks_exact(geometry.slots as usize).zip(sizes);
    files.map(move |(words, &size)| server.counted(words, slots_below(geometry, size)))
}

fn slots_below(geometry: &Geometry, size: u64) -> usize {
    size.div_ceil(geometry.block_size) as usize
}

/// The holders of each block, where all but the room is sound.
fn tally(server: Fast, geometry: &Geometry, store: &Store) -> Option<Pool> {
    let mut pool = Pool::new(server, geometry.blocks);
    let files = store.words.chunks_exact(geometry.slots as usize);
    for (words, &size) in files.zip(&store.sizes) {
        if size > geometry.capacity() {
            return None;
        }
        let (head, past) = words.split_at(slots_below(geometry, size));
        pool.add(server.counted(words, head.len()))?;
        if !is_zero(past) || !is_zero(bytes_past(geometry, store, head, size)) {
            return None;
        }
    }
    Some(pool)
}

/// The bytes of the last slot's block that lie past the size.
fn bytes_past<'a>(geometry: &Geometry, store: &'a Store, head: &[u32], size: u64) -> &'a [u8] {
    let below = (size % geometry.block_size) as usize;
    let last = head.last().filter(|_| below > 0);
    match last.and_then(|&word| block_of(word)) {
        Some(block) => &store.mem[geometry.bytes_of(block)][below..],
        None => &[],
    }
}

pub(super) fn is_zero<T: Copy + Default + PartialEq + BitOr<Output = T>>(numbers: &[T]) -> bool {
    let any = numbers
        .iter()
        .fold(T::default(), |any, &number| any | number);
    any == T::default()
}
