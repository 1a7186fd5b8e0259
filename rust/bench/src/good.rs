//! Two servers in plain Rust that are written for speed: what the proved one is timed against.
//!
//! Every call judges the whole store, by flat passes that make one table: how many slots hold each
//! block. A compound keeps that table true slot by slot, changes the lent words in place, and puts
//! them back where an edit finds no room. The decoding is `second`'s.
//!
//! `pool` is the table, `judge` makes it of a store, `edit` has the edits, `reading` what READ,
//! READ_PLUS and SEEK see, `attributes` GETATTR, `compound` runs a request and writes into its
//! `reply`.

mod attributes;
mod compound;
mod edit;
mod judge;
mod pool;
mod reading;
mod reply;

use std::ops::Range;

use compare::{Served, Server, Shown, Surveyed};
use second::{Geometry, Refusal, Store};

/// The servers differ in what they count to judge a store or an edit, not in what they answer.
#[derive(Clone, Copy, PartialEq, Eq)]
pub enum Fast {
    /// Counts the whole tables every time.
    Good,
    /// Leaves out what it need not count: slots past a file's size, and used and owed blocks where no
    /// slot is reserved.
    Lean,
}

impl Fast {
    /// The slots of a file that are counted. So many lie below its size, the others are zero.
    fn counted(self, words: &[u32], below: usize) -> &[u32] {
        match self {
            Fast::Good => words,
            Fast::Lean => &words[..below],
        }
    }
}

impl Server for Fast {
    fn make_empty(&self, geometry: &Geometry, store: &mut Store) -> u32 {
        second::make_empty(geometry, store)
    }

    fn survey(&self, geometry: &Geometry, store: &Store) -> Surveyed {
        let counts = second::check_shape(geometry, store)
            .and_then(|()| judge::counts(*self, geometry, store));
        let (used, owed) = counts.unwrap_or_default();
        Surveyed {
            number: counts.map_or_else(Refusal::number, |_| 0),
            used: used.into(),
            owed: owed.into(),
        }
    }

    fn slot_view(
        &self,
        geometry: &Geometry,
        store: &Store,
        page: &[u8],
        file: u64,
        slot: u64,
    ) -> Shown {
        let (number, part) = match shown(*self, geometry, store, page, file, slot) {
            Ok(Some(place)) => (0, [0, place.start as u64, geometry.block_size]),
            Ok(None) => (0, [1, 0, geometry.block_size]),
            Err(refusal) => (refusal.number(), [1, 0, 0]),
        };
        let [which, start, length] = part;
        let whole = if which == 0 { &store.mem[..] } else { page };
        Shown {
            number,
            part,
            bytes: whole[start as usize..][..length as usize].to_vec(),
        }
    }

    fn serve(
        &self,
        geometry: &Geometry,
        store: &mut Store,
        verifier: &[u8],
        request: &[u8],
        reply: &mut [u8],
    ) -> Served {
        compound::serve(*self, geometry, store, verifier, request, reply)
    }
}

/// Where the memory has the bytes of a slot; nothing for a hole.
fn shown(
    server: Fast,
    geometry: &Geometry,
    store: &Store,
    page: &[u8],
    file: u64,
    slot: u64,
) -> Result<Option<Range<usize>>, Refusal> {
    second::check_shape(geometry, store)?;
    if page.len() as u64 != geometry.block_size {
        return Err(Refusal::Length);
    }
    judge::sound(server, geometry, store)?;
    if !judge::is_zero(page) {
        return Err(Refusal::Unsound);
    }
    if file >= geometry.files || slot >= geometry.slots {
        return Err(Refusal::NoSuchSlot);
    }
    let word = store.words[(file * geometry.slots + slot) as usize];
    Ok(pool::block_of(word).map(|block| geometry.bytes_of(block)))
}
