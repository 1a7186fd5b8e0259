//! Of which slots COPYs made holes, and what else they did.

use std::fmt;
use std::ops::Range;

use second::{serve, survey, Geometry, Store, REPLY_MIN};

use crate::list::Step;
use crate::slots::{kinds, SLOTS};
use crate::wire::{self, Outcome};

/// On a store with more memory COPYs are not looked at.
const MEM_MAX: usize = 1 << 20;

const OK: u32 = 0;
const NOSPC: u32 = 28;

/// Where COPY has its offsets, and how far before its end its result has the count.
const FROM: usize = 36;
const TO: usize = 44;
const COUNT: usize = 28;

/// What a COPY did that made a hole in the place of a block: another slot took a block that it freed;
/// another slot kept a block that it had shared; the offsets differ modulo B; the last slot is a hole
/// up to an uneven size; the pool was full; there was no space.
const EVENTS: [&str; 6] = [
    "block taken",
    "block kept",
    "offsets differ",
    "uneven end",
    "full pool",
    "NOSPC",
];

#[derive(Default)]
pub struct Copies {
    /// For each kind of slot, of how many there were holes after a COPY over them.
    holes: [u64; SLOTS.len()],
    events: [u64; EVENTS.len()],
}

impl Copies {
    pub fn add(&mut self, call: &Copying, outcome: &Outcome) {
        for (index, result) in outcome.results.iter().enumerate() {
            let done = match (result.number, result.status) {
                (wire::COPY, OK) => true,
                (wire::COPY, NOSPC) => false,
                _ => continue,
            };
            if let Some(copy) = call.copy(index) {
                self.add_copy(&copy, done);
            }
        }
    }

    fn add_copy(&mut self, copy: &Copied, done: bool) {
        for slot in copy.holes().filter(|_| done) {
            self.holes[copy.kinds[slot]] += 1;
        }
        let met = [
            done && copy.is_block_taken(),
            done && copy.is_block_kept(),
            done && copy.differ,
            done && copy.is_last_hole(),
            done && copy.full,
            !done,
        ];
        for (times, met) in self.events.iter_mut().zip(met) {
            *times += u64::from(met && copy.is_freeing());
        }
    }

    /// What was never met.
    pub fn missing(&self) -> impl Iterator<Item = String> + '_ {
        let holes = SLOTS.iter().zip(self.holes);
        let holes = holes
            .filter(|(_, times)| *times == 0)
            .map(|(slot, _)| format!("COPY with a hole of slot {slot}"));
        let events = EVENTS.iter().zip(self.events);
        let events = events
            .filter(|(_, times)| *times == 0)
            .map(|(event, _)| format!("COPY with a hole and {event}"));
        holes.chain(events)
    }
}

impl fmt::Display for Copies {
    fn fmt(&self, f: &mut fmt::Formatter) -> fmt::Result {
        write!(f, "COPY's holes of")?;
        for (slot, times) in SLOTS.iter().zip(self.holes) {
            write!(f, "  {slot}: {times}")?;
        }
        write!(f, "\nCOPY with a hole and")?;
        for (event, times) in EVENTS.iter().zip(self.events) {
            write!(f, "  {event}: {times}")?;
        }
        writeln!(f)
    }
}

/// A call with COPYs, and the store before it with a free block more for every slot of a file: there a
/// COPY does what it would do, NOSPC or not.
pub struct Copying {
    geometry: Geometry,
    blocks: u64,
    store: Store,
    operations: Vec<Vec<u8>>,
}

impl Copying {
    /// Nothing for a step that is no such call.
    pub fn new(geometry: &Geometry, store: &Store, step: &Step) -> Option<Copying> {
        let Step::Serve(call) = step else {
            return None;
        };
        let request = &call.request;
        let is_copy = |operation: &Vec<u8>| operation.starts_with(&wire::COPY.to_be_bytes());
        let as_told = call.lent.is_usual() && request.edits.is_empty() && request.count.is_none();
        if !as_told || store.mem.len() > MEM_MAX || !request.operations.iter().any(is_copy) {
            return None;
        }
        let blocks = geometry.blocks + geometry.slots;
        let mut store = store.clone();
        store.mem.resize((blocks * geometry.block_size) as usize, 0);
        Some(Copying {
            geometry: Geometry {
                blocks,
                ..*geometry
            },
            blocks: geometry.blocks,
            store,
            operations: request.operations.clone(),
        })
    }

    /// The store after these operations, and the reply.
    fn served(&self, operations: &[Vec<u8>]) -> (Store, Vec<u8>) {
        let mut store = self.store.clone();
        let mut reply = vec![0; REPLY_MIN];
        let request = wire::request(operations);
        let served = serve(&self.geometry, &mut store, &[0; 8], &request, &mut reply);
        reply.truncate(served.written);
        (store, reply)
    }

    /// What the COPY at that place did; nothing where it copied no byte.
    fn copy(&self, index: usize) -> Option<Copied> {
        let operation = &self.operations[index];
        let named = [&self.operations[..index], &[wire::int(wire::GETFH)]].concat();
        let (before, named) = self.served(&named);
        let (after, copied) = self.served(&self.operations[..=index]);
        let file = u32::from_be_bytes(*named.last_chunk()?) as usize;
        let count = number(&copied, copied.len().checked_sub(COUNT)?)?;
        let [from, to] = [FROM, TO].map(|at| number(operation, at));
        let (from, to) = (from?, to?);
        let (b, end) = (self.geometry.block_size, to + count);
        let first = file * self.geometry.slots as usize;
        let surveyed = survey(&self.geometry, &before);
        (count > 0).then(|| Copied {
            slots: first + (to / b) as usize..first + end.div_ceil(b) as usize,
            kinds: kinds(&self.geometry, &before.words),
            differ: from % b != to % b,
            cut: end % b != 0 && end == after.sizes[file],
            full: surveyed.used + surveyed.owed == self.blocks,
            words: [before.words, after.words],
        })
    }
}

fn number(bytes: &[u8], at: usize) -> Option<u64> {
    let bytes = bytes.get(at..)?.first_chunk()?;
    Some(u64::from_be_bytes(*bytes))
}

struct Copied {
    /// The slots that the COPY goes over, by their place among all.
    slots: Range<usize>,
    /// What each slot was, by its place in `SLOTS`.
    kinds: Vec<usize>,
    /// All slot words before and after.
    words: [Vec<u32>; 2],
    /// Whether the offsets differ modulo B; it ends at an uneven size; the pool was full.
    differ: bool,
    cut: bool,
    full: bool,
}

impl Copied {
    fn block(&self, side: usize, slot: usize) -> u32 {
        self.words[side][slot] / 2
    }

    fn holders(&self, side: usize, block: u32) -> usize {
        let words = self.words[side].iter();
        words.filter(|word| *word / 2 == block).count()
    }

    fn holes(&self) -> impl Iterator<Item = usize> + '_ {
        let slots = self.slots.clone();
        slots.filter(|&slot| self.block(1, slot) == 0)
    }

    /// Whether there is a hole in the place of a block.
    fn is_freeing(&self) -> bool {
        self.holes().any(|slot| self.block(0, slot) != 0)
    }

    /// Whether a slot has a block that it did not have, and that others had.
    fn is_block_taken(&self) -> bool {
        let mut slots = self.slots.clone();
        slots.any(|slot| {
            let block = self.block(1, slot);
            block != 0 && block != self.block(0, slot) && self.holders(0, block) > 0
        })
    }

    fn is_last_hole(&self) -> bool {
        self.cut && self.block(1, self.slots.end - 1) == 0
    }

    /// Whether a slot holds a block alone that it shared with one that is a hole now.
    fn is_block_kept(&self) -> bool {
        let mut slots = self.slots.clone();
        slots.any(|slot| {
            let block = self.block(0, slot);
            let alone = block != 0 && self.block(1, slot) == block && self.holders(1, block) == 1;
            alone && self.holes().any(|hole| self.block(0, hole) == block)
        })
    }
}
