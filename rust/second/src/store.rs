//! The lent store: its tables, when they are sound, and the calls that only look at them.

use crate::geometry::Geometry;
use crate::status::Refusal;

/// The lent tables: F sizes, F×S slot words file by file, N×B bytes of block memory.
#[derive(Clone, Debug, PartialEq, Eq)]
pub struct Store {
    pub sizes: Vec<u64>,
    pub words: Vec<u32>,
    pub mem: Vec<u8>,
}

/// A slot word taken apart.
#[derive(Clone, Copy, Debug, PartialEq, Eq)]
pub(crate) struct Slot {
    pub block: Option<usize>,
    pub reserved: bool,
}

impl Slot {
    pub const EMPTY: Slot = Slot {
        block: None,
        reserved: false,
    };

    pub fn from_word(word: u32) -> Slot {
        Slot {
            block: (word as usize / 2).checked_sub(1),
            reserved: word % 2 == 1,
        }
    }

    pub fn word(self) -> u32 {
        let held = self.block.map_or(0, |block| block as u32 + 1);
        2 * held + u32::from(self.reserved)
    }

    /// Whether it is reserved and has no block of its own; `holders` counts those of each block.
    pub fn is_owed(self, holders: &[u32]) -> bool {
        self.reserved && self.block.is_none_or(|block| holders[block] > 1)
    }
}

impl Store {
    /// The empty store of a valid geometry.
    pub fn empty(geometry: &Geometry) -> Store {
        assert!(geometry.is_valid(), "geometry outside the numbers");
        Store {
            sizes: vec![0; geometry.files as usize],
            words: vec![0; geometry.words() as usize],
            mem: vec![0; geometry.mem() as usize],
        }
    }

    /// A file's slots in order.
    pub(crate) fn slots_of<'a>(
        &'a self,
        geometry: &Geometry,
        file: usize,
    ) -> impl Iterator<Item = Slot> + Clone + 'a {
        decoded(&self.words[geometry.words_of(file)])
    }
}

/// Slot words taken apart, in order.
pub(crate) fn decoded(words: &[u32]) -> impl Iterator<Item = Slot> + Clone + '_ {
    words.iter().map(|&word| Slot::from_word(word))
}

/// For each block the number of slots that hold it. At least `blocks` long, longer where a slot
/// holds a block numbered on from there.
pub(crate) fn holders(slots: impl Iterator<Item = Slot>, blocks: u64) -> Vec<u32> {
    let mut counts = vec![0; blocks as usize];
    slots.filter_map(|slot| slot.block).for_each(|block| {
        if block >= counts.len() {
            counts.resize(block + 1, 0);
        }
        counts[block] += 1;
    });
    counts
}

/// Used and owed blocks of all these slots.
pub(crate) fn tally(slots: impl Iterator<Item = Slot> + Clone, blocks: u64) -> (u64, u64) {
    let counts = holders(slots.clone(), blocks);
    let used = counts.iter().filter(|&&count| count > 0).count();
    let owed = slots.filter(|slot| slot.is_owed(&counts)).count();
    (used as u64, owed as u64)
}

/// Refusals 1 and 2, as far as they concern the geometry and the store.
pub fn check_shape(geometry: &Geometry, store: &Store) -> Result<(), Refusal> {
    if !geometry.is_valid() {
        return Err(Refusal::Geometry);
    }
    let fits = store.sizes.len() as u64 == geometry.files
        && store.words.len() as u64 == geometry.words()
        && store.mem.len() as u64 == geometry.mem();
    fits.then_some(()).ok_or(Refusal::Length)
}

/// Used and owed blocks of a store of the right shape, or refusal 3.
pub(crate) fn check_sound(geometry: &Geometry, store: &Store) -> Result<(u64, u64), Refusal> {
    let well_formed = |&word: &u32| u64::from(word / 2) <= geometry.blocks;
    let sound = store.words.iter().all(well_formed)
        && (0..store.sizes.len()).all(|file| is_file_sound(geometry, store, file));
    if !sound {
        return Err(Refusal::Unsound);
    }
    let (used, owed) = tally(decoded(&store.words), geometry.blocks);
    (used + owed <= geometry.blocks)
        .then_some((used, owed))
        .ok_or(Refusal::Unsound)
}

/// The size fits, nothing stands past it, neither words nor bytes.
fn is_file_sound(geometry: &Geometry, store: &Store, file: usize) -> bool {
    let size = store.sizes[file];
    if size > geometry.capacity() {
        return false;
    }
    let words = &store.words[geometry.words_of(file)];
    let past = size.div_ceil(geometry.block_size) as usize;
    if words[past..].iter().any(|&word| word != 0) {
        return false;
    }
    let tail = (size % geometry.block_size) as usize;
    if tail == 0 {
        return true;
    }
    Slot::from_word(words[past - 1]).block.is_none_or(|block| {
        let bytes = &store.mem[geometry.bytes_of(block)];
        bytes[tail..].iter().all(|&byte| byte == 0)
    })
}

fn number<T>(outcome: Result<T, Refusal>) -> u32 {
    outcome.map_or_else(Refusal::number, |_| 0)
}

/// Zeroes every table and the block memory: 0, or 1 or 2.
pub fn make_empty(geometry: &Geometry, store: &mut Store) -> u32 {
    let outcome = check_shape(geometry, store);
    if outcome.is_ok() {
        store.sizes.fill(0);
        store.words.fill(0);
        store.mem.fill(0);
    }
    number(outcome)
}

/// The answer of `survey`; zero counts on a refusal.
#[derive(Clone, Copy, Debug, PartialEq, Eq)]
pub struct Surveyed {
    pub number: u32,
    pub used: u64,
    pub owed: u64,
}

/// 0 with the used and owed blocks of a sound store, else 1, 2 or 3.
pub fn survey(geometry: &Geometry, store: &Store) -> Surveyed {
    let counts = check_shape(geometry, store).and_then(|()| check_sound(geometry, store));
    let (used, owed) = counts.unwrap_or_default();
    Surveyed {
        number: number(counts),
        used,
        owed,
    }
}

/// What a slot view shows.
#[derive(Clone, Copy, Debug, PartialEq, Eq)]
pub enum Kind {
    Data,
    Hole,
}

/// The answer of `slot`; a hole and the empty start of the zero page on a refusal.
#[derive(Clone, Copy, Debug, PartialEq, Eq)]
pub struct Shown<'a> {
    pub number: u32,
    pub kind: Kind,
    pub bytes: &'a [u8],
}

/// Shows one slot without copying: its block's bytes, or the lent zero page for a hole.
pub fn slot<'a>(
    geometry: &Geometry,
    store: &'a Store,
    zero_page: &'a [u8],
    file: u64,
    slot: u64,
) -> Shown<'a> {
    match find_block(geometry, store, zero_page, file, slot) {
        Ok(Some(block)) => Shown {
            number: 0,
            kind: Kind::Data,
            bytes: &store.mem[geometry.bytes_of(block)],
        },
        Ok(None) => Shown {
            number: 0,
            kind: Kind::Hole,
            bytes: zero_page,
        },
        Err(refusal) => Shown {
            number: refusal.number(),
            kind: Kind::Hole,
            bytes: &zero_page[..0],
        },
    }
}

fn find_block(
    geometry: &Geometry,
    store: &Store,
    zero_page: &[u8],
    file: u64,
    slot: u64,
) -> Result<Option<usize>, Refusal> {
    check_shape(geometry, store)?;
    if zero_page.len() as u64 != geometry.block_size {
        return Err(Refusal::Length);
    }
    check_sound(geometry, store)?;
    if zero_page.iter().any(|&byte| byte != 0) {
        return Err(Refusal::Unsound);
    }
    if file >= geometry.files || slot >= geometry.slots {
        return Err(Refusal::NoSuchSlot);
    }
    let words = &store.words[geometry.words_of(file as usize)];
    Ok(Slot::from_word(words[slot as usize]).block)
}
