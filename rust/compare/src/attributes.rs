//! How often GETATTR answered each attribute, and space_freed of which files.

use std::fmt;

use second::Geometry;

use crate::slots::{kinds, SLOTS};
use crate::wire::{self, Outcome, Told};

const SPACE_FREED: u32 = 78;

/// The attributes that there are.
const ATTRIBUTES: [(u32, &str); 5] = [
    (0, "supported_attrs"),
    (4, "size"),
    (45, "space_used"),
    (77, "clone_blksize"),
    (SPACE_FREED, "space_freed"),
];

#[derive(Default)]
pub struct Attributes {
    answered: [u64; ATTRIBUTES.len()],
    /// How often the file whose space_freed was told had a slot of that kind. It is known where a
    /// GETFH right before tells the file, and all edits of the compound stand on one side.
    freed: [u64; SLOTS.len()],
}

impl Attributes {
    /// With the slot words before and after the call.
    pub fn add(&mut self, geometry: &Geometry, words: [&[u32]; 2], outcome: &Outcome) {
        for (index, result) in outcome.results.iter().enumerate() {
            let Told::Attributes(bitmap) = &result.told else {
                continue;
            };
            for (times, (number, _)) in self.answered.iter_mut().zip(ATTRIBUTES) {
                *times += u64::from(wire::has_bit(bitmap, number));
            }
            if !wire::has_bit(bitmap, SPACE_FREED) {
                continue;
            }
            if let Some((file, words)) = known(outcome, index, words) {
                self.add_freed(geometry, words, file);
            }
        }
    }

    fn add_freed(&mut self, geometry: &Geometry, words: &[u32], file: u32) {
        let slots = geometry.slots as usize;
        let kinds = kinds(geometry, words);
        let own = &kinds[file as usize * slots..][..slots];
        for (kind, times) in self.freed.iter_mut().enumerate() {
            *times += u64::from(own.contains(&kind));
        }
    }

    /// What was never met.
    pub fn missing(&self) -> impl Iterator<Item = String> + '_ {
        let answered = ATTRIBUTES.iter().zip(self.answered);
        let answered = answered
            .filter(|(_, times)| *times == 0)
            .map(|((_, name), _)| format!("attribute {name}"));
        let freed = SLOTS.iter().zip(self.freed);
        let freed = freed
            .filter(|(_, times)| *times == 0)
            .map(|(slot, _)| format!("space_freed with slot {slot}"));
        answered.chain(freed)
    }
}

/// The file of a GETATTR and the slot words that it saw.
fn known<'a>(
    outcome: &Outcome,
    index: usize,
    [before, after]: [&'a [u32]; 2],
) -> Option<(u32, &'a [u32])> {
    let (earlier, later) = outcome.results.split_at(index);
    let is_edit = |result: &wire::Answered| wire::EDITS.contains(&result.number);
    let words = match (earlier.iter().any(is_edit), later.iter().any(is_edit)) {
        (false, _) => before,
        (true, false) => after,
        (true, true) => return None,
    };
    match earlier.last()?.told {
        Told::File(file) => Some((file, words)),
        _ => None,
    }
}

impl fmt::Display for Attributes {
    fn fmt(&self, f: &mut fmt::Formatter) -> fmt::Result {
        write!(f, "GETATTR with")?;
        for ((_, name), times) in ATTRIBUTES.iter().zip(self.answered) {
            write!(f, "  {name}: {times}")?;
        }
        write!(f, "\nspace_freed with")?;
        for (slot, times) in SLOTS.iter().zip(self.freed) {
            write!(f, "  {slot}: {times}")?;
        }
        writeln!(f)
    }
}
