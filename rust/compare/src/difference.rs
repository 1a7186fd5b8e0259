//! Whether two servers differ, and where.

use std::fmt::Display;

use second::Store;

use crate::observed::{Observed, OnCopy};
use crate::server::Shown;

/// Where two servers part.
pub struct Difference {
    /// The number of steps that were run, the differing one included.
    pub steps: usize,
    pub what: String,
    pub answers: [String; 2],
}

pub fn observations_differ(left: &Observed, right: &Observed) -> Option<String> {
    answers_differ("serve", &left.served, &right.served)
        .or_else(|| views_differ(left.shown.as_ref()?, right.shown.as_ref()?))
        .or_else(|| answers_differ("survey", &left.surveyed, &right.surveyed))
        .or_else(|| copies_differ(left.on_copy.as_ref()?, right.on_copy.as_ref()?))
}

fn views_differ(left: &Shown, right: &Shown) -> Option<String> {
    answers_differ("slot_view", &left.number, &right.number)
        .or_else(|| slices_differ("part shown", &left.part, &right.part))
        .or_else(|| slices_differ("bytes shown", &left.bytes, &right.bytes))
}

fn copies_differ(left: &OnCopy, right: &OnCopy) -> Option<String> {
    answers_differ("make_empty", &left.emptied, &right.emptied)
        .or_else(|| tables_differ(&left.tables[0], &right.tables[0]))
        .or_else(|| tables_differ(&left.tables[1], &right.tables[1]))
}

pub fn tables_differ(left: &Store, right: &Store) -> Option<String> {
    slices_differ("sizes", &left.sizes, &right.sizes)
        .or_else(|| slices_differ("words", &left.words, &right.words))
        .or_else(|| slices_differ("memory", &left.mem, &right.mem))
}

pub fn answers_differ<T: PartialEq>(what: &str, left: &T, right: &T) -> Option<String> {
    (left != right).then(|| format!("answers of {what}"))
}

pub fn slices_differ<T: PartialEq + Display>(
    what: &str,
    left: &[T],
    right: &[T],
) -> Option<String> {
    if left == right {
        return None;
    }
    let places = 0..left.len().max(right.len());
    let place = places.into_iter().find(|&at| left.get(at) != right.get(at));
    let place = place.unwrap_or_default();
    let [left, right] = [left, right].map(|slice| match slice.get(place) {
        Some(value) => value.to_string(),
        None => "nothing".into(),
    });
    Some(format!("{what} at {place}: {left} and {right}"))
}
