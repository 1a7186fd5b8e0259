//! How often each peculiarity of a recording was met, by its verdict.

use std::collections::BTreeMap;
use std::fmt;

use second::Verdict;

use super::{changes, FEEDINGS};

/// The verdicts: no pair and more; the first request and a later one; the first pair and a later
/// one, at byte 0 and further on.
const VERDICTS: [&str; 8] = [
    "same 0", "same N", "odd 1", "odd N", "1 0", "1 P", "N 0", "N P",
];

#[derive(Default)]
pub struct Tally {
    pub recordings: u64,
    met: BTreeMap<(&'static str, &'static str), u64>,
}

impl Tally {
    pub(super) fn add(&mut self, names: &[&'static str], verdict: Verdict) {
        self.recordings += 1;
        for name in names {
            *self.met.entry((name, title(verdict))).or_default() += 1;
        }
    }

    fn met(&self, name: &'static str, verdict: &'static str) -> u64 {
        self.met.get(&(name, verdict)).copied().unwrap_or(0)
    }

    /// What was never met.
    pub fn missing(&self) -> Vec<&'static str> {
        let is_met = |title| {
            self.met
                .keys()
                .any(|&(name, verdict)| [name, verdict].contains(&title))
        };
        let titles = names().chain(VERDICTS);
        titles.filter(|title| !is_met(*title)).collect()
    }
}

fn names() -> impl Iterator<Item = &'static str> {
    changes::names().chain(FEEDINGS)
}

fn title(verdict: Verdict) -> &'static str {
    match verdict {
        Verdict::Same(0) => "same 0",
        Verdict::Same(_) => "same N",
        Verdict::Odd(1) => "odd 1",
        Verdict::Odd(_) => "odd N",
        Verdict::Differs { pair: 1, place: 0 } => "1 0",
        Verdict::Differs { pair: 1, .. } => "1 P",
        Verdict::Differs { place: 0, .. } => "N 0",
        Verdict::Differs { .. } => "N P",
    }
}

/// A row for each peculiarity, a column for each verdict.
impl fmt::Display for Tally {
    fn fmt(&self, f: &mut fmt::Formatter) -> fmt::Result {
        write!(f, "{:<24}", "")?;
        VERDICTS
            .iter()
            .try_for_each(|verdict| write!(f, "{verdict:>8}"))?;
        writeln!(f)?;
        for name in names() {
            write!(f, "{name:<24}")?;
            for verdict in VERDICTS {
                write!(f, "{:>8}", self.met(name, verdict))?;
            }
            writeln!(f)?;
        }
        Ok(())
    }
}
