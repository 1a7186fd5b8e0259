//! How often each status, each refusal and each change of a slot was met.

use std::collections::BTreeMap;
use std::fmt;

use second::Geometry;

use crate::attributes::Attributes;
use crate::copies::{Copies, Copying};
use crate::observed::Observed;
use crate::server::Shown;
use crate::slots::{kinds, SLOTS};
use crate::wire::{self, Outcome};

/// The statuses of operations.
const STATUSES: [(u32, &str); 14] = [
    (0, "OK"),
    (6, "NXIO"),
    (22, "INVAL"),
    (27, "FBIG"),
    (28, "NOSPC"),
    (70, "STALE"),
    (10001, "BADHAND"),
    (10004, "NOTSUPP"),
    (10020, "NOFH"),
    (10025, "STATEID"),
    (10036, "BADXDR"),
    (10044, "ILLEGAL"),
    (10064, "SEQPOS"),
    (10090, "UNION"),
];

/// The statuses of replies without a result: an empty list, minor version, too many operations.
const WITHOUT_RESULT: [u32; 3] = [0, 10021, 10070];

/// The calls, each with its numbers; whether a place was told; and where a slot that was shown
/// lies, in the memory or in the page.
const NUMBERS: [(&str, &[u32]); 6] = [
    ("serve", &[0, 1, 2, 3, 4, 5, 6]),
    ("place told", &[0, 1]),
    ("survey", &[0, 1, 2, 3]),
    ("make_empty", &[0, 1, 2]),
    ("slot_view", &[0, 1, 2, 3, 8]),
    ("shown in", &[0, 1]),
];

/// The statuses that document 01 allows an operation.
pub(crate) fn allowed(number: u32) -> &'static [u32] {
    match number {
        wire::GETATTR => &[0, 10020, 10036],
        wire::GETFH | wire::SAVEFH | wire::RESTOREFH => &[0, 10020],
        wire::PUTFH => &[0, 70, 10001, 10036],
        wire::READ | wire::READ_PLUS => &[0, 10020, 10025, 10036],
        wire::SEEK => &[0, 6, 10020, 10025, 10036, 10090],
        wire::WRITE | wire::ALLOCATE | wire::CLONE => &[0, 22, 27, 28, 10020, 10025, 10036],
        wire::COPY => &[0, 22, 27, 28, 10004, 10020, 10025, 10036],
        wire::DEALLOCATE => &[0, 22, 28, 10020, 10025, 10036],
        wire::SEQUENCE => &[10064],
        wire::ILLEGAL => &[10036, 10044],
        3..=71 => &[10004],
        _ => &[],
    }
}

fn numbers() -> impl Iterator<Item = u32> {
    (3..=71).chain([wire::ILLEGAL])
}

#[derive(Default)]
pub struct Tally {
    pub lists: u64,
    pub damaged: u64,
    pub calls: u64,
    pub operations: u64,
    pub views: u64,
    results: BTreeMap<(u32, u32), u64>,
    without_result: BTreeMap<u32, u64>,
    answers: BTreeMap<(&'static str, u32), u64>,
    slots: [[u64; SLOTS.len()]; SLOTS.len()],
    attributes: Attributes,
    copies: Copies,
}

impl Tally {
    pub(crate) fn add(&mut self, observed: &Observed, outcome: Option<&Outcome>) {
        self.add_answer("survey", observed.surveyed.number);
        if let Some(on_copy) = &observed.on_copy {
            self.add_answer("make_empty", on_copy.emptied);
        }
        if let Some(served) = observed.served {
            self.calls += 1;
            self.add_answer("serve", served.number);
            let told = served.place != second::NOWHERE as u64;
            self.add_answer("place told", told.into());
        }
        if let Some(shown) = &observed.shown {
            self.add_view(shown);
        }
        if let Some(outcome) = outcome {
            self.add_outcome(outcome);
        }
    }

    fn add_view(&mut self, shown: &Shown) {
        self.views += 1;
        self.add_answer("slot_view", shown.number);
        if shown.number == 0 {
            self.add_answer("shown in", shown.part[0] as u32);
        }
    }

    fn add_answer(&mut self, call: &'static str, number: u32) {
        *self.answers.entry((call, number)).or_default() += 1;
    }

    fn add_outcome(&mut self, outcome: &Outcome) {
        self.operations += outcome.results.len() as u64;
        if outcome.results.is_empty() {
            *self.without_result.entry(outcome.status).or_default() += 1;
        }
        for result in &outcome.results {
            let answer = (result.number, result.status);
            *self.results.entry(answer).or_default() += 1;
        }
    }

    /// Counts what the changed slots held before a step and hold after it.
    pub(crate) fn add_slots(&mut self, geometry: &Geometry, words: [&[u32]; 2]) {
        if words[0] == words[1] {
            return;
        }
        let kinds = words.map(|words| kinds(geometry, words));
        for (&from, &to) in kinds[0].iter().zip(&kinds[1]) {
            if from != to {
                self.slots[from][to] += 1;
            }
        }
    }

    /// Counts what GETATTR answered, with the slot words before and after the call.
    pub(crate) fn add_attributes(
        &mut self,
        geometry: &Geometry,
        words: [&[u32]; 2],
        outcome: &Outcome,
    ) {
        self.attributes.add(geometry, words, outcome);
    }

    /// Counts what the COPYs of a call did.
    pub(crate) fn add_copies(&mut self, call: &Copying, outcome: &Outcome) {
        self.copies.add(call, outcome);
    }

    fn results(&self, number: u32, status: u32) -> u64 {
        self.results.get(&(number, status)).copied().unwrap_or(0)
    }

    fn without_result(&self, status: u32) -> u64 {
        self.without_result.get(&status).copied().unwrap_or(0)
    }

    fn answers(&self, call: &'static str, number: u32) -> u64 {
        self.answers.get(&(call, number)).copied().unwrap_or(0)
    }

    /// What document 01 allows and was never met.
    pub fn missing(&self) -> Vec<String> {
        let pairs = numbers().flat_map(|number| allowed(number).iter().map(move |&s| (number, s)));
        let results = pairs
            .filter(|&(number, status)| self.results(number, status) == 0)
            .map(|(number, status)| format!("operation {number} with {status}"));
        let without = WITHOUT_RESULT
            .into_iter()
            .filter(|&status| self.without_result(status) == 0)
            .map(|status| format!("no result with {status}"));
        let answers = NUMBERS
            .into_iter()
            .flat_map(|(call, numbers)| numbers.iter().map(move |&number| (call, number)))
            .filter(|&(call, number)| self.answers(call, number) == 0)
            .map(|(call, number)| format!("{call} {number}"));
        let answers = answers.chain(self.attributes.missing());
        let answers = answers.chain(self.copies.missing());
        results.chain(without).chain(answers).collect()
    }

    /// What was met and document 01 doesn't allow.
    pub fn strange(&self) -> Vec<String> {
        let results = self.results.keys();
        let results = results
            .filter(|(number, status)| !allowed(*number).contains(status))
            .map(|(number, status)| format!("operation {number} with {status}"));
        let without = self.without_result.keys();
        let without = without
            .filter(|status| !WITHOUT_RESULT.contains(status))
            .map(|status| format!("no result with {status}"));
        results.chain(without).collect()
    }
}

impl fmt::Display for Tally {
    fn fmt(&self, f: &mut fmt::Formatter) -> fmt::Result {
        self.show_results(f)?;
        writeln!(f)?;
        write!(f, "replies without a result:")?;
        for status in WITHOUT_RESULT {
            write!(f, "  {status}: {}", self.without_result(status))?;
        }
        writeln!(f, "\n")?;
        for (call, numbers) in NUMBERS {
            write!(f, "{call:<12}")?;
            for &number in numbers {
                write!(f, "  {number}: {}", self.answers(call, number))?;
            }
            writeln!(f)?;
        }
        writeln!(f, "\n{}\n{}", self.attributes, self.copies)?;
        self.show_slots(f)
    }
}

impl Tally {
    /// A row for each operation, a column for each status; a dot where there can be none.
    fn show_results(&self, f: &mut fmt::Formatter) -> fmt::Result {
        write!(f, "{:<11}", "")?;
        STATUSES
            .iter()
            .try_for_each(|status| write!(f, "{:>8}", status.1))?;
        writeln!(f)?;
        for (number, name) in wire::NAMES {
            self.show_row(f, name, &[number])?;
        }
        let unnamed = |number: &u32| wire::name(*number).is_none();
        let others: Vec<u32> = (3..=71).filter(unnamed).collect();
        self.show_row(f, "other 3-71", &others)
    }

    fn show_row(&self, f: &mut fmt::Formatter, name: &str, numbers: &[u32]) -> fmt::Result {
        write!(f, "{name:<11}")?;
        for (status, _) in STATUSES {
            if allowed(numbers[0]).contains(&status) {
                let times: u64 = numbers.iter().map(|&n| self.results(n, status)).sum();
                write!(f, "{times:>8}")?;
            } else {
                write!(f, "{:>8}", ".")?;
            }
        }
        writeln!(f)
    }

    /// A row for what a slot held before a step, a column for what it holds after it.
    fn show_slots(&self, f: &mut fmt::Formatter) -> fmt::Result {
        write!(f, "{:<11}", "slots")?;
        SLOTS.iter().try_for_each(|slot| write!(f, "{slot:>10}"))?;
        writeln!(f)?;
        for (from, row) in SLOTS.iter().zip(&self.slots) {
            write!(f, "{from:<11}")?;
            row.iter().try_for_each(|times| write!(f, "{times:>10}"))?;
            writeln!(f)?;
        }
        Ok(())
    }
}
