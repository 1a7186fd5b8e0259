//! How often each answer of a client was met, each reason not to write a request, and each status.

use std::collections::BTreeMap;
use std::fmt;

use super::record::{Layout, LAYOUTS};
use super::wrong::Wrong;
use crate::tally::allowed;

/// The calls, each with its numbers.
const NUMBERS: [(&str, &[u32]); 4] = [
    ("write_request", &[0, 9, 11]),
    ("open_reply", &[0, 10]),
    ("next_result", &[0, 1, 10]),
    ("next_piece", &[0, 10]),
];

/// The statuses of operations that were not run as they were meant: NOTSUPP, BADXDR, OP_ILLEGAL,
/// SEQUENCE_POS. None of them is answered to a request that was written.
pub const MISREAD: [u32; 4] = [10004, 10036, 10044, 10064];

#[derive(Default)]
pub struct ClientTally {
    pub served: u64,
    /// Requests of the largest length.
    pub longest: u64,
    answers: BTreeMap<(&'static str, u32), u64>,
    wrong: BTreeMap<Wrong, u64>,
    results: BTreeMap<(u32, u32), u64>,
    /// Operations and statuses of which no reply was changed.
    unchanged: Vec<(u32, u32)>,
}

impl ClientTally {
    pub(super) fn add_answer(&mut self, call: &'static str, number: u32) {
        *self.answers.entry((call, number)).or_default() += 1;
    }

    pub(super) fn add_wrong(&mut self, wrong: Wrong) {
        *self.wrong.entry(wrong).or_default() += 1;
    }

    /// A result of a server.
    pub(super) fn add_result(&mut self, number: u32, status: u32) {
        *self.results.entry((number, status)).or_default() += 1;
    }

    pub(super) fn add_unchanged(&mut self, number: u32, status: u32) {
        self.unchanged.push((number, status));
    }

    fn answers(&self, call: &'static str, number: u32) -> u64 {
        self.answers.get(&(call, number)).copied().unwrap_or(0)
    }

    fn all_answers(&self, call: &str) -> u64 {
        let answers = self.answers.iter();
        let of_call = answers.filter(|((name, _), _)| *name == call);
        of_call.map(|(_, times)| times).sum()
    }

    /// What can be met and never was.
    pub fn missing(&self) -> Vec<String> {
        let answers = NUMBERS
            .iter()
            .flat_map(|&(call, numbers)| numbers.iter().map(move |&number| (call, number)))
            .filter(|&(call, number)| self.answers(call, number) == 0)
            .map(|(call, number)| format!("{call} {number}"));
        let wrong = Wrong::ALL
            .iter()
            .filter(|wrong| !self.wrong.contains_key(wrong))
            .map(|wrong| format!("not written: {wrong}"));
        let results = possible()
            .filter(|pair| !self.results.contains_key(pair))
            .map(|(number, status)| format!("operation {number} with {status}, read"));
        let unchanged = self.unchanged.iter();
        let unchanged =
            unchanged.map(|(number, status)| format!("operation {number} with {status}, changed"));
        let longest = (self.longest == 0).then(|| "a request of the largest length".into());
        let replies = results.chain(unchanged);
        answers.chain(wrong).chain(replies).chain(longest).collect()
    }
}

/// The operations and statuses that a server answers to requests that were written.
pub fn possible() -> impl Iterator<Item = (u32, u32)> {
    let statuses = |layout: &'static Layout| {
        let statuses = allowed(layout.number).iter();
        let statuses = statuses.filter(|status| !MISREAD.contains(status));
        statuses.map(move |&status| (layout.number, status))
    };
    LAYOUTS.iter().flat_map(statuses)
}

impl fmt::Display for ClientTally {
    fn fmt(&self, f: &mut fmt::Formatter) -> fmt::Result {
        for (call, numbers) in NUMBERS {
            write!(f, "{call:<13}")?;
            for &number in numbers {
                write!(f, "  {number}: {}", self.answers(call, number))?;
            }
            writeln!(f)?;
        }
        write!(f, "not written:")?;
        for (wrong, times) in &self.wrong {
            write!(f, "  {wrong}: {times}")?;
        }
        writeln!(f)?;
        writeln!(f, "requests of the largest length: {}", self.longest)
    }
}

impl ClientTally {
    /// All that was compared, in one line.
    pub fn line(&self) -> String {
        let [requests, replies, results, pieces] = NUMBERS.map(|(call, _)| self.all_answers(call));
        format!(
            "{requests} requests written or refused, {} of them served, {replies} replies opened or refused, \
             {results} results and {pieces} pieces asked for, compared",
            self.served
        )
    }
}
