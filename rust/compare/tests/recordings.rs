//! The comparison of recordings, tried on programs with one fault each.

use compare::recording::{try_seeds, Found, Recording};
use second::{Store, Verdict, GEOMETRY, VERIFIER};

const RECORDINGS: u64 = 2000;

type Lines = fn(&[u8]) -> Vec<&[u8]>;
type Place = fn(usize, &[u8], &[u8]) -> usize;

/// A replay of a text at hand.
struct Replay {
    lines: Lines,
    /// What is served of a request.
    request: fn(&[u8]) -> &[u8],
    /// What becomes of the store after a request.
    store: fn(&mut Store),
    /// How a recorded character is taken.
    digit: fn(u8) -> u8,
    /// The byte of a digit, in our reply and the recorded one.
    place: Place,
    said: fn(Verdict) -> String,
}

/// Without a fault.
const RIGHT: Replay = Replay {
    lines,
    request: |line| line,
    store: |_| (),
    digit: |byte| byte.to_ascii_lowercase(),
    place: |at, ours, recorded| match (ours, recorded) {
        ([b'-', ..], _) | (_, [b'-', ..]) => 0,
        _ => at / 2,
    },
    said: |verdict| format!("{verdict}\n"),
};

/// The last line may have no newline.
fn lines(text: &[u8]) -> Vec<&[u8]> {
    let mut lines: Vec<&[u8]> = text.split(|&byte| byte == b'\n').collect();
    lines.pop_if(|line| line.is_empty());
    lines
}

/// All lines have a newline.
fn ended_lines(text: &[u8]) -> Vec<&[u8]> {
    let mut lines: Vec<&[u8]> = text.split(|&byte| byte == b'\n').collect();
    lines.pop();
    lines
}

impl Replay {
    fn answer(&self, recording: &Recording) -> Vec<u8> {
        (self.said)(self.verdict(&recording.text)).into_bytes()
    }

    fn verdict(&self, text: &[u8]) -> Verdict {
        let mut store = Store::empty(&GEOMETRY);
        let mut pairs = 0;
        for lines in (self.lines)(text).chunks(2) {
            let [request, recorded] = lines else {
                return Verdict::Odd(pairs + 1);
            };
            pairs += 1;
            let request = (self.request)(request);
            let ours = second::line(&GEOMETRY, &mut store, &VERIFIER, request);
            (self.store)(&mut store);
            if let Some(place) = self.difference(&ours, recorded) {
                return Verdict::Differs { pair: pairs, place };
            }
        }
        Verdict::Same(pairs)
    }

    fn difference(&self, ours: &[u8], recorded: &[u8]) -> Option<u64> {
        let taken: Vec<u8> = recorded.iter().map(|&byte| (self.digit)(byte)).collect();
        let mut digits = ours.iter().zip(&taken);
        let shorter = ours.len().min(taken.len());
        let at = digits.position(|(a, b)| a != b).unwrap_or(shorter);
        (ours != taken).then(|| (self.place)(at, ours, recorded) as u64)
    }
}

fn found(replay: &Replay) -> Option<Found> {
    try_seeds(&|recording| replay.answer(recording), 1..1 + RECORDINGS).err()
}

#[test]
fn a_replay_without_a_fault() {
    let tally = try_seeds(&|recording| RIGHT.answer(recording), 1..1 + RECORDINGS);
    let missing = tally.expect("no difference").missing();
    assert!(missing.is_empty(), "{missing:?}");
}

#[test]
fn few_recordings_do_not_meet_everything() {
    let tally = try_seeds(&|recording| RIGHT.answer(recording), 1..10);
    assert!(!tally.expect("no difference").missing().is_empty());
}

#[test]
fn a_program_that_says_same() {
    let same = |recording: &Recording| {
        let pairs = lines(&recording.text).len() / 2;
        format!("same {pairs}\n").into_bytes()
    };
    let found = try_seeds(&same, 1..1 + RECORDINGS)
        .err()
        .expect("a difference");
    assert!(found.answered.starts_with(b"same "));
    assert!(!found.expected.starts_with(b"same "));
}

#[test]
fn faults_of_lines() {
    let faults: [Lines; 4] = [
        // A line without a newline, one more empty line, lines that are empty, carriage returns.
        ended_lines,
        |text| text.split(|&byte| byte == b'\n').collect(),
        |text| {
            let lines = lines(text).into_iter();
            lines.filter(|line| !line.is_empty()).collect()
        },
        |text| {
            let lines = lines(text).into_iter();
            lines
                .map(|line| line.strip_suffix(b"\r").unwrap_or(line))
                .collect()
        },
    ];
    for lines in faults {
        assert!(found(&Replay { lines, ..RIGHT }).is_some());
    }
}

#[test]
fn faults_of_serving() {
    // A long request cut, and a store that is empty for every request.
    let cut = Replay {
        request: |line| &line[..line.len().min(8192)],
        ..RIGHT
    };
    assert!(found(&cut).is_some());
    let empty = Replay {
        store: |store| *store = Store::empty(&GEOMETRY),
        ..RIGHT
    };
    assert!(found(&empty).is_some());
}

#[test]
fn faults_of_digits() {
    let faults: [fn(u8) -> u8; 3] = [
        // One letter case; one bit for all characters; what is no digit taken for one.
        |byte| byte,
        |byte| byte | 32,
        |byte| match byte {
            b'0'..=b'9' | b'-' => byte,
            b'a'..=b'f' | b'A'..=b'F' => byte.to_ascii_lowercase(),
            _ => b'0',
        },
    ];
    for digit in faults {
        assert!(found(&Replay { digit, ..RIGHT }).is_some());
    }
}

#[test]
fn faults_of_places() {
    let faults: [Place; 5] = [
        // The digit; rounded up; counted from 1; the longer length; refusals like digits.
        |at, ours, recorded| 2 * (RIGHT.place)(at, ours, recorded),
        |at, ours, recorded| (RIGHT.place)(at + 1, ours, recorded),
        |at, ours, recorded| 1 + (RIGHT.place)(at, ours, recorded),
        |at, ours, recorded| match at == ours.len().min(recorded.len()) {
            true => (RIGHT.place)(ours.len().max(recorded.len()), ours, recorded),
            false => (RIGHT.place)(at, ours, recorded),
        },
        |at, _, _| at / 2,
    ];
    for place in faults {
        assert!(found(&Replay { place, ..RIGHT }).is_some());
    }
}

#[test]
fn faults_of_words() {
    let faults: [fn(Verdict) -> String; 5] = [
        // No newline; pairs from 0; an odd request among the lines, passed over, or for a pair.
        |verdict| verdict.to_string(),
        |verdict| match verdict {
            Verdict::Differs { pair, place } => format!("{} {place}\n", pair - 1),
            _ => (RIGHT.said)(verdict),
        },
        |verdict| match verdict {
            Verdict::Odd(request) => format!("odd {}\n", 2 * request - 1),
            _ => (RIGHT.said)(verdict),
        },
        |verdict| match verdict {
            Verdict::Odd(request) => format!("same {}\n", request - 1),
            _ => (RIGHT.said)(verdict),
        },
        |verdict| match verdict {
            Verdict::Odd(request) => format!("odd {}\n", request - 1),
            _ => (RIGHT.said)(verdict),
        },
    ];
    for said in faults {
        assert!(found(&Replay { said, ..RIGHT }).is_some());
    }
}
