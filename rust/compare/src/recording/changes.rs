//! The lines of a recording: requests and their answers, and what is changed about them.

use crate::frames::Frames;
use crate::random::Random;

/// The parts of a text between its newlines; the last one is empty where the text ends in a newline.
pub type Lines = Vec<Vec<u8>>;

/// A change of a line, with its name.
type LineChange = (&'static str, fn(&mut Random, &mut Vec<u8>));

/// A change of a recording, with its name.
type Change = (&'static str, fn(&mut Random, &mut Lines));

const UNCHANGED: &str = "unchanged";

/// Changes of a request before it is answered.
const REQUESTS: [LineChange; 6] = [
    ("request: upper case", |_, line| line.make_ascii_uppercase()),
    ("request: non-digit", |random, line| {
        put_non_digit(random, line)
    }),
    ("request: digit less", |_, line| {
        line.truncate(line.len().saturating_sub(1))
    }),
    ("request: 8,192 digits", |_, line| line.resize(8192, b'0')),
    ("request: more digits", more_digits),
    ("request: empty", |_, line| line.clear()),
];

/// Changes of a reply.
const REPLIES: [LineChange; 12] = [
    ("reply: first digit", |random, line| {
        put_digit(random, line.first_mut())
    }),
    ("reply: last digit", |random, line| {
        put_digit(random, line.last_mut())
    }),
    ("reply: any digit", |random, line| {
        put_any_digit(random, line)
    }),
    ("reply: non-digit", |random, line| {
        put_non_digit(random, line)
    }),
    ("reply: bit of the case", |random, line| {
        flip_case_bit(random, line)
    }),
    ("reply: cut", |random, line| {
        line.truncate(any_place(random, line))
    }),
    ("reply: emptied", |_, line| line.clear()),
    ("reply: longer", |random, line| {
        let more = random.within(1..=9) as usize;
        lengthen(random, line, more)
    }),
    ("reply: 100,000 longer", |random, line| {
        lengthen(random, line, 100_000)
    }),
    ("reply: -6", |_, line| *line = b"-6".to_vec()),
    ("reply: -7", |_, line| *line = b"-7".to_vec()),
    ("reply: -6xyz", |_, line| *line = b"-6xyz".to_vec()),
];

/// Changes of a recording.
const CHANGES: [Change; 16] = [
    ("refusal: longer", lengthen_refusal),
    ("replies: upper case", |_, lines| {
        replies(lines).for_each(|line| line.make_ascii_uppercase())
    }),
    ("replies: mixed case", mix_cases),
    ("return on all lines", |_, lines| {
        ended(lines).for_each(|line| line.push(b'\r'))
    }),
    ("return on a line", return_on_a_line),
    ("line dropped", drop_line),
    ("last line dropped", drop_last_line),
    ("empty line inserted", insert_line),
    ("no final newline", drop_final_newline),
    ("second final newline", |_, lines| lines.push(Vec::new())),
    ("cut at any byte", cut),
    ("any byte", put_any_byte),
    ("digit of a request", change_request),
    ("random bytes", random_bytes),
    ("random short lines", random_short_lines),
    ("nothing recorded", |_, lines| {
        edit_text(lines, |text| text.clear())
    }),
];

/// All that can be peculiar about lines.
pub fn names() -> impl Iterator<Item = &'static str> {
    let of_lines = REQUESTS.iter().chain(&REPLIES).map(|change| change.0);
    let of_recordings = CHANGES.iter().map(|change| change.0);
    [UNCHANGED].into_iter().chain(of_lines).chain(of_recordings)
}

/// The lines of a recording, and what is peculiar about them.
pub fn lines(random: &mut Random) -> (Lines, Vec<&'static str>) {
    let mut names = Vec::new();
    let mut lines = record(random, &mut names);
    let as_answered = lines.clone();
    for _ in 0..random.pick(&[0, 1, 1, 1, 1, 1, 2, 3]) {
        names.extend(change(random, &mut lines));
    }
    if lines == as_answered {
        names.push(UNCHANGED);
    }
    (lines, names)
}

/// Pairs of a request, now and then a peculiar one, and its answer.
fn record(random: &mut Random, names: &mut Vec<&'static str>) -> Lines {
    let mut frames = Frames::new(random.any());
    let mut lines = Vec::new();
    let pairs = match random.below(20) {
        0 => random.within(20..=60),
        _ => random.within(1..=8),
    };
    for _ in 0..pairs {
        let mut request = frames.request();
        if random.once_in(4) {
            names.extend(change_before_answer(random, &mut request));
        }
        let reply = frames.answer(&request);
        lines.extend([request, reply]);
    }
    lines.push(Vec::new());
    lines
}

/// Makes one change of a request; its name where it is one.
fn change_before_answer(random: &mut Random, request: &mut Vec<u8>) -> Option<&'static str> {
    let before = request.clone();
    let (name, change) = random.pick(&REQUESTS);
    change(random, request);
    (*request != before).then_some(name)
}

/// Makes one change of a recording; its name where it is one.
fn change(random: &mut Random, lines: &mut Lines) -> Option<&'static str> {
    let before = lines.clone();
    let name = match random.once_in(2) {
        true => change_recording(random, lines),
        false => change_reply(random, lines),
    };
    *lines = split(&joined(lines));
    (*lines != before).then_some(name)
}

fn change_recording(random: &mut Random, lines: &mut Lines) -> &'static str {
    let (name, change) = random.pick(&CHANGES);
    change(random, lines);
    name
}

fn change_reply(random: &mut Random, lines: &mut Lines) -> &'static str {
    let (name, change) = random.pick(&REPLIES);
    if let Some(reply) = any_of(random, replies(lines)) {
        change(random, reply);
    }
    name
}

pub fn joined(lines: &Lines) -> Vec<u8> {
    lines.join(&b'\n')
}

/// At least one part.
fn split(text: &[u8]) -> Lines {
    let parts = text.split(|&byte| byte == b'\n');
    parts.map(<[u8]>::to_vec).collect()
}

fn edit_text(lines: &mut Lines, edit: impl FnOnce(&mut Vec<u8>)) {
    let mut text = joined(lines);
    edit(&mut text);
    *lines = split(&text);
}

fn replies(lines: &mut Lines) -> impl Iterator<Item = &mut Vec<u8>> {
    lines.iter_mut().skip(1).step_by(2)
}

/// The lines with a newline.
fn ended(lines: &mut Lines) -> impl Iterator<Item = &mut Vec<u8>> {
    let ended = lines.len() - 1;
    lines[..ended].iter_mut()
}

/// One of these lines, often the first or the last.
fn any_of<'a>(
    random: &mut Random,
    lines: impl Iterator<Item = &'a mut Vec<u8>>,
) -> Option<&'a mut Vec<u8>> {
    let mut lines: Vec<_> = lines.collect();
    let last = lines.len().checked_sub(1)?;
    let any = random.below(lines.len() as u64) as usize;
    Some(lines.swap_remove(random.pick(&[0, any, any, last])))
}

/// The place of a byte; 0 where there is none.
fn any_place(random: &mut Random, bytes: &[u8]) -> usize {
    random.below(bytes.len().max(1) as u64) as usize
}

/// A place between any two bytes, often beside a newline, or at an end.
pub fn any_gap(random: &mut Random, text: &[u8]) -> usize {
    let any = random.below(text.len() as u64 + 1) as usize;
    let rest = &text[any..];
    let to_newline = rest.iter().position(|&byte| byte == b'\n');
    let newline = any + to_newline.unwrap_or(rest.len());
    random.pick(&[any, any, newline, text.len().min(newline + 1)])
}

/// Puts another digit.
fn put_digit(random: &mut Random, place: Option<&mut u8>) {
    if let Some(digit) = place {
        let value = char::from(*digit).to_digit(16).unwrap_or(0);
        let other = (u64::from(value) + random.within(1..=15)) % 16;
        *digit = b"0123456789abcdef"[other as usize];
    }
}

fn put_any_digit(random: &mut Random, line: &mut [u8]) {
    let at = any_place(random, line);
    put_digit(random, line.get_mut(at));
}

/// Puts a character that is no digit, most of them next to one in the order of their numbers.
fn put_non_digit(random: &mut Random, line: &mut [u8]) {
    let at = any_place(random, line);
    if let Some(digit) = line.get_mut(at) {
        *digit = random.pick(b"/:@G`gxz -\r\0\xb0\xff");
    }
}

/// Flips the bit that tells a letter's cases apart, in whatever there is.
fn flip_case_bit(random: &mut Random, line: &mut [u8]) {
    let at = any_place(random, line);
    if let Some(digit) = line.get_mut(at) {
        *digit ^= b'a' ^ b'A';
    }
}

fn more_digits(random: &mut Random, line: &mut Vec<u8>) {
    line.resize(random.pick(&[8193, 8194, 8200, 70_000]), b'0');
}

fn lengthen(random: &mut Random, line: &mut Vec<u8>, more: usize) {
    line.resize(line.len() + more, random.pick(b"00f-x"));
}

fn lengthen_refusal(random: &mut Random, lines: &mut Lines) {
    let refusals = replies(lines).filter(|line| line.starts_with(b"-"));
    if let Some(refusal) = any_of(random, refusals) {
        let more = random.pick(&[1, 2, 3, 100_000]);
        lengthen(random, refusal, more);
    }
}

fn mix_cases(random: &mut Random, lines: &mut Lines) {
    for byte in replies(lines).flatten() {
        if byte.is_ascii_alphabetic() && random.once_in(2) {
            *byte = byte.to_ascii_uppercase();
        }
    }
}

fn return_on_a_line(random: &mut Random, lines: &mut Lines) {
    if let Some(line) = any_of(random, ended(lines)) {
        line.push(b'\r');
    }
}

fn drop_line(random: &mut Random, lines: &mut Lines) {
    let at = random.below(lines.len() as u64) as usize;
    if at < ended(lines).count() {
        lines.remove(at);
    }
}

/// So that a request stays without a reply.
fn drop_last_line(_: &mut Random, lines: &mut Lines) {
    if let Some(last) = ended(lines).count().checked_sub(1) {
        lines.remove(last);
    }
}

fn insert_line(random: &mut Random, lines: &mut Lines) {
    let at = random.below(lines.len() as u64) as usize;
    lines.insert(at, Vec::new());
}

fn drop_final_newline(_: &mut Random, lines: &mut Lines) {
    lines.pop_if(|line| line.is_empty());
}

fn cut(random: &mut Random, lines: &mut Lines) {
    edit_text(lines, |text| text.truncate(any_gap(random, text)));
}

fn put_any_byte(random: &mut Random, lines: &mut Lines) {
    edit_text(lines, |text| {
        let at = any_place(random, text);
        let any = random.any() as u8;
        if let Some(byte) = text.get_mut(at) {
            *byte = random.pick(&[any, any, b'\n', b'\r', b'-', 0]);
        }
    });
}

/// Changes a request after it was answered.
fn change_request(random: &mut Random, lines: &mut Lines) {
    if let Some(request) = any_of(random, lines.iter_mut().step_by(2)) {
        put_any_digit(random, request);
    }
}

fn random_bytes(random: &mut Random, lines: &mut Lines) {
    let length = random.below(2000) as usize;
    *lines = split(&random.bytes(length));
}

fn random_short_lines(random: &mut Random, lines: &mut Lines) {
    let bytes = (0..random.below(40)).map(|_| random.pick(b"0aA-67\r\n\n\n"));
    *lines = split(&bytes.collect::<Vec<u8>>());
}
