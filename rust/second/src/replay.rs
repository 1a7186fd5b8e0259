//! A recording: request and reply in turn, one a line. The requests are run again from an empty
//! store on, and the answers are compared with the recorded replies.

use std::fmt;
use std::io::{self, BufReader, Read};

use crate::frames::{line, DIGITS_MAX, GEOMETRY, VERIFIER};
use crate::store::Store;

/// What a recording shows; pairs and requests are counted from 1.
#[derive(Clone, Copy, Debug, PartialEq, Eq)]
pub enum Verdict {
    /// The number of pairs, all of them equal.
    Same(u64),
    /// The first pair that differs, and the byte of its reply.
    Differs { pair: u64, place: u64 },
    /// The request after which no reply follows.
    Odd(u64),
}

impl fmt::Display for Verdict {
    fn fmt(&self, f: &mut fmt::Formatter) -> fmt::Result {
        match self {
            Verdict::Same(pairs) => write!(f, "same {pairs}"),
            Verdict::Differs { pair, place } => write!(f, "{pair} {place}"),
            Verdict::Odd(request) => write!(f, "odd {request}"),
        }
    }
}

/// Runs a recording. Nothing more is read when a byte shows a difference.
pub fn replay(input: impl Read) -> io::Result<Verdict> {
    let mut input = BufReader::new(input).bytes().fuse().peekable();
    let mut store = Store::empty(&GEOMETRY);
    let mut pairs = 0;
    while input.peek().is_some() {
        let request = read_request(&mut input)?;
        if input.peek().is_none() {
            return Ok(Verdict::Odd(pairs + 1));
        }
        let ours = line(&GEOMETRY, &mut store, &VERIFIER, &request);
        pairs += 1;
        if let Some(place) = read_reply(&mut input, &ours)? {
            return Ok(Verdict::Differs { pair: pairs, place });
        }
    }
    Ok(Verdict::Same(pairs))
}

/// The next line, without its newline. Of a line that is too long only so much is kept that it
/// still is.
fn read_request(input: &mut impl Iterator<Item = io::Result<u8>>) -> io::Result<Vec<u8>> {
    let mut request = Vec::new();
    while let Some(byte) = read_in_line(input)? {
        if request.len() <= DIGITS_MAX {
            request.push(byte);
        }
    }
    Ok(request)
}

/// Reads the next line up to its first difference from ours; the byte place of that.
fn read_reply(
    input: &mut impl Iterator<Item = io::Result<u8>>,
    ours: &[u8],
) -> io::Result<Option<u64>> {
    for at in 0.. {
        let recorded = read_in_line(input)?.map(|byte| byte.to_ascii_lowercase());
        if recorded != ours.get(at).copied() {
            return Ok(Some(byte_place(at, ours)));
        }
        if recorded.is_none() {
            break;
        }
    }
    Ok(None)
}

/// The next byte of a line; none at its newline, or where the input ends.
fn read_in_line(input: &mut impl Iterator<Item = io::Result<u8>>) -> io::Result<Option<u8>> {
    let byte = input.next().transpose()?;
    Ok(byte.filter(|&byte| byte != b'\n'))
}

/// The byte of a digit, 0 where either line begins with "-". Past digit 0 both lines begin alike, so
/// ours decides.
fn byte_place(digit: usize, ours: &[u8]) -> u64 {
    match ours.first() {
        Some(b'-') => 0,
        _ => digit as u64 / 2,
    }
}

#[cfg(test)]
mod tests {
    use super::*;

    /// A request without operations, with a tag; and its reply of 16 bytes.
    const TAGGED: &str = "00000004abcdef090000000200000000";
    const ANSWER: &str = "0000000000000004abcdef0900000000";

    /// ALLOCATE of a file's first 512 bytes, and a READ_PLUS of 16 of them, as in document 01.
    const ALLOCATE: &str = "0000000000000002000000020000001600000004000000010000003b\
        0000000000000000000000000000000000000000000000000000000000000200";
    const ALLOCATED: &str = "00000000000000000000000200000016000000000000003b00000000";
    const READ: &str = "00000000000000020000000200000016000000040000000100000044\
        00000000000000000000000000000000000000000000000000000010";
    const HOLE: &str = "000000000000000000000002000000160000000000000044000000000000000000000001\
        0000000100000000000000000000000000000010";

    /// A reader that must not be read.
    struct Unread;

    impl Read for Unread {
        fn read(&mut self, _: &mut [u8]) -> io::Result<usize> {
            panic!("read too far");
        }
    }

    /// A reader that fails.
    struct Broken;

    impl Read for Broken {
        fn read(&mut self, _: &mut [u8]) -> io::Result<usize> {
            Err(io::Error::other("broken"))
        }
    }

    fn said(text: impl AsRef<[u8]>) -> String {
        replay(text.as_ref()).expect("text is read").to_string()
    }

    /// What is said of lines, each with a newline.
    fn said_of(lines: &[&str]) -> String {
        said(lines.join("\n") + "\n")
    }

    /// What is said of one reply to `TAGGED`, after an equal pair.
    fn said_of_reply(reply: &str) -> String {
        said_of(&["zz", "-7", TAGGED, reply])
    }

    /// The answer with one digit put in the place of another.
    fn changed(at: usize, digit: &str) -> String {
        let mut reply = ANSWER.to_string();
        reply.replace_range(at..=at, digit);
        reply
    }

    #[test]
    fn all_the_same() {
        let morning = [ALLOCATE, ALLOCATED, READ, HOLE, "zz", "-7", "", "-6"];
        assert_eq!(said_of(&morning), "same 4");
        assert_eq!(said(morning.join("\n")), "same 4");
        assert_eq!(said_of(&morning[..2]), "same 1");
    }

    #[test]
    fn the_store_goes_on_from_pair_to_pair() {
        // Without the ALLOCATE the file is empty: end of file, no piece.
        assert_eq!(said_of(&[READ, HOLE]), "1 31");
        assert_eq!(said_of(&[ALLOCATE, ALLOCATED, READ, ALLOCATED]), "2 23");
    }

    #[test]
    fn the_first_pair_or_a_later_one() {
        let other = changed(31, "1");
        assert_eq!(said_of(&[TAGGED, &other, TAGGED, ANSWER]), "1 15");
        assert_eq!(said_of(&[TAGGED, ANSWER, TAGGED, &other]), "2 15");
        assert_eq!(said_of(&[TAGGED, &other, TAGGED, &other]), "1 15");
        let mut lines = [TAGGED, ANSWER].repeat(11);
        lines[19] = &other;
        assert_eq!(said_of(&lines), "10 15");
    }

    #[test]
    fn any_byte() {
        for at in 0..ANSWER.len() {
            let expected = format!("2 {}", at / 2);
            assert_eq!(said_of_reply(&changed(at, "5")), expected);
            assert_eq!(said_of_reply(&changed(at, "x")), expected);
        }
    }

    #[test]
    fn letters_of_either_case() {
        assert_eq!(said_of_reply(&ANSWER.to_uppercase()), "same 2");
        assert_eq!(said_of_reply(&changed(17, "B")), "same 2");
        let mixed = changed(17, "B").replace("09", "08");
        assert_eq!(said_of_reply(&mixed), "2 11");
        // What a letter's bit makes of other characters.
        assert_eq!(said_of_reply(&changed(23, "\x19")), "2 11");
        assert_eq!(said_of(&["zz", "\r7"]), "1 0");
    }

    #[test]
    fn one_reply_is_a_prefix_of_the_other() {
        for at in 1..ANSWER.len() {
            let cut = &ANSWER[..at];
            let expected = format!("2 {}", at / 2);
            assert_eq!(said_of_reply(cut), expected);
            assert_eq!(said(format!("zz\n-7\n{TAGGED}\n{cut}")), expected);
        }
        for more in ["0", "00", "000", "\r", "\0", "-6", &"0".repeat(100_000)] {
            assert_eq!(said_of_reply(&(ANSWER.to_string() + more)), "2 16");
        }
    }

    #[test]
    fn refusals() {
        assert_eq!(said_of(&["zz", "-6"]), "1 0");
        assert_eq!(said_of(&["", "-7"]), "1 0");
        assert_eq!(said_of(&["", "-6", "zz", "-6"]), "2 0");
        assert_eq!(said_of_reply("-6"), "2 0");
        assert_eq!(said_of(&["zz", ANSWER]), "1 0");
        assert_eq!(said_of(&["zz", "-"]), "1 0");
        for more in ["0", "00", "xyz", "\r", &"0".repeat(100_000)] {
            assert_eq!(said_of(&["zz", &format!("-7{more}")]), "1 0");
            assert_eq!(said_of_reply(&format!("-6{more}")), "2 0");
        }
    }

    #[test]
    fn replies_that_are_no_digits() {
        assert_eq!(said_of_reply("no reply"), "2 0");
        assert_eq!(said_of_reply("0000 00000000004abcdef0900000000"), "2 2");
        assert_eq!(said(b"\n\xff\xff\n"), "1 0");
        assert_eq!(said_of_reply(" "), "2 0");
    }

    #[test]
    fn an_empty_reply() {
        assert_eq!(said_of_reply(""), "2 0");
        assert_eq!(said_of(&["", ""]), "1 0");
        assert_eq!(said_of(&[TAGGED, "", TAGGED, ANSWER]), "1 0");
    }

    #[test]
    fn a_request_without_a_reply() {
        assert_eq!(said_of(&[TAGGED]), "odd 1");
        assert_eq!(said(TAGGED), "odd 1");
        assert_eq!(said_of(&[TAGGED, ANSWER, "zz"]), "odd 2");
        assert_eq!(said(format!("{TAGGED}\n{ANSWER}\nzz")), "odd 2");
        assert_eq!(said("\n"), "odd 1");
        assert_eq!(said_of(&[TAGGED, ANSWER, ""]), "odd 2");
        assert_eq!(said_of(&[TAGGED, &changed(0, "1"), "zz"]), "1 0");
    }

    #[test]
    fn an_empty_recording() {
        assert_eq!(said(""), "same 0");
    }

    #[test]
    fn carriage_returns() {
        let returns = |lines: [&str; 4]| said(lines.map(|line| format!("{line}\r\n")).concat());
        assert_eq!(returns([TAGGED, ANSWER, TAGGED, ANSWER]), "1 0");
        // The request is refused, and more is recorded behind the refusal.
        assert_eq!(returns([TAGGED, "-7", TAGGED, "-7"]), "1 0");
        assert_eq!(said(format!("{TAGGED}\r\n-7\n")), "same 1");
        assert_eq!(said(format!("{TAGGED}\n{ANSWER}\r\n")), "1 16");
    }

    #[test]
    fn requests_of_any_length() {
        let longest = TAGGED.to_string() + &"0".repeat(8192 - TAGGED.len());
        assert_eq!(said_of(&[&longest, ANSWER]), "same 1");
        for more in [1, 2, 3, 100_000] {
            let longer = longest.clone() + &"0".repeat(more);
            assert_eq!(said_of(&[&longer, "-7", TAGGED, ANSWER]), "same 2");
        }
        assert_eq!(said_of(&[&TAGGED.to_uppercase(), ANSWER]), "same 1");
    }

    #[test]
    fn nothing_is_read_after_a_difference() {
        let texts = [
            format!("{TAGGED}\n1"),
            format!("{TAGGED}\n{}", &changed(31, "1")),
            format!("{TAGGED}\n\n"),
            format!("{TAGGED}\n{}\n", &ANSWER[..20]),
            format!("{TAGGED}\n{ANSWER}0"),
            "zz\n-7 ".to_string(),
            "zz\n-6".to_string(),
            "zz\n-\n".to_string(),
        ];
        let places = ["1 0", "1 15", "1 0", "1 10", "1 16", "1 0", "1 0", "1 0"];
        for (text, place) in texts.iter().zip(places) {
            let verdict = replay(text.as_bytes().chain(Unread)).expect("text is read");
            assert_eq!(verdict.to_string(), place);
        }
        let endless = io::repeat(b'0');
        let verdict = replay(format!("{TAGGED}\n").as_bytes().chain(endless));
        assert_eq!(verdict.expect("zeros are read").to_string(), "1 7");
    }

    #[test]
    fn an_input_that_fails() {
        for text in ["", "zz", "zz\n", "zz\n-7", "zz\n-7\n", "zz\n-7\nzz"] {
            let error = replay(text.as_bytes().chain(Broken)).expect_err("no verdict");
            assert_eq!(error.to_string(), "broken", "{text:?}");
        }
        assert!(replay("zz\n-6".as_bytes().chain(Broken)).is_ok());
    }
}
