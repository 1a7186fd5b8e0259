//! A day's frames, by the library's line and by the program.

use std::io::Write;
use std::process::{Command, Stdio};

use second::{line, Store};

use crate::bench::*;

const IN_1: &str = "000000000000000200000002 000000160000000400000001 0000003b \
    00000000000000000000000000000000 0000000000000000 0000000000000200";
const IN_2: &str = "000000000000000200000002 000000160000000400000001 00000044 \
    00000000000000000000000000000000 0000000000000000 00000010";
const OUT_1: &str = "00000000000000000000000200000016000000000000003b00000000";
const OUT_2: &str =
    "00000000000000000000000200000016000000000000004400000000000000000000000100000001 \
    00000000000000000000000000000010";

fn joined(text: &str) -> String {
    text.replace(' ', "")
}

fn day() -> [(String, String); 3] {
    [
        (joined(IN_1), joined(OUT_1)),
        (joined(IN_2), joined(OUT_2)),
        ("zz".into(), "-7".into()),
    ]
}

fn answer(store: &mut Store, text: &str) -> String {
    String::from_utf8(line(&pool(32), store, &[0; 8], text.as_bytes())).unwrap()
}

fn program(input: &[u8]) -> String {
    let mut child = Command::new(env!("CARGO_BIN_EXE_second"))
        .stdin(Stdio::piped())
        .stdout(Stdio::piped())
        .spawn()
        .unwrap();
    child.stdin.take().unwrap().write_all(input).unwrap();
    let output = child.wait_with_output().unwrap();
    assert!(output.status.success());
    String::from_utf8(output.stdout).unwrap()
}

#[test]
fn a_days_frames() {
    let mut store = Store::empty(&pool(32));
    for (request, reply) in day() {
        assert_eq!(answer(&mut store, &request), reply);
    }
    assert_eq!(store.words[16], 1);
    assert_eq!(store.sizes, [0, 512, 0, 0]);
}

#[test]
fn a_days_frames_by_the_program() {
    let (requests, replies): (Vec<_>, Vec<_>) = day().into_iter().unzip();
    let expected = replies.join("\n") + "\n";
    assert_eq!(program(requests.join("\n").as_bytes()), expected);
    let ended = requests.join("\n") + "\n";
    assert_eq!(program(ended.as_bytes()), expected);
    assert_eq!(program(ended.to_uppercase().as_bytes()), expected);
}

#[test]
fn odd_lines_of_the_program() {
    assert_eq!(program(b""), "");
    assert_eq!(program(b"\n"), "-6\n");
    assert_eq!(program(b"\n\n0\n00\n"), "-6\n-6\n-7\n-6\n");
    assert_eq!(program(b"00\r\n"), "-7\n");
    assert_eq!(program(b"\r\n\xff\xff\n"), "-7\n-7\n");
}

#[test]
fn what_a_line_may_be() {
    let mut store = Store::empty(&pool(32));
    let empty = "000000000000000200000000";
    let answered = "000000000000000000000000";
    for odd in ["0", "0g", "g0", " 0", "0 ", "+1", "00 ", "0x"] {
        assert_eq!(answer(&mut store, odd), "-7", "{odd:?}");
    }
    assert_eq!(answer(&mut store, ""), "-6");
    assert_eq!(answer(&mut store, empty), answered);
    let longest = empty.to_string() + &"f".repeat(8192 - empty.len());
    assert_eq!(answer(&mut store, &longest), answered);
    assert_eq!(answer(&mut store, &(longest + "00")), "-7");
    store.sizes[0] = 1 << 40;
    assert_eq!(answer(&mut store, empty), "-3");
}

#[test]
fn digits_of_either_case() {
    let mut store = Store::empty(&pool(32));
    let tagged = "00000004aBcDeF090000000200000000";
    let expected = "0000000000000004abcdef0900000000";
    assert_eq!(answer(&mut store, tagged), expected);
}
