//! The stored outputs of `crates/edits`, `crates/store_damage` and `crates/replay` are what the
//! binaries of those names answer.

use std::fs::{self, File};
use std::path::{Path, PathBuf};
use std::process::{Command, Stdio};

fn stored(name: &str) -> PathBuf {
    let crates = Path::new(env!("CARGO_MANIFEST_DIR")).join("../../crates");
    crates.join(name)
}

#[test]
fn edits() {
    let input = File::open(stored("edits").join("stdin")).expect("stdin");
    check("edits", env!("CARGO_BIN_EXE_edits"), input);
}

#[test]
fn store_damage() {
    check(
        "store_damage",
        env!("CARGO_BIN_EXE_store_damage"),
        Stdio::null(),
    );
}

#[test]
fn replay() {
    let folder = fs::read_dir(stored("replay").join("recordings")).expect("recordings");
    let paths = folder.map(|entry| entry.expect("an entry").path());
    let recordings = paths.filter(|path| path.extension().is_some_and(|end| end == "in"));
    let recordings: Vec<PathBuf> = recordings.collect();
    assert!(!recordings.is_empty());
    for recording in recordings {
        let input = File::open(&recording).expect("a recording");
        let expected = fs::read(recording.with_extension("out")).expect("its answer");
        let answer = run(env!("CARGO_BIN_EXE_replay"), input);
        assert!(answer == expected, "{}", recording.display());
    }
}

fn run(program: &str, input: impl Into<Stdio>) -> Vec<u8> {
    let output = Command::new(program)
        .stdin(input)
        .output()
        .expect("the binary runs");
    output.stdout
}

fn check(name: &str, program: &str, input: impl Into<Stdio>) {
    let output = run(program, input);
    let expected = fs::read(stored(name).join("stdout")).expect("stdout");
    for (at, (answer, line)) in lines(&output).zip(lines(&expected)).enumerate() {
        assert_eq!(answer, line, "line {}", at + 1);
    }
    assert!(output == expected);
}

fn lines(text: &[u8]) -> impl Iterator<Item = &str> {
    text.split(|&byte| byte == b'\n')
        .map(|line| std::str::from_utf8(line).expect("text"))
}
