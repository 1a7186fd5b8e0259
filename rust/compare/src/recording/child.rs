//! A program under test, run as a child process.

use std::io::{self, Read, Write};
use std::path::Path;
use std::process::{ChildStdin, Command, Stdio};
use std::sync::mpsc::{self, Receiver};
use std::thread;
use std::time::Duration;

use super::Recording;

/// Between two pieces, so that they are read one by one.
const PAUSE: Duration = Duration::from_micros(50);

pub struct Child<'a> {
    pub program: &'a Path,
    /// How long an answer may take while the input is kept open.
    pub patience: Duration,
}

impl Child<'_> {
    /// What the program writes to its standard output; with a word behind it where it came late or
    /// the program failed.
    pub fn answer(&self, recording: &Recording) -> io::Result<Vec<u8>> {
        let mut child = Command::new(self.program)
            .stdin(Stdio::piped())
            .stdout(Stdio::piped())
            .spawn()?;
        let input = child.stdin.take().expect("a pipe");
        let mut output = child.stdout.take().expect("a pipe");
        let mut answer = Vec::new();
        let (ended, end) = mpsc::channel();
        let in_time = thread::scope(|scope| {
            let feeding = scope.spawn(|| self.feed(recording, input, end));
            let read = output.read_to_end(&mut answer);
            drop(ended);
            read.map(|_| feeding.join().expect("no panic"))
        })?;
        if !in_time {
            answer.extend(b"late");
        }
        if !child.wait()?.success() {
            answer.extend(b"failed");
        }
        Ok(answer)
    }

    /// Writes the recording and closes the input; where it is kept open, when the output has ended
    /// or patience has. Whether that was in time.
    fn feed(&self, recording: &Recording, mut input: ChildStdin, end: Receiver<()>) -> bool {
        for piece in recording.pieces() {
            // A program that has seen a difference doesn't read on.
            if input.write_all(piece).and_then(|()| input.flush()).is_err() {
                break;
            }
            thread::sleep(PAUSE);
        }
        !recording.kept_open
            || end.recv_timeout(self.patience) != Err(mpsc::RecvTimeoutError::Timeout)
    }
}

#[cfg(test)]
mod tests {
    use super::*;

    fn answer(program: &str, recording: &Recording) -> Vec<u8> {
        let child = Child {
            program: Path::new(program),
            patience: Duration::from_millis(100),
        };
        child.answer(recording).expect("the program runs")
    }

    #[test]
    fn a_recording_comes_whole() {
        let recordings = (1..100).map(Recording::new);
        for recording in recordings.filter(|recording| !recording.kept_open) {
            assert!(answer("cat", &recording) == recording.text);
        }
    }

    #[test]
    fn a_program_that_reads_on() {
        let recording = Recording::open(b"zz\n-6");
        assert_eq!(answer("cat", &recording), b"zz\n-6late");
    }

    #[test]
    fn a_program_that_does_not_read() {
        let recording = Recording::open(&[b'0'; 1_000_000]);
        assert_eq!(answer("true", &recording), b"");
        assert_eq!(answer("false", &recording), b"failed");
    }
}
