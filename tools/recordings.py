#!/usr/bin/env python3
"""Recordings for the replay program, made of the frames program's stored lines.

    tools/recordings.py PROGRAM     writes crates/replay/recordings, and the whole day as crates/replay/stdin:
                                    each recording, and what PROGRAM answers to it

PROGRAM is the plain Rust one, rust/target/release/replay. The verdicts here are worked out by hand; an answer that
differs from one is a fault.
"""
import pathlib
import subprocess
import sys

from wire_check import lines_of

CRATES = pathlib.Path(__file__).resolve().parent.parent / "crates"
REPLAY = CRATES / "replay"
RECORDINGS = REPLAY / "recordings"
PAIRS = list(zip(lines_of(CRATES / "frames" / "stdin"), lines_of(CRATES / "frames" / "stdout")))


def pair(number):
    """The request and the answer on that line of the stored ones."""
    return PAIRS[number - 1]


# Each is answered the same on an empty store, but for READ_PLUS and WRITE, which come behind ALLOCATE.
ALLOCATE = pair(1)  # answered by 28 bytes
READ_PLUS = pair(2)  # 56 bytes
NO_DIGITS = pair(3)  # "zz": -7
UPPER_CASE = pair(8)  # a request in upper case: 52 bytes
EMPTY = pair(9)  # an empty line: -6
TAGGED = pair(19)  # a tag of ff000d: 24 bytes
BADXDR = pair(26)  # 44 bytes
WRITE = pair(61)  # and a READ: 572 bytes
MORNING = [ALLOCATE, READ_PLUS, NO_DIGITS, UPPER_CASE, EMPTY, TAGGED, BADXDR, WRITE]


def recording(*pairs):
    return b"".join(line + b"\n" for each in pairs for line in each)


def reply(old, new):
    """A pair with another reply."""
    return old[0], new


def put(old, digit, character):
    """A pair whose reply has that character in the place of a digit."""
    line = bytearray(old[1])
    assert line[digit:digit + 1].lower() != character.lower()
    line[digit:digit + 1] = character
    return reply(old, bytes(line))


def mixed(old):
    """A pair whose reply has every second digit in upper case."""
    line = bytearray(old[1])
    line[1::2] = line[1::2].upper()
    return reply(old, bytes(line))


def returned(text):
    """With a carriage return at the end of every line."""
    return text.replace(b"\n", b"\r\n")


CASES = [
    ("same", recording(*MORNING), "same 8"),
    ("first-pair", recording(put(ALLOCATE, 31, b"7"), put(READ_PLUS, 0, b"1"), NO_DIGITS), "1 15"),
    ("later-pair", recording(*MORNING[:5], put(TAGGED, 39, b"5"), *MORNING[6:]), "6 19"),
    ("byte-0", recording(ALLOCATE, put(READ_PLUS, 1, b"1"), NO_DIGITS), "2 0"),
    ("middle", recording(ALLOCATE, put(READ_PLUS, 56, b"8"), NO_DIGITS), "2 28"),
    ("last-byte", recording(ALLOCATE, put(READ_PLUS, 111, b"1"), NO_DIGITS), "2 55"),
    ("upper-case", recording(*(reply(old, old[1].upper()) for old in MORNING)), "same 8"),
    ("mixed-case-difference", recording(mixed(ALLOCATE), put(mixed(TAGGED), 47, b"1")), "2 23"),
    ("recorded-is-prefix", recording(ALLOCATE, reply(READ_PLUS, READ_PLUS[1][:20]), NO_DIGITS), "2 10"),
    ("ours-is-prefix", recording(NO_DIGITS, reply(ALLOCATE, ALLOCATE[1] + b"0000"), READ_PLUS), "2 28"),
    ("long-reply", recording(reply(ALLOCATE, ALLOCATE[1] + b"0" * 100_000), READ_PLUS), "1 28"),
    ("refusal-for-digits", recording(NO_DIGITS, reply(ALLOCATE, b"-6"), READ_PLUS), "2 0"),
    ("digits-for-refusal", recording(ALLOCATE, reply(NO_DIGITS, READ_PLUS[1]), EMPTY), "2 0"),
    ("other-refusal", recording(ALLOCATE, reply(NO_DIGITS, b"-6"), EMPTY), "2 0"),
    ("more-behind-refusal", recording(ALLOCATE, reply(NO_DIGITS, b"-7000000"), EMPTY), "2 0"),
    ("less-of-a-refusal", recording(ALLOCATE, reply(NO_DIGITS, b"-"), EMPTY), "2 0"),
    ("non-digit", recording(ALLOCATE, put(TAGGED, 20, b"x"), EMPTY), "2 10"),
    ("no-digits", recording(ALLOCATE, reply(TAGGED, b"no reply"), EMPTY), "2 0"),
    ("digit-less", recording(reply(ALLOCATE, ALLOCATE[1][:-1]), READ_PLUS), "1 27"),
    ("digit-more", recording(reply(ALLOCATE, ALLOCATE[1] + b"0"), READ_PLUS), "1 28"),
    ("empty-reply", recording(NO_DIGITS, reply(ALLOCATE, b""), READ_PLUS), "2 0"),
    ("odd", recording(ALLOCATE, READ_PLUS, NO_DIGITS[:1]), "odd 3"),
    ("odd-without-newline", recording(ALLOCATE, READ_PLUS) + NO_DIGITS[0], "odd 3"),
    ("difference-before-odd", recording(ALLOCATE, put(READ_PLUS, 111, b"1"), NO_DIGITS[:1]), "2 55"),
    ("empty", b"", "same 0"),
    ("only-newline", b"\n", "odd 1"),
    ("only-two-newlines", b"\n\n", "1 0"),
    ("carriage-returns", returned(recording(ALLOCATE, READ_PLUS)), "1 0"),  # the request is refused
    ("carriage-return-on-reply", recording(NO_DIGITS, reply(ALLOCATE, ALLOCATE[1] + b"\r"), READ_PLUS), "2 28"),
    ("no-final-newline", recording(*MORNING)[:-1], "same 8"),
    ("two-final-newlines", recording(ALLOCATE, READ_PLUS, NO_DIGITS) + b"\n", "odd 4"),
    ("pair-left-out", recording(READ_PLUS, NO_DIGITS), "1 31"),  # without ALLOCATE the file ends at 0
]


def write(program, recorded, answered, text, verdict):
    """Writes a recording and the answer to it; how that differs from the verdict."""
    answer = subprocess.run([program], input=text, stdout=subprocess.PIPE, check=True).stdout
    recorded.write_bytes(text)
    answered.write_bytes(answer)
    if answer != f"{verdict}\n".encode():
        yield f"{recorded.name}: expected {verdict}, answered {answer}"


def write_all(program):
    RECORDINGS.mkdir(parents=True, exist_ok=True)
    for old in [*RECORDINGS.glob("*.in"), *RECORDINGS.glob("*.out")]:
        old.unlink()
    for number, (name, text, verdict) in enumerate(CASES, 1):
        path = RECORDINGS / f"{number:02}-{name}"
        yield from write(program, path.with_suffix(".in"), path.with_suffix(".out"), text, verdict)
    yield from write(program, REPLAY / "stdin", REPLAY / "stdout", recording(*PAIRS), f"same {len(PAIRS)}")


def main():
    if len(sys.argv) != 2:
        sys.exit(__doc__)
    faults = list(write_all(sys.argv[1]))
    print(f"{len(CASES) + 1} recordings, {len(faults)} faults", *faults, sep="\n")
    sys.exit(bool(faults))


if __name__ == "__main__":
    main()
