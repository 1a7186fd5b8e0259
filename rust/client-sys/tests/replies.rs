//! Each result of a reply handed out as a part of it, and refusal 10.

use client_sys::{calls, Answered, Body, Piece, Refused, Reply, Stored};

fn int(value: u32) -> Vec<u8> {
    value.to_be_bytes().to_vec()
}

fn long(value: u64) -> Vec<u8> {
    value.to_be_bytes().to_vec()
}

fn opaque(bytes: &[u8]) -> Vec<u8> {
    let mut all = [&int(bytes.len() as u32), bytes].concat();
    all.resize(all.len().next_multiple_of(4), 0);
    all
}

fn ok(number: u32, body: &[Vec<u8>]) -> Vec<u8> {
    [int(number), int(0), body.concat()].concat()
}

fn reply(status: u32, results: &[Vec<u8>]) -> Vec<u8> {
    let header = [int(status), opaque(b"tag"), int(results.len() as u32)];
    [header.concat(), results.concat()].concat()
}

const VERIFIER: [u8; 8] = [1, 2, 3, 4, 5, 6, 7, 8];

/// The result of a reply with this one alone.
fn only(result: Vec<u8>, look: impl FnOnce(Answered)) {
    let number = u32::from_be_bytes(*result.first_chunk().expect("a number"));
    let bytes = reply(0, &[result]);
    let mut opened = Reply::open(b"tag", &[number], &bytes).expect("a reply");
    assert_eq!(opened.status(), 0);
    let answered = opened.next().expect("a result");
    assert_eq!((answered.number, answered.status), (number, 0));
    look(answered);
    assert!(opened.next().is_none());
    assert!(opened.next().is_none());
    for length in 0..bytes.len() {
        let cut = Reply::open(b"tag", &[number], &bytes[..length]);
        assert_eq!(cut.err(), Some(Refused(10)));
    }
}

#[test]
fn nothing() {
    for number in [22, 31, 32, 59, 62, 71] {
        only(ok(number, &[]), |answered| {
            assert!(matches!(answered.body, Body::Nothing));
        });
    }
}

#[test]
fn attributes_and_handles() {
    let told = [int(1), int(0x10), opaque(&long(700))];
    only(ok(9, &told), |answered| {
        let Body::Attributes { words, values } = answered.body else {
            panic!("{answered:?}");
        };
        assert_eq!((words, values), (&int(0x10)[..], &long(700)[..]));
    });
    only(ok(10, &[opaque(&[7; 5])]), |answered| {
        assert!(matches!(answered.body, Body::Handle(&[7, 7, 7, 7, 7])));
    });
}

#[test]
fn reads() {
    let data = [9; 3];
    only(ok(25, &[int(1), opaque(&data)]), |answered| {
        let eof = matches!(answered.body, Body::Read { eof: true, data: told } if told == data);
        assert!(eof);
    });
    only(ok(69, &[int(0), long(1 << 40)]), |answered| {
        let Body::Sought { eof, offset } = answered.body else {
            panic!("{answered:?}");
        };
        assert_eq!((eof, offset), (false, 1 << 40));
    });
}

#[test]
fn stores() {
    let verifier = &VERIFIER[..];
    only(ok(38, &[int(5), int(2), VERIFIER.to_vec()]), |answered| {
        let stored = Stored {
            count: 5,
            committed: 2,
            verifier,
        };
        assert!(matches!(answered.body, Body::Written(told) if told == stored));
    });
    let written = [int(0), long(1 << 33), int(1), VERIFIER.to_vec()].concat();
    only(ok(60, &[written, int(1), int(0)]), |answered| {
        let expected = Stored {
            count: 1 << 33,
            committed: 1,
            verifier,
        };
        let Body::Copied {
            stored,
            consecutive,
            synchronous,
        } = answered.body
        else {
            panic!("{answered:?}");
        };
        assert_eq!((stored, consecutive, synchronous), (expected, true, false));
    });
}

#[test]
fn pieces() {
    let data = [int(0), long(3), opaque(&[8; 6])].concat();
    let hole = [int(1), long(9), long(1 << 34)].concat();
    only(ok(68, &[int(1), int(2), data, hole]), |answered| {
        let Body::ReadPlus { eof, pieces } = answered.body else {
            panic!("{answered:?}");
        };
        let expected = [
            Piece::Data {
                offset: 3,
                data: &[8; 6],
            },
            Piece::Hole {
                offset: 9,
                length: 1 << 34,
            },
        ];
        assert!(eof);
        assert_eq!(pieces.collect::<Vec<_>>(), expected);
    });
    only(ok(68, &[int(0), int(0)]), |answered| {
        let Body::ReadPlus { eof, mut pieces } = answered.body else {
            panic!("{answered:?}");
        };
        assert!(!eof && pieces.next().is_none());
    });
}

#[test]
fn several_results_and_a_failed_one() {
    let failed = [int(25), int(10025)].concat();
    let bytes = reply(10025, &[ok(22, &[]), ok(10, &[opaque(&[0; 4])]), failed]);
    for numbers in [&[22, 10, 25][..], &[22, 10, 25, 25]] {
        let opened = Reply::open(b"tag", numbers, &bytes).expect("a reply");
        assert_eq!(opened.status(), 10025);
        let told: Vec<(u32, u32)> = opened.map(|one| (one.number, one.status)).collect();
        assert_eq!(told, [(22, 0), (10, 0), (25, 10025)]);
    }
}

#[test]
fn ten() {
    let refused = |tag: &[u8], numbers: &[u32], bytes: &[u8]| {
        let answer = calls::open_reply(tag, numbers, bytes);
        let told = [u64::from(u32::MAX), bytes.len() as u64];
        assert_eq!((answer.number, answer.told), (10, told));
        assert!(Reply::open(tag, numbers, bytes).is_err());
    };
    let good = reply(0, &[ok(22, &[]), ok(32, &[])]);
    assert!(Reply::open(b"tag", &[22, 32], &good).is_ok());
    refused(b"tag", &[22, 32], &[&good[..], &[0; 4]].concat());
    refused(b"tags", &[22, 32], &good);
    refused(b"tag", &[32, 22], &good);
    refused(b"tag", &[22], &good);
    refused(b"tag", &[22, 32, 10], &good);
    refused(b"tag", &[22, 32], &reply(28, &[ok(22, &[]), ok(32, &[])]));
    refused(b"tag", &[22], &reply(0, &[[int(22), int(70)].concat()]));
    refused(b"tag", &[53], &reply(0, &[ok(53, &[])]));
}

#[test]
fn places_that_were_not_told() {
    let bytes = reply(0, &[ok(22, &[]), ok(32, &[])]);
    let length = bytes.len() as u64;
    for at in [length, length + 1, 1 << 32, u64::MAX] {
        let answer = calls::next_result(&bytes, at);
        assert_eq!((answer.number, answer.told), (calls::DONE, [0; 10]));
        let answer = calls::next_piece(&bytes, at);
        assert_eq!((answer.number, answer.told), (10, [0; 5]));
    }
    let answer = calls::next_result(&bytes, length - 4);
    assert_eq!((answer.number, answer.told), (10, [0; 10]));
}
