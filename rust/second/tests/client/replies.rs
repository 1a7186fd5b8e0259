//! Replies taken apart, and each kind of reply that is refused.

use second::client::{
    next_piece, next_result, open_reply, Body, Kind, Opened, Piece, Reported, Stored, NO_STATUS,
};

use crate::hex;

/// A reply without a tag: its status, and the count and results.
fn reply(status: u32, results: &str) -> Vec<u8> {
    hex(&format!("{status:08x} 00000000 {results}"))
}

fn is_open(numbers: &[u32], reply: &[u8]) -> bool {
    let opened = open_reply(b"", numbers, reply);
    let first = match opened.number {
        0 => 12,
        _ => {
            assert_eq!((opened.number, opened.status), (10, NO_STATUS));
            reply.len()
        }
    };
    assert_eq!(opened.first, first);
    opened.number == 0
}

/// The result of an OK with this body, which is the whole reply's only one.
#[track_caller]
fn check(number: u32, body: &str, expected: impl Fn(&[u8]) -> Body) {
    let bytes = reply(0, &format!("00000001 {number:08x} 00000000 {body}"));
    assert!(is_open(&[number], &bytes));
    let reported = Reported {
        number,
        status: 0,
        body: expected(&bytes),
        next: bytes.len(),
    };
    assert_eq!(next_result(&bytes, 12), Ok(Some(reported)));
    assert_eq!(next_result(&bytes, bytes.len() as u64), Ok(None));
    for length in 0..bytes.len() {
        assert!(!is_open(&[number], &bytes[..length]), "cut at {length}");
        let cut = next_result(&bytes[..length], 12);
        assert_eq!(cut.is_err(), length > 12, "cut at {length}");
    }
    for more in 1..=4 {
        let longer = [&bytes[..], &vec![0; more]].concat();
        assert!(!is_open(&[number], &longer));
    }
}

/// A body that doesn't decode.
#[track_caller]
fn refused(number: u32, body: &str) {
    let bytes = reply(0, &format!("00000001 {number:08x} 00000000 {body}"));
    assert!(!is_open(&[number], &bytes));
    assert!(next_result(&bytes, 12).is_err());
}

#[test]
fn a_body_of_nothing() {
    for number in [22, 31, 32, 59, 62, 71] {
        check(number, "", |_| Body::Nothing);
    }
}

#[test]
fn getattr() {
    let body = "00000002 00000010 00006000 0000000c 000000000000020000000200";
    check(9, body, |reply| Body::Attributes {
        words: &reply[24..32],
        values: &reply[36..48],
    });
    check(9, "00000000 00000000", |reply| Body::Attributes {
        words: &reply[24..24],
        values: &reply[28..28],
    });
    // Any number of words, and values of any length.
    let long = "00000006 000000000000000000000000000000000000000000000000 00000001 07000000";
    check(9, long, |reply| Body::Attributes {
        words: &reply[24..48],
        values: &reply[52..53],
    });
    refused(9, "00000000 00000001 07000001");
    refused(9, "00000001 00000000");
    refused(9, "40000000 00000000");
    refused(9, "ffffffff 00000000 00000000");
}

#[test]
fn getfh() {
    check(10, "00000004 00000003", |reply| {
        Body::Handle(&reply[24..28])
    });
    check(10, "00000000", |reply| Body::Handle(&reply[24..24]));
    let longest = format!("00000080 {}", "07".repeat(128));
    check(10, &longest, |reply| Body::Handle(&reply[24..152]));
    refused(10, &format!("00000081 {} 000000", "07".repeat(129)));
    refused(10, "00000001 07000100");
    refused(10, "00000005 0000000000");
}

#[test]
fn read() {
    check(25, "00000000 00000003 61626300", |reply| Body::Read {
        eof: false,
        data: &reply[28..31],
    });
    check(25, "00000001 00000000", |reply| Body::Read {
        eof: true,
        data: &reply[28..28],
    });
    refused(25, "00000002 00000000");
    refused(25, "01000000 00000000");
    refused(25, "00000000 00000003 61626301");
    refused(25, "00000000 ffffffff 61626300");
}

#[test]
fn write() {
    for committed in 0..=2 {
        let body = format!("ffffffff {committed:08x} 0102030405060708");
        check(38, &body, |reply| {
            Body::Written(Stored {
                count: 0xffff_ffff,
                committed,
                verifier: &reply[28..36],
            })
        });
    }
    refused(38, "00000001 00000003 0102030405060708");
    refused(38, "00000001 00000002 01020304050607");
}

#[test]
fn copy() {
    for (consecutive, synchronous) in [(false, false), (false, true), (true, false), (true, true)] {
        let [first, second] = [consecutive, synchronous].map(u32::from);
        let body =
            format!("00000000 0000000100000002 00000001 0102030405060708 {first:08x} {second:08x}");
        check(60, &body, |reply| Body::Copied {
            stored: Stored {
                count: 0x1_0000_0002,
                committed: 1,
                verifier: &reply[36..44],
            },
            consecutive,
            synchronous,
        });
    }
    let stateid = "00000000000000000000000000000000";
    let rest = "0000000000000002 00000002 0102030405060708 00000001 00000001";
    refused(60, &format!("00000001 {stateid} {rest}"));
    refused(60, &format!("00000001 {rest}"));
    let count = "00000000 0000000000000002";
    refused(
        60,
        &format!("{count} 00000003 0102030405060708 00000001 00000001"),
    );
    refused(
        60,
        &format!("{count} 00000002 0102030405060708 00000002 00000001"),
    );
    refused(
        60,
        &format!("{count} 00000002 0102030405060708 00000001 00000002"),
    );
}

#[test]
fn seek() {
    check(69, "00000001 0000000100000002", |_| Body::Sought {
        eof: true,
        offset: 0x1_0000_0002,
    });
    refused(69, "00000002 0000000000000000");
}

const HOLE: &str = "00000001 0000000000000200 0000000000000400";
const DATA: &str = "00000000 0000000000000600 00000003 61626300";

#[test]
fn pieces() {
    let body = format!("00000000 00000002 {HOLE} {DATA}");
    let bytes = reply(0, &format!("00000001 00000044 00000000 {body}"));
    let kind = Kind::Hole { length: 1024 };
    let first = Piece {
        offset: 512,
        kind,
        next: 48,
    };
    assert_eq!(next_piece(&bytes, 28), Ok(first));
    let kind = Kind::Data(&bytes[64..67]);
    let second = Piece {
        offset: 1536,
        kind,
        next: 68,
    };
    assert_eq!(next_piece(&bytes, 48), Ok(second));
    for at in [68, 69, (1 << 32) + 28, u64::MAX] {
        assert!(next_piece(&bytes, at).is_err());
    }
    for length in 28..68 {
        assert_eq!(next_piece(&bytes[..length], 28).is_ok(), length >= 48);
        assert!(next_piece(&bytes[..length], 48).is_err());
    }
}

#[test]
fn read_plus() {
    check(68, "00000001 00000000", |_| Body::Pieces {
        eof: true,
        count: 0,
        first: 28,
    });
    let body = format!("00000000 00000002 {HOLE} {DATA}");
    check(68, &body, |_| Body::Pieces {
        eof: false,
        count: 2,
        first: 28,
    });
    let one_too_many = format!("00000001 00000044 00000000 00000000 00000001 {HOLE} {DATA}");
    assert!(!is_open(&[68], &reply(0, &one_too_many)));
    refused(68, &format!("00000000 00000003 {HOLE} {DATA}"));
    refused(68, &format!("00000002 00000001 {HOLE}"));
    refused(
        68,
        "00000000 00000001 00000002 0000000000000200 0000000000000400",
    );
    refused(
        68,
        "00000000 00000001 00000000 0000000000000600 00000003 61626301",
    );
}

/// The second reply of document 01.
#[test]
fn a_frame() {
    let frame = hex(
        "00000000000000000000000200000016000000000000004400000000000000000000000100000001 \
         00000000000000000000000000000010",
    );
    assert!(is_open(&[22, 68], &frame));
    let first = next_result(&frame, 12)
        .expect("a result")
        .expect("the first");
    assert_eq!(
        (first.number, first.status, first.body),
        (22, 0, Body::Nothing)
    );
    let second = next_result(&frame, first.next as u64)
        .expect("a result")
        .expect("the second");
    let (eof, count, first) = (false, 1, second.next - 20);
    assert_eq!(second.body, Body::Pieces { eof, count, first });
    let piece = next_piece(&frame, first as u64).expect("a piece");
    assert_eq!((piece.offset, piece.kind), (0, Kind::Hole { length: 16 }));
    assert_eq!(piece.next, frame.len());
}

#[test]
fn a_failed_operation_has_no_body() {
    for number in [
        0,
        9,
        10,
        22,
        25,
        38,
        53,
        60,
        68,
        69,
        71,
        72,
        10044,
        u32::MAX,
    ] {
        for status in [1, 5, 28, 10036, 10044, u32::MAX] {
            let bytes = reply(
                status,
                &format!("00000002 00000016 00000000 {number:08x} {status:08x}"),
            );
            assert!(is_open(&[22, number], &bytes));
            assert!(is_open(&[22, number, 10, 10], &bytes));
            let last = next_result(&bytes, 20)
                .expect("a result")
                .expect("the last");
            assert_eq!((last.number, last.status), (number, status));
            assert_eq!((last.body, last.next), (Body::Nothing, 28));
        }
    }
}

#[test]
fn ten_an_operation_that_has_no_layout() {
    for number in [0, 3, 8, 11, 26, 53, 61, 67, 70, 72, 10044, u32::MAX] {
        refused(number, "");
    }
}

#[test]
fn ten_a_reply_that_is_cut_or_longer() {
    let empty = reply(0, "00000000");
    assert!(is_open(&[], &empty));
    for length in 0..empty.len() {
        assert!(!is_open(&[], &empty[..length]));
    }
    for more in 1..=8 {
        assert!(!is_open(&[], &[&empty[..], &vec![0; more]].concat()));
    }
}

#[test]
fn ten_another_count_than_that_of_the_results() {
    let one = "00000016 00000000";
    for (count, opens) in [(0, false), (1, true), (2, false), (u32::MAX, false)] {
        let bytes = reply(0, &format!("{count:08x} {one}"));
        assert_eq!(is_open(&[22], &bytes), opens, "{count}");
    }
}

#[test]
fn ten_another_tag() {
    let with = |tag: &str| hex(&format!("00000000 {tag} 00000000"));
    let opened = |tag: &[u8], bytes: &[u8]| open_reply(tag, &[], bytes).number;
    let bytes = with("00000003 61626300");
    let Opened { number, first, .. } = open_reply(b"abc", &[], &bytes);
    assert_eq!((number, first), (0, 16));
    for tag in [&b""[..], b"ab", b"abd", b"abc\0", b"abcd", b"Abc"] {
        assert_eq!(opened(tag, &bytes), 10);
    }
    assert_eq!(opened(b"abc", &with("00000003 61626301")), 10);
    assert_eq!(opened(b"abc", &with("00000004 61626300")), 10);
    assert_eq!(opened(b"abc\0", &with("00000004 61626300")), 0);
    for (length, number) in [(1024, 0), (1025, 10), (1028, 10)] {
        let tag = vec![7; length];
        let pad = "00".repeat(length.next_multiple_of(4) - length);
        let told = format!("{length:08x} {} {pad}", "07".repeat(length));
        assert_eq!(opened(&tag, &with(&told)), number);
    }
}

#[test]
fn ten_numbers_that_do_not_follow_the_requests() {
    let (putfh, savefh) = ("00000016 00000000", "00000020 00000000");
    let both = reply(0, &format!("00000002 {putfh} {savefh}"));
    assert!(is_open(&[22, 32], &both));
    for numbers in [
        &[][..],
        &[22],
        &[32],
        &[32, 22],
        &[22, 31],
        &[31, 32],
        &[22, 32, 32],
        &[10, 22, 32],
        &[22, 32, 0],
    ] {
        assert!(!is_open(numbers, &both), "{numbers:?}");
    }
    let failed = reply(10020, &format!("00000002 {putfh} 00000020 00002724"));
    assert!(is_open(&[22, 32], &failed));
    assert!(is_open(&[22, 32, 10], &failed));
    for numbers in [&[][..], &[22], &[32, 22], &[22, 31, 10], &[10, 22, 32]] {
        assert!(!is_open(numbers, &failed), "{numbers:?}");
    }
}

#[test]
fn ten_a_status_that_is_not_the_last_results() {
    let (ok, failed) = ("00000016 00000000", "00000020 00002724");
    for (status, results, numbers, opens) in [
        (10020, [ok, failed], [22, 32], true),
        (0, [ok, failed], [22, 32], false),
        (10025, [ok, failed], [22, 32], false),
        (0, [ok, ok], [22, 22], true),
        (10020, [ok, ok], [22, 22], false),
        (10020, [failed, failed], [32, 32], false),
        (0, [failed, ok], [32, 22], false),
        (10020, [failed, ok], [32, 22], false),
    ] {
        let bytes = reply(status, &format!("00000002 {}", results.concat()));
        assert_eq!(is_open(&numbers, &bytes), opens, "{status} {results:?}");
    }
}

#[test]
fn a_reply_without_results() {
    for (status, numbers, opens) in [
        (0, &[][..], true),
        (0, &[22][..], false),
        (10021, &[], true),
        (10021, &[22], true),
        (10070, &[22, 10], true),
        (1, &[22; 13], true),
    ] {
        let bytes = reply(status, "00000000");
        assert_eq!(is_open(numbers, &bytes), opens);
        assert_eq!(next_result(&bytes, 12), Ok(None));
    }
}

#[test]
fn more_results_than_a_request_has() {
    let many = format!("00000014 {}", "00000016 00000000".repeat(20));
    assert!(is_open(&[22; 20], &reply(0, &many)));
    assert!(!is_open(&[22; 12], &reply(0, &many)));
}

#[test]
fn nothing_behind_the_end() {
    let bytes = reply(0, "00000001 00000016 00000000");
    for at in [20, 21, 24, 1 << 32, (1 << 32) + 12, u64::MAX - 7, u64::MAX] {
        assert_eq!(next_result(&bytes, at), Ok(None), "{at}");
    }
    assert_eq!(next_result(&[], 0), Ok(None));
    assert!(next_piece(&[], 0).is_err());
}
