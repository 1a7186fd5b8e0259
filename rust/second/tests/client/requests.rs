//! Requests written, and each refusal.

use second::client::{write_request, Written};

use crate::{hex, ZEROS};

/// What every buffer holds before a call.
const UNTOUCHED: u8 = 0xa5;

/// Bytes to point into: sixteen zeros, sixteen of 1 to 16, then any.
fn data() -> Vec<u8> {
    let counted = (1..=16).chain((0..200).map(|byte| byte ^ 0x80));
    [vec![0; 16], counted.collect()].concat()
}

const ZERO: [u64; 2] = [0, 16];
const COUNTED: [u64; 2] = [16, 16];
const ONE_TO_SIXTEEN: &str = "0102030405060708090a0b0c0d0e0f10";
/// What an operation without that span has there.
const NO_SPAN: [u64; 2] = [u64::MAX; 2];
/// What an operation without that number has there.
const NO: u64 = u64::MAX;

fn record(number: u64, spans: [[u64; 2]; 2], numbers: [u64; 5]) -> Vec<u64> {
    [&[number], &spans.concat()[..], &numbers].concat()
}

fn bare(number: u64) -> Vec<u64> {
    record(number, [NO_SPAN; 2], [NO; 5])
}

fn write(length: u64) -> Vec<u64> {
    record(38, [ZERO, [0, length]], [0, 2, NO, NO, NO])
}

/// Writes to a buffer that is longer than any request.
fn written(tag: &[u8], records: &[u64], data: &[u8]) -> Result<Vec<u8>, u32> {
    let mut buffer = vec![UNTOUCHED; 70_000];
    let Written { number, written } = write_request(tag, records, data, &mut buffer);
    let (request, rest) = buffer.split_at(written);
    assert!(rest.iter().all(|&byte| byte == UNTOUCHED));
    if number != 0 {
        assert_eq!(written, 0);
        return Err(number);
    }
    Ok(request.to_vec())
}

/// The one operation behind an empty tag, minor version 2 and the count.
fn operation(record: &[u64]) -> Result<Vec<u8>, u32> {
    let request = written(b"", record, &data())?;
    assert_eq!(request[..12], hex("00000000 00000002 00000001"));
    Ok(request[12..].to_vec())
}

#[test]
fn a_header_and_no_operation() {
    for (tag, header) in [
        (&b""[..], "00000000 00000002 00000000"),
        (b"a", "00000001 61000000 00000002 00000000"),
        (b"abc", "00000003 61626300 00000002 00000000"),
        (b"abcd", "00000004 61626364 00000002 00000000"),
        (b"abcde", "00000005 61626364 65000000 00000002 00000000"),
    ] {
        assert_eq!(written(tag, &[], &[]), Ok(hex(header)));
    }
}

#[track_caller]
fn check(record: &[u64], expected: &str) {
    assert_eq!(operation(record), Ok(hex(expected)));
}

#[test]
fn handles_and_attributes() {
    check(&bare(10), "0000000a");
    check(&bare(31), "0000001f");
    check(&bare(32), "00000020");
    let putfh = record(22, [[17, 5], NO_SPAN], [NO; 5]);
    check(&putfh, "00000016 00000005 0203040506 000000");
    let getattr = record(9, [[16, 8], NO_SPAN], [NO; 5]);
    check(&getattr, "00000009 00000002 01020304 05060708");
}

#[test]
fn reads_and_edits() {
    let numbers = [0x1_0000_0002, 0xffff_ffff, NO, NO, NO];
    for number in [25, 68, 69] {
        let look = record(number, [COUNTED, NO_SPAN], numbers);
        let expected = format!("{number:08x} {ONE_TO_SIXTEEN} 0000000100000002 ffffffff");
        check(&look, &expected);
    }
    let numbers = [7, u64::MAX, NO, NO, NO];
    for number in [59, 62] {
        let region = record(number, [COUNTED, NO_SPAN], numbers);
        let expected = format!("{number:08x} {ONE_TO_SIXTEEN} 0000000000000007 ffffffffffffffff");
        check(&region, &expected);
    }
    let write = record(38, [ZERO, [30, 2]], [9, 1, NO, NO, NO]);
    let expected = format!("00000026 {ZEROS} 0000000000000009 00000001 00000002 0f10 0000");
    check(&write, &expected);
}

#[test]
fn copy_and_clone() {
    let offsets = "0000000000000001 0000000000000002 0000000000000003";
    let transfer = format!("{ONE_TO_SIXTEEN} {ZEROS} {offsets}");
    let clone = record(71, [COUNTED, ZERO], [1, 2, 3, NO, NO]);
    check(&clone, &format!("00000047 {transfer}"));
    for (consecutive, synchronous) in [(0, 0), (0, 1), (1, 0), (1, 1)] {
        let numbers = [1, 2, 3, consecutive, synchronous];
        let copy = record(60, [COUNTED, ZERO], numbers);
        // No source server.
        let flags = format!("{consecutive:08x} {synchronous:08x} 00000000");
        check(&copy, &format!("0000003c {transfer} {flags}"));
    }
}

/// The first frame of document 01, and a tag with two operations.
#[test]
fn whole_requests() {
    let data = hex("00000001 00000000000000000000000000000000");
    let putfh = record(22, [[0, 4], NO_SPAN], [NO; 5]);
    let allocate = record(59, [[4, 16], NO_SPAN], [0, 512, NO, NO, NO]);
    let both = [putfh, allocate].concat();
    let frame = "000000000000000200000002 000000160000000400000001 0000003b \
                 00000000000000000000000000000000 0000000000000000 0000000000000200";
    assert_eq!(written(b"", &both, &data), Ok(hex(frame)));
    let moves = [bare(32), bare(31)].concat();
    let expected = hex("00000001 74000000 00000002 00000002 00000020 0000001f");
    assert_eq!(written(b"t", &moves, &[]), Ok(expected));
}

#[test]
fn spans_of_no_bytes() {
    let length = data().len() as u64;
    for start in [0, 1, length] {
        let putfh = record(22, [[start, 0], NO_SPAN], [NO; 5]);
        assert_eq!(operation(&putfh), Ok(hex("00000016 00000000")));
        let getattr = record(9, [[start, 0], NO_SPAN], [NO; 5]);
        assert_eq!(operation(&getattr), Ok(hex("00000009 00000000")));
    }
    for start in [length + 1, 1 << 32, u64::MAX] {
        let putfh = record(22, [[start, 0], NO_SPAN], [NO; 5]);
        assert_eq!(operation(&putfh), Err(11));
    }
}

#[test]
fn eleven_a_span_outside_the_data() {
    let length = data().len() as u64;
    let fits = record(25, [[length - 16, 16], NO_SPAN], [0; 5]);
    assert!(operation(&fits).is_ok());
    for start in [length - 15, length, 1 << 32, u64::MAX - 15, u64::MAX] {
        let stateid = [start, 16];
        for number in [25, 59, 62, 68, 69] {
            let one = record(number, [stateid, NO_SPAN], [0; 5]);
            assert_eq!(operation(&one), Err(11), "{number} at {start}");
        }
        for number in [60, 71] {
            for stateids in [[stateid, ZERO], [ZERO, stateid]] {
                let transfer = record(number, stateids, [0; 5]);
                assert_eq!(operation(&transfer), Err(11), "{number} at {start}");
            }
        }
        let handle = record(22, [[start, 16], NO_SPAN], [NO; 5]);
        assert_eq!(operation(&handle), Err(11));
        let bitmap = record(9, [[start, 16], NO_SPAN], [NO; 5]);
        assert_eq!(operation(&bitmap), Err(11));
    }
    for span in [
        [0, length + 1],
        [length, 1],
        [1, u64::MAX],
        [u64::MAX, 1],
        [u64::MAX, 2],
        [1 << 63, 1 << 63],
    ] {
        let write = record(38, [ZERO, span], [0, 2, NO, NO, NO]);
        assert_eq!(operation(&write), Err(11), "{span:?}");
    }
}

#[test]
fn eleven_lengths_that_do_not_decode() {
    for length in [0, 4, 12, 15, 17, 32] {
        let stateid = [0, length];
        for number in [25, 38, 59, 60, 62, 68, 69, 71] {
            let one = record(number, [stateid, ZERO], [0; 5]);
            assert_eq!(operation(&one), Err(11), "{number} with {length}");
        }
        for number in [60, 71] {
            let target = record(number, [ZERO, stateid], [0; 5]);
            assert_eq!(operation(&target), Err(11), "{number} with {length}");
        }
    }
    for length in 0..=140 {
        let handle = record(22, [[0, length], NO_SPAN], [NO; 5]);
        assert_eq!(operation(&handle).is_ok(), length <= 128);
        let bitmap = record(9, [[0, length], NO_SPAN], [NO; 5]);
        assert_eq!(
            operation(&bitmap).is_ok(),
            length % 4 == 0 && length <= 16,
            "a bitmap of {length}"
        );
    }
}

#[test]
fn eleven_numbers_that_do_not_decode() {
    for (number, place, most) in [
        (25, 1, u32::MAX),
        (68, 1, u32::MAX),
        (69, 1, u32::MAX),
        (38, 1, 2),
        (60, 3, 1),
        (60, 4, 1),
    ] {
        let with = |value: u64| {
            let mut numbers = [0; 5];
            numbers[place] = value;
            operation(&record(number, [ZERO; 2], numbers))
        };
        let most = u64::from(most);
        assert!(with(most).is_ok());
        for value in [most + 1, 1 << 32, (1 << 32) + 1, u64::MAX] {
            assert_eq!(with(value), Err(11), "{number} with {value}");
        }
    }
}

#[test]
fn eleven_an_operation_that_is_not_served() {
    let served = [9, 10, 22, 25, 31, 32, 38, 59, 60, 62, 68, 69, 71];
    let more = [10044, 1 << 16, 1 << 32, (1 << 32) + 10, u64::MAX];
    for number in (0..=200).chain(more) {
        let any = record(number, [ZERO; 2], [0; 5]);
        assert_eq!(operation(&any).is_ok(), served.contains(&number));
    }
}

#[test]
fn eleven_too_many_operations_or_half_of_one() {
    let many = |count: usize| bare(10).repeat(count);
    for count in 0..=12 {
        assert!(written(b"", &many(count), &[]).is_ok());
        for rest in 1..10 {
            let more = [many(count), vec![10; rest]].concat();
            assert_eq!(written(b"", &more, &[]), Err(11));
        }
    }
    for count in [13, 14, 100] {
        assert_eq!(written(b"", &many(count), &[]), Err(11));
    }
}

#[test]
fn eleven_a_long_tag() {
    for length in [1021, 1022, 1023, 1024] {
        let request = written(&vec![7; length], &[], &[]).expect("a request");
        assert_eq!(request.len(), 4 + 1024 + 8);
        assert_eq!(request[..4], (length as u32).to_be_bytes());
    }
    for length in [1025, 1028, 4096] {
        assert_eq!(written(&vec![7; length], &[], &[]), Err(11));
    }
}

#[test]
fn eleven_a_request_over_65_536_bytes() {
    let data = vec![0; 70_000];
    // Header and WRITE's other fields take 12 and 36 bytes.
    let most = 65_536 - 48;
    for length in most - 3..=most {
        let request = written(b"", &write(length), &data).expect("a request");
        assert_eq!(request.len(), 65_536);
    }
    for length in [most + 1, most + 4, 65_536, 70_000] {
        assert_eq!(written(b"", &write(length), &data), Err(11));
    }
    let two = [write(most), bare(10)].concat();
    assert_eq!(written(b"", &two, &data), Err(11));
    let two = [write(most - 4), bare(10)].concat();
    assert!(written(b"", &two, &data).is_ok());
}

#[test]
fn nine_a_buffer_that_is_too_short() {
    let records = [bare(10), write(5)].concat();
    let data = data();
    let request = written(b"tag", &records, &data).expect("a request");
    for length in 0..request.len() {
        let mut buffer = vec![UNTOUCHED; length];
        let refused = write_request(b"tag", &records, &data, &mut buffer);
        assert_eq!((refused.number, refused.written), (9, 0));
        assert!(buffer.iter().all(|&byte| byte == UNTOUCHED));
        // What can't be written comes first.
        let refused = write_request(b"tag", &records[1..], &data, &mut buffer);
        assert_eq!((refused.number, refused.written), (11, 0));
        assert!(buffer.iter().all(|&byte| byte == UNTOUCHED));
    }
    let mut exact = vec![UNTOUCHED; request.len()];
    let answer = write_request(b"tag", &records, &data, &mut exact);
    assert_eq!((answer.number, answer.written), (0, request.len()));
    assert_eq!(exact, request);
}
