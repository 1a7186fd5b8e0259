//! Each operation written, and refusals 9 and 11.

use client_sys::{calls, write_request, Look, Operation, Refused, Region, Span, Transfer, Write};

/// What every buffer holds before a call.
const UNTOUCHED: u8 = 0xa5;

const STATEID: Span = Span { start: 0, len: 16 };
const OTHER: Span = Span { start: 16, len: 16 };

/// Bytes to point into: sixteen of 1, sixteen of 2, four of 3, five of 4.
fn data() -> Vec<u8> {
    [vec![1; 16], vec![2; 16], vec![3; 4], vec![4; 5]].concat()
}

fn look() -> Look {
    Look {
        stateid: STATEID,
        offset: 5,
        count: u32::MAX,
    }
}

fn region() -> Region {
    Region {
        stateid: STATEID,
        offset: 6,
        length: 7,
    }
}

fn transfer() -> Transfer {
    Transfer {
        source_stateid: STATEID,
        target_stateid: OTHER,
        source_offset: 8,
        target_offset: 9,
        count: 10,
    }
}

fn write() -> Write {
    Write {
        stateid: STATEID,
        data: Span::from(36..41),
        offset: 11,
        stable_how: 2,
    }
}

fn written(tag: &[u8], operations: &[Operation]) -> Result<Vec<u8>, Refused> {
    let mut buffer = vec![UNTOUCHED; 1500];
    let length = write_request(tag, operations, &data(), &mut buffer)?;
    let rest = buffer.split_off(length);
    assert!(rest.iter().all(|&byte| byte == UNTOUCHED));
    Ok(buffer)
}

fn int(value: u32) -> Vec<u8> {
    value.to_be_bytes().to_vec()
}

fn long(value: u64) -> Vec<u8> {
    value.to_be_bytes().to_vec()
}

/// One operation without a tag, and the bytes behind its number.
#[track_caller]
fn check(operation: Operation, number: u32, arguments: &[Vec<u8>]) {
    let header = [0, 2, 1].map(int).concat();
    let expected = [header, int(number), arguments.concat()].concat();
    assert_eq!(operation.number(), number);
    assert_eq!(written(b"", &[operation]), Ok(expected));
}

#[test]
fn each_operation() {
    let (first, second) = (vec![1; 16], vec![2; 16]);
    let looked = [first.clone(), long(5), int(u32::MAX)];
    let regional = [first.clone(), long(6), long(7)];
    let moved = [first.clone(), second, long(8), long(9), long(10)];
    let attributes = [int(2), int(0x0303_0303), int(0x0404_0404)];
    check(Operation::GetAttr((32..40).into()), 9, &attributes);
    check(Operation::GetFh, 10, &[]);
    let handle = [int(4), vec![3; 4]];
    check(Operation::PutFh((32..36).into()), 22, &handle);
    check(Operation::Read(look()), 25, &looked);
    check(Operation::RestoreFh, 31, &[]);
    check(Operation::SaveFh, 32, &[]);
    let stored = [int(5), vec![4; 5], vec![0; 3]].concat();
    let writing = [first, long(11), int(2), stored];
    check(Operation::Write(write()), 38, &writing);
    check(Operation::Allocate(region()), 59, &regional);
    let copy = Operation::Copy {
        transfer: transfer(),
        consecutive: true,
        synchronous: false,
    };
    let flags = [1, 0, 0].map(int).concat();
    check(copy, 60, &[moved.concat(), flags]);
    check(Operation::Deallocate(region()), 62, &regional);
    check(Operation::ReadPlus(look()), 68, &looked);
    check(Operation::Seek(look()), 69, &looked);
    check(Operation::Clone(transfer()), 71, &moved);
}

#[test]
fn a_tag_and_several_operations() {
    let operations = [Operation::SaveFh, Operation::GetFh, Operation::RestoreFh];
    let tag = [int(1), vec![b't', 0, 0, 0]].concat();
    let expected = [tag, [2, 3, 32, 10, 31].map(int).concat()].concat();
    assert_eq!(written(b"t", &operations), Ok(expected));
}

#[test]
fn eleven() {
    let outside = Span { start: 40, len: 2 };
    let wrapping = Span {
        start: u64::MAX,
        len: 2,
    };
    for operation in [
        Operation::PutFh(outside),
        Operation::PutFh(wrapping),
        Operation::GetAttr(Span { start: 0, len: 20 }),
        Operation::GetAttr(Span { start: 0, len: 6 }),
        Operation::Read(Look {
            stateid: Span { start: 0, len: 15 },
            ..look()
        }),
        Operation::Write(Write {
            stable_how: 3,
            ..write()
        }),
        Operation::Write(Write {
            data: outside,
            ..write()
        }),
    ] {
        assert_eq!(written(b"", &[operation]), Err(Refused(11)));
    }
    assert!(written(b"", &[Operation::GetFh; 12]).is_ok());
    assert_eq!(written(b"", &[Operation::GetFh; 13]), Err(Refused(11)));
    assert!(written(&[0; 1024], &[]).is_ok());
    assert_eq!(written(&[0; 1025], &[]), Err(Refused(11)));
}

#[test]
fn eleven_of_records() {
    let mut buffer = [UNTOUCHED; 100];
    let mut refused = |records: &[u64]| {
        let answer = calls::write_request(b"", records, &data(), &mut buffer);
        assert_eq!((answer.number, answer.told), (11, [0]), "{records:?}");
        assert_eq!(buffer, [UNTOUCHED; 100]);
    };
    refused(&[10]);
    refused(&[10; 11]);
    for number in [0, 53, 70, 72, (1 << 32) + 10] {
        refused(&[number, 0, 16, 0, 16, 0, 0, 0, 0, 0]);
    }
    refused(&[25, 0, 16, 0, 0, 0, 1 << 32, 0, 0, 0]);
    refused(&[60, 0, 16, 0, 16, 0, 0, 0, 2, 0]);
    refused(&[60, 0, 16, 0, 16, 0, 0, 0, 0, 2]);
}

#[test]
fn nine() {
    let operations = [Operation::Write(write()), Operation::GetFh];
    let request = written(b"tag", &operations).expect("a request");
    for length in 0..request.len() {
        let mut buffer = vec![UNTOUCHED; length];
        let refused = write_request(b"tag", &operations, &data(), &mut buffer);
        assert_eq!(refused, Err(Refused(9)));
        assert!(buffer.iter().all(|&byte| byte == UNTOUCHED));
    }
    let mut exact = vec![UNTOUCHED; request.len()];
    let length = write_request(b"tag", &operations, &data(), &mut exact);
    assert_eq!(length, Ok(request.len()));
    assert_eq!(exact, request);
}
