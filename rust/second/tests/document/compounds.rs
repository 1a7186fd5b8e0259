//! Headers, operation counts, bytes read and bytes written.

use crate::bench::*;

#[test]
fn six_a_header_cut_at_every_byte() {
    for tag in [&b""[..], b"a", b"ab", b"abc", b"abcd", b"abcde"] {
        let whole = request_with(tag, 2, 0, &[]);
        for length in 0..whole.len() {
            let mut bench = Bench::new(pool(2));
            assert_eq!(
                bench.call(&whole[..length]).0.number,
                6,
                "{length} of {tag:?}"
            );
        }
        let (served, reply) = Bench::new(pool(2)).call(&whole);
        assert_eq!((served.number, served.read), (0, whole.len()));
        assert_eq!(reply, reply_with(tag, OK, &[]));
    }
}

#[test]
fn six_a_bad_tag() {
    let mut bench = Bench::new(pool(2));
    let whole = request_with(b"abcde", 2, 0, &[]);
    for pad in 9..12 {
        let mut damaged = whole.clone();
        damaged[pad] = 1;
        assert_eq!(bench.call(&damaged).0.number, 6);
    }
    let longest = vec![b't'; 1024];
    let (served, reply) = bench.call(&request_with(&longest, 2, 0, &[]));
    assert_eq!((served.number, served.read), (0, 1036));
    assert_eq!(reply, reply_with(&longest, OK, &[]));
    for length in [1025, 1028, 60_000] {
        let tag = vec![b't'; length];
        assert_eq!(bench.call(&request_with(&tag, 2, 0, &[])).0.number, 6);
    }
    for length in [1025, 1 << 31, u32::MAX] {
        let request = [int(length), int(2), int(0)].concat();
        assert_eq!(bench.call(&request).0.number, 6);
    }
}

#[test]
fn minor_versions() {
    let mut bench = Bench::new(pool(2));
    for minor in [0, 1, 3, u32::MAX] {
        for count in [0, 1, 13, u32::MAX] {
            let request = request_with(b"tag", minor, count, &[putfh(0)]);
            let (served, reply) = bench.call(&request);
            assert_eq!((served.number, served.read), (0, 16));
            assert_eq!(reply, reply_with(b"tag", 10021, &[]));
        }
    }
    // The count must be there all the same.
    let cut = [opaque(b"tag"), int(1)].concat();
    assert_eq!(bench.call(&cut).0.number, 6);
}

#[test]
fn twelve_and_thirteen_operations() {
    let mut bench = Bench::new(pool(2));
    let (served, reply12) = bench.call(&request(&vec![putfh(1); 12]));
    assert_eq!((served.number, served.read), (0, 12 + 12 * 12));
    assert_eq!(reply12, reply(OK, &vec![result(22, OK, &[]); 12]));
    let (served, reply13) = bench.call(&request(&vec![putfh(1); 13]));
    assert_eq!((served.number, served.read), (0, 12));
    assert_eq!(reply13, reply(10070, &[]));
    let (served, answer) = bench.call(&request_with(b"t", 2, u32::MAX, &[]));
    assert_eq!((served.number, served.read), (0, 16));
    assert_eq!(answer, reply_with(b"t", 10070, &[]));
}

#[test]
fn twelve_operations_run_and_the_thirteenth_stops_all() {
    let mut bench = Bench::new(pool(2));
    let mut operations = vec![putfh(0), write(0, b"x")];
    operations.resize(13, getfh());
    bench.call(&request(&operations));
    assert_eq!(bench.store.sizes[0], 0);
    bench.call(&request(&operations[..12]));
    assert_eq!(bench.store.sizes[0], 1);
}

#[test]
fn an_empty_list_reads_no_more() {
    let mut bench = Bench::new(pool(2));
    let (served, answer) = bench.call(&request_with(b"", 2, 0, &[putfh(0), vec![1, 2, 3]]));
    assert_eq!((served.read, served.written), (12, 12));
    assert_eq!(answer, reply(OK, &[]));
}

#[test]
fn bytes_after_the_last_operation_are_not_read() {
    let mut bench = Bench::new(pool(2));
    let (served, answer) = bench.call(&request_with(b"", 2, 1, &[putfh(3), vec![255; 7]]));
    assert_eq!((served.read, served.written), (24, 20));
    assert_eq!(answer, reply(OK, &[result(22, OK, &[])]));
}

/// Every operation, whole.
fn samples() -> Vec<Vec<u8>> {
    vec![
        getattr(&[0x11, 0x2000, 0x6000]),
        getfh(),
        putfh(1),
        read(0, 1),
        restorefh(),
        savefh(),
        write(0, b"abcde"),
        allocate(0, 1),
        copy(0, 0, 1),
        deallocate(0, 1),
        read_plus(0, 1),
        seek(0, 1),
        clone(0, 0, 512),
    ]
}

fn number_of(operation: &[u8]) -> u32 {
    u32::from_be_bytes(operation[..4].try_into().unwrap())
}

#[test]
fn an_operation_cut_at_every_byte() {
    for operation in samples() {
        for length in 0..operation.len() {
            let mut bench = Bench::new(pool(8));
            let start = [putfh(2), write(0, &[5; 600]), savefh(), putfh(0)];
            bench.call(&request(&start));
            let before = bench.store.clone();

            let list = [putfh(2), savefh(), operation[..length].to_vec()];
            let (served, answer) = bench.call(&request(&list));
            // Neither the number nor any byte after it counts as read.
            assert_eq!((served.number, served.read), (0, 12 + 12 + 4));
            let number = if length < 4 {
                10044
            } else {
                number_of(&operation)
            };
            let results = [
                result(22, OK, &[]),
                result(32, OK, &[]),
                result(number, 10036, &[]),
            ];
            assert_eq!(answer, reply(10036, &results), "{length} of {number}");
            assert_eq!(bench.store, before);
        }
    }
}

#[test]
fn a_whole_operation_counts_even_if_it_fails() {
    for operation in samples()
        .into_iter()
        .filter(|sample| number_of(sample) != 22)
    {
        let mut bench = Bench::new(pool(8));
        let list = [operation.clone(), putfh(0)];
        let (served, answer) = bench.call(&request(&list));
        assert_eq!((served.number, served.read), (0, 12 + operation.len()));
        let failed = result(number_of(&operation), 10020, &[]);
        assert_eq!(answer, reply(10020, &[failed]));
    }
}

#[test]
fn the_first_failing_operation_is_the_last_result() {
    let mut bench = Bench::new(pool(8));
    let list = [
        putfh(0),
        write(0, b"kept"),
        putfh(9),
        write(0, b"never"),
        getfh(),
    ];
    let (served, answer) = bench.call(&request(&list));
    let read = 12 + list[..3].concat().len();
    assert_eq!((served.number, served.read), (0, read));
    let results = [
        result(22, OK, &[]),
        result(38, OK, &[int(4), int(2), VERIFIER.to_vec()]),
        result(22, 70, &[]),
    ];
    assert_eq!(answer, reply(70, &results));
    assert_eq!(bench.file(0), b"kept");
}

#[test]
fn handles_move_as_told_and_are_forgotten_after() {
    let mut bench = Bench::new(pool(8));
    let list = [
        putfh(3),
        savefh(),
        putfh(1),
        getfh(),
        restorefh(),
        getfh(),
        restorefh(),
    ];
    let (_, answer) = bench.call(&request(&list));
    let results = [
        result(22, OK, &[]),
        result(32, OK, &[]),
        result(22, OK, &[]),
        result(10, OK, &[opaque(&int(1))]),
        result(31, OK, &[]),
        result(10, OK, &[opaque(&int(3))]),
        result(31, OK, &[]),
    ];
    assert_eq!(answer, reply(OK, &results));
    assert_eq!(bench.last(&[getfh()]).0, 10020);
    assert_eq!(bench.last(&[restorefh()]).0, 10020);
}

#[test]
fn no_handle_outlives_its_compound() {
    let mut bench = Bench::new(pool(8));
    assert_eq!(bench.last(&[putfh(1), putfh(4)]).0, 70);
    assert_eq!(bench.last(&[getfh()]).0, 10020);
}

#[test]
fn numbers_that_are_no_operation_here() {
    let served_numbers: Vec<u32> = samples().iter().map(|sample| number_of(sample)).collect();
    let mut bench = Bench::new(pool(8));
    for number in (0..200).chain([10044, 1 << 31, u32::MAX]) {
        if served_numbers.contains(&number) {
            continue;
        }
        let expected = match number {
            53 => result(53, 10064, &[]),
            3..=71 => result(number, 10004, &[]),
            _ => result(10044, 10044, &[]),
        };
        let status = u32::from_be_bytes(expected[4..8].try_into().unwrap());
        for tail in [vec![], vec![0; 44]] {
            let alone = request_with(b"", 2, 1, &[int(number), tail.clone()]);
            let (served, answer) = bench.call(&alone);
            assert_eq!((served.number, served.read), (0, 12));
            assert_eq!(answer, reply(status, std::slice::from_ref(&expected)));
            let after = request_with(b"", 2, 2, &[putfh(0), int(number), tail]);
            let (served, answer) = bench.call(&after);
            assert_eq!((served.number, served.read), (0, 24));
            let results = [result(22, OK, &[]), expected.clone()];
            assert_eq!(answer, reply(status, &results));
        }
    }
}

#[test]
fn a_missing_operation() {
    let mut bench = Bench::new(pool(8));
    let (served, answer) = bench.call(&request_with(b"", 2, 2, &[putfh(0)]));
    assert_eq!((served.number, served.read), (0, 24));
    let results = [result(22, OK, &[]), result(10044, 10036, &[])];
    assert_eq!(answer, reply(10036, &results));
}

#[test]
fn reserve_and_write_in_one_compound() {
    let mut bench = Bench::new(pool(1));
    let list = [putfh(0), allocate(0, 512), write(1, b"hi"), read(0, 9)];
    let (_, answer) = bench.call(&request(&list));
    let data = [0, b'h', b'i', 0, 0, 0, 0, 0, 0];
    let results = [
        result(22, OK, &[]),
        result(59, OK, &[]),
        result(38, OK, &[int(2), int(2), VERIFIER.to_vec()]),
        result(25, OK, &[read_body(false, &data)]),
    ];
    assert_eq!(answer, reply(OK, &results));
}
