//! The comparison of clients itself, tried on clients with one fault each.

use compare::{try_replies, try_requests, try_served, Answer, Client, ClientTally, Parted, Second};

type Write = fn(&[u8], &[u64], &[u8], &mut [u8]) -> Answer<1>;
type Open = fn(&[u8], &[u32], &[u8]) -> Answer<2>;

/// The plain client, with one of its calls replaced.
struct Faulty {
    write: Write,
    open: Open,
    result: fn(&[u8], u64) -> Answer<10>,
    piece: fn(&[u8], u64) -> Answer<5>,
}

const SOUND: Faulty = Faulty {
    write: |tag, records, data, request| Second.write_request(tag, records, data, request),
    open: |tag, numbers, reply| Second.open_reply(tag, numbers, reply),
    result: |reply, at| Second.next_result(reply, at),
    piece: |reply, at| Second.next_piece(reply, at),
};

impl Client for Faulty {
    fn write_request(
        &self,
        tag: &[u8],
        records: &[u64],
        data: &[u8],
        request: &mut [u8],
    ) -> Answer<1> {
        (self.write)(tag, records, data, request)
    }

    fn open_reply(&self, tag: &[u8], numbers: &[u32], reply: &[u8]) -> Answer<2> {
        (self.open)(tag, numbers, reply)
    }

    fn next_result(&self, reply: &[u8], at: u64) -> Answer<10> {
        (self.result)(reply, at)
    }

    fn next_piece(&self, reply: &[u8], at: u64) -> Answer<5> {
        (self.piece)(reply, at)
    }
}

/// The first difference on the requests of some seeds.
fn found_in_requests(client: &Faulty) -> Option<Box<Parted>> {
    let mut tally = ClientTally::default();
    (1..=200).find_map(|seed| try_requests(seed, [client, &Second], &mut tally).err())
}

/// The first difference on the replies, damaged and not.
fn found_in_replies(client: &Faulty) -> Option<Box<Parted>> {
    try_replies(&Second, [client, &Second], &mut ClientTally::default()).err()
}

/// The first difference on the lists of some seeds.
fn found_in_lists(client: &Faulty) -> Option<Box<Parted>> {
    let mut tally = ClientTally::default();
    (1..=200).find_map(|seed| try_served(seed, &Second, [client, &Second], &mut tally).err())
}

#[track_caller]
fn check(found: Option<Box<Parted>>, what: &str) {
    let found = found.expect("the fault is found");
    assert!(found.what.starts_with(what), "{}", found.what);
    assert!(!found.given.is_empty());
}

#[test]
fn the_plain_client_agrees_with_itself_and_meets_everything() {
    let mut tally = ClientTally::default();
    let clients: [&dyn Client; 2] = [&Second, &Second];
    assert!(try_replies(&Second, clients, &mut tally).is_ok());
    for seed in 1..=300 {
        assert!(try_requests(seed, clients, &mut tally).is_ok());
        assert!(try_served(seed, &Second, clients, &mut tally).is_ok());
    }
    assert_eq!(tally.missing(), [""; 0]);
}

#[test]
fn both_wrong_alike() {
    let mut tally = ClientTally::default();
    let refusing = Faulty {
        write: |_, _, _, _| Answer {
            number: 11,
            told: [0],
        },
        open: |_, _, reply| Answer {
            number: 10,
            told: [u64::from(u32::MAX), reply.len() as u64],
        },
        ..SOUND
    };
    let clients: [&dyn Client; 2] = [&refusing, &refusing];
    assert!((1..=20).any(|seed| try_requests(seed, clients, &mut tally).is_err()));
    assert!(try_replies(&Second, clients, &mut tally).is_err());
    // A READ's data told one byte late, by both.
    let late = Faulty {
        result: |reply, at| {
            let mut answer = Second.next_result(reply, at);
            if answer.told[..2] == [25, 0] {
                answer.told[4] += 1;
            }
            answer
        },
        ..SOUND
    };
    let clients: [&dyn Client; 2] = [&late, &late];
    assert!((1..=20).any(|seed| try_served(seed, &Second, clients, &mut tally).is_err()));
}

const UNWRITABLE: Answer<1> = Answer {
    number: 11,
    told: [0],
};

#[test]
fn a_buffer_that_is_touched() {
    let faults: [Write; 3] = [
        // Behind a request; by refusal 9; by refusal 11.
        |tag, records, data, request| {
            let answer = Second.write_request(tag, records, data, request);
            let behind = request.get_mut(answer.told[0] as usize);
            if let Some(byte) = behind.filter(|_| answer.number == 0) {
                *byte ^= 1;
            }
            answer
        },
        |tag, records, data, request| {
            let answer = Second.write_request(tag, records, data, request);
            if let Some(byte) = request.last_mut().filter(|_| answer.number == 9) {
                *byte ^= 1;
            }
            answer
        },
        |tag, records, data, request| {
            let answer = Second.write_request(tag, records, data, request);
            if let Some(byte) = request.first_mut().filter(|_| answer.number == 11) {
                *byte ^= 1;
            }
            answer
        },
    ];
    for write in faults {
        let faulty = Faulty { write, ..SOUND };
        check(found_in_requests(&faulty), "request at");
    }
}

/// Writes with each record changed.
fn with_records(
    [tag, data]: [&[u8]; 2],
    records: &[u64],
    request: &mut [u8],
    change: impl Fn(&mut [u64; 10]),
) -> Answer<1> {
    let mut records = records.to_vec();
    records.as_chunks_mut().0.iter_mut().for_each(change);
    Second.write_request(tag, &records, data, request)
}

#[test]
fn a_value_that_is_not_refused() {
    let faults: [Write; 4] = [
        // The operation's number and READ's count cut to 32 bits; a span whose end wraps; a
        // boolean by its lowest bit.
        |tag, records, data, request| {
            with_records([tag, data], records, request, |record| {
                record[0] &= 0xffff_ffff;
            })
        },
        |tag, records, data, request| {
            with_records([tag, data], records, request, |record| {
                if record[0] == 25 {
                    record[6] &= 0xffff_ffff;
                }
            })
        },
        |tag, records, data, request| {
            with_records([tag, data], records, request, |record| {
                let end = record[3].wrapping_add(record[4]);
                if record[0] == 38 && end < record[3] {
                    record[3..5].copy_from_slice(&[0, end.min(data.len() as u64)]);
                }
            })
        },
        |tag, records, data, request| {
            with_records([tag, data], records, request, |record| {
                record[9] &= 1;
            })
        },
    ];
    for write in faults {
        let faulty = Faulty { write, ..SOUND };
        check(found_in_requests(&faulty), "answers of write_request");
    }
}

#[test]
fn a_request_that_is_not_refused() {
    let faults: [Write; 3] = [
        // A record's rest left out; the first twelve operations; the tag's first 1,024 bytes.
        |tag, records, data, request| {
            let records = &records[..records.len() / 10 * 10];
            Second.write_request(tag, records, data, request)
        },
        |tag, records, data, request| {
            let records = &records[..records.len().min(120)];
            Second.write_request(tag, records, data, request)
        },
        |tag, records, data, request| {
            let tag = &tag[..tag.len().min(1024)];
            Second.write_request(tag, records, data, request)
        },
    ];
    for write in faults {
        let faulty = Faulty { write, ..SOUND };
        check(found_in_requests(&faulty), "answers of write_request");
    }
}

#[test]
fn a_request_that_is_refused() {
    let faults: [Write; 3] = [
        // To a buffer of the exact length; of the largest length; for what isn't looked at.
        |tag, records, data, request| {
            let answer = Second.write_request(tag, records, data, request);
            match answer.told[0] {
                length if length == request.len() as u64 => UNWRITABLE,
                _ => answer,
            }
        },
        |tag, records, data, request| {
            let answer = Second.write_request(tag, records, data, request);
            match answer.told[0] {
                65_536 => UNWRITABLE,
                _ => answer,
            }
        },
        |tag, records, data, request| {
            let outside = |record: &[u64]| record[0] == 10 && record[1] > data.len() as u64;
            match records.chunks(10).any(outside) {
                true => UNWRITABLE,
                false => Second.write_request(tag, records, data, request),
            }
        },
    ];
    for write in faults {
        let faulty = Faulty { write, ..SOUND };
        check(found_in_requests(&faulty), "answers of write_request");
    }
}

/// The first of some answers that opens, else the last.
fn any_of(answers: impl IntoIterator<Item = Answer<2>>) -> Answer<2> {
    let mut last = None;
    for answer in answers {
        if answer.number == 0 {
            return answer;
        }
        last = Some(answer);
    }
    last.expect("an answer")
}

#[test]
fn a_reply_that_is_not_refused() {
    let faults: [Open; 5] = [
        // With bytes behind the last result; without the last operation; with operations in
        // another order; with a status that isn't the last result's; with another tag.
        |tag, numbers, reply| {
            let ends = (0..=4)
                .rev()
                .filter_map(|more| reply.len().checked_sub(more));
            any_of(ends.map(|end| Second.open_reply(tag, numbers, &reply[..end])))
        },
        |tag, numbers, reply| {
            let fewer = numbers.split_last().map_or(numbers, |(_, fewer)| fewer);
            any_of([fewer, numbers].map(|numbers| Second.open_reply(tag, numbers, reply)))
        },
        |tag, numbers, reply| {
            let mut other = numbers.to_vec();
            other.rotate_left(1.min(numbers.len()));
            any_of([&other, numbers].map(|numbers| Second.open_reply(tag, numbers, reply)))
        },
        |tag, numbers, reply| {
            let mut ok = reply.to_vec();
            ok.iter_mut().take(4).for_each(|byte| *byte = 0);
            any_of([&ok, reply].map(|reply| Second.open_reply(tag, numbers, reply)))
        },
        |tag, numbers, reply| {
            let told = reply.get(8..8 + tag.len()).unwrap_or(tag);
            Second.open_reply(told, numbers, reply)
        },
    ];
    for open in faults {
        let faulty = Faulty { open, ..SOUND };
        check(found_in_replies(&faulty), "answers of open_reply");
    }
}

#[test]
fn a_result_that_is_told_otherwise() {
    let faults: [fn(&[u8], u64) -> Answer<10>; 4] = [
        // COPY's flags exchanged; a place past the end refused; a place cut to 32 bits; a value
        // behind those that are told.
        |reply, at| {
            let mut answer = Second.next_result(reply, at);
            if answer.told[..2] == [60, 0] {
                answer.told.swap(7, 8);
            }
            answer
        },
        |reply, at| {
            let mut answer = Second.next_result(reply, at);
            if at > reply.len() as u64 {
                answer.number = 10;
            }
            answer
        },
        |reply, at| Second.next_result(reply, at & 0xffff_ffff),
        |reply, at| {
            let mut answer = Second.next_result(reply, at);
            answer.told[9] = answer.told[1];
            answer
        },
    ];
    for result in faults {
        let faulty = Faulty { result, ..SOUND };
        check(found_in_replies(&faulty), "answers of next_result");
    }
}

#[test]
fn a_piece_that_is_told_otherwise() {
    let faults: [fn(&[u8], u64) -> Answer<5>; 3] = [
        // A hole's start; a place at the end; any other kind taken as a hole.
        |reply, at| {
            let mut answer = Second.next_piece(reply, at);
            if answer.told[0] == 1 {
                answer.told[3] = answer.told[4];
            }
            answer
        },
        |reply, at| {
            let mut answer = Second.next_piece(reply, at);
            if at == reply.len() as u64 {
                answer.number = 1;
            }
            answer
        },
        |reply, at| {
            let mut reply = reply.to_vec();
            let rest = usize::try_from(at).ok().and_then(|at| reply.get_mut(at..));
            if let Some([_, _, _, kind, ..]) = rest {
                *kind = (*kind).min(1);
            }
            Second.next_piece(&reply, at)
        },
    ];
    for piece in faults {
        let faulty = Faulty { piece, ..SOUND };
        check(found_in_replies(&faulty), "answers of next_piece");
    }
}

#[test]
fn a_value_of_a_server_that_is_told_otherwise() {
    let eof = Faulty {
        result: |reply, at| {
            let mut answer = Second.next_result(reply, at);
            if answer.told[..2] == [69, 0] {
                answer.told[3] = 1;
            }
            answer
        },
        ..SOUND
    };
    check(found_in_lists(&eof), "answers of next_result");
    let offset = Faulty {
        piece: |reply, at| {
            let mut answer = Second.next_piece(reply, at);
            answer.told[1] &= !512;
            answer
        },
        ..SOUND
    };
    check(found_in_lists(&offset), "answers of next_piece");
}
