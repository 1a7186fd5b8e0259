//! Two clients side by side, given the same arguments.

use std::fmt::{self, Debug, Display};

use super::calls::{Answer, Client, DONE};
use super::rebuild::{rebuilt, Read};
use super::tally::ClientTally;
use crate::difference::slices_differ;
use crate::list::Words;
use crate::wire;

/// What request buffers hold before a call.
const FILL: u8 = 0xa5;

/// Where two clients part, or both answer what can't be.
pub struct Parted {
    pub what: String,
    /// The arguments of the call.
    pub given: String,
    pub answers: [String; 2],
}

/// What a request is written from.
#[derive(Clone, Debug, Default)]
pub struct Writing {
    pub tag: Vec<u8>,
    pub records: Vec<u64>,
    pub data: Vec<u8>,
}

impl Writing {
    /// The numbers of the operations.
    pub fn numbers(&self) -> Vec<u32> {
        let numbers = self.records.iter().step_by(10);
        numbers.map(|&number| number as u32).collect()
    }
}

impl Display for Writing {
    fn fmt(&self, f: &mut fmt::Formatter) -> fmt::Result {
        writeln!(f, "   tag {}", Words(&self.tag))?;
        for record in self.records.chunks(10) {
            let number = u32::try_from(record[0]).ok();
            let name = number.and_then(wire::name).unwrap_or("?");
            writeln!(f, "   {name:<10} {record:?}")?;
        }
        writeln!(f, "   data of {} bytes", self.data.len())
    }
}

/// A reply, and the tag and operation numbers with which it is opened.
#[derive(Clone, Copy)]
pub struct Opening<'a> {
    pub tag: &'a [u8],
    pub numbers: &'a [u32],
    pub reply: &'a [u8],
}

impl Display for Opening<'_> {
    fn fmt(&self, f: &mut fmt::Formatter) -> fmt::Result {
        writeln!(f, "   tag {}", Words(self.tag))?;
        writeln!(f, "   numbers {:?}", self.numbers)?;
        writeln!(f, "   reply {}", Words(self.reply))
    }
}

/// A place of a reply.
struct Place<'a> {
    reply: &'a [u8],
    at: u64,
}

impl Display for Place<'_> {
    fn fmt(&self, f: &mut fmt::Formatter) -> fmt::Result {
        writeln!(f, "   reply {}", Words(self.reply))?;
        writeln!(f, "   place {}", self.at)
    }
}

/// The answers of both; a difference where they aren't alike.
fn alike<T: Debug + PartialEq>(
    call: &str,
    given: &dyn Display,
    answers: [T; 2],
) -> Result<T, Box<Parted>> {
    match answers[0] == answers[1] {
        true => Ok(answers.into_iter().next().expect("the first of two")),
        false => Err(parted(format!("answers of {call}"), given, &answers)),
    }
}

fn parted<T: Debug>(what: String, given: &dyn Display, answers: &[T; 2]) -> Box<Parted> {
    Box::new(Parted {
        what,
        given: given.to_string(),
        answers: answers.each_ref().map(|answer| format!("{answer:?}")),
    })
}

/// What both answer and can't be.
pub fn odd(what: &str, given: &dyn Display) -> Box<Parted> {
    Box::new(Parted {
        what: what.into(),
        given: given.to_string(),
        answers: [(); 2].map(|()| "the same".into()),
    })
}

pub struct Pair<'a> {
    pub clients: [&'a dyn Client; 2],
    pub tally: &'a mut ClientTally,
}

impl Pair<'_> {
    /// Writes to a buffer of that length; the request, which is none but for the number 0.
    pub fn write(
        &mut self,
        writing: &Writing,
        length: usize,
        number: u32,
    ) -> Result<Vec<u8>, Box<Parted>> {
        let Writing { tag, records, data } = writing;
        let mut buffers = [(); 2].map(|()| vec![FILL; length]);
        let [left, right] = &mut buffers;
        let answers = [
            self.clients[0].write_request(tag, records, data, left),
            self.clients[1].write_request(tag, records, data, right),
        ];
        let answer = alike("write_request", writing, answers)?;
        self.tally.add_answer("write_request", answer.number);
        if let Some(what) = slices_differ("request", &buffers[0], &buffers[1]) {
            return Err(parted(what, writing, &answers));
        }
        let [mut request, _] = buffers;
        let rest = request.split_off((answer.told[0] as usize).min(length));
        let kept = rest.iter().all(|&byte| byte == FILL);
        let told = number == 0 || request.is_empty();
        if answer.number == number && kept && told {
            return Ok(request);
        }
        let what = format!("the request should be {number}, to a buffer of {length}");
        Err(parted(what, writing, &answers))
    }

    pub fn open(&mut self, opening: Opening) -> Result<Answer<2>, Box<Parted>> {
        let Opening {
            tag,
            numbers,
            reply,
        } = opening;
        let clients = self.clients;
        let answers = clients.map(|client| client.open_reply(tag, numbers, reply));
        let answer = alike("open_reply", &opening, answers)?;
        self.tally.add_answer("open_reply", answer.number);
        Ok(answer)
    }

    pub fn result(&mut self, reply: &[u8], at: u64) -> Result<Answer<10>, Box<Parted>> {
        let answers = self.clients.map(|client| client.next_result(reply, at));
        let answer = alike("next_result", &Place { reply, at }, answers)?;
        self.tally.add_answer("next_result", answer.number);
        Ok(answer)
    }

    pub fn piece(&mut self, reply: &[u8], at: u64) -> Result<Answer<5>, Box<Parted>> {
        let answers = self.clients.map(|client| client.next_piece(reply, at));
        let answer = alike("next_piece", &Place { reply, at }, answers)?;
        self.tally.add_answer("next_piece", answer.number);
        Ok(answer)
    }

    /// Opens a reply and reads all of it; nothing where it is refused.
    pub fn read(&mut self, opening: Opening) -> Result<Option<Vec<Read>>, Box<Parted>> {
        let answer = self.open(opening)?;
        if answer.number != 0 {
            return Ok(None);
        }
        let [status, first] = answer.told;
        let Some(results) = self.results(opening.reply, first)? else {
            return Err(odd("an opened reply that can't be read", &opening));
        };
        let again = rebuilt(status, opening.tag, &results, opening.reply);
        if again.as_deref() != Some(opening.reply) {
            let what = "an opened reply that isn't what is told of it";
            return Err(odd(what, &opening));
        }
        Ok(Some(results))
    }

    /// The results from a place to the end.
    fn results(&mut self, reply: &[u8], first: u64) -> Result<Option<Vec<Read>>, Box<Parted>> {
        let mut results = Vec::new();
        let mut at = first;
        loop {
            let answer = self.result(reply, at)?;
            let told = answer.told;
            match answer.number {
                0 if told[2] > at => {}
                DONE if at == reply.len() as u64 => return Ok(Some(results)),
                _ => return Ok(None),
            }
            at = told[2];
            let Some(pieces) = self.pieces(reply, told)? else {
                return Ok(None);
            };
            results.push(Read { told, pieces });
        }
    }

    /// The pieces of a READ_PLUS, up to the next result.
    fn pieces(
        &mut self,
        reply: &[u8],
        told: [u64; 10],
    ) -> Result<Option<Vec<[u64; 5]>>, Box<Parted>> {
        let [number, status, next, _, count, first, ..] = told;
        let mut pieces = Vec::new();
        if [number, status] != [wire::READ_PLUS.into(), 0] {
            return Ok(Some(pieces));
        }
        let mut at = first;
        for _ in 0..count {
            let piece = self.piece(reply, at)?;
            if piece.number != 0 || piece.told[4] <= at {
                return Ok(None);
            }
            at = piece.told[4];
            pieces.push(piece.told);
        }
        Ok((at == next).then_some(pieces))
    }
}
