//! A request: its header, its operations in order, its reply.

use std::ops::Range;

use compare::Served;
use second::{
    decode, Count, Geometry, Header, Kind, Length, Operation, Reader, Refusal, Stateid, Status,
    Store, Transfer, Undecoded, Why, MINOR_VERSION, NOWHERE, OPERATIONS_MAX, REPLY_MIN,
    REQUEST_MAX, VERIFIER_LENGTH,
};

use super::attributes::Gauge;
use super::edit::{Editor, Way};
use super::judge;
use super::pool::Pool;
use super::reading::View;
use super::reply::Reply;
use super::Fast;

const GRANT_MAX: u32 = 2048;
const FILE_SYNC: u32 = 2;

const ALL_ZEROS: Stateid = [0; 16];
const ALL_ONES: Stateid = [255; 16];

pub(super) fn serve(
    server: Fast,
    geometry: &Geometry,
    store: &mut Store,
    verifier: &[u8],
    request: &[u8],
    reply: &mut [u8],
) -> Served {
    let refused = |refusal: Refusal, place: usize| Served {
        number: refusal.number(),
        read: 0,
        written: 0,
        place: place as u64,
    };
    let pool = match admit(server, geometry, store, verifier, request, reply) {
        Ok(pool) => pool,
        Err(refusal) => return refused(refusal, NOWHERE),
    };
    let header = match Header::decode(request) {
        Ok(header) => header,
        Err(bad) => return refused(Refusal::Header, bad.place),
    };
    let runner = Runner {
        editor: Editor::new(geometry, store, pool),
        verifier,
        reply: Reply::new(reply),
        current: None,
        saved: None,
    };
    runner.run(header)
}

/// Refusals 1 to 5, in this order.
fn admit(
    server: Fast,
    geometry: &Geometry,
    store: &Store,
    verifier: &[u8],
    request: &[u8],
    reply: &[u8],
) -> Result<Pool, Refusal> {
    second::check_shape(geometry, store)?;
    if verifier.len() != VERIFIER_LENGTH {
        return Err(Refusal::Length);
    }
    let pool = judge::sound(server, geometry, store)?;
    if request.len() > REQUEST_MAX {
        return Err(Refusal::RequestTooLong);
    }
    if reply.len() < REPLY_MIN {
        return Err(Refusal::ReplyTooShort);
    }
    Ok(pool)
}

struct Runner<'a> {
    editor: Editor<'a>,
    verifier: &'a [u8],
    reply: Reply<'a>,
    current: Option<usize>,
    saved: Option<usize>,
}

impl Runner<'_> {
    fn run(mut self, header: Header) -> Served {
        let mut reader = header.rest;
        let mut served = Served {
            number: 0,
            read: reader.at() as u64,
            written: 0,
            place: NOWHERE as u64,
        };
        let (mut status, operations) = match header.operations {
            _ if header.minor_version != MINOR_VERSION => (Status::MinorVersMismatch, 0),
            operations if operations > OPERATIONS_MAX => (Status::TooManyOps, 0),
            operations => (Status::Ok, operations),
        };
        self.reply.u32(0);
        self.reply.opaque(header.tag);
        let results = self.reply.at();
        self.reply.u32(0);
        for result in 1..=operations {
            self.reply.set(results, result);
            status = self.result(&mut reader, &mut served);
            if status != Status::Ok {
                break;
            }
        }
        self.reply.set(0, status.number());
        served.written = self.reply.at() as u64;
        served
    }

    /// Runs the next operation and writes its result.
    fn result(&mut self, reader: &mut Reader, served: &mut Served) -> Status {
        match decode(reader) {
            Ok((number, operation)) => {
                served.read = reader.at() as u64;
                self.reply.u32(number);
                let place = self.reply.at();
                self.reply.u32(0);
                let answer = self.operation(&operation);
                let status = answer.err().unwrap_or(Status::Ok);
                self.reply.set(place, status.number());
                status
            }
            Err(Undecoded { number, why }) => {
                let status = match why {
                    Why::Status(status) => status,
                    Why::Bytes(bad) => {
                        served.place = bad.place as u64;
                        Status::BadXdr
                    }
                };
                self.reply.u32(number);
                self.reply.u32(status.number());
                status
            }
        }
    }

    /// Writes the body of an operation's OK; nothing where it fails, and then nothing has changed.
    fn operation(&mut self, operation: &Operation) -> Result<(), Status> {
        match operation {
            Operation::GetAttr { asked } => self.getattr(asked)?,
            Operation::GetFh => self.getfh()?,
            Operation::PutFh { handle } => self.current = Some(self.file_named(handle)?),
            Operation::SaveFh => self.saved = Some(self.current()?),
            Operation::RestoreFh => self.current = Some(self.saved()?),
            Operation::Read(wanted) => self.read(wanted, |view, region, reply| {
                view.put_bytes(region, reply);
            })?,
            Operation::ReadPlus(wanted) => self.read(wanted, |view, region, reply| {
                view.put_pieces(region, reply);
            })?,
            Operation::Seek {
                stateid,
                offset,
                what,
            } => self.seek(stateid, *offset, *what)?,
            Operation::Write {
                stateid,
                offset,
                data,
            } => self.write(stateid, *offset, data)?,
            Operation::Allocate(wanted) => self.allocate(wanted)?,
            Operation::Deallocate(wanted) => self.deallocate(wanted)?,
            Operation::Copy(wanted) => self.copy(wanted)?,
            Operation::Clone(wanted) => self.clone_slots(wanted)?,
        }
        Ok(())
    }

    fn current(&self) -> Result<usize, Status> {
        self.current.ok_or(Status::NoFileHandle)
    }

    fn saved(&self) -> Result<usize, Status> {
        self.saved.ok_or(Status::NoFileHandle)
    }

    fn file_named(&self, handle: &[u8]) -> Result<usize, Status> {
        let handle = handle.try_into().map_err(|_| Status::BadHandle)?;
        let file = u32::from_be_bytes(handle);
        match u64::from(file) < self.editor.geometry.files {
            true => Ok(file as usize),
            false => Err(Status::Stale),
        }
    }

    fn getfh(&mut self) -> Result<(), Status> {
        let file = self.current()? as u32;
        self.reply.opaque(&file.to_be_bytes());
        Ok(())
    }

    fn getattr(&mut self, asked: &[u32]) -> Result<(), Status> {
        let file = self.current()?;
        let Editor {
            geometry,
            store,
            pool,
            ..
        } = &mut self.editor;
        let mut gauge = Gauge {
            block_size: geometry.block_size,
            size: store.sizes[file],
            words: &store.words[geometry.words_of(file)],
            pool,
        };
        gauge.answer(asked, &mut self.reply);
        Ok(())
    }

    fn view(&self, file: usize) -> View<'_> {
        View::new(self.editor.geometry, self.editor.store, file)
    }

    /// READ and READ_PLUS, which put the same bytes in two forms.
    fn read(
        &mut self,
        wanted: &Count,
        put: impl Fn(&View, &Range<u64>, &mut Reply),
    ) -> Result<(), Status> {
        let file = self.current()?;
        may_read(&wanted.stateid)?;
        let view = View::new(self.editor.geometry, self.editor.store, file);
        let granted = wanted.count.min(GRANT_MAX);
        // No size is near 2^64, so a sum that stops there ends past it all the same.
        let end = wanted.offset.saturating_add(granted.into());
        self.reply.boolean(end >= view.size);
        put(&view, &view.cut(wanted.offset..end), &mut self.reply);
        Ok(())
    }

    fn seek(&mut self, stateid: &Stateid, offset: u64, what: u32) -> Result<(), Status> {
        let view = self.view(self.current()?);
        may_read(stateid)?;
        let kind = match what {
            0 => Kind::Data,
            1 => Kind::Hole,
            _ => return Err(Status::UnionNotSupp),
        };
        if offset > view.size {
            return Err(Status::Nxio);
        }
        let (place, size) = (view.seek(offset, kind), view.size);
        self.reply.boolean(place == size);
        self.reply.u64(place);
        Ok(())
    }

    fn write(&mut self, stateid: &Stateid, offset: u64, data: &[u8]) -> Result<(), Status> {
        let file = self.current()?;
        may_write(stateid)?;
        let region = region(offset, data.len() as u64)?;
        if !data.is_empty() {
            self.fits(&region)?;
            self.editor.write(file, &region, data)?;
        }
        self.reply.u32(data.len() as u32);
        self.reply.u32(FILE_SYNC);
        self.reply.raw(self.verifier);
        Ok(())
    }

    fn allocate(&mut self, wanted: &Length) -> Result<(), Status> {
        let (file, region) = self.wanted_region(wanted)?;
        self.fits(&region)?;
        self.editor.allocate(file, &region)
    }

    fn deallocate(&mut self, wanted: &Length) -> Result<(), Status> {
        let (file, region) = self.wanted_region(wanted)?;
        self.editor.deallocate(file, &region)
    }

    fn copy(&mut self, wanted: &Transfer) -> Result<(), Status> {
        let way = self.way(wanted)?;
        if way.source_file == way.target_file {
            return Err(Status::Inval);
        }
        if !way.target.is_empty() {
            self.fits(&way.target)?;
            self.editor.copy(&way)?;
        }
        self.reply.u32(0); // no callback id
        self.reply.u64(way.source.end - way.source.start);
        self.reply.u32(FILE_SYNC);
        self.reply.raw(self.verifier);
        self.reply.boolean(true); // consecutive
        self.reply.boolean(true); // synchronous
        Ok(())
    }

    fn clone_slots(&mut self, wanted: &Transfer) -> Result<(), Status> {
        let way = self.way(wanted)?;
        if way.overlaps() || !way.is_aligned(self.editor.geometry.block_size) {
            return Err(Status::Inval);
        }
        if way.target.is_empty() {
            return Ok(());
        }
        self.fits(&way.target)?;
        self.editor.clone_slots(&way)
    }

    /// The current file and the region of ALLOCATE or DEALLOCATE.
    fn wanted_region(&self, wanted: &Length) -> Result<(usize, Range<u64>), Status> {
        let file = self.current()?;
        may_write(&wanted.stateid)?;
        if wanted.length == 0 {
            return Err(Status::Inval);
        }
        Ok((file, region(wanted.offset, wanted.length)?))
    }

    /// What COPY and CLONE have in common: both handles, both stateids, the source's rules.
    fn way(&self, wanted: &Transfer) -> Result<Way, Status> {
        let (source_file, target_file) = (self.saved()?, self.current()?);
        may_read(&wanted.source_stateid)?;
        may_write(&wanted.target_stateid)?;
        let source_size = self.editor.store.sizes[source_file];
        let to_end = source_size.checked_sub(wanted.source_offset);
        let to_end = to_end.ok_or(Status::Inval)?;
        let count = match wanted.count {
            0 => to_end,
            count if count > to_end => return Err(Status::Inval),
            count => count,
        };
        Ok(Way {
            source_file,
            source_size,
            source: region(wanted.source_offset, count)?,
            target_file,
            target: region(wanted.target_offset, count)?,
        })
    }

    fn fits(&self, region: &Range<u64>) -> Result<(), Status> {
        match region.end <= self.editor.geometry.capacity() {
            true => Ok(()),
            false => Err(Status::FBig),
        }
    }
}

/// A region whose end must be a 64-bit number.
fn region(offset: u64, length: u64) -> Result<Range<u64>, Status> {
    let end = offset.checked_add(length).ok_or(Status::Inval)?;
    Ok(offset..end)
}

fn may_read(stateid: &Stateid) -> Result<(), Status> {
    match *stateid {
        ALL_ZEROS | ALL_ONES => Ok(()),
        _ => Err(Status::BadStateid),
    }
}

fn may_write(stateid: &Stateid) -> Result<(), Status> {
    match *stateid {
        ALL_ZEROS => Ok(()),
        _ => Err(Status::BadStateid),
    }
}
