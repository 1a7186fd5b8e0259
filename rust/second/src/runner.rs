//! The operations, run one after the other on a current and a saved file.

use std::ops::Range;

use crate::attributes::Gauge;
use crate::edit::Draft;
use crate::geometry::Geometry;
use crate::operation::{Count, Length, Operation, Stateid, Transfer};
use crate::reading::View;
use crate::status::Status;
use crate::store::{Kind, Store};
use crate::xdr::Writer;

const GRANT_MAX: u32 = 2048;
const FILE_SYNC: u32 = 2;

const ALL_ZEROS: Stateid = [0; 16];
const ALL_ONES: Stateid = [255; 16];

const DATA: u32 = 0;
const HOLE: u32 = 1;

pub(crate) struct Runner<'a> {
    geometry: &'a Geometry,
    store: &'a mut Store,
    verifier: &'a [u8],
    current: Option<usize>,
    saved: Option<usize>,
}

impl<'a> Runner<'a> {
    pub fn new(geometry: &'a Geometry, store: &'a mut Store, verifier: &'a [u8]) -> Runner<'a> {
        Runner {
            geometry,
            store,
            verifier,
            current: None,
            saved: None,
        }
    }

    /// The body of an operation's OK, or its error; then nothing has changed.
    pub fn run(&mut self, operation: Operation) -> Result<Vec<u8>, Status> {
        let mut body = Writer::default();
        match operation {
            Operation::GetAttr { asked } => self.getattr(&asked, &mut body)?,
            Operation::GetFh => body.opaque(&(self.current()? as u32).to_be_bytes()),
            Operation::PutFh { handle } => self.current = Some(self.file_named(handle)?),
            Operation::SaveFh => self.saved = Some(self.current()?),
            Operation::RestoreFh => self.current = Some(self.saved()?),
            Operation::Read(wanted) => self.read(wanted, &mut body)?,
            Operation::ReadPlus(wanted) => self.read_plus(wanted, &mut body)?,
            Operation::Seek {
                stateid,
                offset,
                what,
            } => self.seek(stateid, offset, what, &mut body)?,
            Operation::Write {
                stateid,
                offset,
                data,
            } => self.write(stateid, offset, data, &mut body)?,
            Operation::Allocate(wanted) => self.allocate(wanted)?,
            Operation::Deallocate(wanted) => self.deallocate(wanted)?,
            Operation::Copy(wanted) => self.copy(wanted, &mut body)?,
            Operation::Clone(wanted) => self.clone_range(wanted)?,
        }
        Ok(body.into_bytes())
    }

    fn current(&self) -> Result<usize, Status> {
        self.current.ok_or(Status::NoFileHandle)
    }

    fn saved(&self) -> Result<usize, Status> {
        self.saved.ok_or(Status::NoFileHandle)
    }

    fn file_named(&self, handle: &[u8]) -> Result<usize, Status> {
        let handle = handle.try_into().map_err(|_| Status::BadHandle)?;
        let file = u32::from_be_bytes(handle);
        if u64::from(file) >= self.geometry.files {
            return Err(Status::Stale);
        }
        Ok(file as usize)
    }

    fn getattr(&self, asked: &[u32], body: &mut Writer) -> Result<(), Status> {
        let gauge = Gauge {
            geometry: self.geometry,
            store: self.store,
            file: self.current()?,
        };
        gauge.answer(asked, body);
        Ok(())
    }

    fn view(&self, file: usize) -> View<'_> {
        View::new(self.geometry, self.store, file)
    }

    /// The current file and the bytes that READ or READ_PLUS answers with, and whether they reach
    /// the end.
    fn granted(&self, wanted: Count) -> Result<(View<'_>, Range<u64>, bool), Status> {
        let view = self.view(self.current()?);
        may_read(wanted.stateid)?;
        let granted = wanted.count.min(GRANT_MAX);
        // No size is near 2^64, so a sum that stops there ends past it all the same.
        let end = wanted.offset.saturating_add(granted.into());
        let eof = end >= view.size;
        let region = view.cut(wanted.offset..end);
        Ok((view, region, eof))
    }

    fn read(&self, wanted: Count, body: &mut Writer) -> Result<(), Status> {
        let (view, region, eof) = self.granted(wanted)?;
        body.boolean(eof);
        body.opaque(&view.bytes(region));
        Ok(())
    }

    fn read_plus(&self, wanted: Count, body: &mut Writer) -> Result<(), Status> {
        let (view, region, eof) = self.granted(wanted)?;
        let pieces = view.pieces(region);
        body.boolean(eof);
        body.u32(pieces.len() as u32);
        for piece in pieces {
            match piece.kind {
                Kind::Data => {
                    body.u32(DATA);
                    body.u64(piece.region.start);
                    body.opaque(&view.bytes(piece.region));
                }
                Kind::Hole => {
                    body.u32(HOLE);
                    body.u64(piece.region.start);
                    body.u64(piece.region.end - piece.region.start);
                }
            }
        }
        Ok(())
    }

    fn seek(
        &self,
        stateid: Stateid,
        offset: u64,
        what: u32,
        body: &mut Writer,
    ) -> Result<(), Status> {
        let view = self.view(self.current()?);
        may_read(stateid)?;
        let kind = match what {
            DATA => Kind::Data,
            HOLE => Kind::Hole,
            _ => return Err(Status::UnionNotSupp),
        };
        if offset > view.size {
            return Err(Status::Nxio);
        }
        let place = view.seek(offset, kind);
        body.boolean(place == view.size);
        body.u64(place);
        Ok(())
    }

    fn write(
        &mut self,
        stateid: Stateid,
        offset: u64,
        data: &[u8],
        body: &mut Writer,
    ) -> Result<(), Status> {
        let file = self.current()?;
        may_write(stateid)?;
        let count = data.len() as u32;
        let region = region(offset, count.into())?;
        self.write_bytes(file, region, data)?;
        body.u32(count);
        body.u32(FILE_SYNC);
        body.raw(self.verifier);
        Ok(())
    }

    fn allocate(&mut self, wanted: Length) -> Result<(), Status> {
        let (file, region) = self.wanted_region(wanted)?;
        self.fits(&region)?;
        self.edit(file, |draft| draft.allocate(region))
    }

    fn deallocate(&mut self, wanted: Length) -> Result<(), Status> {
        let (file, region) = self.wanted_region(wanted)?;
        self.edit(file, |draft| draft.deallocate(region))
    }

    fn copy(&mut self, wanted: Transfer, body: &mut Writer) -> Result<(), Status> {
        let way = self.way(wanted)?;
        if way.source_file == way.target_file {
            return Err(Status::Inval);
        }
        let count = way.source.end - way.source.start;
        self.copy_bytes(way)?;
        body.u32(0); // no callback id
        body.u64(count);
        body.u32(FILE_SYNC);
        body.raw(self.verifier);
        body.boolean(true); // consecutive
        body.boolean(true); // synchronous
        Ok(())
    }

    fn clone_range(&mut self, wanted: Transfer) -> Result<(), Status> {
        let way = self.way(wanted)?;
        if way.overlaps() || !way.is_aligned(self.geometry.block_size) {
            return Err(Status::Inval);
        }
        if way.target.is_empty() {
            return Ok(());
        }
        self.fits(&way.target)?;
        self.edit(way.target_file, |draft| {
            draft.clone_blocks(way.source_file, way.source.start, way.target);
        })
    }

    /// The current file and the region of ALLOCATE or DEALLOCATE.
    fn wanted_region(&self, wanted: Length) -> Result<(usize, Range<u64>), Status> {
        let file = self.current()?;
        may_write(wanted.stateid)?;
        if wanted.length == 0 {
            return Err(Status::Inval);
        }
        Ok((file, region(wanted.offset, wanted.length)?))
    }

    /// What COPY and CLONE have in common: both handles, both stateids, the source's rules.
    fn way(&self, wanted: Transfer) -> Result<Way, Status> {
        let (source_file, target_file) = (self.saved()?, self.current()?);
        may_read(wanted.source_stateid)?;
        may_write(wanted.target_stateid)?;
        let source_size = self.store.sizes[source_file];
        let to_end = source_size
            .checked_sub(wanted.source_offset)
            .ok_or(Status::Inval)?;
        let count = match wanted.count {
            0 => to_end,
            count if count > to_end => return Err(Status::Inval),
            count => count,
        };
        Ok(Way {
            source_file,
            source_size,
            source: region(wanted.source_offset, count)?,
            target_file,
            target: region(wanted.target_offset, count)?,
        })
    }

    /// WRITE's edit; of no bytes it is none.
    fn write_bytes(&mut self, file: usize, region: Range<u64>, data: &[u8]) -> Result<(), Status> {
        if region.is_empty() {
            return Ok(());
        }
        self.fits(&region)?;
        self.edit(file, |draft| draft.write(region.start, data))
    }

    /// COPY's edit; of no bytes it is none.
    fn copy_bytes(&mut self, way: Way) -> Result<(), Status> {
        if way.target.is_empty() {
            return Ok(());
        }
        self.fits(&way.target)?;
        let source = self.view(way.source_file);
        let data = source.bytes(way.source.clone());
        let holes = source.holes(way.source.clone());
        let holes: Vec<_> = holes.map(|hole| way.at_target(hole)).collect();
        self.edit(way.target_file, |draft| {
            draft.copy(way.target.start, &data, &holes);
        })
    }

    fn fits(&self, region: &Range<u64>) -> Result<(), Status> {
        if region.end > self.geometry.capacity() {
            return Err(Status::FBig);
        }
        Ok(())
    }

    fn edit(&mut self, file: usize, change: impl FnOnce(&mut Draft)) -> Result<(), Status> {
        let mut draft = Draft::new(self.geometry, self.store, file);
        change(&mut draft);
        draft.finish()?.commit(self.geometry, self.store);
        Ok(())
    }
}

/// From where to where COPY or CLONE goes.
struct Way {
    source_file: usize,
    source_size: u64,
    source: Range<u64>,
    target_file: usize,
    target: Range<u64>,
}

impl Way {
    /// Where a part of the source goes.
    fn at_target(&self, part: Range<u64>) -> Range<u64> {
        let place = |source: u64| source - self.source.start + self.target.start;
        place(part.start)..place(part.end)
    }

    fn overlaps(&self) -> bool {
        self.source_file == self.target_file
            && self.source.start < self.target.end
            && self.target.start < self.source.end
    }

    fn is_aligned(&self, block_size: u64) -> bool {
        self.source.start.is_multiple_of(block_size)
            && self.target.start.is_multiple_of(block_size)
            && (self.source.end.is_multiple_of(block_size) || self.source.end == self.source_size)
    }
}

/// A region whose end must be a 64-bit number.
fn region(offset: u64, length: u64) -> Result<Range<u64>, Status> {
    let end = offset.checked_add(length).ok_or(Status::Inval)?;
    Ok(offset..end)
}

fn may_read(stateid: Stateid) -> Result<(), Status> {
    match stateid {
        ALL_ZEROS | ALL_ONES => Ok(()),
        _ => Err(Status::BadStateid),
    }
}

fn may_write(stateid: Stateid) -> Result<(), Status> {
    match stateid {
        ALL_ZEROS => Ok(()),
        _ => Err(Status::BadStateid),
    }
}
