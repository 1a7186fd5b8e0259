//! Lists of calls, as they are run, shortened and printed.

use std::fmt;

use second::{Geometry, Store};

use crate::wire;

/// Calls, slots to show and damages of the store between them, from an empty store on.
#[derive(Clone, Debug)]
pub struct List {
    pub geometry: Geometry,
    pub steps: Vec<Step>,
}

#[derive(Clone, Debug)]
pub enum Step {
    Serve(Call),
    Show(View),
    Damage(Damage),
}

/// All arguments of one call that serves a compound, but for the store.
#[derive(Clone, Debug)]
pub struct Call {
    pub request: Request,
    pub verifier: Vec<u8>,
    pub reply_length: usize,
    pub lent: Lent,
}

/// All arguments of one call that shows a slot, but for the store.
#[derive(Clone, Debug)]
pub struct View {
    pub file: u64,
    pub slot: u64,
    pub page: Page,
    pub lent: Lent,
}

/// A page of zeros, but for one byte.
#[derive(Clone, Copy, Debug, PartialEq, Eq)]
pub struct Page {
    pub length: usize,
    pub set: Option<(usize, u8)>,
}

/// A request: a header, operations, and changes of the whole's bytes.
#[derive(Clone, Debug)]
pub struct Request {
    pub tag: Vec<u8>,
    pub minor_version: u32,
    /// The operation count, where it isn't the number of operations.
    pub count: Option<u32>,
    pub operations: Vec<Vec<u8>>,
    pub edits: Vec<Edit>,
}

/// A change of a request's bytes; none where the place is past their end.
#[derive(Clone, Copy, Debug)]
pub enum Edit {
    Set { at: usize, byte: u8 },
    Cut { length: usize },
    Extend { length: usize },
}

/// What a call is given in place of the list's geometry and of the tables as they are. Such a call
/// gets a copy of the tables, so that the list goes on as if it had not been.
#[derive(Clone, Debug, Default)]
pub struct Lent {
    pub geometry: Option<Geometry>,
    pub lengths: Vec<(Table, usize)>,
}

#[derive(Clone, Copy, Debug)]
pub enum Table {
    Sizes,
    Words,
    Mem,
}

/// One number or byte of the store, set to another value.
#[derive(Clone, Copy, Debug)]
pub enum Damage {
    Size { file: usize, value: u64 },
    Word { index: usize, value: u32 },
    Byte { index: usize, value: u8 },
}

impl Request {
    pub fn of(operations: Vec<Vec<u8>>) -> Request {
        Request {
            tag: Vec::new(),
            minor_version: 2,
            count: None,
            operations,
            edits: Vec::new(),
        }
    }

    pub fn bytes(&self) -> Vec<u8> {
        let count = self.count.unwrap_or(self.operations.len() as u32);
        let mut bytes = [
            wire::opaque(&self.tag),
            wire::int(self.minor_version),
            wire::int(count),
            self.operations.concat(),
        ]
        .concat();
        self.edits.iter().for_each(|edit| edit.apply(&mut bytes));
        bytes
    }
}

impl Page {
    pub fn zeros(length: usize) -> Page {
        Page { length, set: None }
    }

    /// The page's bytes; none is set where the place is past their end.
    pub fn bytes(&self) -> Vec<u8> {
        let mut bytes = vec![0; self.length];
        if let Some((at, byte)) = self.set {
            Edit::Set { at, byte }.apply(&mut bytes);
        }
        bytes
    }
}

impl Edit {
    fn apply(self, bytes: &mut Vec<u8>) {
        match self {
            Edit::Set { at, byte } => {
                if let Some(place) = bytes.get_mut(at) {
                    *place = byte;
                }
            }
            Edit::Cut { length } => bytes.truncate(length),
            Edit::Extend { length } => bytes.resize(length.max(bytes.len()), 0),
        }
    }
}

impl Lent {
    /// Whether the call takes the geometry and tables as they are.
    pub fn is_usual(&self) -> bool {
        self.geometry.is_none() && self.lengths.is_empty()
    }

    /// The tables in the lengths of the call.
    pub fn tables(&self, store: &Store) -> Store {
        let mut store = store.clone();
        for &(table, length) in &self.lengths {
            match table {
                Table::Sizes => store.sizes.resize(length, 0),
                Table::Words => store.words.resize(length, 0),
                Table::Mem => store.mem.resize(length, 0),
            }
        }
        store
    }
}

impl Damage {
    pub fn apply(self, store: &mut Store) {
        match self {
            Damage::Size { file, value } => store.sizes[file] = value,
            Damage::Word { index, value } => store.words[index] = value,
            Damage::Byte { index, value } => store.mem[index] = value,
        }
    }
}

impl fmt::Display for List {
    fn fmt(&self, f: &mut fmt::Formatter) -> fmt::Result {
        writeln!(f, "geometry {}", Numbers(&self.geometry))?;
        for (index, step) in self.steps.iter().enumerate() {
            match step {
                Step::Serve(call) => write!(f, "{}. {call}", index + 1)?,
                Step::Show(view) => write!(f, "{}. {view}", index + 1)?,
                Step::Damage(damage) => writeln!(f, "{}. store: {damage:?}", index + 1)?,
            }
        }
        Ok(())
    }
}

struct Numbers<'a>(&'a Geometry);

impl fmt::Display for Numbers<'_> {
    fn fmt(&self, f: &mut fmt::Formatter) -> fmt::Result {
        let Geometry {
            files,
            slots,
            blocks,
            block_size,
        } = self.0;
        write!(f, "F {files}, S {slots}, N {blocks}, B {block_size}")
    }
}

impl fmt::Display for Call {
    fn fmt(&self, f: &mut fmt::Formatter) -> fmt::Result {
        let request = &self.request;
        write!(f, "call: tag of {} bytes", request.tag.len())?;
        write!(f, ", minor version {}", request.minor_version)?;
        if let Some(count) = request.count {
            write!(f, ", operation count {count}")?;
        }
        write!(f, ", verifier {}", Words(&self.verifier))?;
        writeln!(f, ", reply buffer of {}", self.reply_length)?;
        write!(f, "{}", self.lent)?;
        for operation in &request.operations {
            writeln!(f, "   {:<10} {}", title(operation), Words(operation))?;
        }
        for edit in &request.edits {
            writeln!(f, "   then {edit:?}")?;
        }
        Ok(())
    }
}

impl fmt::Display for View {
    fn fmt(&self, f: &mut fmt::Formatter) -> fmt::Result {
        let View { file, slot, .. } = self;
        write!(f, "show slot {slot} of file {file}")?;
        write!(f, ", page of {}", self.page.length)?;
        if let Some((at, byte)) = self.page.set {
            write!(f, " with {byte} at {at}")?;
        }
        writeln!(f)?;
        write!(f, "{}", self.lent)
    }
}

impl fmt::Display for Lent {
    fn fmt(&self, f: &mut fmt::Formatter) -> fmt::Result {
        if let Some(geometry) = &self.geometry {
            writeln!(f, "   with geometry {}", Numbers(geometry))?;
        }
        for (table, length) in &self.lengths {
            writeln!(f, "   with length {length} of {table:?}")?;
        }
        Ok(())
    }
}

fn title(operation: &[u8]) -> &'static str {
    let number = operation
        .first_chunk()
        .map(|bytes| u32::from_be_bytes(*bytes));
    number.and_then(wire::name).unwrap_or("?")
}

/// Bytes as hexadecimal words, a word that repeats shown once with its number of times.
pub struct Words<'a>(pub &'a [u8]);

impl fmt::Display for Words<'_> {
    fn fmt(&self, f: &mut fmt::Formatter) -> fmt::Result {
        let words: Vec<&[u8]> = self.0.chunks(4).collect();
        for (index, run) in words.chunk_by(|a, b| a == b).enumerate() {
            if index > 0 {
                f.write_str(" ")?;
            }
            if run.len() > 1 {
                write!(f, "{}*", run.len())?;
            }
            run[0].iter().try_for_each(|byte| write!(f, "{byte:02x}"))?;
        }
        Ok(())
    }
}
