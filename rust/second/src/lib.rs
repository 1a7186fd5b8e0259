//! A second program for document 01: the box in plain Rust, written from the text alone.
//!
//! `xdr` reads and writes the wire forms, `operation` decodes the operations, `store` and `edit`
//! hold the rules of the store, `reading` answers READ, READ_PLUS and SEEK, `attributes` GETATTR,
//! `runner` runs the operations, `compound` a whole request, `frames` is the program's line, and
//! `replay` runs a recording of lines again. `client` is the other side: it writes requests and takes
//! replies apart.

mod attributes;
pub mod client;
mod compound;
mod edit;
mod frames;
mod geometry;
mod operation;
mod reading;
mod replay;
mod runner;
mod status;
mod store;
mod xdr;

pub use compound::{
    serve, Header, Served, MINOR_VERSION, NOWHERE, OPERATIONS_MAX, REPLY_MIN, REQUEST_MAX,
    VERIFIER_LENGTH,
};
pub use frames::{line, GEOMETRY, VERIFIER};
pub use geometry::Geometry;
pub use operation::{decode, Count, Length, Operation, Stateid, Transfer, Undecoded, Why};
pub use replay::{replay, Verdict};
pub use status::{Refusal, Status};
pub use store::{check_shape, make_empty, slot, survey, Kind, Shown, Store, Surveyed};
pub use xdr::{BadXdr, Reader};
