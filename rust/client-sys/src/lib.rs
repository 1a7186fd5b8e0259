//! The proved client's half as safe Rust over slices: a COMPOUND written from operations, and the
//! reply to it taken apart.
//!
//! `write_request` takes operations, `Reply` hands out one result at a time. `calls` is what they
//! stand on: the archive's four calls, on numbers. The calls take any arguments, so nothing is
//! checked here.

pub mod calls;
mod reply;
mod request;

pub use reply::{Answered, Body, Piece, Pieces, Reply, Stored};
pub use request::{write_request, Look, Operation, Record, Region, Span, Transfer, Write};

/// A call's refusal: 9, the buffer is too short; 10, the reply isn't one to the request; 11, the
/// request can't be written.
#[derive(Clone, Copy, Debug, PartialEq, Eq)]
pub struct Refused(pub u32);
