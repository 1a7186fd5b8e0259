//! The client's half: a COMPOUND written from operations, and the reply to it taken apart.

mod reply;
mod request;

pub use reply::{
    next_piece, next_result, open_reply, Body, Kind, Opened, Piece, Reported, Stored, NO_STATUS,
};
pub use request::{write_request, Written};
