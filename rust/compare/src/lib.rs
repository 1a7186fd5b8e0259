//! Runs the same lists of calls through two servers, and compares after every call all that can be
//! seen: numbers, counts, the whole reply buffer, sizes, words, every byte of memory; and of slots
//! that are shown the number, the place and the bytes.
//!
//! `generator` makes the calls of a seed, `pair` runs them side by side, `shrink` makes a list with
//! a difference short, `seed` puts these together, `damage` makes requests wrong at every byte, `tally` counts what was met, with `slots`,
//! `attributes` and `copies`, and `program` runs many seeds.
//!
//! `client` compares two clients: what they write, and what they tell of replies.
//!
//! `frames` makes the lines of the programs, and `recording` compares programs that replay them.

mod attributes;
mod client;
mod copies;
mod damage;
mod difference;
mod frames;
mod generator;
mod list;
mod observed;
mod pair;
pub mod program;
mod random;
pub mod recording;
mod seed;
mod server;
mod shrink;
mod slots;
mod tally;
pub mod wire;

pub use client::{try_replies, try_requests, try_served, Answer, Client, ClientTally, Parted};
pub use damage::try_damaged;
pub use difference::Difference;
pub use frames::Frames;
pub use generator::Generator;
pub use list::{Call, Damage, Edit, Lent, List, Page, Request, Step, Table, View};
pub use random::Random;
pub use seed::{differs, try_seed, Found};
#[cfg(feature = "proved")]
pub use server::Proved;
pub use server::{Second, Served, Server, Shown, Surveyed};
pub use tally::Tally;
