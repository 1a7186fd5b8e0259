//! Servers in plain Rust that are written for speed.

mod good;

pub use good::Fast::{self, Good, Lean};
