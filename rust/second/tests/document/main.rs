//! Document 01, tried from outside: every test goes through the public calls.

mod attributes;
mod bench;
mod both_sides;
mod compounds;
mod copies;
mod edits;
mod frames;
mod places;
mod reading;
mod refusals;
mod statuses;
mod walk;
