//! Worked records through every call. A row says what a call answers: all bits of the number, and all bytes of a buffer or words of
//! a watch or a session, those that stay too. The expected values were worked out by hand.
mod blocks;
#[path = "../common/mod.rs"]
mod common;
mod differences;
mod digests;
mod events;
mod fetches;
mod levels;
mod listings;
mod rows;
mod samples;
mod sessions;
mod visits;
mod watches;
