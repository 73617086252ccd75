//! What every public call must answer, and the cases to try.
//!
//! `expected` is the entrance: record bytes and file bytes in, the expected answer out. Refusals 1,
//! 2, 3, 5, 6 and 7 are decided by plain code written from document 01 (`refusals`); digests,
//! privilege, exceptions, listings, logs and refusal 4 come from the given Rust (`asked`). `cases`
//! makes the inputs.

pub mod asked;
pub mod cases;
pub mod event;
pub mod everyday;
pub mod expected;
pub mod input;
pub mod record;
pub mod refusals;
pub mod register_file;
pub mod segment;
