//! Which registers and which memory an x86-64 instruction touched, in order.
//!
//! A safe wrapper of the proved library `machhurel`. Any bytes at any length get an answer; nothing panics on input. The library is
//! linked from target/native of the repository, or from the folder that the variable `MACHHUREL_LIB_DIR` names. The core needs no
//! standard library: the feature `std`, on by default, adds the trace reader. Rust 1.63 is enough.
//!
//! ```
//! use machhurel::*;
//!
//! // mov [rbx + 8], rax
//! let record = Record::builder(40)
//!     .operand(Spec::Disp, Access::Write)
//!     .operand(Spec::RegRRR, Access::Read)
//!     .rrr(Register::quad(0))
//!     .base(Register::quad(3))
//!     .memory_size(8)
//!     .displacement(8)
//!     .build()?;
//! let file = RegisterFile::new().with(Known::Rbx, 0x1000);
//!
//! let mut log = [0u8; LOG_BYTES];
//! let n = visit(&record, &file, &mut log, 0)?;
//! let events: Result<Vec<Event>, _> = Events::new(&log[..n]).collect();
//! assert_eq!(events?[1].to_string(), "write [0x0000000000001008] 8 bytes");
//! # Ok::<(), Refusal>(())
//! ```
#![no_std]
#![warn(missing_docs)]

#[cfg(feature = "std")]
extern crate std;

mod access;
mod block;
mod calls;
mod difference;
pub mod digits;
mod event;
mod fetch;
pub mod ffi;
mod file;
mod item;
mod listing;
mod opcode;
#[cfg(feature = "std")]
mod reader;
mod record;
mod refusal;
mod register;
mod session;
mod sheet;
mod spec;
mod stream;
mod watch;

pub use access::Access;
pub use block::{visit_block, Answers, Block, ANSWER_BYTES, BLOCK_RECORDS};
pub use calls::{
    digest, exceptions, listing, privilege, visit, Digest, Exceptions, PrivilegeLevel,
};
pub use difference::{difference, Difference};
pub use event::{Event, Events};
pub use fetch::{fetch_judge, fetch_propose, Judgement, RegisterSet, SET_BITS};
pub use file::{check_file, known, Known, RegisterFile};
pub use item::{Broken, Class, Item, Items, KINDS};
pub use listing::{Listed, Listing, Operand};
pub use opcode::opcode_name;
#[cfg(feature = "std")]
pub use reader::{TraceError, TraceReader};
pub use record::{Record, RecordBuilder, Segment};
pub use refusal::{Refusal, RefusedRecord};
pub use register::{bank_name, Register, BANK_COUNT};
pub use session::Session;
pub use sheet::{Sheet, SHEET_LOGS, SHEET_LOG_BYTES};
pub use spec::Spec;
pub use stream::{End, Handed, Reader, Told};
pub use watch::{verdict, Named, Names, Step, Tally, Verdict, Watch, WATCH_PAIRS};

/// The bytes of a record of kind 0x10.
pub const RECORD_BYTES: usize = 40;
/// The bytes of a record of kind 0x11, which names a segment.
pub const SEGMENT_RECORD_BYTES: usize = RECORD_BYTES + 1;
/// The bytes of a record of kind 0x12, which brings no digest.
pub const EVERYDAY_RECORD_BYTES: usize = 36;
/// The bytes of a register file of kind 0x20.
pub const FILE_BYTES: usize = 141;
/// The bytes of a register file of kind 0x21, which has the bases of fs and gs.
pub const BASED_FILE_BYTES: usize = FILE_BYTES + 16;
/// No log is longer: with so much room behind the start no visit is refused for room.
pub const LOG_BYTES: usize = 201;
/// No log has more events.
pub const LOG_EVENTS: usize = 46;
/// No listing is longer.
pub const LISTING_BYTES: usize = 34;
