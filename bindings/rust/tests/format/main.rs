//! docs/FORMAT.md, run: its tables of fields, banks, specs, fix-ups, base digests, lists, events, items and answers, and its worked instruction.
mod answers;
mod banks;
#[path = "../common/mod.rs"]
mod common;
mod document;
mod everyday;
mod fields;
mod fix_ups;
mod items;
mod lists;
mod names;
mod specs;
mod subject;
mod worked;
