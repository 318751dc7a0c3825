//! Linguastel for hosts in Rust: the state record, the 23 calls, the tick, tables of calls, the recording of calls, and the replay of a recording in
//! blocks. Documents 01 and 02 say what each of them does; their words are used here. The folder docs/calls has a page for each call.
//!
//! The library is three archives, which `hosts/library` proves and writes: target/staticlib/liblinguastel.a; target/staticlib/liblinguastel_table.a,
//! which has the function behind [`Record::table`]; and target/staticlib/liblinguastel_replay.a, which has those behind [`Replay`]. This crate links all
//! three; [`library_fits`] says whether they are those that it was written for. With cargo, build.rs finds them there or in the folder that LINGUASTEL_LIB names. Without cargo:
//! `rustc --edition 2021 --crate-type rlib -L native=target/staticlib hosts/rust/src/lib.rs`.
//!
//! The kernel's promise covers a record of any bytes, a call with any numbers and tables of any length, and also a replay of any bytes and a block of
//! any bytes and any length, so every field is public and every function is safe. A `&mut Record` is a whole record that nobody else uses during the
//! call. What stays the host's part: each call gets the record as the call before it left it, and the context is true; the blocks of a replay are the
//! bytes of one recording, all of them, in their order.
#![no_std]
#![deny(missing_docs)]

mod answer;
mod call;
mod calls;
mod display;
mod layout;
mod library;
mod lists;
mod names;
mod record;
mod replay;
mod state;
mod trace;

pub use answer::{Answer, HostAnswer, Looked, Rdtq, Rmbx, Words};
pub use call::{Call, Context};
pub use library::{library_fits, library_layout, VERSION, VERSION_TEXT};
pub use lists::{Numbers, StoredWords};
pub use names::*;
pub use record::*;
pub use replay::{replay_layout, Line, Replay};
pub use state::{task_bit, SysCause};
pub use trace::{trace_table, TRACE_SIZE};
