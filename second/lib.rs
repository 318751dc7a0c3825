//! A second program for data queues, mailboxes, task states and the tick.
//! It was written from the papers 01-scope.md and, from item 1 on,
//! 02-change-requests.md alone, to be compared with the proved kernel. Of the
//! latter it has items 1, 2, 3 and 5. Every list is a plain `Vec`, in the order
//! of the list.
#![forbid(unsafe_code)]

mod blocks;
mod errors;
mod mailboxes;
mod queues;
mod random;
mod random_blocks;
mod random_states;
mod random_traces;
mod reached;
mod reached_blocks;
mod reached_traces;
mod replay;
mod sound;
mod state;
mod table;
mod tasks;
#[cfg(test)]
mod tests;
#[cfg(test)]
mod tests_blocks;

pub use blocks::*;
pub use errors::*;
pub use random::*;
pub use random_blocks::*;
pub use random_states::*;
pub use random_traces::*;
pub use reached::*;
pub use reached_blocks::*;
pub use reached_traces::*;
pub use replay::*;
pub use state::*;
pub use table::*;
