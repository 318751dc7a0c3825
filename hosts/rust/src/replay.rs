//! The replay of a recording in blocks (document 02, item 5).
use core::fmt;
use core::mem::{align_of, size_of};

use crate::library::VERSION;
use crate::trace::TRACE_SIZE;
use crate::Record;

// An archive of its own: a second caller of the step in one archive would make both dearer.
#[link(name = "linguastel_replay", kind = "static")]
extern "C" {
    fn linguastel_replay_version() -> u32;
    fn linguastel_replay_size() -> usize;
    fn linguastel_replay_align() -> usize;
    fn linguastel_unguarded_replay_empty(replay: &mut Replay);
    fn linguastel_unguarded_replay_feed(replay: &mut Replay, block: *const u8, size: usize) -> i32;
    fn linguastel_unguarded_replay_end(replay: &Replay) -> Line;
}

/// What the replay of a recording keeps between two blocks. A host may read it there. What it writes is taken as it is, if the kernel's state is then
/// sound, `length` is at most 31, `differ` and `first` are at most `records`, and both of these are 0 or none is; else feed and end answer E_SYS.
/// docs/calls/replay.md#replay
///
/// Every byte belongs to a field, so that replays can be compared as bytes.
///
/// A clone is for looking at and comparing with. It must not be fed in turn with the replay: the blocks of a recording go to one replay, all of them,
/// in their order.
#[repr(C)]
#[derive(Clone, PartialEq, Eq, Debug)]
pub struct Replay {
    /// The whole records so far.
    pub records: u64,
    /// So many of them differ.
    pub differ: u64,
    /// The first of these, counted from 1; 0 where there is none.
    pub first: u64,
    /// So many bytes follow the last whole record: 0 to 31.
    pub length: u64,
    /// The kernel's state after the whole records.
    pub kernel: Record,
    /// Its first `length` bytes are those that follow; the others say nothing.
    pub part: [u8; TRACE_SIZE],
}

/// The line of a recording: the numbers that the program replay prints, and the code. Displayed it is that line, without the code.
#[must_use]
#[repr(C)]
#[derive(Clone, Copy, PartialEq, Eq, Debug)]
pub struct Line {
    /// The whole records.
    pub records: u64,
    /// So many of them differ.
    pub differ: u64,
    /// The first of these, counted from 1; 0 where there is none.
    pub first: u64,
    /// The bytes after the last whole record.
    pub tail: u64,
    /// E_OK, or E_SYS with four zeros.
    pub code: i32,
    /// Always 0.
    pub spare: u32,
}

impl fmt::Display for Line {
    fn fmt(&self, f: &mut fmt::Formatter) -> fmt::Result {
        let Line { records, differ, first, tail, .. } = self;
        write!(f, "records {records} differ {differ} first {first} tail {tail}")
    }
}

/// The replay's size and alignment as the library has them.
#[must_use]
pub fn replay_layout() -> (usize, usize) {
    // SAFETY: both take nothing and return a constant.
    unsafe { (linguastel_replay_size(), linguastel_replay_align()) }
}

/// Whether the archive of replays is the one that this crate was written for.
pub(crate) fn replay_library_fits() -> bool {
    // SAFETY: it takes nothing and returns a constant.
    let version = unsafe { linguastel_replay_version() };
    version == VERSION && replay_layout() == (size_of::<Replay>(), align_of::<Replay>())
}

impl Replay {
    /// A new replay: the kernel's state is the empty one, at counter 0, and nothing is counted. All bytes are 0.
    pub const EMPTY: Replay = Replay { records: 0, differ: 0, first: 0, length: 0, kernel: Record::EMPTY, part: [0; TRACE_SIZE] };

    /// The same, as the library writes it.
    #[must_use]
    pub fn empty() -> Replay {
        let mut replay = Replay::EMPTY;
        // SAFETY: the reference is to a whole replay of the layout that the library has, and to nothing else; the function writes that replay alone.
        unsafe { linguastel_unguarded_replay_empty(&mut replay) };
        replay
    }

    /// The next block of the recording, of any length, also of no bytes. E_OK: its bytes follow those before them, and the whole records are replayed.
    /// However the recording is cut into blocks, numbers and kernel state come to those of the whole recording. docs/calls/replay.md#replay
    ///
    /// E_SYS: the kernel's state isn't sound, `length` is above 31, `differ` or `first` is above `records`, or only one of these two is 0. Then E_PAR:
    /// the block would take `records` past 64 bits. Either way nothing is done, and nothing is written into the replay.
    #[must_use]
    pub fn feed(&mut self, block: &[u8]) -> i32 {
        // SAFETY: the reference is to a whole replay of the layout that the library has. The pointer is that of a whole block, handed over with its
        // length; it isn't null even where the slice holds nothing. The replay is borrowed mutably, so nothing overlaps. The function writes the replay
        // alone. Any bytes and any length will do.
        unsafe { linguastel_unguarded_replay_feed(self, block.as_ptr(), block.len()) }
    }

    /// The line of the bytes so far, with E_OK; or E_SYS as for feed, with four zeros. It only reads the replay, so it may be asked between blocks, and
    /// more blocks may follow. docs/calls/replay.md#replay
    pub fn end(&self) -> Line {
        // SAFETY: the reference is to a whole replay of the layout that the library has, which the function only reads. Any bytes will do.
        unsafe { linguastel_unguarded_replay_end(self) }
    }
}
