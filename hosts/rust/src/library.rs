//! The library's functions for calls and tables of calls, and whether it is the library that this crate was written for.
use core::mem::{align_of, size_of};
use core::ptr::from_ref;

use crate::names::{number, E_SYS};
use crate::replay::replay_library_fits;
use crate::{Answer, Call, HostAnswer, Record};

#[link(name = "linguastel", kind = "static")]
extern "C" {
    fn linguastel_version() -> u32;
    fn linguastel_record_size() -> usize;
    fn linguastel_record_align() -> usize;
    fn linguastel_unguarded_empty(record: &mut Record);
    fn linguastel_unguarded_call(record: *mut Record, call: Call) -> HostAnswer;
    fn linguastel_unguarded_task_sets(record: &Record) -> TaskSets;
}

/// Two sets of tasks: bit n - 1 stands for task n.
#[repr(C)]
pub(crate) struct TaskSets {
    pub(crate) waiting: u32,
    /// Defined, not waiting, not suspended.
    pub(crate) runnable: u32,
}

// An archive of its own: a second caller of the step in one archive would make both dearer.
#[link(name = "linguastel_table", kind = "static")]
extern "C" {
    fn linguastel_table_version() -> u32;
    fn linguastel_unguarded_table(record: &mut Record, calls: *const Call, call_count: usize, answers: *mut HostAnswer, answer_count: usize) -> i32;
}

// ── Versions ──

/// The version that this crate was written for, 0.15.0, as 10000 * major + 100 * minor + patch. The minor number goes up when the layout of a record or
/// the meaning of a function changes, the patch number when neither does.
pub const VERSION: u32 = 1500;

/// The same as text.
pub const VERSION_TEXT: &str = "0.15.0";

/// Whether all three archives are those that this crate was written for: their versions, and the sizes and alignments of a record and a replay. A host
/// asks once, at start-up.
#[must_use]
pub fn library_fits() -> bool {
    // SAFETY: both take nothing and return a constant.
    let versions = unsafe { [linguastel_version(), linguastel_table_version()] };
    versions == [VERSION; 2] && library_layout() == (size_of::<Record>(), align_of::<Record>()) && replay_library_fits()
}

/// The record's size and alignment as the library has them.
#[must_use]
pub fn library_layout() -> (usize, usize) {
    // SAFETY: both take nothing and return a constant.
    unsafe { (linguastel_record_size(), linguastel_record_align()) }
}

// ── Calls and tables of calls ──

impl Record {
    /// The record in which nothing is defined, at counter 0, as the library writes it: [`Record::EMPTY`].
    #[must_use]
    pub fn empty() -> Record {
        let mut record = Record::EMPTY;
        // SAFETY: the reference is to a whole record of the layout that the library has, and to nothing else; the function writes that record alone.
        unsafe { linguastel_unguarded_empty(&mut record) };
        record
    }

    /// look of a task by caller 0, on a record that is only read.
    pub(crate) fn seen(&self, task: u32) -> Answer {
        let look = Call { number: number::LOOK, object: task, ..Call::default() };
        // SAFETY: the pointer is to a whole record of the layout that the library has. Of look the function reads that record and writes nothing (the
        // theorem `sound_by_call`). Any bytes will do.
        unsafe { linguastel_unguarded_call(from_ref(self).cast_mut(), look) }.read()
    }

    /// Whether the record is sound, whatever its bytes are: look, by caller 0 of task 0, is refused with E_SYS exactly where it isn't.
    #[must_use]
    pub fn is_sound(&self) -> bool {
        self.seen(0) != Answer::Error(E_SYS)
    }

    /// Which tasks wait, and which can run.
    pub(crate) fn task_sets(&self) -> TaskSets {
        // SAFETY: the reference is to a whole record of the layout that the library has; the function reads that record and writes nothing. Any bytes will
        // do.
        unsafe { linguastel_unguarded_task_sets(self) }
    }

    /// One call; number 0 is the tick. A refused call writes nothing into the record, and neither do look, ref_dtq, ref_mbx and fetch.
    #[inline]
    pub fn call(&mut self, call: Call) -> Answer {
        self.host_call(call).read()
    }

    /// The same with the answer in numbers, as [`Call::trace`] takes it.
    #[inline]
    pub fn host_call(&mut self, call: Call) -> HostAnswer {
        // SAFETY: the reference is to a whole record of the layout that the library has, and to nothing else; the function writes that record alone. Any
        // bytes and any call will do.
        unsafe { linguastel_unguarded_call(self, call) }
    }

    /// A table of calls in one go. E_OK: the calls were made first to last, and the answer to `calls[i]` is in `answers[i]`. Answers and record are
    /// those of the calls made singly; a refused call doesn't stop the rest. Number 0 is no tick here: like an unknown number it gets E_PAR with zero
    /// words in its cell. Answer cells past the last call keep their contents. A table without calls gives E_OK too. docs/calls/table.md#table
    ///
    /// E_SYS: the record isn't sound. Then E_PAR: more than `TABLE` calls, or fewer answer cells than calls. Either way nothing is done: the record
    /// and every answer cell keep every byte.
    #[inline]
    #[must_use]
    pub fn table(&mut self, calls: &[Call], answers: &mut [HostAnswer]) -> i32 {
        // SAFETY: the reference is to a whole record of the layout that the library has. The pointers are those of whole tables, handed over with their
        // lengths; the pointer of a slice is aligned and not null even where it holds nothing. Record and answers are borrowed mutably, so nothing
        // overlaps. The function writes the record and the answers alone. Any bytes, any calls and any lengths will do.
        unsafe { linguastel_unguarded_table(self, calls.as_ptr(), calls.len(), answers.as_mut_ptr(), answers.len()) }
    }
}
