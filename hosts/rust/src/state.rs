//! What a scheduler and an error handler ask of a record.
use core::fmt;

use crate::names::{E_SYS, NO_WAIT, TASKS, TSK_NONE};
use crate::{Answer, Record};

/// The bit of a task in [`Record::waiting`] and [`Record::runnable`]: bit n - 1 for task n, none for a number that no task has.
#[must_use]
pub const fn task_bit(task: u32) -> u32 {
    if task != TSK_NONE && task <= TASKS as u32 {
        1 << (task - 1)
    } else {
        0
    }
}

/// Why a call is refused with E_SYS. A pointer that is null or misaligned, which the header in C tells as well, is no `&Record`.
#[derive(Clone, Copy, PartialEq, Eq, Debug)]
pub enum SysCause {
    /// The record isn't sound.
    NotSound,
    /// The caller is above 32, or a task that isn't defined.
    NoCaller,
    /// The caller is a task that waits or is suspended.
    CallerCannotCall,
}

impl fmt::Display for SysCause {
    fn fmt(&self, f: &mut fmt::Formatter) -> fmt::Result {
        f.write_str(match self {
            SysCause::NotSound => "the record isn't sound",
            SysCause::NoCaller => "the caller is no defined task",
            SysCause::CallerCannotCall => "the caller waits or is suspended",
        })
    }
}

impl Record {
    /// Bit n - 1 is set where task n waits, suspended or not. This and [`Record::runnable`] are told by the library, whatever the record is; where it is
    /// sound they say what look says of every task.
    #[must_use]
    pub fn waiting(&self) -> u32 {
        self.task_sets().waiting
    }

    /// Bit n - 1 is set where task n is defined, doesn't wait and isn't suspended: it can call. A scheduler learns from three lines around a call, or a
    /// tick, which tasks can run now and couldn't before:
    ///
    /// ```
    /// # use linguastel::{Context, Record, TA_TFIFO};
    /// # let (mut record, context, queue, word) = (Record::EMPTY, Context::task(1), 1, 42);
    /// # assert!(record.idefine_task(1, 5).is_ok() && record.icre_dtq(queue, TA_TFIFO, 8).is_ok());
    /// let before = record.runnable();
    /// let answer = record.snd_dtq(context, queue, word);
    /// let woken = record.runnable() & !before;
    /// # assert!(answer.is_ok() && woken == 0);
    /// ```
    ///
    /// Their waits have ended, and fetch tells how; or they were resumed or defined by the call. The tasks `before & !record.runnable()` can't run any
    /// more: the caller, where it waits now, or a task that the call suspended. A suspended task whose wait has ended is in neither: it can run when it is
    /// resumed, and it is in [`Record::waiting`] before the call and not after it.
    #[must_use]
    pub fn runnable(&self) -> u32 {
        self.task_sets().runnable
    }

    /// Why a call by this caller is refused with E_SYS; None where it isn't. The library tells it, by look, by caller 0 of the caller's number, which
    /// changes nothing. Ask it before the next call or tick: what the call met may be over after that. Of a table, E_SYS in a cell is about the record as
    /// the calls before it in the table left it.
    #[must_use]
    pub fn sys_cause(&self, caller: u32) -> Option<SysCause> {
        match self.seen(caller) {
            Answer::Error(E_SYS) => Some(SysCause::NotSound),
            _ if caller == TSK_NONE => None,
            Answer::Done(words) => {
                let looked = words.looked();
                (looked.tskwait != NO_WAIT || looked.suspended).then_some(SysCause::CallerCannotCall)
            }
            _ => Some(SysCause::NoCaller),
        }
    }
}
