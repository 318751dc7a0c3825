//! An answer: as the library writes it, in numbers, and as a host in Rust reads it.
use core::fmt;

use crate::names::{code_name, E_OK};

/// An answer in document 01's numbers, as the library writes it: in the cells of a table, and in traces. [`HostAnswer::read`] gives what it says.
#[must_use]
#[repr(C)]
#[derive(Clone, Copy, PartialEq, Eq, Debug, Default)]
pub struct HostAnswer {
    /// 0 finished, 1 waits.
    pub kind: u32,
    /// Of a finished answer, else `NO_CODE`.
    pub code: i32,
    /// Of one that waits, else 0.
    pub place: u32,
    /// The first word, 0 unless the call's page names it.
    pub a: u32,
    /// The second.
    pub b: u32,
    /// The third.
    pub c: u32,
}

impl HostAnswer {
    /// What the numbers say. The words of an answer with another code than E_OK are left out: they are 0, unless it is fetch's and the host itself wrote
    /// the pair into the record.
    #[inline]
    pub const fn read(self) -> Answer {
        let HostAnswer { kind, code, place, a, b, c } = self;
        match (kind, code) {
            (0, E_OK) => Answer::Done(Words { a, b, c }),
            (0, _) => Answer::Error(code),
            _ => Answer::Waits { place },
        }
    }
}

impl From<HostAnswer> for Answer {
    #[inline]
    fn from(answer: HostAnswer) -> Answer {
        answer.read()
    }
}

/// What a call came to.
#[must_use]
#[derive(Clone, Copy, PartialEq, Eq, Debug)]
pub enum Answer {
    /// E_OK, with the words of the answer.
    Done(Words),
    /// Every other code: what refused the call or, from fetch, what ended the wait.
    Error(i32),
    /// The caller now waits.
    Waits {
        /// So many waiters stay ahead of it.
        place: u32,
    },
}

impl Answer {
    /// Whether the call is finished, with E_OK.
    #[inline]
    #[must_use]
    pub const fn is_ok(self) -> bool {
        matches!(self, Answer::Done(_))
    }

    /// Whether the caller now waits.
    #[inline]
    #[must_use]
    pub const fn waits(self) -> bool {
        matches!(self, Answer::Waits { .. })
    }

    /// The code of a finished call; None where it waits.
    #[inline]
    #[must_use]
    pub const fn code(self) -> Option<i32> {
        match self {
            Answer::Done(_) => Some(E_OK),
            Answer::Error(code) => Some(code),
            Answer::Waits { .. } => None,
        }
    }

    /// The words of a call that is finished with E_OK.
    #[inline]
    #[must_use]
    pub const fn words(self) -> Option<Words> {
        match self {
            Answer::Done(words) => Some(words),
            _ => None,
        }
    }
}

/// 'E_OK, a 10, c 1', without the words that are 0; 'E_PAR'; or 'waits, place 0'.
impl fmt::Display for Answer {
    fn fmt(&self, f: &mut fmt::Formatter) -> fmt::Result {
        match *self {
            Answer::Done(Words { a, b, c }) => {
                f.write_str(code_name(E_OK))?;
                let written = [("a", a), ("b", b), ("c", c)].into_iter().filter(|(_, word)| *word != 0);
                written.into_iter().try_for_each(|(name, word)| write!(f, ", {name} {word}"))
            }
            Answer::Error(code) => f.write_str(code_name(code)),
            Answer::Waits { place } => write!(f, "waits, place {place}"),
        }
    }
}

/// The words of an answer. One that the call's page doesn't name is 0.
#[derive(Clone, Copy, PartialEq, Eq, Debug, Default)]
pub struct Words {
    /// The first: a received word or message, a count, or what the call's page says.
    pub a: u32,
    /// The second.
    pub b: u32,
    /// The third.
    pub c: u32,
}

impl Words {
    /// The words of ref_dtq by the standard's names.
    #[inline]
    #[must_use]
    pub const fn rdtq(self) -> Rdtq {
        Rdtq { stskid: self.a, rtskid: self.b, sdtqcnt: self.c }
    }

    /// The words of ref_mbx by the standard's names.
    #[inline]
    #[must_use]
    pub const fn rmbx(self) -> Rmbx {
        Rmbx { wtskid: self.a, pk_msg: self.b }
    }

    /// The words of look. A number that look doesn't give, above 255, is read as 255, which is no kind of wait.
    #[inline]
    #[must_use]
    pub const fn looked(self) -> Looked {
        let tskwait = if self.a < u8::MAX as u32 { self.a as u8 } else { u8::MAX };
        Looked { tskwait, wobjid: self.b, suspended: self.c != 0 }
    }
}

/// The state of a data queue, as ref_dtq gives it.
#[derive(Clone, Copy, PartialEq, Eq, Debug)]
pub struct Rdtq {
    /// The task at the head of the senders, or `TSK_NONE`.
    pub stskid: u32,
    /// The task at the head of the receivers, or `TSK_NONE`.
    pub rtskid: u32,
    /// So many words are stored.
    pub sdtqcnt: u32,
}

/// The state of a mailbox, as ref_mbx gives it.
#[derive(Clone, Copy, PartialEq, Eq, Debug)]
pub struct Rmbx {
    /// The task at the head of the waiters, or `TSK_NONE`.
    pub wtskid: u32,
    /// The message at the head, or 0.
    pub pk_msg: u32,
}

/// What a task waits for, as look gives it.
#[derive(Clone, Copy, PartialEq, Eq, Debug)]
pub struct Looked {
    /// `NO_WAIT`, `SENDING`, `RECEIVING` or `AT_MAILBOX`.
    pub tskwait: u8,
    /// The data queue or mailbox of the wait, or 0.
    pub wobjid: u32,
    /// Whether the task is suspended; it may wait beside that.
    pub suspended: bool,
}
