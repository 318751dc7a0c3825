//! A call in document 01's numbers, and the context in which it is made.
use crate::names::{number, TSK_NONE};

/// Who calls, and whether the CPU is locked or dispatching disabled.
#[derive(Clone, Copy, PartialEq, Eq, Debug, Default)]
pub struct Context {
    /// The task that calls; 0 for a handler or start-up.
    pub caller: u32,
    /// The standard's 'CPU locked'.
    pub locked: bool,
    /// The standard's 'dispatching disabled'.
    pub disabled: bool,
}

impl Context {
    /// A handler or start-up; nothing is locked or disabled.
    pub const HANDLER: Context = Context::task(TSK_NONE);

    /// A task; nothing is locked or disabled.
    #[must_use]
    pub const fn task(task: u32) -> Context {
        Context { caller: task, locked: false, disabled: false }
    }
}

/// Numbers of tasks, data queues and mailboxes have 32 bits, so that 300 reaches the kernel as it is and is refused; a byte would have made 44 of it.
#[repr(C)]
#[derive(Clone, Copy, PartialEq, Eq, Debug, Default)]
pub struct Call {
    /// One of [`number`]; the kernel refuses others.
    pub number: u32,
    /// The task that calls; 0 for a handler or start-up.
    pub caller: u32,
    /// 0 for no; every other number is yes.
    pub locked: u32,
    /// Likewise.
    pub disabled: u32,
    /// The task, data queue or mailbox.
    pub object: u32,
    /// Word, message, capacity, task priority or highest message priority.
    pub value: u32,
    /// n waits at least n ms and less than n + 1: the wait ends in tick n + 1. `TMO_POL` doesn't wait, `TMO_FEVR` waits without end.
    pub tmout: i32,
    /// Attribute or message priority.
    pub attribute: u32,
}

impl Call {
    /// The tick has no context.
    pub const TICK: Call = Call { number: number::TICK, caller: 0, locked: 0, disabled: 0, object: 0, value: 0, tmout: 0, attribute: 0 };

    /// A call with its context and the object that it names; the other fields are 0.
    #[inline]
    #[must_use]
    pub fn new(number: u32, context: Context, object: u32) -> Call {
        let (caller, locked, disabled) = (context.caller, context.locked.into(), context.disabled.into());
        Call { number, caller, locked, disabled, object, ..Call::default() }
    }
}
