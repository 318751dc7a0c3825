//! The calls by name. The plain form is given the context; the i-forms are for handlers and start-up.
use crate::names::number;
use crate::{Answer, Call, Context, Record};

/// The tick and the calls by name. A wait ends during a later call or tick; fetch then tells how.
impl Record {
    /// Counts one tick and ends the waits whose time is over. It has no context. docs/calls/tick.md#0-tick
    #[inline]
    pub fn tick(&mut self) -> Answer {
        // No function of the library: one that called the step from a second place would make both dearer.
        self.call(Call::TICK)
    }

    /// Defines a task with its priority. docs/calls/tasks.md#1-define_task
    #[inline]
    pub fn define_task(&mut self, context: Context, task: u32, priority: u32) -> Answer {
        self.call(Call { value: priority, ..Call::new(number::DEFINE_TASK, context, task) })
    }

    /// Creates a data queue. docs/calls/data-queues.md#2-cre_dtq
    #[inline]
    pub fn cre_dtq(&mut self, context: Context, queue: u32, attribute: u32, capacity: u32) -> Answer {
        self.call(Call { value: capacity, attribute, ..Call::new(number::CRE_DTQ, context, queue) })
    }

    /// Deletes a data queue. docs/calls/data-queues.md#3-del_dtq
    #[inline]
    pub fn del_dtq(&mut self, context: Context, queue: u32) -> Answer {
        self.call(Call::new(number::DEL_DTQ, context, queue))
    }

    /// Sends a word to a data queue and waits as long as nobody takes it and there is no room. docs/calls/data-queues.md#4-snd_dtq
    #[inline]
    pub fn snd_dtq(&mut self, context: Context, queue: u32, word: u32) -> Answer {
        self.call(Call { value: word, ..Call::new(number::SND_DTQ, context, queue) })
    }

    /// Sends a word to a data queue if that is possible without waiting. docs/calls/data-queues.md#5-psnd_dtq
    #[inline]
    pub fn psnd_dtq(&mut self, context: Context, queue: u32, word: u32) -> Answer {
        self.call(Call { value: word, ..Call::new(number::PSND_DTQ, context, queue) })
    }

    /// Sends a word to a data queue and waits for at most a given number of ticks. docs/calls/data-queues.md#6-tsnd_dtq
    #[inline]
    pub fn tsnd_dtq(&mut self, context: Context, queue: u32, word: u32, tmout: i32) -> Answer {
        self.call(Call { value: word, tmout, ..Call::new(number::TSND_DTQ, context, queue) })
    }

    /// Sends a word to a data queue without waiting; a full queue loses its oldest word for it. docs/calls/data-queues.md#7-fsnd_dtq
    #[inline]
    pub fn fsnd_dtq(&mut self, context: Context, queue: u32, word: u32) -> Answer {
        self.call(Call { value: word, ..Call::new(number::FSND_DTQ, context, queue) })
    }

    /// Receives a word from a data queue and waits as long as there is none. docs/calls/data-queues.md#8-rcv_dtq
    #[inline]
    pub fn rcv_dtq(&mut self, context: Context, queue: u32) -> Answer {
        self.call(Call::new(number::RCV_DTQ, context, queue))
    }

    /// Receives a word from a data queue if there is one. docs/calls/data-queues.md#9-prcv_dtq
    #[inline]
    pub fn prcv_dtq(&mut self, context: Context, queue: u32) -> Answer {
        self.call(Call::new(number::PRCV_DTQ, context, queue))
    }

    /// Receives a word from a data queue and waits for at most a given number of ticks. docs/calls/data-queues.md#10-trcv_dtq
    #[inline]
    pub fn trcv_dtq(&mut self, context: Context, queue: u32, tmout: i32) -> Answer {
        self.call(Call { tmout, ..Call::new(number::TRCV_DTQ, context, queue) })
    }

    /// Tells who waits at a data queue and how many words it stores. docs/calls/data-queues.md#11-ref_dtq
    #[inline]
    pub fn ref_dtq(&mut self, context: Context, queue: u32) -> Answer {
        self.call(Call::new(number::REF_DTQ, context, queue))
    }

    /// Creates a mailbox. docs/calls/mailboxes.md#12-cre_mbx
    #[inline]
    pub fn cre_mbx(&mut self, context: Context, mailbox: u32, attribute: u32, highest: u32) -> Answer {
        self.call(Call { value: highest, attribute, ..Call::new(number::CRE_MBX, context, mailbox) })
    }

    /// Deletes a mailbox. docs/calls/mailboxes.md#13-del_mbx
    #[inline]
    pub fn del_mbx(&mut self, context: Context, mailbox: u32) -> Answer {
        self.call(Call::new(number::DEL_MBX, context, mailbox))
    }

    /// Sends a message to a mailbox. docs/calls/mailboxes.md#14-snd_mbx
    #[inline]
    pub fn snd_mbx(&mut self, context: Context, mailbox: u32, message: u32, priority: u32) -> Answer {
        self.call(Call { value: message, attribute: priority, ..Call::new(number::SND_MBX, context, mailbox) })
    }

    /// Receives a message from a mailbox and waits as long as there is none. docs/calls/mailboxes.md#15-rcv_mbx
    #[inline]
    pub fn rcv_mbx(&mut self, context: Context, mailbox: u32) -> Answer {
        self.call(Call::new(number::RCV_MBX, context, mailbox))
    }

    /// Receives a message from a mailbox if there is one. docs/calls/mailboxes.md#16-prcv_mbx
    #[inline]
    pub fn prcv_mbx(&mut self, context: Context, mailbox: u32) -> Answer {
        self.call(Call::new(number::PRCV_MBX, context, mailbox))
    }

    /// Receives a message from a mailbox and waits for at most a given number of ticks. docs/calls/mailboxes.md#17-trcv_mbx
    #[inline]
    pub fn trcv_mbx(&mut self, context: Context, mailbox: u32, tmout: i32) -> Answer {
        self.call(Call { tmout, ..Call::new(number::TRCV_MBX, context, mailbox) })
    }

    /// Tells who waits at a mailbox and which message is at the head of its queue. docs/calls/mailboxes.md#18-ref_mbx
    #[inline]
    pub fn ref_mbx(&mut self, context: Context, mailbox: u32) -> Answer {
        self.call(Call::new(number::REF_MBX, context, mailbox))
    }

    /// Ends a task's wait from outside. docs/calls/tasks.md#19-rel_wai
    #[inline]
    pub fn rel_wai(&mut self, context: Context, task: u32) -> Answer {
        self.call(Call::new(number::REL_WAI, context, task))
    }

    /// Suspends a task. docs/calls/tasks.md#20-sus_tsk
    #[inline]
    pub fn sus_tsk(&mut self, context: Context, task: u32) -> Answer {
        self.call(Call::new(number::SUS_TSK, context, task))
    }

    /// Ends a task's suspension. docs/calls/tasks.md#21-rsm_tsk
    #[inline]
    pub fn rsm_tsk(&mut self, context: Context, task: u32) -> Answer {
        self.call(Call::new(number::RSM_TSK, context, task))
    }

    /// Tells what a task waits for and whether it is suspended. docs/calls/tasks.md#22-look
    #[inline]
    pub fn look(&mut self, context: Context, task: u32) -> Answer {
        self.call(Call::new(number::LOOK, context, task))
    }

    /// Gives the code and the word that a task's last wait ended with. docs/calls/tasks.md#23-fetch
    #[inline]
    pub fn fetch(&mut self, context: Context, task: u32) -> Answer {
        self.call(Call::new(number::FETCH, context, task))
    }
}

/// The i-forms: the calls that a handler, or start-up, may make.
impl Record {
    /// [`Record::define_task`] by a handler or start-up. docs/calls/tasks.md#1-define_task
    #[inline]
    pub fn idefine_task(&mut self, task: u32, priority: u32) -> Answer {
        self.define_task(Context::HANDLER, task, priority)
    }

    /// [`Record::cre_dtq`] by a handler or start-up. docs/calls/data-queues.md#2-cre_dtq
    #[inline]
    pub fn icre_dtq(&mut self, queue: u32, attribute: u32, capacity: u32) -> Answer {
        self.cre_dtq(Context::HANDLER, queue, attribute, capacity)
    }

    /// [`Record::psnd_dtq`] by a handler or start-up. docs/calls/data-queues.md#5-psnd_dtq
    #[inline]
    pub fn ipsnd_dtq(&mut self, queue: u32, word: u32) -> Answer {
        self.psnd_dtq(Context::HANDLER, queue, word)
    }

    /// [`Record::fsnd_dtq`] by a handler or start-up. docs/calls/data-queues.md#7-fsnd_dtq
    #[inline]
    pub fn ifsnd_dtq(&mut self, queue: u32, word: u32) -> Answer {
        self.fsnd_dtq(Context::HANDLER, queue, word)
    }

    /// [`Record::prcv_dtq`] by a handler or start-up. docs/calls/data-queues.md#9-prcv_dtq
    #[inline]
    pub fn iprcv_dtq(&mut self, queue: u32) -> Answer {
        self.prcv_dtq(Context::HANDLER, queue)
    }

    /// [`Record::ref_dtq`] by a handler or start-up. docs/calls/data-queues.md#11-ref_dtq
    #[inline]
    pub fn iref_dtq(&mut self, queue: u32) -> Answer {
        self.ref_dtq(Context::HANDLER, queue)
    }

    /// [`Record::cre_mbx`] by a handler or start-up. docs/calls/mailboxes.md#12-cre_mbx
    #[inline]
    pub fn icre_mbx(&mut self, mailbox: u32, attribute: u32, highest: u32) -> Answer {
        self.cre_mbx(Context::HANDLER, mailbox, attribute, highest)
    }

    /// [`Record::snd_mbx`] by a handler or start-up. docs/calls/mailboxes.md#14-snd_mbx
    #[inline]
    pub fn isnd_mbx(&mut self, mailbox: u32, message: u32, priority: u32) -> Answer {
        self.snd_mbx(Context::HANDLER, mailbox, message, priority)
    }

    /// [`Record::prcv_mbx`] by a handler or start-up. docs/calls/mailboxes.md#16-prcv_mbx
    #[inline]
    pub fn iprcv_mbx(&mut self, mailbox: u32) -> Answer {
        self.prcv_mbx(Context::HANDLER, mailbox)
    }

    /// [`Record::ref_mbx`] by a handler or start-up. docs/calls/mailboxes.md#18-ref_mbx
    #[inline]
    pub fn iref_mbx(&mut self, mailbox: u32) -> Answer {
        self.ref_mbx(Context::HANDLER, mailbox)
    }

    /// [`Record::rel_wai`] by a handler or start-up. docs/calls/tasks.md#19-rel_wai
    #[inline]
    pub fn irel_wai(&mut self, task: u32) -> Answer {
        self.rel_wai(Context::HANDLER, task)
    }

    /// [`Record::sus_tsk`] by a handler or start-up. docs/calls/tasks.md#20-sus_tsk
    #[inline]
    pub fn isus_tsk(&mut self, task: u32) -> Answer {
        self.sus_tsk(Context::HANDLER, task)
    }

    /// [`Record::rsm_tsk`] by a handler or start-up. docs/calls/tasks.md#21-rsm_tsk
    #[inline]
    pub fn irsm_tsk(&mut self, task: u32) -> Answer {
        self.rsm_tsk(Context::HANDLER, task)
    }

    /// [`Record::look`] by a handler or start-up. docs/calls/tasks.md#22-look
    #[inline]
    pub fn ilook(&mut self, task: u32) -> Answer {
        self.look(Context::HANDLER, task)
    }

    /// [`Record::fetch`] by a handler or start-up. docs/calls/tasks.md#23-fetch
    #[inline]
    pub fn ifetch(&mut self, task: u32) -> Answer {
        self.fetch(Context::HANDLER, task)
    }
}
