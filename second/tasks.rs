//! Tasks, waits and the tick: the paper's section "Task states and ticks",
//! its tick rule as item 1 of document 02 amends it, and `play`, which tests
//! the error table and then does the call.

use crate::errors::*;
use crate::reached::{Path, Reached};
use crate::state::*;

impl State {
    /// Plays one call (1 to 23, or an unknown number) or the tick (0), from
    /// any state, sound or not. A refusal leaves the state unchanged.
    pub fn play(&mut self, call: &Call, reached: &mut Reached) -> Answer {
        if let Some(code) = refusal(self, call, reached) {
            return Answer::refused(code);
        }
        reached.accepted(call);
        match call.number {
            TICK => self.tick(reached),
            DEFINE_TASK => self.define_task(call),
            CRE_DTQ => self.cre_dtq(call),
            DEL_DTQ => self.del_dtq(call, reached),
            SND_DTQ | PSND_DTQ | TSND_DTQ | FSND_DTQ => self.send(call, reached),
            RCV_DTQ | PRCV_DTQ | TRCV_DTQ => self.receive(call, reached),
            REF_DTQ => self.ref_dtq(call, reached),
            CRE_MBX => self.cre_mbx(call),
            DEL_MBX => self.del_mbx(call, reached),
            SND_MBX => self.snd_mbx(call, reached),
            RCV_MBX | PRCV_MBX | TRCV_MBX => self.receive_message(call, reached),
            REF_MBX => self.ref_mbx(call, reached),
            REL_WAI => self.rel_wai(call, reached),
            SUS_TSK => self.sus_tsk(call, reached),
            RSM_TSK => self.rsm_tsk(call),
            LOOK => self.look(call, reached),
            FETCH => self.fetch(call, reached),
            _ => unreachable!("step 0 refuses unknown numbers"),
        }
    }

    /// A new task is able, not suspended, and its stored pair is 0 and 0.
    fn define_task(&mut self, call: &Call) -> Answer {
        let task = &mut self.tasks[call.object as usize];
        *task = Task::undefined();
        task.exists = true;
        task.priority = call.value;
        Answer::done(0, 0, 0)
    }

    /// The word of a sender is withdrawn with its wait.
    fn rel_wai(&mut self, call: &Call, reached: &mut Reached) -> Answer {
        self.leave_list(call.object);
        self.end_wait(call.object, E_RLWAI, 0, reached);
        Answer::done(0, 0, 0)
    }

    fn sus_tsk(&mut self, call: &Call, reached: &mut Reached) -> Answer {
        let task = &mut self.tasks[call.object as usize];
        task.suspended = true;
        reached.note_if(task.waits(), Path::WaiterSuspended);
        reached.note_if(call.object == call.caller, Path::CallerSuspendsItself);
        Answer::done(0, 0, 0)
    }

    fn rsm_tsk(&mut self, call: &Call) -> Answer {
        self.tasks[call.object as usize].suspended = false;
        Answer::done(0, 0, 0)
    }

    /// a the kind of wait, b its object, c 1 if suspended.
    fn look(&self, call: &Call, reached: &mut Reached) -> Answer {
        let task = self.task(call.object);
        let (kind, path) = match task.wait {
            Wait::No => (0, Path::LookNoWait),
            Wait::Sending { .. } => (1, Path::LookSending),
            Wait::Receiving { .. } => (2, Path::LookReceiving),
            Wait::AtMailbox { .. } => (3, Path::LookAtMailbox),
        };
        reached.note(path);
        reached.note_if(task.suspended, Path::LookSuspended);
        reached.note_if(!task.suspended, Path::LookNotSuspended);
        Answer::done(kind, task.wait.object(), task.suspended as u32)
    }

    /// The code is the stored one: it tells how the wait ended and is not a
    /// refusal of the fetch. The pair stays stored.
    fn fetch(&self, call: &Call, reached: &mut Reached) -> Answer {
        let task = self.task(call.object);
        reached.fetched(task.code);
        Answer::Finished {
            code: task.code,
            a: task.word,
            b: 0,
            c: 0,
        }
    }

    /// Ends every wait whose end tick is the new counter, in ascending task
    /// number; a is how many. End ticks are compared for equality only, so
    /// the wrap of the counter needs no further care.
    fn tick(&mut self, reached: &mut Reached) -> Answer {
        self.counter = self.counter.wrapping_add(1);
        let mut ended = 0;
        for number in 1..=TASKS {
            if self.task(number).wait.end() == Some(self.counter) {
                self.leave_list(number);
                reached.timed_out(number, self.counter);
                self.end_wait(number, E_TMOUT, 0, reached);
                ended += 1;
            }
        }
        reached.note_if(ended > 1, Path::SeveralTimeOuts);
        Answer::done(ended, 0, 0)
    }

    /// The end tick of a wait that begins now: for tmout n the tick n + 1 from
    /// here, item 1 of document 02. `timed` says that the call has a time-out;
    /// -1 means no end, and 0 never comes to a wait.
    pub(crate) fn end_tick(&self, call: &Call, timed: bool) -> Option<u32> {
        if !timed || call.tmout == -1 {
            return None;
        }
        let ticks = (call.tmout as u32).wrapping_add(1);
        Some(self.counter.wrapping_add(ticks))
    }

    /// Where a task goes in a list by task priority: behind the last task of a
    /// smaller or equal number, so equals stay in order of arrival.
    pub(crate) fn place_by_priority(&self, list: &[u32], task: u32) -> usize {
        let priority = self.task(task).priority;
        let place = list
            .iter()
            .position(|&other| self.task(other).priority > priority);
        place.unwrap_or(list.len())
    }

    /// For `reached` only: the task's place is behind an equal one and ahead
    /// of a larger one.
    pub(crate) fn between_equal_and_larger(&self, list: &[u32], task: u32) -> bool {
        let place = self.place_by_priority(list, task);
        let priority = self.task(task).priority;
        place > 0 && place < list.len() && self.task(list[place - 1]).priority == priority
    }

    /// The caller begins to wait; it is in its list already. The stored pair
    /// becomes 0 and 0.
    pub(crate) fn begin_wait(
        &mut self,
        call: &Call,
        wait: Wait,
        place: usize,
        reached: &mut Reached,
    ) -> Answer {
        reached.wait_begun(call, &wait, place, self.counter);
        let task = &mut self.tasks[call.caller as usize];
        task.wait = wait;
        task.code = 0;
        task.word = 0;
        Answer::Waits {
            place: place as u32,
        }
    }

    /// Ends the wait of a task that is out of its list already. A suspended
    /// task stays suspended.
    pub(crate) fn end_wait(&mut self, number: u32, code: i32, word: u32, reached: &mut Reached) {
        let task = &mut self.tasks[number as usize];
        reached.wait_ended(number, &task.wait, task.suspended, code);
        task.wait = Wait::No;
        task.code = code;
        task.word = word;
    }

    /// Takes a waiting task out of the list that its wait names.
    fn leave_list(&mut self, number: u32) {
        let list = match self.task(number).wait {
            Wait::No => return,
            Wait::Sending { queue, .. } => &mut self.queues[queue as usize].senders,
            Wait::Receiving { queue, .. } => &mut self.queues[queue as usize].receivers,
            Wait::AtMailbox { mailbox, .. } => &mut self.mailboxes[mailbox as usize].waiters,
        };
        list.retain(|&other| other != number);
    }
}
