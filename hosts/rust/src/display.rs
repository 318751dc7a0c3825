//! The state in words: a line for each thing that is defined. hosts/c/linguastel_print.h prints the same text.
use core::fmt;

use crate::names::{AT_MAILBOX, MAILBOXES, NO_WAIT, QUEUES, RECEIVING, SENDING, TASKS, TA_MPRI, TA_TPRI};
use crate::record::{Task, DEFINED, SUSPENDED};
use crate::Record;

/// The state in words, or 'not sound'. The lines are those of the counter, the tasks, the data queues and the mailboxes, in the order of their numbers.
/// The last has no end of line.
impl fmt::Display for Record {
    fn fmt(&self, f: &mut fmt::Formatter) -> fmt::Result {
        if !self.is_sound() {
            return f.write_str("not sound");
        }
        write!(f, "counter {}", self.counter)?;
        (1..=TASKS).filter(|number| self.tasks[*number].flags & DEFINED != 0).try_for_each(|number| self.write_task(f, number))?;
        (1..=QUEUES).filter(|number| self.queues[*number].defined != 0).try_for_each(|number| self.write_queue(f, number))?;
        (1..=MAILBOXES).filter(|number| self.mailboxes[*number].defined != 0).try_for_each(|number| self.write_mailbox(f, number))
    }
}

fn order(attribute: u8, by_priority: u32) -> &'static str {
    if u32::from(attribute) & by_priority != 0 {
        "by priority"
    } else {
        "by arrival"
    }
}

/// ', senders: 3 4', or nothing where there is none.
fn write_list(f: &mut fmt::Formatter, name: &str, numbers: impl Iterator<Item = u32>) -> fmt::Result {
    for (i, number) in numbers.enumerate() {
        if i == 0 {
            write!(f, ", {name}:")?;
        }
        write!(f, " {number}")?;
    }
    Ok(())
}

impl Task {
    fn write_wait(&self, f: &mut fmt::Formatter) -> fmt::Result {
        match self.wait {
            SENDING => write!(f, ", waits to send {} to data queue {}", self.sending, self.object),
            RECEIVING => write!(f, ", waits to receive from data queue {}", self.object),
            AT_MAILBOX => write!(f, ", waits to receive from mailbox {}", self.object),
            _ => Ok(()),
        }
    }
}

impl Record {
    fn write_task(&self, f: &mut fmt::Formatter, number: usize) -> fmt::Result {
        let task = &self.tasks[number];
        write!(f, "\ntask {number}: priority {}", self.waiting.key[number])?;
        task.write_wait(f)?;
        if task.wait != NO_WAIT && task.timed != 0 {
            let left = task.end.wrapping_sub(self.counter);
            write!(f, ", {left} tick{} left", if left == 1 { "" } else { "s" })?;
        }
        if task.flags & SUSPENDED != 0 {
            f.write_str(", suspended")?;
        }
        Ok(())
    }

    fn write_queue(&self, f: &mut fmt::Formatter, number: usize) -> fmt::Result {
        let (queue, of) = (&self.queues[number], number as u32);
        let (count, capacity) = (queue.ring.count, queue.ring.capacity);
        write!(f, "\ndata queue {number}: senders {}, {count} of {capacity} words", order(queue.attribute, TA_TPRI))?;
        if count != 0 {
            f.write_str(":")?;
        }
        self.words(of).try_for_each(|word| write!(f, " {word}"))?;
        write_list(f, "senders", self.senders(of))?;
        write_list(f, "receivers", self.receivers(of))
    }

    fn write_mailbox(&self, f: &mut fmt::Formatter, number: usize) -> fmt::Result {
        let (mailbox, of) = (&self.mailboxes[number], number as u32);
        let [waiters, messages] = [TA_TPRI, TA_MPRI].map(|by_priority| order(mailbox.attribute, by_priority));
        write!(f, "\nmailbox {number}: waiters {waiters}, messages {messages}")?;
        if u32::from(mailbox.attribute) & TA_MPRI == 0 {
            write_list(f, "messages", self.messages(of))?;
        } else {
            write!(f, " 1 to {}", mailbox.highest)?;
            self.write_messages(f, of)?;
        }
        write_list(f, "waiters", self.waiters(of))
    }

    /// ', messages: 5 (priority 1)', or nothing where there is none.
    fn write_messages(&self, f: &mut fmt::Formatter, mailbox: u32) -> fmt::Result {
        for (i, message) in self.messages(mailbox).enumerate() {
            if i == 0 {
                f.write_str(", messages:")?;
            }
            write!(f, " {message} (priority {})", self.messages.key[message as usize])?;
        }
        Ok(())
    }
}
