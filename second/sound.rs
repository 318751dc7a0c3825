//! The paper's section "A sound record", its limit of end ticks as item 1 of
//! document 02 amends it: which states are sound, and when two states are
//! equal. A state of these types may hold any number anywhere.

use crate::state::*;

impl State {
    pub fn sound(&self) -> bool {
        self.fault().is_none()
    }

    /// Why the state is not sound, in words; `None` for a sound state.
    /// Words are put together only when a fault is found.
    pub fn fault(&self) -> Option<String> {
        self.check().err()
    }

    fn check(&self) -> Result<(), String> {
        // Task numbers and message numbers met in a list so far.
        let mut listed = [false; TASKS as usize + 1];
        let mut queued = [false; MESSAGES as usize + 1];
        for number in 1..=QUEUES {
            self.check_queue(number, &mut listed)?;
        }
        for number in 1..=MAILBOXES {
            self.check_mailbox(number, &mut listed)?;
            self.check_messages(number, &mut queued)?;
        }
        for number in 1..=TASKS {
            self.check_task(number, listed[number as usize])?;
        }
        Ok(())
    }

    fn check_queue(&self, number: u32, listed: &mut [bool]) -> Result<(), String> {
        let queue = self.queue(number);
        let waiters = !queue.senders.is_empty() || !queue.receivers.is_empty();
        if !queue.exists {
            // An undefined object has empty chains and no words.
            let holds = waiters || !queue.words.is_empty();
            return refuse(holds, || {
                format!("undefined queue {number} holds something")
            });
        }
        // Attribute and capacity are in range.
        refuse(queue.attribute > 1, || {
            format!("attribute of queue {number}")
        })?;
        refuse(queue.capacity > LARGEST_CAPACITY, || {
            format!("capacity of queue {number}")
        })?;
        // The stored count is at most the capacity.
        let count = queue.words.len();
        refuse(count > queue.capacity as usize, || {
            format!("too many words in queue {number}")
        })?;
        if waiters {
            self.check_queue_waiters(number, listed)?;
        }
        Ok(())
    }

    fn check_queue_waiters(&self, number: u32, listed: &mut [bool]) -> Result<(), String> {
        let queue = self.queue(number);
        let (senders, receivers) = (&queue.senders, &queue.receivers);
        // Senders wait only at a full queue without a receiver.
        let wrong = !senders.is_empty() && (!queue.full() || !receivers.is_empty());
        refuse(wrong, || {
            format!("senders wait without need at queue {number}")
        })?;
        // Receivers wait only at an empty queue without a sender.
        let wrong = !receivers.is_empty() && (!queue.words.is_empty() || !senders.is_empty());
        refuse(wrong, || {
            format!("receivers wait without need at queue {number}")
        })?;
        // Each of them has a wait that names this queue.
        let sends_here =
            |wait: &Wait| matches!(wait, Wait::Sending { queue, .. } if *queue == number);
        self.check_list(senders, sends_here, listed)?;
        let receives_here =
            |wait: &Wait| matches!(wait, Wait::Receiving { queue, .. } if *queue == number);
        self.check_list(receivers, receives_here, listed)?;
        // Senders by priority have no larger number before a smaller one.
        let wrong = queue.senders_by_priority() && !self.tasks_in_order(senders);
        refuse(wrong, || format!("order of the senders of queue {number}"))
    }

    fn check_mailbox(&self, number: u32, listed: &mut [bool]) -> Result<(), String> {
        let mailbox = self.mailbox(number);
        if !mailbox.exists {
            // An undefined object has empty chains.
            let holds = !mailbox.waiters.is_empty() || !mailbox.messages.is_empty();
            return refuse(holds, || {
                format!("undefined mailbox {number} holds something")
            });
        }
        // The attribute is in range, and so is the highest message priority
        // where the mailbox uses it.
        refuse(mailbox.attribute > 3, || {
            format!("attribute of mailbox {number}")
        })?;
        let wrong = mailbox.messages_by_priority() && !priority_in_range(mailbox.highest);
        refuse(wrong, || {
            format!("highest message priority of mailbox {number}")
        })?;
        // Tasks wait only at a mailbox without a message.
        let wrong = !mailbox.waiters.is_empty() && !mailbox.messages.is_empty();
        refuse(wrong, || {
            format!("waiters and messages at mailbox {number}")
        })?;
        let waits_here =
            |wait: &Wait| matches!(wait, Wait::AtMailbox { mailbox, .. } if *mailbox == number);
        self.check_list(&mailbox.waiters, waits_here, listed)?;
        // Waiters by priority have no larger number before a smaller one.
        let wrong = mailbox.waiters_by_priority() && !self.tasks_in_order(&mailbox.waiters);
        refuse(wrong, || {
            format!("order of the waiters of mailbox {number}")
        })
    }

    fn check_messages(&self, number: u32, queued: &mut [bool]) -> Result<(), String> {
        let mailbox = self.mailbox(number);
        // No list of messages is longer than 64.
        let long = mailbox.messages.len() > MESSAGES as usize;
        refuse(long, || {
            format!("mailbox {number} has more than {MESSAGES} messages")
        })?;
        for message in &mailbox.messages {
            // A message number is in range, and stands in one mailbox, once.
            let wrong = message.number < 1 || message.number > MESSAGES;
            refuse(wrong, || {
                format!("message number {} is out of range", message.number)
            })?;
            let again = queued[message.number as usize];
            refuse(again, || {
                format!("message {} is queued twice", message.number)
            })?;
            queued[message.number as usize] = true;
            // A kept priority is 1 to the mailbox's highest.
            let wrong = mailbox.messages_by_priority()
                && (message.priority < 1 || message.priority > mailbox.highest);
            refuse(wrong, || {
                format!("priority kept with message {}", message.number)
            })?;
        }
        // Messages by priority have no larger number before a smaller one.
        let wrong = mailbox.messages_by_priority()
            && mailbox
                .messages
                .windows(2)
                .any(|pair| pair[0].priority > pair[1].priority);
        refuse(wrong, || {
            format!("order of the messages of mailbox {number}")
        })
    }

    fn check_task(&self, number: u32, listed: bool) -> Result<(), String> {
        let task = self.task(number);
        if !task.exists {
            // An undefined task has no wait and no suspension.
            let wrong = task.waits() || task.suspended;
            return refuse(wrong, || {
                format!("undefined task {number} waits or is suspended")
            });
        }
        // The priority is in range, the stored code is one of the four.
        refuse(!priority_in_range(task.priority), || {
            format!("priority of task {number}")
        })?;
        let known = matches!(task.code, 0 | -49 | -50 | -51);
        refuse(!known, || format!("stored code of task {number}"))?;
        // Every waiting task stands in the list that its wait names. That it
        // stands in no other, and once, was seen when the lists were checked.
        let missing = task.waits() && !listed;
        refuse(missing, || format!("waiting task {number} is in no list"))?;
        // An end tick is 1 to 2,147,483,647 ticks away: item 1 of document 02.
        if let Some(end) = task.wait.end() {
            let left = end.wrapping_sub(self.counter);
            let wrong = left < 1 || left > FARTHEST_END;
            refuse(wrong, || format!("end tick of task {number}"))?;
        }
        Ok(())
    }

    /// A list of waiting tasks: at most 32, every number in range and met for
    /// the first time, every task with a wait of this object and kind.
    fn check_list(
        &self,
        list: &[u32],
        fits: impl Fn(&Wait) -> bool,
        listed: &mut [bool],
    ) -> Result<(), String> {
        refuse(list.len() > TASKS as usize, || {
            format!("a list of more than {TASKS} tasks")
        })?;
        for &number in list {
            let wrong = number < 1 || number > TASKS;
            refuse(wrong, || {
                format!("task number {number} in a list is out of range")
            })?;
            refuse(listed[number as usize], || {
                format!("task {number} is listed twice")
            })?;
            listed[number as usize] = true;
            let other = !fits(&self.task(number).wait);
            refuse(other, || {
                format!("task {number} is in a list that its wait does not name")
            })?;
        }
        Ok(())
    }

    /// The numbers in the list are already known to be in range.
    fn tasks_in_order(&self, list: &[u32]) -> bool {
        list.windows(2)
            .all(|pair| self.task(pair[0]).priority <= self.task(pair[1]).priority)
    }

    /// The paper's equality of states, the end of the same section. Fields of
    /// undefined tasks and objects are unused, except that the lists of every
    /// queue and mailbox are compared.
    pub fn equal(&self, other: &State) -> bool {
        self.counter == other.counter
            && agree(&self.tasks, &other.tasks, equal_tasks)
            && agree(&self.queues, &other.queues, equal_queues)
            && agree(&self.mailboxes, &other.mailboxes, equal_mailboxes)
    }
}

/// A fault with its text, if the condition holds.
fn refuse(condition: bool, text: impl Fn() -> String) -> Result<(), String> {
    if condition {
        return Err(text());
    }
    Ok(())
}

fn priority_in_range(priority: u32) -> bool {
    priority >= 1 && priority <= LARGEST_PRIORITY
}

/// All entries of the same number are equal; entry 0 belongs to nobody.
fn agree<T>(one: &[T], two: &[T], equal: impl Fn(&T, &T) -> bool) -> bool {
    one[1..]
        .iter()
        .zip(&two[1..])
        .all(|(entry, other)| equal(entry, other))
}

/// Which tasks exist; of defined tasks the priority, the wait with what
/// belongs to it, the suspension and the stored pair.
fn equal_tasks(one: &Task, two: &Task) -> bool {
    one.exists == two.exists && (!one.exists || one == two)
}

/// Which queues exist; of defined queues attribute and capacity; of every
/// queue the stored words and both lists, in order.
fn equal_queues(one: &Queue, two: &Queue) -> bool {
    let shape = one.attribute == two.attribute && one.capacity == two.capacity;
    one.exists == two.exists
        && (!one.exists || shape)
        && same(&one.words, &two.words)
        && same(&one.senders, &two.senders)
        && same(&one.receivers, &two.receivers)
}

/// Which mailboxes exist; of defined mailboxes the attribute; of every mailbox
/// both lists, in order; where messages are ordered by priority, the highest
/// message priority and the priorities kept with the messages too.
fn equal_mailboxes(one: &Mailbox, two: &Mailbox) -> bool {
    if one.exists != two.exists || !same(&one.waiters, &two.waiters) {
        return false;
    }
    if one.exists && one.attribute != two.attribute {
        return false;
    }
    if one.exists && one.messages_by_priority() {
        return one.highest == two.highest && same(&one.messages, &two.messages);
    }
    one.messages.len() == two.messages.len()
        && one
            .messages
            .iter()
            .zip(&two.messages)
            .all(|(a, b)| a.number == b.number)
}

/// The same entries in the same order. Most lists are empty; asking that first
/// is much faster here than comparing no bytes with the library's function.
fn same<T: PartialEq>(one: &[T], two: &[T]) -> bool {
    one.len() == two.len() && (one.is_empty() || one == two)
}
