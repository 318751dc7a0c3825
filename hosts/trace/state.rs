//! What a record of the replay holds, in words.
use crate::words;
use linguastel::{Record, AT_MAILBOX, MAILBOXES, NO_WAIT, QUEUES, RECEIVING, SENDING, SUSPENDED, TASKS, TA_MPRI};
use std::fmt::{Display, Formatter};

// ── Waits ──

/// What a waiting task waits for.
#[derive(Clone, Copy, PartialEq, Debug)]
pub enum Kind {
    /// With the word that it sends.
    Sending(u32),
    Receiving,
    AtMailbox,
}

#[derive(Clone, Copy, PartialEq, Debug)]
pub struct Wait {
    pub kind: Kind,
    pub object: u8,
    /// The counter's value that ends it; none where it is for ever.
    pub end: Option<u32>,
}

impl Wait {
    /// The data queue or mailbox by name.
    pub fn place(&self) -> String {
        match self.kind {
            Kind::AtMailbox => format!("mailbox {}", self.object),
            _ => format!("data queue {}", self.object),
        }
    }
}

/// Without the end, which some readers know already.
impl Display for Wait {
    fn fmt(&self, to: &mut Formatter) -> std::fmt::Result {
        match self.kind {
            Kind::Sending(word) => write!(to, "to send word {word} to {}", self.place()),
            Kind::Receiving => write!(to, "to receive from {}", self.place()),
            Kind::AtMailbox => write!(to, "at {}", self.place()),
        }
    }
}

/// The wait of a task, if it waits.
pub fn wait_of(record: &Record, task: usize) -> Option<Wait> {
    let cells = &record.tasks[task];
    let kind = match cells.wait {
        SENDING => Kind::Sending(cells.sending),
        RECEIVING => Kind::Receiving,
        AT_MAILBOX => Kind::AtMailbox,
        _ => return None,
    };
    Some(Wait { kind, object: cells.object, end: (cells.timed != 0).then_some(cells.end) })
}

/// A wait that ended, with the pair that fetch then gives.
#[derive(Clone, Copy, PartialEq, Debug)]
pub struct Ended {
    pub task: usize,
    pub wait: Wait,
    pub code: i32,
    pub word: u32,
}

impl Ended {
    /// How it ended: the code, what was received, and that a sender's word which nobody took is gone.
    pub fn how(&self) -> String {
        let code = words::code(self.code);
        match self.wait.kind {
            Kind::Sending(_) if self.code == linguastel::E_OK => code,
            Kind::Sending(word) if self.code == linguastel::E_DLT => format!("{code}, word {word} lost with the data queue"),
            Kind::Sending(word) => format!("{code}, word {word} withdrawn"),
            _ if self.code != linguastel::E_OK => code,
            Kind::Receiving => format!("{code}, word {}", self.word),
            Kind::AtMailbox => format!("{code}, message {}", self.word),
        }
    }
}

impl Display for Ended {
    fn fmt(&self, to: &mut Formatter) -> std::fmt::Result {
        write!(to, "task {}: its wait {} ended with {}", self.task, self.wait, self.how())
    }
}

/// The waits of one record that the next no longer has. No call ends a wait and starts another of the same task: who waits can't call.
pub fn ended(before: &Record, after: &Record) -> Vec<Ended> {
    let gone = |task: &usize| after.tasks[*task].wait == NO_WAIT;
    let pair = |task: usize| (-i32::from(after.tasks[task].code), after.tasks[task].word);
    let waits = (1..=TASKS).filter(gone).filter_map(|task| wait_of(before, task).map(|wait| (task, wait, pair(task))));
    waits.map(|(task, wait, (code, word))| Ended { task, wait, code, word }).collect()
}

// ── The whole state ──

/// So many things and which ones.
fn listed<T: Display>(count: &str, items: &[T]) -> String {
    let separator = if items.is_empty() { "" } else { ": " };
    format!("{count}{separator}{}", items.iter().map(T::to_string).collect::<Vec<_>>().join(", "))
}

fn tasks(record: &Record, numbers: &[u32]) -> String {
    let task = |number: &u32| match wait_of(record, *number as usize) {
        Some(Wait { kind: Kind::Sending(word), .. }) => format!("task {number} with word {word}"),
        _ => format!("task {number}"),
    };
    numbers.iter().map(task).collect::<Vec<_>>().join(", ")
}

fn queue_in_words(record: &Record, number: u32) -> String {
    let (queue, stored): (_, Vec<u32>) = (&record.queues[number as usize], record.words(number).collect());
    let (count, capacity, attribute) = (stored.len(), queue.ring.capacity, words::attribute(queue.attribute.into()));
    let (senders, receivers): (Vec<u32>, Vec<u32>) = (record.senders(number).collect(), record.receivers(number).collect());
    // Senders wait only where no receiver does.
    let waiting = if !senders.is_empty() {
        format!("waiting to send: {}", tasks(record, &senders))
    } else if !receivers.is_empty() {
        format!("waiting to receive: {}", tasks(record, &receivers))
    } else {
        "nobody waits".to_string()
    };
    format!("data queue {number}, {attribute}: {}; {waiting}", listed(&format!("{count} of {capacity} words"), &stored))
}

fn mailbox_in_words(record: &Record, number: u32) -> String {
    let mailbox = &record.mailboxes[number as usize];
    let by_priority = u32::from(mailbox.attribute) >= TA_MPRI;
    let message = |message: u32| match by_priority {
        true => format!("{message} (priority {})", record.messages.key[message as usize]),
        false => message.to_string(),
    };
    let queued: Vec<String> = record.messages(number).map(message).collect();
    let highest = if by_priority { format!(", highest priority {}", mailbox.highest) } else { String::new() };
    let attribute = words::attribute(mailbox.attribute.into());
    let waiters: Vec<u32> = record.waiters(number).collect();
    let waiting = if waiters.is_empty() { "nobody waits".to_string() } else { format!("waiting: {}", tasks(record, &waiters)) };
    let count = words::count(queued.len() as u64, "message");
    format!("mailbox {number}, {attribute}{highest}: {}; {waiting}", listed(&count, &queued))
}

/// A task that waits or is suspended; of the others there is nothing to say.
fn task_in_words(record: &Record, task: usize) -> Option<String> {
    let suspended = record.tasks[task].flags & SUSPENDED != 0;
    let Some(wait) = wait_of(record, task) else {
        return suspended.then(|| format!("task {task} is suspended"));
    };
    let until = match wait.end {
        Some(end) => format!("until counter {end}, in {}", words::count(end.wrapping_sub(record.counter).into(), "tick")),
        None => "for ever".to_string(),
    };
    Some(format!("task {task} waits {wait}, {until}{}", if suspended { ", and is suspended" } else { "" }))
}

/// A line for the counter, for each existing data queue and mailbox, and for each task that waits or is suspended.
pub fn in_words(record: &Record) -> Vec<String> {
    let mut lines = vec![format!("counter {}", record.counter)];
    let queues = (1..=QUEUES).filter(|number| record.queues[*number].defined != 0);
    lines.extend(queues.map(|number| queue_in_words(record, number as u32)));
    let mailboxes = (1..=MAILBOXES).filter(|number| record.mailboxes[*number].defined != 0);
    lines.extend(mailboxes.map(|number| mailbox_in_words(record, number as u32)));
    lines.extend((1..=TASKS).filter_map(|task| task_in_words(record, task)));
    lines
}

#[cfg(test)]
mod tests {
    use super::*;
    use linguastel::{Answer, Context, TA_TFIFO};

    fn accepted(answers: &[Answer]) {
        assert!(answers.iter().all(|answer| answer.is_ok() || answer.waits()), "{answers:?}");
    }

    /// Task 1 waits to send to a full queue, task 2 at a mailbox; messages are queued in another.
    fn example() -> Record {
        let mut record = Record { counter: u32::MAX, ..Record::empty() };
        accepted(&[1, 2, 3, 4].map(|task| record.idefine_task(task, 5)));
        accepted(&[record.icre_dtq(1, TA_TFIFO, 2), record.icre_mbx(1, TA_TFIFO, 0), record.icre_mbx(2, TA_MPRI, 4)]);
        accepted(&[record.ipsnd_dtq(1, 10), record.ipsnd_dtq(1, 11), record.tsnd_dtq(Context::task(1), 1, 12, 2)]);
        accepted(&[record.rcv_mbx(Context::task(2), 1), record.isnd_mbx(2, 7, 3), record.isnd_mbx(2, 8, 1), record.isus_tsk(3)]);
        record
    }

    #[test]
    fn the_state_in_words() {
        let expected = [
            "counter 4294967295",
            "data queue 1, TA_TFIFO: 2 of 2 words: 10, 11; waiting to send: task 1 with word 12",
            "mailbox 1, TA_TFIFO: 0 messages; waiting: task 2",
            "mailbox 2, TA_MPRI, highest priority 4: 2 messages: 8 (priority 1), 7 (priority 3); nobody waits",
            "task 1 waits to send word 12 to data queue 1, until counter 2, in 3 ticks",
            "task 2 waits at mailbox 1, for ever",
            "task 3 is suspended",
        ];
        assert_eq!(in_words(&example()), expected);
        assert_eq!(in_words(&Record::empty()), ["counter 0"]);
    }

    fn ends(change: fn(&mut Record)) -> Vec<String> {
        let before = example();
        let mut after = before.clone();
        change(&mut after);
        ended(&before, &after).iter().map(Ended::to_string).collect()
    }

    #[test]
    fn how_waits_end() {
        assert_eq!(ends(|record| _ = record.iprcv_dtq(1)), ["task 1: its wait to send word 12 to data queue 1 ended with E_OK"]);
        assert_eq!(ends(|record| _ = record.isnd_mbx(1, 9, 0)), ["task 2: its wait at mailbox 1 ended with E_OK, message 9"]);
        assert_eq!(ends(|record| _ = record.irel_wai(2)), ["task 2: its wait at mailbox 1 ended with E_RLWAI"]);
        assert_eq!(
            ends(|record| _ = record.del_dtq(Context::task(4), 1)),
            ["task 1: its wait to send word 12 to data queue 1 ended with E_DLT, word 12 lost with the data queue"]
        );
        let three_ticks: fn(&mut Record) = |record| (0..3).for_each(|_| _ = record.tick());
        assert_eq!(ends(three_ticks), ["task 1: its wait to send word 12 to data queue 1 ended with E_TMOUT, word 12 withdrawn"]);
        assert!(ends(|record| _ = record.ilook(1)).is_empty());
    }

    #[test]
    fn what_a_receiver_gets() {
        let mut before = Record::empty();
        accepted(&[before.idefine_task(1, 5), before.icre_dtq(1, TA_TFIFO, 2), before.rcv_dtq(Context::task(1), 1)]);
        let mut after = before.clone();
        accepted(&[after.ipsnd_dtq(1, 42)]);
        assert_eq!(in_words(&before)[1], "data queue 1, TA_TFIFO: 0 of 2 words; waiting to receive: task 1");
        assert_eq!(ended(&before, &after)[0].to_string(), "task 1: its wait to receive from data queue 1 ended with E_OK, word 42");
    }
}
