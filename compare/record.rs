//! The kernel's record in the second program's lists, and such lists as a record.
//!
//! Document 01, 'A sound record', says what counts. The rest of a record is unused: cell 0 of every array, links of numbers that stand in no chain,
//! keys of messages that keep no priority, what an undefined task or object left behind, the fields that a wait doesn't use, a ring's cells outside
//! its stored words, the spare fields. `state_of` never looks at those, and `record_of` fills them with random numbers.
use linguastel::{Record, AT_MAILBOX, DEFINED, NO_CODE, NO_WAIT, RECEIVING, SENDING, SUSPENDED};
use second::{Answer, Call, Mailbox, Message, Queue, Random, State, Task, Wait};

const TASKS: usize = linguastel::TASKS;
const QUEUES: usize = linguastel::QUEUES;
const MAILBOXES: usize = linguastel::MAILBOXES;
const MESSAGES: usize = linguastel::MESSAGES;
const WORDS: usize = linguastel::WORDS;

// ── Calls and answers ──

pub fn kernel_call(call: &Call) -> linguastel::Call {
    linguastel::Call {
        number: call.number,
        caller: call.caller,
        locked: call.locked.into(),
        disabled: call.disabled.into(),
        object: call.object,
        value: call.value,
        tmout: call.tmout,
        attribute: call.attribute,
    }
}

pub fn second_call(call: &linguastel::Call) -> Call {
    Call {
        number: call.number,
        caller: call.caller,
        locked: call.locked != 0,
        disabled: call.disabled != 0,
        object: call.object,
        value: call.value,
        tmout: call.tmout,
        attribute: call.attribute,
    }
}

/// The kernel's answer that is the same as this one. What a kind of answer doesn't have is 0 there, and the code of one that waits is no code.
pub fn kernel_answer(answer: &Answer) -> linguastel::HostAnswer {
    match *answer {
        Answer::Finished { code, a, b, c } => linguastel::HostAnswer { kind: 0, code, place: 0, a, b, c },
        Answer::Waits { place } => linguastel::HostAnswer { kind: 1, code: NO_CODE, place, a: 0, b: 0, c: 0 },
    }
}

/// The kernel's answer in words, by the second program's words where it has some for it.
pub fn answer_in_words(answer: &linguastel::HostAnswer) -> String {
    let linguastel::HostAnswer { kind, code, place, a, b, c } = *answer;
    let read = if kind == 0 { Answer::Finished { code, a, b, c } } else { Answer::Waits { place } };
    if kernel_answer(&read) == *answer {
        read.to_string()
    } else {
        format!("an answer of no kind: {answer:?}")
    }
}

// ── Reading ──

/// The state that a record holds. None where a chain is longer than there are numbers, comes round or leaves the table, where a ring doesn't start at
/// one of its places, or where a number says nothing: none of these is in a sound record. Whether what was read is sound, `State::sound` says.
pub fn state_of(record: &Record) -> Option<State> {
    let mut state = State::empty(record.counter);
    for number in 1..=TASKS {
        state.tasks[number] = task_of(record, number)?;
    }
    for number in 1..=QUEUES {
        state.queues[number] = queue_of(record, number)?;
    }
    for number in 1..=MAILBOXES {
        state.mailboxes[number] = mailbox_of(record, number)?;
    }
    Some(state)
}

fn flag(number: u8) -> Option<bool> {
    match number {
        0 => Some(false),
        1 => Some(true),
        _ => None,
    }
}

fn task_of(record: &Record, number: usize) -> Option<Task> {
    let cells = &record.tasks[number];
    if cells.flags > DEFINED + SUSPENDED {
        return None;
    }
    let exists = cells.flags & DEFINED != 0;
    let suspended = cells.flags & SUSPENDED != 0;
    let wait = wait_of(cells)?;
    // Nobody reads the priority and the stored pair of an undefined task.
    let (priority, code, word) = if exists { (record.waiting.key[number].into(), -i32::from(cells.code), cells.word) } else { (0, 0, 0) };
    Some(Task { exists, priority, wait, suspended, code, word })
}

fn wait_of(cells: &linguastel::Task) -> Option<Wait> {
    if cells.wait == NO_WAIT {
        return Some(Wait::No);
    }
    let end = if flag(cells.timed)? { Some(cells.end) } else { None };
    let object = cells.object.into();
    match cells.wait {
        SENDING => Some(Wait::Sending { queue: object, word: cells.sending, end }),
        RECEIVING => Some(Wait::Receiving { queue: object, end }),
        AT_MAILBOX => Some(Wait::AtMailbox { mailbox: object, end }),
        _ => None,
    }
}

/// The numbers of the chain whose first number stands in this cell. A chain of numbers up to `most` that has more than `most` of them comes round.
fn follow(link: &[u8], head: usize, most: usize) -> Option<Vec<u32>> {
    let mut numbers = Vec::new();
    let mut next = usize::from(link[head]);
    while next != 0 {
        if next > most || numbers.len() == most {
            return None;
        }
        numbers.push(next as u32);
        next = usize::from(link[next]);
    }
    Some(numbers)
}

fn queue_of(record: &Record, number: usize) -> Option<Queue> {
    let cells = &record.queues[number];
    let exists = flag(cells.defined)?;
    let (head, count) = (usize::from(cells.ring.head), usize::from(cells.ring.count));
    // An undefined queue may have any head, but no words.
    if count > WORDS || (head >= WORDS && (exists || count > 0)) {
        return None;
    }
    let words = (0..count).map(|place| cells.ring.words[(head + place) % WORDS]).collect();
    let (attribute, capacity) = if exists { (cells.attribute.into(), cells.ring.capacity.into()) } else { (0, 0) };
    let senders = follow(&record.waiting.link, linguastel::HEADS_OF_SENDERS + number, TASKS)?;
    let receivers = follow(&record.waiting.link, linguastel::HEADS_OF_RECEIVERS + number, TASKS)?;
    Some(Queue { exists, attribute, capacity, words, senders, receivers })
}

fn mailbox_of(record: &Record, number: usize) -> Option<Mailbox> {
    let cells = &record.mailboxes[number];
    let exists = flag(cells.defined)?;
    let attribute: u32 = if exists { cells.attribute.into() } else { 0 };
    // Without attribute 2 neither the highest priority nor those of the messages are kept.
    let kept = attribute >= linguastel::TA_MPRI;
    let highest = if kept { cells.highest.into() } else { 0 };
    let waiters = follow(&record.waiting.link, linguastel::HEADS_OF_WAITERS + number, TASKS)?;
    let queued = follow(&record.messages.link, linguastel::HEADS_OF_MESSAGES + number, MESSAGES)?;
    let priority = |message: u32| if kept { record.messages.key[message as usize].into() } else { 0 };
    let messages = queued.into_iter().map(|number| Message { number, priority: priority(number) }).collect();
    Some(Mailbox { exists, attribute, highest, waiters, messages })
}

// ── Writing ──

pub fn random_word(random: &mut Random) -> u32 {
    random.bits() as u32
}

fn random_byte(random: &mut Random) -> u8 {
    random.bits() as u8
}

/// A record of random numbers: what `record_of` leaves in unused cells.
pub fn random_record(random: &mut Random) -> Record {
    let mut record = Record::empty();
    record.counter = random_word(random);
    for task in &mut record.tasks {
        *task = random_task(random);
    }
    for queue in &mut record.queues {
        for word in &mut queue.ring.words {
            *word = random_word(random);
        }
        queue.ring.head = random_byte(random);
        queue.ring.count = random_byte(random);
        queue.ring.capacity = random_byte(random);
        queue.ring.spare = random_byte(random);
        queue.defined = random_byte(random);
        queue.attribute = random_byte(random);
        queue.spare = random.bits() as u16;
    }
    for chains in [&mut record.waiting, &mut record.messages] {
        for byte in chains.link.iter_mut().chain(chains.key.iter_mut()) {
            *byte = random_byte(random);
        }
    }
    for mailbox in &mut record.mailboxes {
        let [defined, attribute, highest] = [random_byte(random), random_byte(random), random_byte(random)];
        *mailbox = linguastel::Mailbox { defined, attribute, highest };
    }
    record.spare = random_byte(random);
    record
}

fn random_task(random: &mut Random) -> linguastel::Task {
    linguastel::Task {
        word: random_word(random),
        end: random_word(random),
        sending: random_word(random),
        wait: random_byte(random),
        object: random_byte(random),
        timed: random_byte(random),
        code: random_byte(random),
        flags: random_word(random),
    }
}

/// A record that holds this state. Where rings start is random, and so is all that is unused.
pub fn record_of(state: &State, random: &mut Random) -> Record {
    let mut record = random_record(random);
    record.counter = state.counter;
    for number in 1..=TASKS {
        write_task(&mut record, number, &state.tasks[number]);
    }
    for number in 1..=QUEUES {
        write_queue(&mut record, number, &state.queues[number], random);
    }
    for number in 1..=MAILBOXES {
        write_mailbox(&mut record, number, &state.mailboxes[number]);
    }
    record
}

fn write_task(record: &mut Record, number: usize, task: &Task) {
    let cells = &mut record.tasks[number];
    cells.flags = if task.exists { DEFINED } else { 0 } + if task.suspended { SUSPENDED } else { 0 };
    write_wait(cells, &task.wait);
    if task.exists {
        record.waiting.key[number] = task.priority as u8;
        cells.code = task.code.unsigned_abs() as u8;
        cells.word = task.word;
    }
}

fn write_wait(cells: &mut linguastel::Task, wait: &Wait) {
    let (kind, object, end) = match *wait {
        Wait::No => {
            cells.wait = NO_WAIT;
            return;
        }
        Wait::Sending { queue, word, end } => {
            cells.sending = word;
            (SENDING, queue, end)
        }
        Wait::Receiving { queue, end } => (RECEIVING, queue, end),
        Wait::AtMailbox { mailbox, end } => (AT_MAILBOX, mailbox, end),
    };
    cells.wait = kind;
    cells.object = object as u8;
    cells.timed = end.is_some().into();
    if let Some(tick) = end {
        cells.end = tick;
    }
}

fn write_chain(link: &mut [u8], head: usize, numbers: impl Iterator<Item = u32>) {
    let mut cell = head;
    for number in numbers {
        link[cell] = number as u8;
        cell = number as usize;
    }
    link[cell] = 0;
}

fn write_queue(record: &mut Record, number: usize, queue: &Queue, random: &mut Random) {
    let cells = &mut record.queues[number];
    cells.defined = queue.exists.into();
    cells.ring.count = queue.words.len() as u8;
    if queue.exists {
        cells.attribute = queue.attribute as u8;
        cells.ring.capacity = queue.capacity as u8;
        cells.ring.head = random.below(WORDS as u32) as u8;
    }
    for (place, word) in queue.words.iter().enumerate() {
        cells.ring.words[(usize::from(cells.ring.head) + place) % WORDS] = *word;
    }
    let link = &mut record.waiting.link;
    write_chain(link, linguastel::HEADS_OF_SENDERS + number, queue.senders.iter().copied());
    write_chain(link, linguastel::HEADS_OF_RECEIVERS + number, queue.receivers.iter().copied());
}

fn write_mailbox(record: &mut Record, number: usize, mailbox: &Mailbox) {
    let cells = &mut record.mailboxes[number];
    let kept = mailbox.attribute >= linguastel::TA_MPRI;
    cells.defined = mailbox.exists.into();
    if mailbox.exists {
        cells.attribute = mailbox.attribute as u8;
        if kept {
            cells.highest = mailbox.highest as u8;
        }
    }
    write_chain(&mut record.waiting.link, linguastel::HEADS_OF_WAITERS + number, mailbox.waiters.iter().copied());
    let head = linguastel::HEADS_OF_MESSAGES + number;
    write_chain(&mut record.messages.link, head, mailbox.messages.iter().map(|message| message.number));
    for message in &mailbox.messages {
        if kept {
            record.messages.key[message.number as usize] = message.priority as u8;
        }
    }
}

#[cfg(test)]
mod tests {
    use super::*;
    use second::random_sound_state;

    /// What is written is read again, whatever stands in unused cells, and the kernel takes it for sound.
    #[test]
    fn round_trip() {
        let mut random = Random::new(1);
        for _ in 0..2000 {
            let state = random_sound_state(&mut random);
            let record = record_of(&state, &mut random);
            assert!(state_of(&record).expect("a state can be read").equal(&state));
            assert!(record.is_sound());
            let other = record_of(&state, &mut random);
            assert!(other != record && state_of(&other).is_some_and(|read| read.equal(&state)));
        }
    }

    #[test]
    fn empty_record() {
        assert!(state_of(&Record::empty()).expect("a state can be read").equal(&State::empty(0)));
    }

    /// Each field that counts is read: a change in it is no longer equal, or no state.
    #[test]
    fn every_field_that_counts() {
        let (record, state) = example();
        let changes: [(&str, fn(&mut Record)); 18] = [
            ("counter", |record| record.counter += 1),
            ("priority", |record| record.waiting.key[1] += 1),
            ("stored code", |record| record.tasks[1].code = 50),
            ("stored word", |record| record.tasks[1].word += 1),
            ("defined and suspended", |record| record.tasks[1].flags = 3),
            ("kind of wait", |record| record.tasks[2].wait = RECEIVING),
            ("object of the wait", |record| record.tasks[2].object += 1),
            ("end tick", |record| record.tasks[2].end += 1),
            ("whether there is an end", |record| record.tasks[2].timed = 0),
            ("word of a sender", |record| record.tasks[2].sending += 1),
            ("attribute of a queue", |record| record.queues[1].attribute = 0),
            ("capacity", |record| record.queues[1].ring.capacity += 1),
            ("count", |record| record.queues[1].ring.count -= 1),
            ("where the ring starts", |record| record.queues[1].ring.head ^= 1),
            ("head of the senders", |record| record.waiting.link[linguastel::HEADS_OF_SENDERS + 1] = 1),
            ("attribute of a mailbox", |record| record.mailboxes[1].attribute = 3),
            ("highest message priority", |record| record.mailboxes[1].highest += 1),
            ("priority of a message", |record| record.messages.key[64] -= 1),
        ];
        for (field, change) in changes {
            let mut changed = record.clone();
            change(&mut changed);
            assert!(!state_of(&changed).is_some_and(|read| read.equal(&state)), "{field}");
        }
    }

    /// Task 2 waits to send to a full queue, until a tick; a message is queued by priority.
    fn example() -> (Record, State) {
        let mut state = State::empty(7);
        let mut reached = second::Reached::default();
        let call = |number, caller, object, value, tmout, attribute| Call { number, caller, object, value, tmout, attribute, ..Call::default() };
        let calls = [
            call(1, 0, 1, 5, 0, 0),
            call(1, 0, 2, 6, 0, 0),
            call(2, 0, 1, 2, 0, 1),
            call(5, 0, 1, 10, 0, 0),
            call(5, 0, 1, 11, 0, 0),
            call(6, 2, 1, 12, 9, 0),
            call(12, 0, 1, 4, 0, 2),
            call(14, 0, 1, 64, 0, 3),
        ];
        for call in calls {
            state.play(&call, &mut reached);
        }
        (record_of(&state, &mut Random::new(5)), state)
    }

    #[test]
    fn what_cannot_be_read() {
        let (record, _) = example();
        let changes: [(&str, fn(&mut Record)); 12] = [
            ("chain that comes round", |record| record.waiting.link[2] = 2),
            ("chain that leaves the table", |record| record.waiting.link[2] = 33),
            ("messages that come round", |record| record.messages.link[64] = 64),
            ("messages that leave the table", |record| record.messages.link[64] = 65),
            ("flags", |record| record.tasks[3].flags = 4),
            ("second byte of the flags", |record| record.tasks[1].flags |= 1 << 8),
            ("third byte of the flags", |record| record.tasks[1].flags |= 1 << 16),
            ("last byte of the flags", |record| record.tasks[1].flags |= 1 << 31),
            ("kind of wait", |record| record.tasks[3].wait = 4),
            ("timed", |record| record.tasks[2].timed = 2),
            ("defined", |record| record.queues[2].defined = 2),
            ("where the ring starts", |record| record.queues[1].ring.head = 16),
        ];
        for (what, change) in changes {
            let mut changed = record.clone();
            change(&mut changed);
            assert!(state_of(&changed).is_none() && !changed.is_sound(), "{what}");
        }
    }
}
