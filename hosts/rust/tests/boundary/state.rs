//! What a host asks of a record: which tasks wait and which can run, why a call gives E_SYS, the lists in it, and the state in words.
use super::*;

/// Records that calls drawn at random leave, one after every 50 calls.
fn random_records() -> impl Iterator<Item = Record> {
    let (mut noise, mut record) = (noise(), Record::EMPTY);
    std::iter::repeat_with(move || {
        for _ in 0..50 {
            let _ = record.call(noise.call());
        }
        record.clone()
    })
    .take(600)
}

// ── Masks ──

#[test]
fn bits_of_tasks() {
    assert_eq!([1, 2, 31, 32].map(task_bit), [1, 2, 1 << 30, 1 << 31]);
    assert_eq!([TSK_NONE, 33, 64, 255, 256, 257, u32::MAX].map(task_bit), [0; 7]);
}

/// They say what look says of every task.
fn assert_masks(record: &Record) {
    let mut twin = record.clone();
    let looked: Vec<Option<Looked>> = (1..=32).map(|task| twin.ilook(task).words().map(Words::looked)).collect();
    let mask =
        |holds: fn(&Looked) -> bool| (1..).zip(&looked).filter(|(_, one)| one.is_some_and(|one| holds(&one))).map(|(task, _)| task_bit(task)).sum();
    let (waiting, runnable): (u32, u32) = (mask(|looked| looked.tskwait != NO_WAIT), mask(|looked| looked.tskwait == NO_WAIT && !looked.suspended));
    assert_eq!((record.waiting(), record.runnable()), (waiting, runnable), "{record}");
}

#[test]
fn masks_say_what_look_says() {
    let (mut waiting, mut runnable) = (BTreeSet::new(), BTreeSet::new());
    for record in random_records().chain([Record::EMPTY, typical(), various(), marked(various())]) {
        assert_masks(&record);
        waiting.insert(record.waiting());
        runnable.insert(record.runnable());
    }
    // The random calls define four tasks.
    assert!(waiting.len() >= 16 && runnable.len() >= 16, "{} and {} masks", waiting.len(), runnable.len());
    let mut record = Record::EMPTY;
    accepted([1, 32].map(|task| record.idefine_task(task, 5)));
    assert_eq!((record.waiting(), record.runnable()), (0, 1 << 31 | 1));
}

/// The three lines of a scheduler: who can run now and couldn't before, and who can't any more.
#[test]
fn woken_tasks() {
    let mut record = Record::EMPTY;
    accepted([1, 2, 3].map(|task| record.idefine_task(task, 5)));
    accepted([record.icre_dtq(1, TA_TFIFO, 0), record.icre_mbx(1, TA_TFIFO, 0)]);
    let mut changed = |call: Call| {
        let before = record.runnable();
        let answer = record.call(call);
        assert!(answer.is_ok() || answer.waits(), "{call:?}: {answer}");
        (record.runnable() & !before, before & !record.runnable(), record.waiting())
    };
    assert_eq!(changed(by_task(1, number::RCV_DTQ, 1)), (0, 0b001, 0b001));
    assert_eq!(changed(by_task(2, number::RCV_MBX, 1)), (0, 0b010, 0b011));
    assert_eq!(changed(by_handler(number::SUS_TSK, 2)), (0, 0, 0b011));
    assert_eq!(changed(by_task(3, number::PSND_DTQ, 1)), (0b001, 0, 0b010));
    // The wait of a suspended task ends; it can run when it is resumed.
    assert_eq!(changed(Call { value: 9, ..by_handler(number::SND_MBX, 1) }), (0, 0, 0));
    assert_eq!(changed(by_handler(number::RSM_TSK, 2)), (0b010, 0, 0));
    assert_eq!(changed(Call { tmout: 1, ..by_task(3, number::TRCV_DTQ, 1) }), (0, 0b100, 0b100));
    assert_eq!(changed(Call::TICK), (0, 0, 0b100));
    assert_eq!(changed(Call::TICK), (0b100, 0, 0));
}

// ── Causes of E_SYS ──

/// What is asked of a record that may only be read.
fn cause_on_page(page: &Page, record: &Record, caller: u32) -> Option<SysCause> {
    [false, true].map(|at_end| {
        // SAFETY: a whole record is there, which nobody writes while it is asked.
        let lent = unsafe { &*page.lend(record, at_end) };
        assert_eq!((lent.is_sound(), lent.waiting(), lent.runnable()), (record.is_sound(), record.waiting(), record.runnable()));
        lent.sys_cause(caller)
    })[0]
}

/// There is a cause exactly where a call by this caller is refused with E_SYS; the fields say which.
fn assert_cause(page: &Page, record: &Record, caller: u32) -> Option<SysCause> {
    let task = record.tasks.get(caller as usize).filter(|task| task.flags != 0);
    let expected = match task {
        _ if !record.is_sound() => Some(SysCause::NotSound),
        _ if caller == TSK_NONE => None,
        None => Some(SysCause::NoCaller),
        Some(task) if task.wait != NO_WAIT || task.flags != DEFINED => Some(SysCause::CallerCannotCall),
        Some(_) => None,
    };
    assert_eq!((record.sys_cause(caller), cause_on_page(page, record, caller)), (expected, expected), "caller {caller}");
    let refused = [number::REF_DTQ, number::SND_DTQ, number::FETCH].map(|number| record.clone().call(by_task(caller, number, 1)));
    assert_eq!(refused.map(|answer| answer == Answer::Error(E_SYS)), [expected.is_some(); 3], "caller {caller}");
    expected
}

#[test]
fn causes_of_refused_calls() {
    let (page, mut noise, mut seen) = (Page::new(), noise(), [0; 4]);
    let faults = FAULTS.into_iter().map(|(_, spoil)| {
        let mut record = various();
        spoil(&mut record);
        record
    });
    let sound = random_records().step_by(50).chain([Record::EMPTY, typical(), various(), marked(various())]);
    let records: Vec<Record> = sound.chain(faults).chain([noise.record(), noise.record()]).collect();
    for (record, caller) in records.iter().flat_map(|record| (0..=34).chain(TOO_LARGE).map(move |caller| (record, caller))) {
        let place = match assert_cause(&page, record, caller) {
            None => 0,
            Some(SysCause::NotSound) => 1,
            Some(SysCause::NoCaller) => 2,
            Some(SysCause::CallerCannotCall) => 3,
        };
        seen[place] += 1;
    }
    assert!(seen.iter().all(|count| *count > 10), "{seen:?}");
    let record = various();
    assert_eq!([0, 3, 33, 9].map(|caller| record.sys_cause(caller)), [None, None, Some(SysCause::NoCaller), Some(SysCause::NoCaller)]);
    // Task 1 waits; task 2 waits and is suspended.
    assert_eq!([1, 2].map(|caller| record.sys_cause(caller)), [Some(SysCause::CallerCannotCall); 2]);
}

// ── Lists ──

/// The words that a handler receives from a data queue, one after the other.
fn received(record: &Record, queue: u32) -> Vec<u32> {
    let mut record = record.clone();
    std::iter::from_fn(|| record.iprcv_dtq(queue).words().map(|words| words.a)).collect()
}

/// The same for the messages of a mailbox.
fn received_messages(record: &Record, mailbox: u32) -> Vec<u32> {
    let mut record = record.clone();
    std::iter::from_fn(|| record.iprcv_mbx(mailbox).words().map(|words| words.a)).collect()
}

/// The tasks whose waits such a call ends when it is made again and again, up to one that ends none.
fn served(record: &Record, mut send: impl FnMut(&mut Record)) -> Vec<u32> {
    let mut record = record.clone();
    let next = || {
        let before = record.waiting();
        send(&mut record);
        let ended = before & !record.waiting();
        assert!(ended.count_ones() <= 1);
        (ended != 0).then(|| ended.trailing_zeros() + 1)
    };
    std::iter::from_fn(next).collect()
}

/// A message that is free, which is one that is taken.
fn send_any_message(record: &mut Record, mailbox: u32) {
    let _ = (1..=MESSAGES as u32).find(|message| record.isnd_mbx(mailbox, *message, 1).is_ok());
}

fn listed(numbers: impl Iterator<Item = u32>) -> Vec<u32> {
    numbers.collect()
}

/// The lists are what receiving and sending come to. Gives how long they are.
fn assert_lists(record: &Record, object: u32) -> [usize; 5] {
    let (words, senders) = (listed(record.words(object)), listed(record.senders(object)));
    let waiting_words = senders.iter().map(|task| record.tasks[*task as usize].sending);
    assert_eq!(received(record, object), listed(words.iter().copied().chain(waiting_words)), "{record}");
    let (receivers, waiters, messages) = (listed(record.receivers(object)), listed(record.waiters(object)), listed(record.messages(object)));
    assert_eq!(served(record, |record| _ = record.ipsnd_dtq(object, 7)), receivers, "{record}");
    assert_eq!(served(record, |record| send_any_message(record, object)), waiters, "{record}");
    assert_eq!(received_messages(record, object), messages, "{record}");
    assert_eq!(record.words(object).len(), words.len());
    [words, senders, receivers, waiters, messages].map(|list| list.len())
}

#[test]
fn lists_are_what_is_received() {
    let mut longest = [0; 5];
    for record in random_records().chain([Record::EMPTY, typical(), various(), marked(various())]) {
        for object in 1..=16 {
            let lengths = assert_lists(&record, object);
            longest = from_fn(|i| longest[i].max(lengths[i]));
        }
    }
    assert!(longest.iter().all(|length| *length > 1), "{longest:?}");
}

/// From the ring's last place to its first as well.
#[test]
fn words_from_the_ring_s_head_on() {
    let mut record = Record::EMPTY;
    accepted([record.icre_dtq(1, TA_TFIFO, 3)]);
    for word in 1..=40 {
        accepted([record.ifsnd_dtq(1, word)]);
        assert!(record.words(1).eq(word.saturating_sub(2).max(1)..=word));
    }
}

#[test]
fn lists_of_numbers_out_of_range() {
    for record in [various(), noise().record()] {
        for object in [0, 17, 33, 65].into_iter().chain(TOO_LARGE) {
            let lists = [record.senders(object), record.receivers(object), record.waiters(object), record.messages(object)];
            assert_eq!((lists.map(Iterator::count), record.words(object).count()), ([0; 4], 0), "object {object}");
        }
    }
}

/// On whatever record they end, and have only numbers of their kind.
fn assert_lists_end(record: &Record) {
    for object in 1..=16 {
        for tasks in [record.senders(object), record.receivers(object), record.waiters(object)] {
            let tasks = listed(tasks);
            assert!(tasks.len() <= TASKS && tasks.iter().all(|task| (1..=32).contains(task)), "{tasks:?}");
        }
        let messages = listed(record.messages(object));
        assert!(messages.len() <= MESSAGES && messages.iter().all(|message| (1..=64).contains(message)), "{messages:?}");
        assert!(record.words(object).count() <= WORDS);
    }
}

#[test]
fn lists_of_damaged_records_end() {
    let mut noise = noise();
    (0..200).for_each(|_| assert_lists_end(&noise.record()));
    for (_, spoil) in FAULTS {
        let mut record = various();
        spoil(&mut record);
        assert_lists_end(&record);
    }
    for byte in 0..=255 {
        let mut record = various();
        record.waiting.link.fill(byte);
        record.messages.link.fill(byte);
        record.queues[2].ring = Ring { head: byte, count: byte, ..record.queues[2].ring };
        assert_lists_end(&record);
        assert_eq!(record.words(2).len(), WORDS.min(byte.into()));
    }
}

/// A chain that comes round is followed for as many numbers as there are.
#[test]
fn chains_that_come_round() {
    let mut record = various();
    (record.waiting.link[4], record.messages.link[64]) = (4, 33);
    assert_eq!((record.senders(2).count(), record.messages(2).count()), (TASKS, MESSAGES));
    let mut senders = record.senders(2);
    assert!(senders.by_ref().all(|task| task == 4) && senders.next().is_none());
}

// ── The state in words ──

/// Near the counter's end, with every kind of wait, order and list.
fn told() -> Record {
    let mut record = Record { counter: u32::MAX - 1, ..Record::EMPTY };
    accepted([(1, 5), (2, 3), (3, 5), (4, 3), (5, 9), (6, 1), (32, 16)].map(|(task, priority)| record.idefine_task(task, priority)));
    accepted([record.icre_dtq(1, TA_TFIFO, 2), record.icre_dtq(2, TA_TPRI, 0), record.icre_dtq(16, TA_TPRI, 16)]);
    accepted([
        record.icre_mbx(1, TA_TFIFO, 0),
        record.icre_mbx(2, TA_TPRI | TA_MPRI, 4),
        record.icre_mbx(3, TA_MPRI, 16),
        record.icre_mbx(4, TA_TPRI, 9),
    ]);
    accepted([record.ipsnd_dtq(1, 10), record.ipsnd_dtq(1, u32::MAX), record.ipsnd_dtq(16, 0)]);
    waits([record.tsnd_dtq(Context::task(3), 1, 12, 3), record.snd_dtq(Context::task(1), 1, 0), record.rcv_dtq(Context::task(2), 2)]);
    waits([record.trcv_mbx(Context::task(4), 2, LONGEST_TMOUT), record.trcv_mbx(Context::task(6), 2, 1)]);
    accepted([record.isnd_mbx(1, 5, 0), record.isnd_mbx(1, 9, 0), record.isnd_mbx(3, 64, 16), record.isnd_mbx(3, 1, 1)]);
    accepted([record.isus_tsk(4), record.isus_tsk(5), record.tick()]);
    record
}

const TOLD: &str = "\
counter 4294967295
task 1: priority 5, waits to send 0 to data queue 1
task 2: priority 3, waits to receive from data queue 2
task 3: priority 5, waits to send 12 to data queue 1, 3 ticks left
task 4: priority 3, waits to receive from mailbox 2, 2147483646 ticks left, suspended
task 5: priority 9, suspended
task 6: priority 1, waits to receive from mailbox 2, 1 tick left
task 32: priority 16
data queue 1: senders by arrival, 2 of 2 words: 10 4294967295, senders: 3 1
data queue 2: senders by priority, 0 of 0 words, receivers: 2
data queue 16: senders by priority, 1 of 16 words: 0
mailbox 1: waiters by arrival, messages by arrival, messages: 5 9
mailbox 2: waiters by priority, messages by priority 1 to 4, waiters: 6 4
mailbox 3: waiters by arrival, messages by priority 1 to 16, messages: 1 (priority 1) 64 (priority 16)
mailbox 4: waiters by priority, messages by arrival";

#[test]
fn the_state_in_words() {
    assert_eq!(told().to_string(), TOLD);
    assert_eq!(Record::EMPTY.to_string(), "counter 0");
    // What says nothing isn't told.
    assert_eq!(marked_spares(told(), &mut noise()).to_string(), TOLD);
}

/// One line, whatever the record.
#[test]
fn records_that_are_not_sound_in_words() {
    let mut noise = noise();
    (0..50).for_each(|_| assert_eq!(noise.record().to_string(), "not sound"));
    for (what, spoil) in FAULTS {
        let mut record = typical();
        spoil(&mut record);
        assert_eq!(record.to_string(), "not sound", "{what}");
    }
}

/// A line for each thing that is defined, and one for the counter.
#[test]
fn lines_of_random_records() {
    for record in random_records() {
        let tasks = record.tasks[1..].iter().filter(|task| task.flags != 0).count();
        let queues = record.queues[1..].iter().filter(|queue| queue.defined != 0).count();
        let mailboxes = record.mailboxes[1..].iter().filter(|mailbox| mailbox.defined != 0).count();
        let text = record.to_string();
        let lines = |start: &str| text.lines().filter(|line| line.starts_with(start)).count();
        assert_eq!(["counter ", "task ", "data queue ", "mailbox "].map(lines), [1, tasks, queues, mailboxes], "{text}");
        assert_eq!(text.lines().count(), 1 + tasks + queues + mailboxes, "{text}");
    }
}
