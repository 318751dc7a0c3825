//! Records that are probably not sound: random ones, and sound ones with something changed. Whether one is sound is not decided here.
use crate::record::{random_record, random_word};
use linguastel::{Chains, Record, Task, MAILBOXES, MESSAGES, QUEUES, RECEIVING, SENDING, TASKS};
use second::Random;

#[derive(Clone, Copy, PartialEq, Eq, Debug)]
pub enum Damage {
    /// Random bytes throughout.
    Bytes,
    /// Random numbers throughout, each in its range.
    Numbers,
    /// One to three fields of any kind.
    Fields,
    /// One link of a chain that is in use: it comes round, runs into another chain or a head, leaves the table or ends too soon.
    Link,
    /// The head of any chain, an empty one too, gets any number.
    Head,
    /// Two numbers in a row of a chain change their places.
    Order,
    /// Count, capacity or head of a ring.
    Ring,
    /// A field of a task's wait.
    Wait,
    /// An end tick, at one of the limits.
    End,
    /// A priority of a task or of a queued message, or a mailbox's highest.
    Priority,
    /// Whether something is defined, or suspended.
    Defined,
    /// A stored code.
    Code,
    /// The counter: end ticks may then be past, or too far.
    Counter,
}

pub const DAMAGES: [Damage; 13] = [
    Damage::Bytes,
    Damage::Numbers,
    Damage::Fields,
    Damage::Link,
    Damage::Head,
    Damage::Order,
    Damage::Ring,
    Damage::Wait,
    Damage::End,
    Damage::Priority,
    Damage::Defined,
    Damage::Code,
    Damage::Counter,
];

/// The most ticks that an end may be away.
const FARTHEST: u32 = 2_147_483_647;

/// Limits of some kind, their neighbours, and codes without their sign.
const SPECIAL: [u8; 20] = [0, 1, 2, 3, 4, 15, 16, 17, 31, 32, 33, 48, 49, 50, 51, 52, 64, 65, 80, 255];

/// The codes without their sign, and numbers that are no code.
const CODES: [u8; 18] = [0, 5, 17, 18, 25, 28, 41, 42, 43, 48, 49, 50, 51, 52, 1, 128, 205, 255];

fn index(random: &mut Random, most: usize) -> usize {
    random.below(most as u32 + 1) as usize
}

fn other_byte(old: u8, random: &mut Random) -> u8 {
    match random.below(4) {
        0 => random.below(256) as u8,
        1 => old.wrapping_add(1),
        2 => old.wrapping_sub(1),
        _ => random.pick(&SPECIAL),
    }
}

fn other_word(old: u32, random: &mut Random) -> u32 {
    match random.below(4) {
        0 => random_word(random),
        1 => old.wrapping_add(1),
        2 => old.wrapping_sub(1),
        _ => random.pick(&SPECIAL).into(),
    }
}

/// One bit is changed, in any of the four bytes, or the whole word.
fn other_flags(old: u32, random: &mut Random) -> u32 {
    match random.below(2) {
        0 => old ^ (1 << random.below(32)),
        _ => other_word(old, random),
    }
}

/// Changes a sound record.
pub fn damage(record: &mut Record, damage: Damage, random: &mut Random) {
    match damage {
        Damage::Bytes => *record = random_record(random),
        Damage::Numbers => *record = random_numbers(random),
        Damage::Fields => {
            for _ in 0..1 + random.below(3) {
                damage_field(record, random);
            }
        }
        Damage::Link => damage_link(record, random),
        Damage::Head => damage_head(record, random),
        Damage::Order => damage_order(record, random),
        Damage::Ring => damage_ring(record, random),
        Damage::Wait => damage_wait(record, random),
        Damage::End => damage_end(record, random),
        Damage::Priority => damage_priority(record, random),
        Damage::Defined => damage_defined(record, random),
        Damage::Code => {
            let code = random.pick(&CODES);
            record.tasks[index(random, TASKS)].code = code;
        }
        Damage::Counter => record.counter = other_word(record.counter, random),
    }
}

/// A record whose numbers are in range. Few tasks wait and few numbers have one behind them, so that some of these can be read.
fn random_numbers(random: &mut Random) -> Record {
    let mut record = random_record(random);
    for task in &mut record.tasks {
        task.wait = if random.percent(90) { 0 } else { random.between(1, 3) as u8 };
        task.object = random.between(1, 16) as u8;
        task.timed = random.below(2) as u8;
        task.code = random.pick(&[0, 49, 50, 51]);
        task.flags = random.pick(&[0, 1, 1, 1, 3]);
    }
    for queue in &mut record.queues {
        queue.ring.capacity = random.below(17) as u8;
        queue.ring.count = random.below(u32::from(queue.ring.capacity) + 1) as u8;
        queue.ring.head = random.below(16) as u8;
        queue.attribute = random.below(2) as u8;
        queue.defined = u8::from(random.percent(90));
    }
    for mailbox in &mut record.mailboxes {
        (mailbox.attribute, mailbox.highest, mailbox.defined) = (random.below(4) as u8, random.between(1, 16) as u8, u8::from(random.percent(90)));
    }
    for (chains, numbers) in [(&mut record.waiting, TASKS as u32), (&mut record.messages, MESSAGES as u32)] {
        chains.key = std::array::from_fn(|_| random.between(1, 16) as u8);
        chains.link = std::array::from_fn(|_| if random.percent(90) { 0 } else { random.between(1, numbers) as u8 });
    }
    record
}

fn damage_field(record: &mut Record, random: &mut Random) {
    match random.below(12) {
        0 => record.counter = other_word(record.counter, random),
        1..=3 => damage_task(&mut record.tasks[index(random, TASKS)], random),
        4 => damage_ring(record, random),
        5 => {
            let queue = &mut record.queues[index(random, QUEUES)];
            queue.attribute = other_byte(queue.attribute, random);
        }
        6 | 7 => damage_chains(&mut record.waiting, random),
        8 | 9 => damage_chains(&mut record.messages, random),
        10 => damage_defined(record, random),
        _ => {
            let mailbox = &mut record.mailboxes[index(random, MAILBOXES)];
            let field = if random.below(2) == 0 { &mut mailbox.attribute } else { &mut mailbox.highest };
            *field = other_byte(*field, random);
        }
    }
}

fn damage_task(task: &mut Task, random: &mut Random) {
    match random.below(8) {
        0 => task.word = other_word(task.word, random),
        1 => task.end = other_word(task.end, random),
        2 => task.sending = other_word(task.sending, random),
        3 => task.wait = other_byte(task.wait, random),
        4 => task.object = other_byte(task.object, random),
        5 => task.timed = other_byte(task.timed, random),
        6 => task.code = other_byte(task.code, random),
        _ => task.flags = other_flags(task.flags, random),
    }
}

fn damage_chains(chains: &mut Chains, random: &mut Random) {
    let (link, key) = (index(random, 80), index(random, 64));
    if random.below(3) == 0 {
        chains.key[key] = other_byte(chains.key[key], random);
    } else {
        chains.link[link] = other_byte(chains.link[link], random);
    }
}

/// The cells of a table's chains: the heads of those that aren't empty and the numbers that stand in them. The table is sound.
fn cells_in_use(link: &[u8], numbers: usize) -> Vec<usize> {
    let mut cells = Vec::new();
    for head in numbers + 1..link.len() {
        let mut cell = head;
        while link[cell] != 0 {
            cells.push(cell);
            cell = usize::from(link[cell]);
            if link[cell] == 0 {
                cells.push(cell);
            }
        }
    }
    cells
}

/// One of the two tables with how many numbers it has, and its cells in use.
fn random_table<'a>(record: &'a mut Record, random: &mut Random) -> (&'a mut Chains, Vec<usize>) {
    let (chains, numbers) = if random.below(2) == 0 { (&mut record.waiting, TASKS) } else { (&mut record.messages, MESSAGES) };
    let cells = cells_in_use(&chains.link, numbers);
    (chains, cells)
}

fn damage_link(record: &mut Record, random: &mut Random) {
    let (chains, cells) = random_table(record, random);
    if cells.is_empty() {
        return damage_chains(chains, random);
    }
    let cell = random.pick(&cells);
    chains.link[cell] = match random.below(4) {
        0 => random.pick(&cells) as u8,
        1 => cell as u8,
        2 => random.below(81) as u8,
        _ => other_byte(chains.link[cell], random),
    };
}

fn damage_head(record: &mut Record, random: &mut Random) {
    let (chains, numbers) = if random.below(2) == 0 { (&mut record.waiting, TASKS) } else { (&mut record.messages, MESSAGES) };
    let head = random.between(numbers as u32 + 1, 80) as usize;
    let number = random.between(1, numbers as u32) as usize;
    chains.link[head] = number as u8;
    if random.below(2) == 0 {
        chains.link[number] = 0;
    }
}

fn damage_order(record: &mut Record, random: &mut Random) {
    let (chains, mut cells) = random_table(record, random);
    let link = &mut chains.link;
    // Two numbers stand behind each of these.
    cells.retain(|&cell| link[cell] != 0 && link[usize::from(link[cell])] != 0);
    if cells.is_empty() {
        return damage_chains(chains, random);
    }
    let cell = random.pick(&cells);
    let first = usize::from(link[cell]);
    let second = usize::from(link[first]);
    link[cell] = second as u8;
    link[first] = link[second];
    link[second] = first as u8;
}

/// Every other time the ring of a data queue at which a task waits, if there is one.
fn damage_ring(record: &mut Record, random: &mut Random) {
    let mut queue = index(random, QUEUES);
    let waiter = *random_waiter(record, random);
    let object = usize::from(waiter.object);
    // Another field may have been damaged before this one.
    if (waiter.wait == SENDING || waiter.wait == RECEIVING) && object <= QUEUES && random.percent(50) {
        queue = object;
    }
    let ring = &mut record.queues[queue].ring;
    let field = match random.below(3) {
        0 => &mut ring.head,
        1 => &mut ring.count,
        _ => &mut ring.capacity,
    };
    *field = other_byte(*field, random);
}

/// One of the tasks that wait, or any task where none does.
fn random_waiter<'a>(record: &'a mut Record, random: &mut Random) -> &'a mut Task {
    let waiters: Vec<usize> = (1..=TASKS).filter(|&task| record.tasks[task].wait != 0).collect();
    let task = if waiters.is_empty() { 1 + index(random, TASKS - 1) } else { random.pick(&waiters) };
    &mut record.tasks[task]
}

fn damage_wait(record: &mut Record, random: &mut Random) {
    let task = random_waiter(record, random);
    match random.below(3) {
        0 => task.wait = random.pick(&[0, 1, 2, 3, 4, 255]),
        1 => task.object = other_byte(task.object, random),
        _ => task.timed = random.pick(&[0, 1, 2, 255]),
    }
}

fn damage_end(record: &mut Record, random: &mut Random) {
    let counter = record.counter;
    let task = random_waiter(record, random);
    task.timed = 1;
    task.end = counter.wrapping_add(random.pick(&[0, 1, u32::MAX, FARTHEST, FARTHEST + 1, FARTHEST + 2]));
}

fn damage_priority(record: &mut Record, random: &mut Random) {
    match random.below(3) {
        0 => {
            let key = &mut record.waiting.key[index(random, TASKS)];
            *key = other_byte(*key, random);
        }
        1 => {
            let queued: Vec<usize> = cells_in_use(&record.messages.link, MESSAGES).into_iter().filter(|&cell| cell <= MESSAGES).collect();
            let message = if queued.is_empty() { 1 } else { random.pick(&queued) };
            record.messages.key[message] = other_byte(record.messages.key[message], random);
        }
        _ => {
            let highest = &mut record.mailboxes[index(random, MAILBOXES)].highest;
            *highest = other_byte(*highest, random);
        }
    }
}

fn damage_defined(record: &mut Record, random: &mut Random) {
    match random.below(3) {
        0 => record.tasks[index(random, TASKS)].flags = random.pick(&[0, 1, 2, 3, 4, 255, 257, 0x0001_0001, 0x0100_0001, u32::MAX]),
        1 => record.queues[index(random, QUEUES)].defined = random.pick(&[0, 1, 2, 255]),
        _ => record.mailboxes[index(random, MAILBOXES)].defined = random.pick(&[0, 1, 2, 255]),
    }
}
