//! Random states: sound ones, built directly and not by playing calls, and
//! ones with some numbers changed, which are mostly not sound.

use crate::random::Random;
use crate::state::*;

/// A random state that is sound.
pub fn random_sound_state(random: &mut Random) -> State {
    let counter = match random.below(4) {
        0 => 0,
        1 => u32::MAX - random.below(20),
        2 => random.below(20),
        _ => random.bits() as u32,
    };
    let mut state = State::empty(counter);
    // How full this state is to be, in percent.
    let tasks_defined = random.pick(&[30, 80, 100]);
    let objects_defined = random.pick(&[10, 50, 100]);
    for number in 1..=TASKS {
        if random.percent(tasks_defined) {
            define_task(random, &mut state.tasks[number as usize]);
        }
    }
    for number in 1..=QUEUES {
        if random.percent(objects_defined) {
            define_queue(random, &mut state.queues[number as usize]);
        }
    }
    for number in 1..=MAILBOXES {
        if random.percent(objects_defined) {
            define_mailbox(random, &mut state.mailboxes[number as usize]);
        }
    }
    place_messages(random, &mut state);
    place_waiters(random, &mut state);
    debug_assert_eq!(state.fault(), None);
    state
}

fn define_task(random: &mut Random, task: &mut Task) {
    task.exists = true;
    task.priority = random.priority();
    task.suspended = random.percent(20);
    task.code = random.pick(&[0, 0, -49, -50, -51]);
    // A wait that ended otherwise than with E_OK leaves the word 0, but the
    // section on sound records does not ask this.
    if task.code == 0 || random.percent(5) {
        task.word = random.number();
    }
}

fn define_queue(random: &mut Random, queue: &mut Queue) {
    queue.exists = true;
    queue.attribute = random.below(2);
    queue.capacity = random.pick(&[0, 1, 2, 3, 9, 15, 16]);
    let count = match random.below(3) {
        0 => 0,
        1 => queue.capacity,
        _ => random.between(0, queue.capacity),
    };
    for _ in 0..count {
        queue.words.push(random.number());
    }
}

fn define_mailbox(random: &mut Random, mailbox: &mut Mailbox) {
    mailbox.exists = true;
    mailbox.attribute = random.below(4);
    // Unused without attribute 2, where it may be any number.
    mailbox.highest = random.number();
    if mailbox.messages_by_priority() {
        mailbox.highest = random.pick(&[1, 2, 3, 4, 15, 16]);
    }
}

/// Puts some of the messages into the mailboxes, each into one at most.
fn place_messages(random: &mut Random, state: &mut State) {
    let used = random.pick(&[0, 20, 80]);
    let mut numbers: Vec<u32> = (1..=MESSAGES).collect();
    shuffle(random, &mut numbers);
    let open: Vec<u32> = (1..=MAILBOXES)
        .filter(|&number| state.mailbox(number).exists && random.percent(50))
        .collect();
    for number in numbers {
        if open.is_empty() || !random.percent(used) {
            continue;
        }
        let place = random.pick(&open) as usize;
        let mailbox = &mut state.mailboxes[place];
        let priority = match mailbox.messages_by_priority() {
            true => random.between(1, mailbox.highest),
            false => 0,
        };
        mailbox.messages.push(Message { number, priority });
    }
    for mailbox in &mut state.mailboxes {
        if mailbox.messages_by_priority() {
            // This sort keeps equals in the order in which they stand.
            mailbox.messages.sort_by_key(|message| message.priority);
        }
    }
}

/// Lets some of the defined tasks wait where a task may wait.
fn place_waiters(random: &mut Random, state: &mut State) {
    let waiting = random.pick(&[0, 30, 70, 95, 100]);
    let mut objects: Vec<u32> = (1..=QUEUES)
        .filter(|&number| state.queue(number).exists || state.mailbox(number).exists)
        .collect();
    shuffle(random, &mut objects);
    // Few objects make long lists.
    objects.truncate(random.pick(&[1, 3, 16]));
    let mut tasks: Vec<u32> = (1..=TASKS).collect();
    shuffle(random, &mut tasks);
    for task in tasks {
        if objects.is_empty() || !state.task(task).exists || !random.percent(waiting) {
            continue;
        }
        // Some attempts, since not every object has a place for a waiter.
        for _ in 0..4 {
            let object = random.pick(&objects);
            let end = random_end(random, state.counter);
            if !state.task(task).waits() {
                place_waiter(random, state, task, object, end);
            }
        }
    }
    put_in_order(state);
}

/// Places the task at the queue or mailbox of this number, if it may wait.
fn place_waiter(random: &mut Random, state: &mut State, task: u32, object: u32, end: Option<u32>) {
    let queue = &mut state.queues[object as usize];
    let mailbox = &mut state.mailboxes[object as usize];
    let entry = &mut state.tasks[task as usize];
    let choice = random.below(3);
    if choice == 0 && queue.exists && queue.full() && queue.receivers.is_empty() {
        queue.senders.push(task);
        entry.wait = Wait::Sending {
            queue: object,
            word: random.number(),
            end,
        };
    } else if choice == 1 && queue.exists && queue.words.is_empty() && queue.senders.is_empty() {
        queue.receivers.push(task);
        entry.wait = Wait::Receiving { queue: object, end };
    } else if mailbox.exists && mailbox.messages.is_empty() {
        mailbox.waiters.push(task);
        entry.wait = Wait::AtMailbox {
            mailbox: object,
            end,
        };
    } else {
        return;
    }
    // A wait sets the stored pair to 0 and 0, but the section on sound records
    // does not ask this of a waiting task.
    if random.percent(90) {
        entry.code = 0;
        entry.word = 0;
    }
}

/// No end, or an end tick that is not too far away, often the nearest or the
/// farthest one.
fn random_end(random: &mut Random, counter: u32) -> Option<u32> {
    let away = match random.below(5) {
        0 => return None,
        1 => FARTHEST_END - random.below(3),
        2 => random.between(1, FARTHEST_END),
        3 => random.between(1, 3),
        _ => random.between(1, 30),
    };
    Some(counter.wrapping_add(away))
}

/// Sorts the lists that are ordered by task priority.
fn put_in_order(state: &mut State) {
    let tasks = &state.tasks;
    for queue in &mut state.queues {
        if queue.senders_by_priority() {
            queue
                .senders
                .sort_by_key(|&task| tasks[task as usize].priority);
        }
    }
    for mailbox in &mut state.mailboxes {
        if mailbox.waiters_by_priority() {
            mailbox
                .waiters
                .sort_by_key(|&task| tasks[task as usize].priority);
        }
    }
}

fn shuffle(random: &mut Random, list: &mut [u32]) {
    for place in (1..list.len()).rev() {
        let other = random.below(place as u32 + 1) as usize;
        list.swap(place, other);
    }
}

/// A random state that is not sound: a sound one with some changes.
pub fn random_unsound_state(random: &mut Random) -> State {
    let mut state = random_sound_state(random);
    while state.sound() {
        change_state(random, &mut state);
    }
    state
}

/// Changes one thing in the state, which may be sound afterwards or not.
pub fn change_state(random: &mut Random, state: &mut State) {
    match random.below(8) {
        0 => state.counter = random.number(),
        1 => state.counter = state.counter.wrapping_add(random.between(1, 40)),
        2 | 3 => change_task(random, state),
        4 | 5 => change_queue(random, state),
        _ => change_mailbox(random, state),
    }
}

fn change_task(random: &mut Random, state: &mut State) {
    let counter = state.counter;
    let task = &mut state.tasks[random.between(1, TASKS) as usize];
    match random.below(8) {
        0 => task.exists = !task.exists,
        1 => task.priority = random.number(),
        2 => task.suspended = !task.suspended,
        3 => task.code = random.pick(&[0, -49, -50, -51, -52, 1, -17, i32::MIN]),
        4 => task.word = random.number(),
        5 => task.priority = random.pick(&[0, 1, 16, 17]),
        6 => change_end(random, &mut task.wait, counter),
        _ => task.wait = random_wait(random, counter),
    }
}

/// Another end for the wait that the task has, so that nothing but the end
/// tick may be wrong.
fn change_end(random: &mut Random, wait: &mut Wait, counter: u32) {
    match wait {
        Wait::No => {}
        Wait::Sending { end, .. } | Wait::Receiving { end, .. } | Wait::AtMailbox { end, .. } => {
            *end = any_end(random, counter)
        }
    }
}

/// Any end, often one next to a limit of a sound end tick.
fn any_end(random: &mut Random, counter: u32) -> Option<u32> {
    match random.below(4) {
        0 => Some(counter),
        1 => Some(counter.wrapping_add(FARTHEST_END + random.below(2))),
        2 => Some(random.number()),
        _ => random_end(random, counter),
    }
}

/// A wait of any kind at any object, with any end.
fn random_wait(random: &mut Random, counter: u32) -> Wait {
    let object = match random.percent(80) {
        true => random.between(1, QUEUES),
        false => random.number(),
    };
    let end = any_end(random, counter);
    match random.below(4) {
        0 => Wait::No,
        1 => Wait::Sending {
            queue: object,
            word: random.number(),
            end,
        },
        2 => Wait::Receiving { queue: object, end },
        _ => Wait::AtMailbox {
            mailbox: object,
            end,
        },
    }
}

fn change_queue(random: &mut Random, state: &mut State) {
    let queue = &mut state.queues[random.between(1, QUEUES) as usize];
    match random.below(7) {
        0 => queue.exists = !queue.exists,
        1 => queue.attribute = random.pick(&[0, 1, 2, 3, u32::MAX]),
        2 => queue.capacity = random.pick(&[0, 1, 2, 16, 17, u32::MAX]),
        3 => queue.words.push(random.number()),
        4 => drop(queue.words.pop()),
        5 => change_list(random, &mut queue.senders),
        _ => change_list(random, &mut queue.receivers),
    }
}

fn change_mailbox(random: &mut Random, state: &mut State) {
    let mailbox = &mut state.mailboxes[random.between(1, MAILBOXES) as usize];
    let count = mailbox.messages.len() as u32;
    match random.below(9) {
        0 => mailbox.exists = !mailbox.exists,
        1 => mailbox.attribute = random.pick(&[0, 1, 2, 3, 4, u32::MAX]),
        2 => mailbox.highest = random.number(),
        3 => change_list(random, &mut mailbox.waiters),
        4 => drop(mailbox.messages.pop()),
        5 if count > 1 => mailbox.messages.swap(0, random.below(count) as usize),
        6 if count > 0 => {
            let place = random.below(count) as usize;
            mailbox.messages[place].priority = random.number();
        }
        7 if count > 0 => {
            let place = random.below(count) as usize;
            mailbox.messages[place].number = random.number();
        }
        _ => {
            let number = random.number();
            mailbox.messages.push(Message {
                number,
                priority: random.priority(),
            });
        }
    }
}

/// Adds a number, takes one out, or exchanges two.
fn change_list(random: &mut Random, list: &mut Vec<u32>) {
    let count = list.len() as u32;
    match random.below(4) {
        0 => list.push(random.number()),
        1 => list.push(random.between(1, TASKS)),
        2 if count > 0 => drop(list.remove(random.below(count) as usize)),
        3 if count > 1 => list.swap(0, random.below(count) as usize),
        _ => {}
    }
}
