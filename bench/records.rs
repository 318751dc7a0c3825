// Records for the soundness test of the kernel's state, with the answers that a naive reading of document 01, 'A sound record', gives for them.
// The script bench/records runs both of these:
// `records corpus STDIN STDOUT` writes a file of records, hand-made and random, and the file of the lines that are expected for them.
// `records compare PROGRAM COUNT SEED` hands random records to a program and compares its lines with the naive reading. PROGRAM may have
// arguments, with a space before each. The comparison also fails where one of the sentences was never the first that didn't hold, so COUNT
// should be 20,000 or more.
//
// A program reads records from its standard input and prints for each its label and ': sound' or ': not sound'. `encode` says how a record is
// written.
use std::io::{Read, Write};
use std::process::{exit, Command, Stdio};
use Kind::*;
use Odd::*;
use Sentence::*;

const TASKS: usize = 32;
const OBJECTS: usize = 16;
const MESSAGES: usize = 64;

// The latest end tick, in ticks from now (document 02, item 1).
const FARTHEST: u32 = 2_147_483_647;

// ── A state ──

// Entry n of each list belongs to number n, and entry 0 to nobody.
#[derive(Clone)]
struct State {
    counter: u32,
    tasks: Vec<Task>,
    queues: Vec<Queue>,
    mailboxes: Vec<Mailbox>,
    messages: Vec<Message>,
    // The record keeps priorities for up to 64 numbers. There are 32 tasks, so half of those beside the tasks belong to nobody.
    spare_priorities: Vec<u8>,
    // What a record may hold and the lists above can't say. A later one replaces an earlier one.
    odd: Vec<Odd>,
}

// A number that says nothing, where the record has one that says something: of a task its flags (4 or more), its wait (4 or more) or whether
// that is timed (2 or more), of an object whether it is defined (2 or more).
#[derive(Clone, Copy, Debug)]
enum Odd {
    Flags(usize, u32),
    WaitNumber(usize, u8),
    Timed(usize, u8),
    QueueDefined(usize, u8),
    MailboxDefined(usize, u8),
}

#[derive(Clone, Default, Debug)]
struct Task {
    defined: bool,
    suspended: bool,
    priority: u8,
    wait: Option<Wait>,
    // The stored pair.
    code: i32,
    word: u32,
    // The task behind this one in its chain, 0 for none.
    next: u8,
}

#[derive(Clone, Copy, PartialEq, Debug)]
enum Kind {
    Sending,
    Receiving,
    AtMailbox,
}

#[derive(Clone, Debug)]
struct Wait {
    kind: Kind,
    object: u8,
    // The end tick, where the wait has one.
    end: Option<u32>,
    // The word to be sent.
    word: u32,
}

#[derive(Clone, Default, Debug)]
struct Queue {
    defined: bool,
    attribute: u8,
    ring_head: u8,
    count: u8,
    capacity: u8,
    first_sender: u8,
    first_receiver: u8,
}

#[derive(Clone, Default, Debug)]
struct Mailbox {
    defined: bool,
    attribute: u8,
    highest: u8,
    first_waiter: u8,
    first_message: u8,
}

#[derive(Clone, Default, Debug)]
struct Message {
    priority: u8,
    next: u8,
}

impl State {
    fn empty() -> State {
        State {
            counter: 0,
            tasks: vec![Task::default(); TASKS + 1],
            queues: vec![Queue::default(); OBJECTS + 1],
            mailboxes: vec![Mailbox::default(); OBJECTS + 1],
            messages: vec![Message::default(); MESSAGES + 1],
            spare_priorities: vec![0; MESSAGES - TASKS],
            odd: Vec::new(),
        }
    }

    // The cell that holds the first task of a chain.
    fn head(&mut self, kind: Kind, object: usize) -> &mut u8 {
        match kind {
            Sending => &mut self.queues[object].first_sender,
            Receiving => &mut self.queues[object].first_receiver,
            AtMailbox => &mut self.mailboxes[object].first_waiter,
        }
    }

    fn define_task(&mut self, task: usize, priority: u8) {
        self.tasks[task] = Task { defined: true, priority, ..Task::default() };
    }

    fn define_queue(&mut self, queue: usize, attribute: u8, capacity: u8, count: u8) {
        let (first_sender, first_receiver) = (0, 0);
        self.queues[queue] = Queue { defined: true, attribute, ring_head: 0, count, capacity, first_sender, first_receiver };
    }

    fn define_mailbox(&mut self, mailbox: usize, attribute: u8, highest: u8) {
        self.mailboxes[mailbox] = Mailbox { defined: true, attribute, highest, first_waiter: 0, first_message: 0 };
    }

    // These tasks wait here for ever, in this order.
    fn wait(&mut self, kind: Kind, object: usize, waiters: &[usize]) {
        let mut first = 0;
        for &task in waiters.iter().rev() {
            self.tasks[task].wait = Some(Wait { kind, object: object as u8, end: None, word: 7 });
            self.tasks[task].next = first;
            first = task as u8;
        }
        *self.head(kind, object) = first;
    }

    // These messages are queued here, in this order.
    fn post(&mut self, mailbox: usize, queued: &[usize]) {
        let mut first = 0;
        for &message in queued.iter().rev() {
            self.messages[message].next = first;
            first = message as u8;
        }
        self.mailboxes[mailbox].first_message = first;
    }

    // Sets the end tick of a task that waits.
    fn set_end(&mut self, task: usize, tick: u32) {
        if let Some(wait) = &mut self.tasks[task].wait {
            wait.end = Some(tick);
        }
    }

    // Sets the object that a waiting task names.
    fn set_object(&mut self, task: usize, object: u8) {
        if let Some(wait) = &mut self.tasks[task].wait {
            wait.object = object;
        }
    }
}

// ── The naive reading ──

// The sentences of document 01, 'A sound record', one for each thing that can be wrong.
#[derive(Clone, Copy, PartialEq, Debug)]
enum Sentence {
    EachNumberSays,
    ObjectNumbers,
    TaskNumbers,
    TaskChainsEnd,
    MessageNumbers,
    MessageChainsEnd,
    InItsChain,
    NowhereElse,
    NoOtherTask,
    MessageOnce,
    SendersInOrder,
    WaitersInOrder,
    MessagesInOrder,
    CountFits,
    SendersAtFull,
    SendersApart,
    ReceiversAtEmpty,
    WaitersAtEmpty,
    QueueNoWaiter,
    QueueNoWord,
    MailboxNoWaiter,
    MailboxNoMessage,
    TaskNoWait,
    TaskNotSuspended,
    TaskPriorities,
    QueueAttributes,
    Capacities,
    RingHeads,
    MailboxAttributes,
    HighestPriorities,
    KeptPriorities,
    StoredCodes,
    EndTicks,
}

// In the order in which the reading comes to them.
const SENTENCES: [(Sentence, &str); 33] = [
    (EachNumberSays, "each number says something"),
    (ObjectNumbers, "a wait names an object from 1 to 16"),
    (TaskNumbers, "a chain of tasks has numbers from 1 to 32"),
    (TaskChainsEnd, "a chain of tasks ends after 32 or fewer"),
    (MessageNumbers, "a chain of messages has numbers from 1 to 64"),
    (MessageChainsEnd, "a chain of messages ends after 64 or fewer"),
    (InItsChain, "a waiting task stands once in the chain that it names"),
    (NowhereElse, "a waiting task stands in no other chain"),
    (NoOtherTask, "chains hold waiting tasks only"),
    (MessageOnce, "a message stands in at most one mailbox, once"),
    (SendersInOrder, "senders by priority are in order"),
    (WaitersInOrder, "mailbox waiters by priority are in order"),
    (MessagesInOrder, "messages by priority are in order"),
    (CountFits, "the stored count is at most the capacity"),
    (SendersAtFull, "senders wait only at a full queue"),
    (SendersApart, "senders and receivers don't wait at the same queue"),
    (ReceiversAtEmpty, "receivers wait only at an empty queue"),
    (WaitersAtEmpty, "mailbox waiters wait only at an empty mailbox"),
    (QueueNoWaiter, "an undefined queue has no waiters"),
    (QueueNoWord, "an undefined queue has no words"),
    (MailboxNoWaiter, "an undefined mailbox has no waiters"),
    (MailboxNoMessage, "an undefined mailbox has no messages"),
    (TaskNoWait, "an undefined task has no wait"),
    (TaskNotSuspended, "an undefined task is not suspended"),
    (TaskPriorities, "a task priority is 1 to 16"),
    (QueueAttributes, "a queue attribute is 0 or 1"),
    (Capacities, "a capacity is at most 16"),
    (RingHeads, "a ring starts at a place from 0 to 15"),
    (MailboxAttributes, "a mailbox attribute is 0 to 3"),
    (HighestPriorities, "with attribute 2 or 3 the highest message priority is 1 to 16"),
    (KeptPriorities, "a kept message priority is 1 to its mailbox's highest"),
    (StoredCodes, "a stored code is 0, -49, -50 or -51"),
    (EndTicks, "an end tick is 1 to 2,147,483,647 ticks away"),
];

// The first sentence that doesn't hold, if there is one.
type Reading = Result<(), Sentence>;

fn require(holds: bool, sentence: Sentence) -> Reading {
    if holds {
        Ok(())
    } else {
        Err(sentence)
    }
}

// All chains of a state, by the number of their object.
struct Chains {
    senders: Vec<Vec<usize>>,
    receivers: Vec<Vec<usize>>,
    waiters: Vec<Vec<usize>>,
    messages: Vec<Vec<usize>>,
}

fn read(state: &State) -> Reading {
    each_number_says_something(state)?;
    let chains = read_chains(state)?;
    tasks_stand_where_they_wait(state, &chains)?;
    messages_stand_once(&chains)?;
    priorities_are_in_order(state, &chains)?;
    waits_fit_the_queues(state, &chains)?;
    waits_fit_the_mailboxes(state, &chains)?;
    undefined_objects_are_empty(state, &chains)?;
    undefined_tasks_do_nothing(state)?;
    numbers_and_attributes_are_in_range(state)?;
    kept_priorities_are_in_range(state, &chains)?;
    stored_codes_end_a_wait(state)?;
    end_ticks_are_ahead(state)
}

fn each_number_says_something(state: &State) -> Reading {
    // Numbers are in range. Whether a wait is timed is kept only where there is one, and entry 0 belongs to nobody.
    for odd in &state.odd {
        let kept = match *odd {
            Timed(task, _) => task != 0 && state.tasks[task].wait.is_some(),
            Flags(number, _) | WaitNumber(number, _) | QueueDefined(number, _) | MailboxDefined(number, _) => number != 0,
        };
        require(!kept, EachNumberSays)?;
    }
    Ok(())
}

// The numbers from `first` on. A number is in range from 1 to `most`; a chain is followed for at most `most` of them, and one that is
// longer, or comes round, isn't sound. A cell of a number that no chain comes to is never looked at.
fn follow(next: &[u8], first: u8, most: usize, in_range: Sentence, ends: Sentence) -> Result<Vec<usize>, Sentence> {
    let mut members = Vec::new();
    let mut number = first as usize;
    while number != 0 {
        require(number <= most, in_range)?;
        require(members.len() < most, ends)?;
        members.push(number);
        number = next[number] as usize;
    }
    Ok(members)
}

fn read_chains(state: &State) -> Result<Chains, Sentence> {
    // Numbers are in range: a wait names an object that can be there. This comes first because the next sentences look at the chain of that
    // object.
    for task in &state.tasks[1..] {
        if let Some(wait) = &task.wait {
            require((1..=OBJECTS).contains(&(wait.object as usize)), ObjectNumbers)?;
        }
    }
    let behind_task: Vec<u8> = state.tasks.iter().map(|task| task.next).collect();
    let behind_message: Vec<u8> = state.messages.iter().map(|message| message.next).collect();
    let none = || vec![Vec::new()];
    let mut chains = Chains { senders: none(), receivers: none(), waiters: none(), messages: none() };
    // A chain is followed from its head for at most 32 tasks, or 64 messages.
    for number in 1..=OBJECTS {
        let (queue, mailbox) = (&state.queues[number], &state.mailboxes[number]);
        let tasks = |first| follow(&behind_task, first, TASKS, TaskNumbers, TaskChainsEnd);
        chains.senders.push(tasks(queue.first_sender)?);
        chains.receivers.push(tasks(queue.first_receiver)?);
        chains.waiters.push(tasks(mailbox.first_waiter)?);
        chains.messages.push(follow(&behind_message, mailbox.first_message, MESSAGES, MessageNumbers, MessageChainsEnd)?);
    }
    Ok(chains)
}

// Where a task stands: kind and object of each chain, as often as the chain has the task.
fn places_of(task: usize, chains: &Chains) -> Vec<(Kind, usize)> {
    let mut places = Vec::new();
    for (kind, lists) in [(Sending, &chains.senders), (Receiving, &chains.receivers), (AtMailbox, &chains.waiters)] {
        for (object, list) in lists.iter().enumerate() {
            for _ in list.iter().filter(|member| **member == task) {
                places.push((kind, object));
            }
        }
    }
    places
}

fn tasks_stand_where_they_wait(state: &State, chains: &Chains) -> Reading {
    for task in 1..=TASKS {
        let places = places_of(task, chains);
        match &state.tasks[task].wait {
            Some(wait) => {
                // A waiting task stands once in the chain of the object and kind that it names,
                let named = (wait.kind, wait.object as usize);
                require(places.iter().filter(|place| **place == named).count() == 1, InItsChain)?;
                // and nowhere else.
                require(places.len() == 1, NowhereElse)?;
            }
            // Chains hold no task that doesn't wait.
            None => require(places.is_empty(), NoOtherTask)?,
        }
    }
    Ok(())
}

fn messages_stand_once(chains: &Chains) -> Reading {
    // A message stands in at most one mailbox, once.
    for message in 1..=MESSAGES {
        let times = chains.messages.iter().flatten().filter(|member| **member == message).count();
        require(times <= 1, MessageOnce)?;
    }
    Ok(())
}

fn never_falls(priorities: &[u8]) -> bool {
    priorities.windows(2).all(|pair| pair[0] <= pair[1])
}

fn priorities_are_in_order(state: &State, chains: &Chains) -> Reading {
    let of_tasks = |list: &[usize]| -> Vec<u8> { list.iter().map(|task| state.tasks[*task].priority).collect() };
    let of_messages = |list: &[usize]| -> Vec<u8> { list.iter().map(|message| state.messages[*message].priority).collect() };
    for number in 1..=OBJECTS {
        let (queue, mailbox) = (&state.queues[number], &state.mailboxes[number]);
        // Senders wait by priority with attribute 1; then no larger number stands before a smaller. Receivers never wait by priority.
        let by_priority = queue.defined && queue.attribute == 1;
        require(!by_priority || never_falls(&of_tasks(&chains.senders[number])), SendersInOrder)?;
        // Tasks wait at a mailbox by priority with attribute 1 or 3.
        let by_priority = mailbox.defined && [1, 3].contains(&mailbox.attribute);
        require(!by_priority || never_falls(&of_tasks(&chains.waiters[number])), WaitersInOrder)?;
        // Messages are queued by priority with attribute 2 or 3.
        require(!keeps_priorities(mailbox) || never_falls(&of_messages(&chains.messages[number])), MessagesInOrder)?;
    }
    Ok(())
}

// Without attribute 2 priorities are ignored and not kept; nor is the highest.
fn keeps_priorities(mailbox: &Mailbox) -> bool {
    mailbox.defined && [2, 3].contains(&mailbox.attribute)
}

fn waits_fit_the_queues(state: &State, chains: &Chains) -> Reading {
    for number in 1..=OBJECTS {
        let queue = &state.queues[number];
        let (senders, receivers) = (&chains.senders[number], &chains.receivers[number]);
        if queue.defined {
            // The stored count is at most the capacity.
            require(queue.count <= queue.capacity, CountFits)?;
            // Senders wait only at a full queue
            require(senders.is_empty() || queue.count == queue.capacity, SendersAtFull)?;
            // with no receiver. That receivers wait only at a queue with no sender says the same.
            require(senders.is_empty() || receivers.is_empty(), SendersApart)?;
            // Receivers wait only at an empty queue.
            require(receivers.is_empty() || queue.count == 0, ReceiversAtEmpty)?;
        }
    }
    Ok(())
}

fn waits_fit_the_mailboxes(state: &State, chains: &Chains) -> Reading {
    // Tasks wait only at an empty mailbox.
    for number in 1..=OBJECTS {
        if state.mailboxes[number].defined {
            require(chains.waiters[number].is_empty() || chains.messages[number].is_empty(), WaitersAtEmpty)?;
        }
    }
    Ok(())
}

fn undefined_objects_are_empty(state: &State, chains: &Chains) -> Reading {
    for number in 1..=OBJECTS {
        let (queue, mailbox) = (&state.queues[number], &state.mailboxes[number]);
        // An undefined queue has empty chains and no words.
        if !queue.defined {
            require(chains.senders[number].is_empty() && chains.receivers[number].is_empty(), QueueNoWaiter)?;
            require(queue.count == 0, QueueNoWord)?;
        }
        // An undefined mailbox has empty chains.
        if !mailbox.defined {
            require(chains.waiters[number].is_empty(), MailboxNoWaiter)?;
            require(chains.messages[number].is_empty(), MailboxNoMessage)?;
        }
    }
    Ok(())
}

fn undefined_tasks_do_nothing(state: &State) -> Reading {
    // An undefined task has no wait and no suspension.
    for task in state.tasks[1..].iter().filter(|task| !task.defined) {
        require(task.wait.is_none(), TaskNoWait)?;
        require(!task.suspended, TaskNotSuspended)?;
    }
    Ok(())
}

fn numbers_and_attributes_are_in_range(state: &State) -> Reading {
    // Task priorities are 1 to 16.
    for task in state.tasks[1..].iter().filter(|task| task.defined) {
        require((1..=16).contains(&task.priority), TaskPriorities)?;
    }
    for queue in state.queues[1..].iter().filter(|queue| queue.defined) {
        // A queue's attribute is 0 or 1, its capacity 0 to 16 words, and its ring starts at one of 16 places.
        require(queue.attribute <= 1, QueueAttributes)?;
        require(queue.capacity <= 16, Capacities)?;
        require(queue.ring_head <= 15, RingHeads)?;
    }
    for mailbox in state.mailboxes[1..].iter().filter(|mailbox| mailbox.defined) {
        // A mailbox's attribute is 0 to 3, and with attribute 2 or 3 its highest message priority is 1 to 16.
        require(mailbox.attribute <= 3, MailboxAttributes)?;
        require(!keeps_priorities(mailbox) || (1..=16).contains(&mailbox.highest), HighestPriorities)?;
    }
    Ok(())
}

fn kept_priorities_are_in_range(state: &State, chains: &Chains) -> Reading {
    // A kept message priority is 1 to its mailbox's highest.
    for (mailbox, queued) in state.mailboxes.iter().zip(&chains.messages).skip(1) {
        for message in queued {
            let priority = state.messages[*message].priority;
            require(!keeps_priorities(mailbox) || (1..=mailbox.highest).contains(&priority), KeptPriorities)?;
        }
    }
    Ok(())
}

fn stored_codes_end_a_wait(state: &State) -> Reading {
    // A stored code is 0, -49, -50 or -51.
    for task in state.tasks[1..].iter().filter(|task| task.defined) {
        require([0, -49, -50, -51].contains(&task.code), StoredCodes)?;
    }
    Ok(())
}

fn end_ticks_are_ahead(state: &State) -> Reading {
    // An end tick is 1 to 2,147,483,647 ticks away (document 02, item 1). The counter goes from 4,294,967,295 to 0.
    for wait in state.tasks[1..].iter().filter_map(|task| task.wait.as_ref()) {
        if let Some(tick) = wait.end {
            let away = (tick as u64 + (1 << 32) - state.counter as u64) % (1 << 32);
            require((1..=FARTHEST as u64).contains(&away), EndTicks)?;
        }
    }
    Ok(())
}

// ── The stream ──

// Where the tasks, the data queues and the mailboxes start in a record.
const TASKS_AT: usize = 64;
const QUEUES_AT: usize = 870;
const MAILBOXES_AT: usize = 955;

// A record has 1,152 bytes, numbers with their lowest byte first: the label (60 bytes, zeros behind it), the counter (4), the tasks (20 each),
// the table of waiting tasks (81 and 65), the data queues (5 each), the mailboxes (3 each), the table of queued messages (81 and 65). Entry 0
// of each is there too.
fn encode(label: &str, state: &State) -> Vec<u8> {
    assert!(label.is_ascii() && label.len() <= 60, "no label: {label}");
    let mut bytes = label.as_bytes().to_vec();
    bytes.resize(60, 0);
    bytes.extend(state.counter.to_le_bytes());
    for task in &state.tasks {
        encode_task(&mut bytes, task);
    }
    encode_waiting(&mut bytes, state);
    for queue in &state.queues {
        bytes.extend([queue.defined as u8, queue.attribute, queue.ring_head, queue.count, queue.capacity]);
    }
    for mailbox in &state.mailboxes {
        bytes.extend([mailbox.defined as u8, mailbox.attribute, mailbox.highest]);
    }
    // The message behind each message, then the first one of each mailbox, then the priorities.
    bytes.extend(state.messages.iter().map(|message| message.next));
    bytes.extend(state.mailboxes[1..].iter().map(|mailbox| mailbox.first_message));
    bytes.extend(state.messages.iter().map(|message| message.priority));
    assert_eq!(bytes.len(), 1152);
    for odd in &state.odd {
        encode_odd(&mut bytes, *odd);
    }
    bytes
}

// Stored word, end tick, word to be sent; kind of wait (0 for none), object, 1 where there is an end tick, code without its minus sign; flags, a
// sum: 1 defined, 2 suspended.
fn encode_task(bytes: &mut Vec<u8>, task: &Task) {
    let kind = task.wait.as_ref().map_or(0, |wait| 1 + wait.kind as u8);
    let object = task.wait.as_ref().map_or(0, |wait| wait.object);
    let end = task.wait.as_ref().and_then(|wait| wait.end);
    let word = task.wait.as_ref().map_or(0, |wait| wait.word);
    let code = u8::try_from(-task.code).expect("a code");
    for number in [task.word, end.unwrap_or(0), word] {
        bytes.extend(number.to_le_bytes());
    }
    bytes.extend([kind, object, end.is_some() as u8, code]);
    bytes.extend((task.defined as u32 + 2 * task.suspended as u32).to_le_bytes());
}

fn encode_odd(bytes: &mut [u8], odd: Odd) {
    match odd {
        Flags(task, number) => bytes[TASKS_AT + 20 * task + 16..][..4].copy_from_slice(&number.to_le_bytes()),
        WaitNumber(task, number) => bytes[TASKS_AT + 20 * task + 12] = number,
        Timed(task, number) => bytes[TASKS_AT + 20 * task + 14] = number,
        QueueDefined(queue, number) => bytes[QUEUES_AT + 5 * queue] = number,
        MailboxDefined(mailbox, number) => bytes[MAILBOXES_AT + 3 * mailbox] = number,
    }
}

// The task behind each task, then the first one of each chain, then the priorities.
fn encode_waiting(bytes: &mut Vec<u8>, state: &State) {
    bytes.extend(state.tasks.iter().map(|task| task.next));
    bytes.extend(state.queues[1..].iter().map(|queue| queue.first_sender));
    bytes.extend(state.queues[1..].iter().map(|queue| queue.first_receiver));
    bytes.extend(state.mailboxes[1..].iter().map(|mailbox| mailbox.first_waiter));
    bytes.extend(state.tasks.iter().map(|task| task.priority));
    bytes.extend(&state.spare_priorities);
}

// The line that a program has to print for a record.
fn expected_line(label: &str, state: &State) -> String {
    let answer = if read(state).is_ok() { "sound" } else { "not sound" };
    format!("{label}: {answer}")
}

// ── Hand-made records ──

// A label, the first sentence that doesn't hold, if there is one, and what is done to the typical state.
type HandMade = (&'static str, Option<Sentence>, fn(&mut State));

// Twelve tasks, five data queues, five mailboxes. Tasks 1 to 8 wait, seven messages are queued.
fn typical() -> State {
    let mut state = State::empty();
    state.counter = 1000;
    for (task, priority) in [(1, 5), (2, 3), (3, 2), (4, 6), (5, 16), (6, 4), (7, 1), (8, 9), (9, 7), (10, 7), (11, 7), (12, 7)] {
        state.define_task(task, priority);
    }
    state.define_queue(1, 0, 2, 2);
    state.wait(Sending, 1, &[1, 2]);
    state.define_queue(2, 1, 0, 0);
    state.wait(Sending, 2, &[3, 4]);
    state.define_queue(3, 0, 4, 0);
    state.wait(Receiving, 3, &[5]);
    state.define_queue(4, 0, 3, 1);
    state.define_queue(5, 1, 16, 7);
    state.queues[5].ring_head = 12;
    state.define_mailbox(1, 0, 0);
    state.wait(AtMailbox, 1, &[6]);
    state.define_mailbox(2, 1, 0);
    state.wait(AtMailbox, 2, &[7, 8]);
    state.define_mailbox(3, 2, 4);
    state.define_mailbox(4, 3, 16);
    state.define_mailbox(5, 0, 0);
    for (message, priority) in [(5, 1), (6, 3), (7, 4), (20, 10), (21, 16)] {
        state.messages[message].priority = priority;
    }
    state.post(3, &[5, 6, 7]);
    state.post(4, &[20, 21]);
    state.post(5, &[31, 30]);
    state.set_end(2, 1500);
    state.tasks[9].suspended = true;
    state.tasks[10].code = -50;
    state
}

// All tasks wait, two at each of 16 full queues. All messages are queued, four in each mailbox. Everything is by priority.
fn full() -> State {
    let mut state = State::empty();
    for task in 1..=TASKS {
        state.define_task(task, 1 + (task as u8 % 2) * 3);
        state.tasks[task].suspended = task % 3 == 0;
    }
    for message in 1..=MESSAGES {
        state.messages[message].priority = 1 + message as u8 % 4;
    }
    for number in 1..=OBJECTS {
        state.define_queue(number, 1, 16, 16);
        state.queues[number].ring_head = number as u8 - 1;
        state.wait(Sending, number, &[2 * number, 2 * number - 1]);
        state.define_mailbox(number, 3, 4);
        let last = 4 * number;
        state.post(number, &[last, last - 3, last - 2, last - 1]);
    }
    for task in 1..=TASKS {
        state.set_end(task, 1500 + task as u32);
    }
    state
}

// All tasks wait in one chain, the last one first.
fn one_long_chain(state: &mut State) {
    *state = State::empty();
    for task in 1..=TASKS {
        state.define_task(task, 16 - (task as u8 - 1) / 2);
    }
    state.define_mailbox(16, 1, 0);
    let waiters: Vec<usize> = (1..=TASKS).rev().collect();
    state.wait(AtMailbox, 16, &waiters);
}

// All messages are queued in one mailbox, the last one first.
fn one_full_mailbox(state: &mut State) {
    *state = State::empty();
    state.define_mailbox(16, 2, 16);
    for message in 1..=MESSAGES {
        state.messages[message].priority = 16 - (message as u8 - 1) / 4;
    }
    let queued: Vec<usize> = (1..=MESSAGES).rev().collect();
    state.post(16, &queued);
}

// One task waits, where nothing is wrong with that, and then names another object and kind.
fn misnamed(state: &mut State, stands: (Kind, usize), names: (Kind, u8)) {
    *state = State::empty();
    state.define_task(1, 5);
    for number in [1, 16] {
        state.define_queue(number, 0, 0, 0);
        state.define_mailbox(number, 0, 0);
    }
    state.wait(stands.0, stands.1, &[1]);
    state.tasks[1].wait = Some(Wait { kind: names.0, object: names.1, end: None, word: 0 });
}

// Everything that belongs to number 0 breaks a sentence.
fn any_numbers_at_zero(state: &mut State) {
    let wait = Some(Wait { kind: AtMailbox, object: 99, end: Some(state.counter), word: 9 });
    state.tasks[0] = Task { defined: true, suspended: true, priority: 99, wait, code: -5, word: 9, next: 99 };
    state.queues[0] = Queue { defined: true, attribute: 99, ring_head: 99, count: 99, capacity: 98, ..Queue::default() };
    state.mailboxes[0] = Mailbox { defined: true, attribute: 99, highest: 99, ..Mailbox::default() };
    state.messages[0] = Message { priority: 99, next: 99 };
    state.odd.extend([Flags(0, 99), WaitNumber(0, 99), Timed(0, 99), QueueDefined(0, 99), MailboxDefined(0, 99)]);
}

// Priority, code and word of an undefined task, attribute, ring and capacity of an undefined queue, attribute and highest of an undefined
// mailbox.
fn any_numbers_in_the_undefined(state: &mut State) {
    state.tasks[13] = Task { priority: 99, code: -99, word: 9, next: 99, ..Task::default() };
    state.queues[6] = Queue { attribute: 99, ring_head: 99, capacity: 99, ..Queue::default() };
    state.mailboxes[6] = Mailbox { attribute: 99, highest: 99, ..Mailbox::default() };
}

// What stands behind a task or message that is in no chain, its priority, and the priorities that belong to nobody.
fn any_numbers_in_unused_cells(state: &mut State) {
    state.tasks[9].next = 9;
    state.tasks[10].next = 1;
    state.tasks[11].next = 255;
    state.messages[1] = Message { priority: 255, next: 1 };
    state.messages[2] = Message { priority: 0, next: 5 };
    state.spare_priorities.fill(255);
}

const SOUND: [HandMade; 29] = [
    ("nothing defined", None, |s| *s = State::empty()),
    ("a typical state", None, |_| {}),
    ("a full state", None, |s| *s = full()),
    ("32 tasks in one chain", None, one_long_chain),
    ("64 messages in one mailbox", None, one_full_mailbox),
    ("a sender waits at a queue of capacity 0", None, |s| {
        *s = State::empty();
        s.define_task(1, 5);
        s.define_queue(1, 0, 0, 0);
        s.wait(Sending, 1, &[1])
    }),
    ("a receiver waits at a queue of capacity 0", None, |s| s.queues[3].capacity = 0),
    ("an end tick 1 tick away", None, |s| s.set_end(2, 1001)),
    ("an end tick 2,147,483,647 ticks away", None, |s| s.set_end(2, 1000 + FARTHEST)),
    ("an end tick 1 tick away, behind the counter's wrap", None, |s| {
        s.counter = u32::MAX;
        s.set_end(2, 0)
    }),
    ("an end tick 2,147,483,647 ticks away, behind the wrap", None, |s| {
        s.counter = u32::MAX;
        s.set_end(2, FARTHEST - 1)
    }),
    ("the counter at its last number, no end tick", None, |s| {
        s.counter = u32::MAX;
        s.tasks[2].wait.as_mut().unwrap().end = None
    }),
    ("any numbers in cells 0", None, any_numbers_at_zero),
    ("any numbers in undefined things", None, any_numbers_in_the_undefined),
    ("any numbers in unused cells", None, any_numbers_in_unused_cells),
    ("any number for a timed wait where there is no wait", None, |s| s.odd.push(Timed(9, 2))),
    ("any number as highest priority without attribute 2", None, |s| s.mailboxes[2].highest = 99),
    ("any numbers in priorities of messages without attribute 2", None, |s| {
        s.messages[31].priority = 99;
        s.messages[30].priority = 0
    }),
    ("equal priorities of senders", None, |s| s.tasks[4].priority = 2),
    ("equal priorities of mailbox waiters", None, |s| s.tasks[8].priority = 1),
    ("equal priorities of messages", None, |s| s.messages[7].priority = 3),
    ("senders by arrival, a larger priority first", None, |s| s.tasks[1].priority = 16),
    ("receivers of a queue by priority, a larger one first", None, |s| {
        s.queues[3].attribute = 1;
        s.wait(Receiving, 3, &[5, 11])
    }),
    ("mailbox waiters by arrival, a larger priority first", None, |s| {
        s.mailboxes[2].attribute = 0;
        s.wait(AtMailbox, 2, &[8, 7])
    }),
    ("a suspended waiter", None, |s| s.tasks[3].suspended = true),
    ("a ring that starts at the last place", None, |s| s.queues[1].ring_head = 15),
    ("codes of ended waits, with words", None, |s| {
        s.tasks[11].code = -51;
        s.tasks[12].code = -49;
        s.tasks[12].word = u32::MAX
    }),
    ("a waiting task with a stored code of an earlier wait", None, |s| s.tasks[3].code = -50),
    ("task priorities 1 and 16", None, |s| {
        s.tasks[9].priority = 1;
        s.tasks[10].priority = 16
    }),
];

const WRONG_CHAINS: [HandMade; 20] = [
    ("a chain of senders comes round to its first", Some(TaskChainsEnd), |s| s.tasks[2].next = 1),
    ("a waiting task behind itself", Some(TaskChainsEnd), |s| s.tasks[8].next = 8),
    ("32 tasks in one chain that comes round", Some(TaskChainsEnd), |s| {
        one_long_chain(s);
        s.tasks[1].next = 32
    }),
    ("a chain of messages comes round to its first", Some(MessageChainsEnd), |s| s.messages[7].next = 5),
    ("a message behind itself", Some(MessageChainsEnd), |s| s.messages[21].next = 21),
    ("64 messages in one mailbox, coming round", Some(MessageChainsEnd), |s| {
        one_full_mailbox(s);
        s.messages[1].next = 64
    }),
    ("task 33 at the head of a chain", Some(TaskNumbers), |s| s.queues[4].first_sender = 33),
    ("task 33 behind a waiting task", Some(TaskNumbers), |s| s.tasks[5].next = 33),
    ("task 255 behind a waiting task", Some(TaskNumbers), |s| s.tasks[5].next = 255),
    ("message 65 in a mailbox", Some(MessageNumbers), |s| s.messages[7].next = 65),
    ("a waiting task in no chain", Some(InItsChain), |s| s.queues[3].first_receiver = 0),
    ("a waiting task in another queue's chain", Some(InItsChain), |s| s.set_object(4, 1)),
    ("a sender in the chain of receivers", Some(InItsChain), |s| {
        s.tasks[5].wait.as_mut().unwrap().kind = Sending;
        s.queues[3].capacity = 0
    }),
    ("a mailbox waiter in the chain of a queue", Some(InItsChain), |s| s.tasks[5].wait.as_mut().unwrap().kind = AtMailbox),
    ("two chains with a task in common", Some(NowhereElse), |s| s.tasks[2].next = 3),
    ("a waiting task at the head of two chains", Some(NowhereElse), |s| s.queues[1].first_receiver = 5),
    ("a task in a chain that doesn't wait", Some(NoOtherTask), |s| s.tasks[5].next = 9),
    ("an undefined task in a chain that doesn't wait", Some(NoOtherTask), |s| s.tasks[5].next = 13),
    ("a message in two mailboxes", Some(MessageOnce), |s| s.messages[30].next = 5),
    ("a message at the head of two mailboxes", Some(MessageOnce), |s| s.mailboxes[3].first_message = 20),
];

// Where all chains of tasks are numbered in one row, senders before receivers before mailbox waiters, a number out of range may come to
// another kind's chain.
const WRONG_OBJECTS: [HandMade; 10] = [
    ("a wait at queue 0", Some(ObjectNumbers), |s| s.set_object(5, 0)),
    ("a wait at queue 17", Some(ObjectNumbers), |s| s.set_object(5, 17)),
    ("a wait at mailbox 0", Some(ObjectNumbers), |s| s.set_object(6, 0)),
    ("a wait at mailbox 17", Some(ObjectNumbers), |s| s.set_object(6, 17)),
    ("sender at queue 17, in the chain of receivers of queue 1", Some(ObjectNumbers), |s| misnamed(s, (Receiving, 1), (Sending, 17))),
    ("receiver at queue 0, in the chain of senders of queue 16", Some(ObjectNumbers), |s| misnamed(s, (Sending, 16), (Receiving, 0))),
    ("receiver at queue 17, in the chain of mailbox 1", Some(ObjectNumbers), |s| misnamed(s, (AtMailbox, 1), (Receiving, 17))),
    ("waiter at mailbox 0, in the chain of receivers of queue 16", Some(ObjectNumbers), |s| misnamed(s, (Receiving, 16), (AtMailbox, 0))),
    ("receiver at queue 241, in the chain of senders of queue 1", Some(ObjectNumbers), |s| misnamed(s, (Sending, 1), (Receiving, 241))),
    ("waiter at mailbox 225, in the chain of senders of queue 1", Some(ObjectNumbers), |s| misnamed(s, (Sending, 1), (AtMailbox, 225))),
];

const WRONG_WAITS: [HandMade; 19] = [
    ("senders by priority, a larger one first", Some(SendersInOrder), |s| s.tasks[3].priority = 7),
    ("mailbox waiters by priority, a larger one first", Some(WaitersInOrder), |s| s.tasks[7].priority = 10),
    ("messages by priority, a larger one first", Some(MessagesInOrder), |s| s.messages[5].priority = 4),
    ("attribute 3, mailbox waiters not by priority", Some(WaitersInOrder), |s| {
        s.mailboxes[2] = Mailbox { attribute: 3, highest: 16, ..s.mailboxes[2].clone() };
        s.tasks[7].priority = 10
    }),
    ("more words than the capacity", Some(CountFits), |s| s.queues[4].count = 4),
    ("a word at capacity 0", Some(CountFits), |s| s.queues[2].count = 1),
    ("a sender waits at a queue that isn't full", Some(SendersAtFull), |s| s.queues[1].count = 1),
    ("a sender waits at an empty queue", Some(SendersAtFull), |s| s.queues[2].capacity = 1),
    ("a sender and a receiver at one queue", Some(SendersApart), |s| s.wait(Receiving, 2, &[9])),
    ("a receiver waits at a queue with a word", Some(ReceiversAtEmpty), |s| s.queues[3].count = 1),
    ("a task waits at a mailbox with a message", Some(WaitersAtEmpty), |s| s.wait(AtMailbox, 5, &[9])),
    ("an undefined queue with a waiting sender", Some(QueueNoWaiter), |s| s.queues[2].defined = false),
    ("an undefined queue with a waiting receiver", Some(QueueNoWaiter), |s| s.queues[3].defined = false),
    ("an undefined queue with a word", Some(QueueNoWord), |s| s.queues[4].defined = false),
    ("an undefined mailbox with a waiter", Some(MailboxNoWaiter), |s| s.mailboxes[1].defined = false),
    ("an undefined mailbox with a message", Some(MailboxNoMessage), |s| s.mailboxes[5].defined = false),
    ("an undefined task that waits", Some(TaskNoWait), |s| s.tasks[5].defined = false),
    ("an undefined task that waits in no chain", Some(InItsChain), |s| {
        s.tasks[13].wait = Some(Wait { kind: Receiving, object: 3, end: None, word: 0 })
    }),
    ("an undefined task that is suspended", Some(TaskNotSuspended), |s| s.tasks[9].defined = false),
];

const WRONG_NUMBERS: [HandMade; 22] = [
    ("wait 4", Some(EachNumberSays), |s| s.odd.push(WaitNumber(5, 4))),
    ("wait 255 of an undefined task", Some(EachNumberSays), |s| s.odd.push(WaitNumber(13, 255))),
    ("a wait timed 2", Some(EachNumberSays), |s| s.odd.push(Timed(2, 2))),
    ("flags 4 of a task that doesn't wait", Some(EachNumberSays), |s| s.odd.push(Flags(9, 4))),
    ("flags 257 of a waiting task", Some(EachNumberSays), |s| s.odd.push(Flags(1, 257))),
    ("a data queue whose defined is 2", Some(EachNumberSays), |s| s.odd.push(QueueDefined(4, 2))),
    ("an empty data queue whose defined is 255", Some(EachNumberSays), |s| s.odd.push(QueueDefined(6, 255))),
    ("a mailbox whose defined is 2", Some(EachNumberSays), |s| s.odd.push(MailboxDefined(16, 2))),
    ("task priority 0", Some(TaskPriorities), |s| s.tasks[1].priority = 0),
    ("task priority 17", Some(TaskPriorities), |s| s.define_task(32, 17)),
    ("priority 0 of a task that waits by priority", Some(TaskPriorities), |s| s.tasks[3].priority = 0),
    ("queue attribute 2", Some(QueueAttributes), |s| s.queues[4].attribute = 2),
    ("capacity 17", Some(Capacities), |s| s.queues[5].capacity = 17),
    ("capacity 17 and 17 words", Some(Capacities), |s| s.define_queue(16, 0, 17, 17)),
    ("a ring that starts at place 16", Some(RingHeads), |s| s.queues[5].ring_head = 16),
    ("a ring with no word that starts at place 16", Some(RingHeads), |s| s.queues[3].ring_head = 16),
    ("mailbox attribute 4", Some(MailboxAttributes), |s| s.mailboxes[1].attribute = 4),
    ("highest message priority 0", Some(HighestPriorities), |s| s.define_mailbox(16, 2, 0)),
    ("highest message priority 17", Some(HighestPriorities), |s| s.define_mailbox(16, 3, 17)),
    ("a kept message priority 0", Some(KeptPriorities), |s| s.messages[5].priority = 0),
    ("a kept message priority above the highest", Some(KeptPriorities), |s| s.messages[7].priority = 5),
    ("a kept message priority 17", Some(KeptPriorities), |s| s.messages[21].priority = 17),
];

const WRONG_CODES: [HandMade; 12] = [
    ("a stored E_SYS", Some(StoredCodes), |s| s.tasks[9].code = -5),
    ("a stored E_PAR", Some(StoredCodes), |s| s.tasks[9].code = -17),
    ("a stored E_ID", Some(StoredCodes), |s| s.tasks[9].code = -18),
    ("a stored E_CTX", Some(StoredCodes), |s| s.tasks[9].code = -25),
    ("a stored E_ILUSE", Some(StoredCodes), |s| s.tasks[9].code = -28),
    ("a stored E_OBJ", Some(StoredCodes), |s| s.tasks[9].code = -41),
    ("a stored E_NOEXS", Some(StoredCodes), |s| s.tasks[9].code = -42),
    ("a stored E_QOVR", Some(StoredCodes), |s| s.tasks[9].code = -43),
    ("a stored E_PAR of a waiting task", Some(StoredCodes), |s| s.tasks[3].code = -17),
    ("a stored -1", Some(StoredCodes), |s| s.tasks[9].code = -1),
    ("a stored -52", Some(StoredCodes), |s| s.tasks[9].code = -52),
    ("a stored -255", Some(StoredCodes), |s| s.tasks[9].code = -255),
];

const WRONG_ENDS: [HandMade; 8] = [
    ("an end tick 0 ticks away", Some(EndTicks), |s| s.set_end(2, 1000)),
    ("an end tick 2,147,483,648 ticks away", Some(EndTicks), |s| s.set_end(2, 1000 + FARTHEST + 1)),
    ("an end tick that has passed", Some(EndTicks), |s| s.set_end(2, 999)),
    ("an end tick that has passed, before the wrap", Some(EndTicks), |s| {
        s.counter = 0;
        s.set_end(2, u32::MAX)
    }),
    ("an end tick 2,147,483,648 ticks away, behind the wrap", Some(EndTicks), |s| {
        s.counter = u32::MAX;
        s.set_end(2, FARTHEST)
    }),
    ("a receiver's end tick 0 ticks away", Some(EndTicks), |s| s.set_end(5, 1000)),
    ("a mailbox waiter's end tick 0 ticks away", Some(EndTicks), |s| s.set_end(6, 1000)),
    ("a suspended waiter's end tick 0 ticks away", Some(EndTicks), |s| {
        s.tasks[6].suspended = true;
        s.set_end(6, 1000)
    }),
];

// The hand-made records with their labels. Each is first compared with what it was made for, and every sentence must have been broken.
fn hand_made() -> Vec<(String, State)> {
    let mut records = Vec::new();
    let mut broken = Vec::new();
    let tables: [&[HandMade]; 7] = [&SOUND, &WRONG_CHAINS, &WRONG_OBJECTS, &WRONG_WAITS, &WRONG_NUMBERS, &WRONG_CODES, &WRONG_ENDS];
    for (label, sentence, change) in tables.into_iter().flatten() {
        let mut state = typical();
        change(&mut state);
        assert_eq!(read(&state).err(), *sentence, "{label}");
        broken.extend(*sentence);
        records.push((label.to_string(), state));
    }
    for (sentence, words) in SENTENCES {
        assert!(broken.contains(&sentence), "no hand-made record breaks '{words}'");
    }
    records
}

// ── Random sound states ──

// A generator of random numbers: splitmix64.
struct Random(u64);

impl Random {
    fn number(&mut self) -> u64 {
        self.0 = self.0.wrapping_add(0x9E37_79B9_7F4A_7C15);
        let mixed = (self.0 ^ (self.0 >> 30)).wrapping_mul(0xBF58_476D_1CE4_E5B9);
        let mixed = (mixed ^ (mixed >> 27)).wrapping_mul(0x94D0_49BB_1331_11EB);
        mixed ^ (mixed >> 31)
    }

    // A number from `first` to `last`.
    fn from_to(&mut self, first: usize, last: usize) -> usize {
        first + (self.number() % (last - first + 1) as u64) as usize
    }

    fn one_in(&mut self, times: usize) -> bool {
        self.from_to(1, times) == 1
    }

    fn one_of<T: Copy>(&mut self, choices: &[T]) -> T {
        choices[self.from_to(0, choices.len() - 1)]
    }

    // A byte where anything may stand: often one that would mean something elsewhere.
    fn byte(&mut self) -> u8 {
        match self.from_to(0, 3) {
            0 => self.number() as u8,
            1 => self.from_to(0, 2) as u8,
            2 => self.from_to(14, 18) as u8,
            _ => self.from_to(0, 66) as u8,
        }
    }

    fn word(&mut self) -> u32 {
        self.number() as u32
    }

    fn shuffle(&mut self, numbers: &mut [usize]) {
        for last in (1..numbers.len()).rev() {
            numbers.swap(last, self.from_to(0, last));
        }
    }

    // Each of these numbers with a chance of `share` in 8, in any order.
    fn some_of(&mut self, numbers: std::ops::RangeInclusive<usize>, share: usize) -> Vec<usize> {
        let mut chosen: Vec<usize> = numbers.filter(|_| self.from_to(1, 8) <= share).collect();
        self.shuffle(&mut chosen);
        chosen
    }
}

// Nothing is defined, and wherever anything may stand, anything stands.
fn random_unused(random: &mut Random) -> State {
    let mut state = State::empty();
    state.counter = match random.from_to(0, 3) {
        0 => random.from_to(0, 3) as u32,
        1 => u32::MAX - random.from_to(0, 3) as u32,
        2 => (FARTHEST - 2) + random.from_to(0, 4) as u32,
        _ => random.word(),
    };
    for task in &mut state.tasks {
        *task = Task { priority: random.byte(), code: -i32::from(random.byte()), word: random.word(), next: random.byte(), ..Task::default() };
    }
    for queue in &mut state.queues {
        *queue = Queue { attribute: random.byte(), ring_head: random.byte(), capacity: random.byte(), ..Queue::default() };
    }
    for mailbox in &mut state.mailboxes {
        *mailbox = Mailbox { attribute: random.byte(), highest: random.byte(), ..Mailbox::default() };
    }
    for message in &mut state.messages {
        *message = Message { priority: random.byte(), next: random.byte() };
    }
    state.spare_priorities.iter_mut().for_each(|priority| *priority = random.byte());
    if random.one_in(2) {
        any_numbers_at_zero(&mut state);
    }
    state
}

fn random_priority(random: &mut Random) -> u8 {
    random.from_to(1, 16) as u8
}

fn define_random_tasks(state: &mut State, random: &mut Random, share: usize) {
    for task in random.some_of(1..=TASKS, share) {
        state.define_task(task, random_priority(random));
        let next = random.byte();
        let (code, word) = (random.one_of(&[0, -49, -50, -51]), random.word());
        state.tasks[task] = Task { suspended: random.one_in(4), code, word, next, ..state.tasks[task].clone() };
    }
}

// A chain of tasks that may be filled in a sound state, and whether it is by priority.
type Open = (Kind, usize, bool);

// Defines data queues, each with words as its waiters will need them, and returns the chains that may be filled.
fn define_random_queues(state: &mut State, random: &mut Random, share: usize) -> Vec<Open> {
    let mut open = Vec::new();
    for queue in random.some_of(1..=OBJECTS, share) {
        let attribute = random.from_to(0, 1) as u8;
        let capacity = if random.one_in(3) { 0 } else { random.from_to(0, 16) };
        let count = match random.from_to(0, 2) {
            0 => capacity,
            1 => 0,
            _ => random.from_to(0, capacity),
        };
        state.define_queue(queue, attribute, capacity as u8, count as u8);
        state.queues[queue].ring_head = random.from_to(0, 15) as u8;
        // At capacity 0 the queue is full and empty; either may wait, not both.
        if count == 0 && (count < capacity || random.one_in(2)) {
            open.push((Receiving, queue, false));
        } else if count == capacity {
            open.push((Sending, queue, attribute == 1));
        }
    }
    open
}

// Defines mailboxes, some with messages, and returns the chains that may be filled.
fn define_random_mailboxes(state: &mut State, random: &mut Random, share: usize) -> Vec<Open> {
    let mut open = Vec::new();
    let mut free = random.some_of(1..=MESSAGES, 7);
    // Now and then one mailbox gets all messages.
    let most = random.one_of(&[2, 6, 6, MESSAGES]);
    for mailbox in random.some_of(1..=OBJECTS, share) {
        let attribute = random.from_to(0, 3) as u8;
        let highest = if attribute >= 2 { random_priority(random) } else { random.byte() };
        state.define_mailbox(mailbox, attribute, highest);
        if random.one_in(2) {
            open.push((AtMailbox, mailbox, attribute % 2 == 1));
            continue;
        }
        let first = free.len() - free.len().min(random.from_to(most / 2, most));
        let mut queued = free.split_off(first);
        if attribute >= 2 {
            for message in &queued {
                state.messages[*message].priority = random.from_to(1, highest as usize) as u8;
            }
            queued.sort_by_key(|message| state.messages[*message].priority);
        }
        state.post(mailbox, &queued);
    }
    open
}

fn random_end(random: &mut Random, counter: u32) -> Option<u32> {
    let away = match random.from_to(0, 5) {
        0 => 1,
        1 => FARTHEST,
        2 => random.from_to(1, 10) as u32,
        3 => random.from_to(1, FARTHEST as usize) as u32,
        _ => return None,
    };
    Some(counter.wrapping_add(away))
}

fn random_wait(random: &mut Random, kind: Kind, object: usize, counter: u32) -> Option<Wait> {
    Some(Wait { kind, object: object as u8, end: random_end(random, counter), word: random.word() })
}

// Lets defined tasks wait in the open chains.
fn fill_random_chains(state: &mut State, random: &mut Random, mut open: Vec<Open>, share: usize) {
    // Now and then only a few chains are filled, so that they are long.
    if random.one_in(3) {
        open.truncate(random.from_to(1, 2));
    }
    let mut members = vec![Vec::new(); open.len()];
    for task in random.some_of(1..=TASKS, share) {
        if state.tasks[task].defined && !open.is_empty() {
            members[random.from_to(0, open.len() - 1)].push(task);
        }
    }
    for ((kind, object, by_priority), mut waiters) in open.into_iter().zip(members) {
        if by_priority {
            waiters.sort_by_key(|task| state.tasks[*task].priority);
        }
        state.wait(kind, object, &waiters);
        for task in waiters {
            state.tasks[task].wait = random_wait(random, kind, object, state.counter);
        }
    }
}

// A state that is sound by the way it is made.
fn random_sound(random: &mut Random) -> State {
    let mut state = random_unused(random);
    let share = random.one_of(&[1, 4, 7, 8]);
    define_random_tasks(&mut state, random, share);
    let mut open = define_random_queues(&mut state, random, share);
    open.extend(define_random_mailboxes(&mut state, random, share));
    let mut order: Vec<usize> = (0..open.len()).collect();
    random.shuffle(&mut order);
    let open = order.iter().map(|place| open[*place]).collect();
    let waiting = random.one_of(&[2, 5, 8]);
    fill_random_chains(&mut state, random, open, waiting);
    state
}

// ── Random changes ──

// A change that may break a sentence and may not.
type Change = fn(&mut State, &mut Random);

const CHANGES: [Change; 19] = [
    change_behind_task,
    change_behind_message,
    change_head,
    copy_head,
    change_first_message,
    join_chain,
    join_mailbox,
    change_priority,
    exchange_priorities,
    change_message_priority,
    change_task,
    change_wait,
    misname_wait,
    wait_in_no_chain,
    change_end,
    change_queue,
    change_mailbox,
    change_defined,
    change_to_odd,
];

fn random_task(random: &mut Random) -> usize {
    random.from_to(1, TASKS)
}

fn random_object(random: &mut Random) -> usize {
    random.from_to(1, OBJECTS)
}

fn random_message(random: &mut Random) -> usize {
    random.from_to(1, MESSAGES)
}

fn random_kind(random: &mut Random) -> Kind {
    random.one_of(&[Sending, Receiving, AtMailbox])
}

// A task of the wanted kind, where a few tries find one.
fn random_task_that(state: &State, random: &mut Random, wanted: fn(&Task) -> bool) -> usize {
    let tries: Vec<usize> = (0..8).map(|_| random_task(random)).collect();
    tries.iter().copied().find(|task| wanted(&state.tasks[*task])).unwrap_or(tries[0])
}

// Most changes to other tasks change nothing that counts.
fn random_waiter(state: &State, random: &mut Random) -> usize {
    random_task_that(state, random, |task| task.wait.is_some())
}

fn change_behind_task(state: &mut State, random: &mut Random) {
    let task = random_waiter(state, random);
    state.tasks[task].next = random.byte();
}

fn change_behind_message(state: &mut State, random: &mut Random) {
    let message = random_message(random);
    state.messages[message].next = random.byte();
}

fn change_head(state: &mut State, random: &mut Random) {
    let (kind, object) = (random_kind(random), random_object(random));
    *state.head(kind, object) = random.byte();
}

// Two chains then have all tasks in common.
fn copy_head(state: &mut State, random: &mut Random) {
    let first = *state.head(random_kind(random), random_object(random));
    *state.head(random_kind(random), random_object(random)) = first;
}

fn change_first_message(state: &mut State, random: &mut Random) {
    let other = state.mailboxes[random_object(random)].first_message;
    let first = if random.one_in(2) { other } else { random.byte() };
    state.mailboxes[random_object(random)].first_message = first;
}

// A task stands at the head of some chain, whether its object allows that or not, and mostly waits there.
fn join_chain(state: &mut State, random: &mut Random) {
    let (kind, object) = (random_kind(random), random_object(random));
    let able: fn(&Task) -> bool = |task| task.defined && task.wait.is_none();
    let task = if random.one_in(4) { random_task(random) } else { random_task_that(state, random, able) };
    if !random.one_in(4) {
        state.tasks[task].wait = random_wait(random, kind, object, state.counter);
    }
    state.tasks[task].next = *state.head(kind, object);
    *state.head(kind, object) = task as u8;
}

// A message is queued at the head of some mailbox, whether that allows it or not.
fn join_mailbox(state: &mut State, random: &mut Random) {
    let (mailbox, message) = (random_object(random), random_message(random));
    state.messages[message].next = state.mailboxes[mailbox].first_message;
    state.mailboxes[mailbox].first_message = message as u8;
}

fn change_priority(state: &mut State, random: &mut Random) {
    let task = random_waiter(state, random);
    state.tasks[task].priority = random.from_to(0, 18) as u8;
}

fn exchange_priorities(state: &mut State, random: &mut Random) {
    let (one, other) = (random_waiter(state, random), random_waiter(state, random));
    let priority = state.tasks[one].priority;
    state.tasks[one].priority = state.tasks[other].priority;
    state.tasks[other].priority = priority;
}

fn change_message_priority(state: &mut State, random: &mut Random) {
    let message = random_message(random);
    state.messages[message].priority = random.from_to(0, 18) as u8;
}

fn change_task(state: &mut State, random: &mut Random) {
    let task = &mut state.tasks[random_task(random)];
    match random.from_to(0, 2) {
        0 => task.suspended = !task.suspended,
        1 => task.code = -i32::from(random.byte()),
        _ => task.priority = random.byte(),
    }
}

fn change_wait(state: &mut State, random: &mut Random) {
    let task = random_waiter(state, random);
    match &mut state.tasks[task].wait {
        Some(wait) if random.one_in(2) => wait.object = random.from_to(0, 18) as u8,
        Some(wait) if random.one_in(2) => wait.kind = random_kind(random),
        wait => *wait = None,
    }
}

// The wait names another kind. Where all chains of tasks are numbered in one row, 16 of each kind, and numbers are bytes, its number is
// still that of the chain that the task stands in.
fn misname_wait(state: &mut State, random: &mut Random) {
    let task = random_waiter(state, random);
    if let Some(wait) = &mut state.tasks[task].wait {
        let kind = random_kind(random);
        wait.object = wait.object.wrapping_add(16 * wait.kind as u8).wrapping_sub(16 * kind as u8);
        wait.kind = kind;
    }
}

fn wait_in_no_chain(state: &mut State, random: &mut Random) {
    let (kind, object, task) = (random_kind(random), random_object(random), random_task(random));
    state.tasks[task].wait = random_wait(random, kind, object, state.counter);
}

fn change_end(state: &mut State, random: &mut Random) {
    let task = random_waiter(state, random);
    let away = random.one_of(&[0, 1, FARTHEST, FARTHEST + 1, u32::MAX]);
    state.set_end(task, state.counter.wrapping_add(away));
}

fn change_queue(state: &mut State, random: &mut Random) {
    let queue = &mut state.queues[random_object(random)];
    match random.from_to(0, 3) {
        0 => queue.attribute = random.from_to(0, 3) as u8,
        1 => queue.ring_head = random.byte(),
        2 => queue.count = random.from_to(0, 18) as u8,
        _ => queue.capacity = random.from_to(0, 18) as u8,
    }
}

fn change_mailbox(state: &mut State, random: &mut Random) {
    let mailbox = &mut state.mailboxes[random_object(random)];
    match random.from_to(0, 1) {
        0 => mailbox.attribute = random.from_to(0, 5) as u8,
        _ => mailbox.highest = random.from_to(0, 18) as u8,
    }
}

fn change_defined(state: &mut State, random: &mut Random) {
    let defined = match random.from_to(0, 2) {
        0 => &mut state.tasks[random_task(random)].defined,
        1 => &mut state.queues[random_object(random)].defined,
        _ => &mut state.mailboxes[random_object(random)].defined,
    };
    *defined = !*defined;
}

// A number that says nothing, which counts but where it isn't kept.
fn change_to_odd(state: &mut State, random: &mut Random) {
    let (task, object) = (random_task(random), random_object(random));
    let odd = match random.from_to(0, 4) {
        0 => Flags(task, random.one_of(&[4, 7, 257, 1 << 31])),
        1 => WaitNumber(task, random.from_to(4, 255) as u8),
        2 => Timed(task, random.from_to(2, 255) as u8),
        3 => QueueDefined(object, random.from_to(2, 255) as u8),
        _ => MailboxDefined(object, random.from_to(2, 255) as u8),
    };
    state.odd.push(odd);
}

fn change_at_random(state: &mut State, random: &mut Random, times: usize) {
    for _ in 0..times {
        random.one_of(&CHANGES)(state, random);
    }
}

// A state that isn't sound after one to three changes of a sound one.
fn random_with_faults(random: &mut Random) -> State {
    loop {
        let mut state = random_sound(random);
        let times = random.from_to(1, 3);
        change_at_random(&mut state, random, times);
        if read(&state).is_err() {
            return state;
        }
    }
}

// ── The commands ──

fn write_corpus(records_file: &str, lines_file: &str) -> std::io::Result<()> {
    let mut random = Random(1);
    let mut records = hand_made();
    for number in 1..=60 {
        let state = random_sound(&mut random);
        assert_eq!(read(&state), Ok(()), "random {number}");
        records.push((format!("random {number}"), state));
    }
    for number in 1..=60 {
        records.push((format!("random {number} with faults"), random_with_faults(&mut random)));
    }
    let stream: Vec<u8> = records.iter().flat_map(|(label, state)| encode(label, state)).collect();
    let lines: String = records.iter().map(|(label, state)| expected_line(label, state) + "\n").collect();
    std::fs::write(records_file, stream)?;
    std::fs::write(lines_file, lines)
}

// The lines that a program prints for these records. The records are written by a thread of its own, since the program may print before it
// has read all of them.
fn lines_of(program: &str, stream: Vec<u8>) -> std::io::Result<Vec<String>> {
    let mut words = program.split(' ');
    let mut command = Command::new(words.next().unwrap_or_default());
    let mut child = command.args(words).stdin(Stdio::piped()).stdout(Stdio::piped()).spawn()?;
    let mut input = child.stdin.take().expect("the program's input");
    let writer = std::thread::spawn(move || input.write_all(&stream));
    let mut lines = String::new();
    child.stdout.take().expect("the program's output").read_to_string(&mut lines)?;
    writer.join().expect("the thread that writes")?;
    let status = child.wait()?;
    if !status.success() {
        return Err(std::io::Error::other(format!("{program} ended with {status}")));
    }
    Ok(lines.lines().map(String::from).collect())
}

// What a comparison has found so far.
struct Tally {
    records: usize,
    sound: usize,
    differ: usize,
    // How often each sentence was the first that didn't hold.
    broken: [usize; SENTENCES.len()],
}

impl Tally {
    fn add(&mut self, label: &str, state: &State, line: &str) {
        self.records += 1;
        match read(state) {
            Ok(()) => self.sound += 1,
            Err(sentence) => self.broken[sentence as usize] += 1,
        }
        let expected = expected_line(label, state);
        if line != expected {
            if self.differ == 0 {
                println!("the program says '{line}' where '{expected}' is expected");
                print_state(state);
            }
            self.differ += 1;
        }
    }

    // Prints what was found, and returns whether all is well.
    fn report(&self) -> bool {
        println!("records {} sound {} differ {}", self.records, self.sound, self.differ);
        println!("how often each sentence was the first that didn't hold:");
        for (sentence, words) in SENTENCES {
            println!("{:10}  {words}", self.broken[sentence as usize]);
        }
        self.differ == 0 && self.broken.iter().all(|times| *times > 0)
    }
}

fn print_state(state: &State) {
    println!("first sentence that doesn't hold: {:?}", read(state).err());
    println!("counter {}", state.counter);
    println!("numbers that say nothing: {:?}", state.odd);
    for (number, task) in state.tasks.iter().enumerate() {
        println!("task {number}: {task:?}");
    }
    for (number, queue) in state.queues.iter().enumerate() {
        println!("data queue {number}: {queue:?}");
    }
    for (number, mailbox) in state.mailboxes.iter().enumerate() {
        println!("mailbox {number}: {mailbox:?}");
    }
    for (number, message) in state.messages.iter().enumerate() {
        println!("message {number}: {message:?}");
    }
}

// Random records, a fourth of them sound by the way they are made, the others with one to three changes.
fn random_batch(random: &mut Random, first: usize, last: usize) -> Vec<(String, State)> {
    let mut records = Vec::new();
    for number in first..=last {
        let mut state = random_sound(random);
        let changes = number % 4;
        change_at_random(&mut state, random, changes);
        assert!(changes > 0 || read(&state).is_ok(), "record {number} was made to be sound");
        records.push((format!("record {number} with {changes} changes"), state));
    }
    records
}

fn compare(program: &str, count: usize, seed: u64) -> std::io::Result<bool> {
    const BATCH: usize = 4000;
    let mut random = Random(seed);
    let mut tally = Tally { records: 0, sound: 0, differ: 0, broken: [0; SENTENCES.len()] };
    for first in (1..=count).step_by(BATCH) {
        let records = random_batch(&mut random, first, count.min(first + BATCH - 1));
        let stream = records.iter().flat_map(|(label, state)| encode(label, state)).collect();
        let lines = lines_of(program, stream)?;
        if lines.len() != records.len() {
            return Err(std::io::Error::other(format!("{program} printed {} lines for {} records", lines.len(), records.len())));
        }
        for ((label, state), line) in records.iter().zip(&lines) {
            tally.add(label, state, line);
        }
    }
    Ok(tally.report())
}

fn main() {
    for (place, (sentence, _)) in SENTENCES.iter().enumerate() {
        assert_eq!(*sentence as usize, place, "the sentences are listed in another order");
    }
    let words: Vec<String> = std::env::args().skip(1).collect();
    let words: Vec<&str> = words.iter().map(String::as_str).collect();
    let result = match words[..] {
        ["corpus", records, lines] => write_corpus(records, lines).map(|_| true),
        ["compare", program, count, seed] => compare(program, count.parse().expect("COUNT"), seed.parse().expect("SEED")),
        _ => Err(std::io::Error::other("records corpus STDIN STDOUT, or records compare PROGRAM COUNT SEED")),
    };
    match result {
        Ok(true) => {}
        Ok(false) => exit(1),
        Err(error) => {
            eprintln!("{error}");
            exit(2);
        }
    }
}
