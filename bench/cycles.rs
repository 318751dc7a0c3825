//! The records that bench/figures and bench/limits measure, and the cycles of calls that bench/figures plays on them. A record is given as the calls
//! that make it from the empty record, so that every program can be brought to it. A cycle leaves the record as it found it, but for the counter and
//! where a ring starts, so it can be played again and again.
use linguastel::number::*;
use linguastel::*;

#[derive(Clone, Copy, PartialEq, Debug)]
pub enum Expected {
    Code(i32),
    Place(u32),
}

pub use Expected::{Code, Place};

impl Expected {
    pub fn is(self, answer: HostAnswer) -> bool {
        match self {
            Code(code) => answer.read().code() == Some(code),
            Place(place) => answer.read() == Answer::Waits { place },
        }
    }
}

pub type Expectation = (Call, Expected);

pub struct Cycle {
    pub name: &'static str,
    // Played once, after the calls that make the record.
    pub before: Vec<Call>,
    pub calls: Vec<Expectation>,
    // No call takes a task away again. Before each round the host does so for this one, by a cell of the record; 0 for none.
    pub undefined: usize,
}

pub struct Situation {
    pub name: &'static str,
    pub counter: u32,
    pub calls: Vec<Call>,
    pub cycles: Vec<Cycle>,
}

pub const A_TICK: Call = Call { number: 0, caller: 0, locked: 0, disabled: 0, object: 0, value: 0, tmout: 0, attribute: 0 };

// ── Calls in short ──

pub fn by(caller: u32, number: u32, object: u32) -> Call {
    Call { number, caller, object, ..A_TICK }
}

pub fn with(caller: u32, number: u32, object: u32, value: u32) -> Call {
    Call { value, ..by(caller, number, object) }
}

pub fn define(task: u32, priority: u32) -> Call {
    with(0, DEFINE_TASK, task, priority)
}

pub fn create_queue(queue: u32, attribute: u32, capacity: u32) -> Call {
    Call { attribute, ..with(0, CRE_DTQ, queue, capacity) }
}

pub fn create_mailbox(mailbox: u32, attribute: u32, highest: u32) -> Call {
    Call { attribute, ..with(0, CRE_MBX, mailbox, highest) }
}

pub fn message(caller: u32, mailbox: u32, message: u32, priority: u32) -> Call {
    Call { attribute: priority, ..with(caller, SND_MBX, mailbox, message) }
}

// By a task it may wait; by the handler it is psnd.
pub fn send(caller: u32, queue: u32, word: u32) -> Call {
    with(caller, if caller == 0 { PSND_DTQ } else { SND_DTQ }, queue, word)
}

fn fill(queue: u32, words: u32) -> impl Iterator<Item = Call> {
    (1..=words).map(move |word| send(0, queue, word))
}

// Ticks that no run gets to, so that a timed wait lasts.
const FAR: i32 = 2_000_000_000;

fn timed(caller: u32, number: u32, object: u32) -> Call {
    Call { tmout: FAR, ..by(caller, number, object) }
}

// ── The cycles, the same for every record ──

// What the cycles use of a record.
struct Roles {
    // An able task; the handler, or another able task, that sends.
    me: u32,
    sender: u32,
    // A queue with words and room; an empty one without waiters.
    stored: u32,
    unused: u32,
    // A full queue, and the senders that wait at it; each that is released waits again at this place.
    full: u32,
    senders: &'static [u32],
    again: u32,
    // An empty queue, and the receivers that wait at it.
    empty: u32,
    receivers: &'static [u32],
    // A mailbox with messages by priority: number and priority, in order.
    queued: u32,
    messages: &'static [(u32, u32)],
    // An empty mailbox with waiters in order of arrival, and a message that the cycle may use; it is first received from `queued` if it is there.
    waited: u32,
    waiters: &'static [u32],
    message: u32,
    // A mailbox without waiters and messages.
    spare: u32,
    // A task to be suspended.
    task: u32,
    // What the record lacks for a cycle.
    to_fill: Vec<Call>,
    to_wait: Vec<Call>,
    to_wait_at_mailbox: Vec<Call>,
    to_queue: Vec<Call>,
    to_spare: Vec<Call>,
}

const OK: Expected = Code(E_OK);

fn cycle(name: &'static str, before: &[Call], calls: Vec<Expectation>) -> Cycle {
    Cycle { name, before: before.to_vec(), calls, undefined: 0 }
}

fn reading(r: &Roles) -> Vec<Cycle> {
    let calls = [by(0, LOOK, r.task), by(0, REF_DTQ, r.stored), by(0, REF_MBX, r.queued), by(0, FETCH, r.me)];
    let defined = cycle("define_task", &[], vec![(define(r.me, 5), OK)]);
    vec![Cycle { undefined: r.me as usize, ..defined }, cycle("look, ref_dtq, ref_mbx, fetch", &[], calls.map(|call| (call, OK)).to_vec())]
}

fn on_queues(r: &Roles) -> Vec<Cycle> {
    let stored = vec![(send(0, r.stored, 7), OK), (by(0, PRCV_DTQ, r.stored), OK)];
    let replaced = vec![(with(0, FSND_DTQ, r.full, 7), OK)];
    let mut refilled = Vec::new();
    for sender in r.senders {
        refilled.extend([(by(0, PRCV_DTQ, r.full), OK), (send(*sender, r.full, 7), Place(r.again))]);
    }
    let mut served = Vec::new();
    for receiver in r.receivers {
        served.extend([(send(r.sender, r.empty, 7), OK), (by(*receiver, RCV_DTQ, r.empty), Place(r.receivers.len() as u32 - 1))]);
    }
    vec![
        cycle("psnd, prcv: the word is stored", &[], stored),
        cycle("fsnd: the oldest word is replaced", &r.to_fill, replaced),
        cycle("prcv refills from a sender, snd waits (w)", &r.to_fill, refilled),
        cycle("snd to a receiver, rcv waits (w)", &r.to_wait, served),
    ]
}

fn on_mailboxes(r: &Roles) -> Vec<Cycle> {
    let mut queued: Vec<Expectation> = r.messages.iter().map(|_| (by(0, PRCV_MBX, r.queued), OK)).collect();
    queued.extend(r.messages.iter().map(|(number, priority)| (message(0, r.queued, *number, *priority), OK)));
    let mut served = Vec::new();
    for waiter in r.waiters {
        served.extend([(message(r.sender, r.waited, r.message, 1), OK), (by(*waiter, RCV_MBX, r.waited), Place(r.waiters.len() as u32 - 1))]);
    }
    vec![
        cycle("prcv_mbx, snd_mbx: queued by priority", &r.to_queue, queued),
        cycle("snd_mbx to a waiter, rcv_mbx waits (w)", &r.to_wait_at_mailbox, served),
    ]
}

fn on_tasks(r: &Roles) -> Vec<Cycle> {
    let last = *r.receivers.last().expect("a receiver");
    let behind = r.receivers.len() as u32 - 1;
    // Where the only task is the one that waits, it leaves for this cycle.
    let (waits_already, place) = if last == r.me { (Vec::new(), 0) } else { (r.to_wait.clone(), behind + 1) };
    let trcv = Call { tmout: 1, ..by(r.me, TRCV_DTQ, r.empty) };
    vec![
        cycle("sus_tsk, rsm_tsk", &[], vec![(by(0, SUS_TSK, r.task), OK), (by(0, RSM_TSK, r.task), OK)]),
        cycle("rel_wai, rcv waits again (w)", &r.to_wait, vec![(by(0, REL_WAI, last), OK), (by(last, RCV_DTQ, r.empty), Place(behind))]),
        cycle("trcv, the second tick ends it (w)", &waits_already, vec![(trcv, Place(place)), (A_TICK, OK), (A_TICK, OK)]),
        cycle("a tick that ends nothing", &r.to_wait, vec![(A_TICK, OK)]),
    ]
}

fn refused(r: &Roles) -> Vec<Cycle> {
    let one = |name, call, code| cycle(name, &[], vec![(call, Code(code))]);
    vec![
        one("refused: E_PAR, number 24", by(r.me, 24, 1), E_PAR),
        one("refused: E_SYS, caller 33", send(33, r.stored, 7), E_SYS),
        one("refused: E_ID, prcv at queue 17", by(r.me, PRCV_DTQ, 17), E_ID),
        one("refused: E_OBJ, define_task again", define(r.task, 5), E_OBJ),
        one("refused: E_TMOUT, prcv", by(r.me, PRCV_DTQ, r.unused), E_TMOUT),
    ]
}

fn made_and_deleted(r: &Roles) -> Vec<Cycle> {
    // The one that deletes is able, and isn't one that waits.
    let by_whom = if r.receivers.contains(&r.me) { None } else { Some(r.me) };
    let queue = vec![(by(r.me, DEL_DTQ, r.unused), OK), (create_queue(r.unused, 0, 4), OK)];
    let mailbox = vec![(by(r.me, DEL_MBX, r.spare), OK), (create_mailbox(r.spare, 2, 8), OK)];
    let mut cycles = vec![cycle("del_dtq, cre_dtq", &[], queue), cycle("del_mbx, cre_mbx", &r.to_spare, mailbox)];
    if let Some(me) = by_whom {
        let mut ended = vec![(by(me, DEL_DTQ, r.empty), OK), (create_queue(r.empty, 0, 4), OK)];
        ended.extend((0..).zip(r.receivers).map(|(place, receiver)| (by(*receiver, RCV_DTQ, r.empty), Place(place))));
        cycles.push(cycle("del_dtq ends waits, cre_dtq, rcv waits again (w)", &r.to_wait, ended));
    }
    cycles
}

fn cycles(r: &Roles) -> Vec<Cycle> {
    [reading(r), on_queues(r), on_mailboxes(r), on_tasks(r), made_and_deleted(r), refused(r)].into_iter().flatten().collect()
}

// ── The records ──

// One task, one data queue and one mailbox, and nobody waits.
fn small() -> Situation {
    let roles = Roles {
        me: 1,
        sender: 0,
        stored: 1,
        unused: 1,
        full: 1,
        senders: &[1],
        again: 0,
        empty: 1,
        receivers: &[1],
        queued: 1,
        messages: &[(5, 3)],
        waited: 1,
        waiters: &[1],
        message: 5,
        spare: 1,
        task: 1,
        to_fill: fill(1, 4).chain([send(1, 1, 5)]).collect(),
        to_wait: vec![by(1, RCV_DTQ, 1)],
        to_wait_at_mailbox: vec![by(1, RCV_MBX, 1)],
        to_queue: vec![message(0, 1, 5, 3)],
        to_spare: vec![],
    };
    let calls = vec![define(1, 5), create_queue(1, 0, 4), create_mailbox(1, 2, 8)];
    Situation { name: "small", counter: 0, calls, cycles: cycles(&roles) }
}

// 12 tasks, 6 data queues and 4 mailboxes; 5 tasks wait and 10 messages are queued.
fn typical() -> Situation {
    let mut calls: Vec<Call> = (1..=12).map(|task| define(task, 1 + task)).collect();
    for (queue, capacity, words) in [(1, 2, 2), (2, 4, 0), (3, 0, 0), (4, 8, 5), (5, 16, 1), (6, 4, 0)] {
        calls.push(create_queue(queue, queue % 2, capacity));
        calls.extend(fill(queue, words));
    }
    calls.extend((1..=4).map(|mailbox| create_mailbox(mailbox, mailbox - 1, 8)));
    calls.extend([Call { value: 5, ..timed(1, TSND_DTQ, 1) }, send(2, 1, 6), by(3, RCV_DTQ, 2), timed(4, TRCV_DTQ, 3), timed(5, TRCV_MBX, 1)]);
    calls.extend([message(0, 2, 10, 0), message(0, 2, 11, 0)]);
    let messages = &[(1, 1), (2, 2), (3, 3), (4, 3), (5, 7)];
    calls.extend(messages.iter().map(|(number, priority)| message(0, 3, *number, *priority)));
    calls.extend([message(0, 4, 6, 4), message(0, 4, 7, 4), message(0, 4, 8, 8)]);
    let roles = Roles {
        me: 12,
        sender: 11,
        stored: 4,
        unused: 6,
        full: 1,
        // Queue 1 goes by priority, so task 1 is its head again.
        senders: &[1],
        again: 0,
        empty: 2,
        receivers: &[3],
        queued: 3,
        messages,
        waited: 1,
        waiters: &[5],
        message: 20,
        spare: 5,
        task: 3,
        to_fill: vec![],
        to_wait: vec![],
        to_wait_at_mailbox: vec![],
        to_queue: vec![],
        to_spare: vec![create_mailbox(5, 2, 8)],
    };
    Situation { name: "typical", counter: 1000, calls, cycles: cycles(&roles) }
}

fn full_queues() -> Vec<Call> {
    let mut calls = Vec::new();
    for queue in 1..=8 {
        calls.push(create_queue(queue, 1, 16));
        calls.extend(fill(queue, 16));
        calls.extend([2 * queue, 2 * queue - 1].map(|task| Call { value: task, ..timed(task, TSND_DTQ, queue) }));
    }
    calls.extend([create_queue(9, 0, 4), create_queue(10, 0, 0), create_queue(11, 0, 0), create_queue(12, 0, 16)]);
    calls.extend([17, 18, 19, 20].map(|task| by(task, RCV_DTQ, 9)));
    calls.extend([21, 22].map(|task| timed(task, TRCV_DTQ, 10)));
    calls.extend([23, 24].map(|task| send(task, 11, task)));
    calls.extend(fill(12, 16));
    calls.extend([25, 26].map(|task| send(task, 12, task)));
    for (queue, capacity, words) in [(13, 16, 8), (14, 16, 16), (15, 8, 3), (16, 4, 0)] {
        calls.push(create_queue(queue, 1, capacity));
        calls.extend(fill(queue, words));
    }
    calls
}

// Message m has the priority of its place among the five of its mailbox, so that a newcomer passes those ahead of it.
fn full_mailboxes() -> Vec<Call> {
    let mut calls: Vec<Call> = (1..=16).map(|mailbox| create_mailbox(mailbox, if mailbox == 14 { 2 } else { 3 }, 16)).collect();
    calls.extend((0..64).map(|number| message(0, 1 + number / 5, 1 + number, 1 + number % 5)));
    calls.extend([27, 28].map(|task| by(task, RCV_MBX, 14)));
    calls.extend([29, 30].map(|task| timed(task, TRCV_MBX, 15)));
    calls
}

// 32 tasks, 16 data queues, 16 mailboxes and 64 queued messages; all tasks but two wait.
fn full() -> Situation {
    let mut calls: Vec<Call> = (1..=32).map(|task| define(task, 3 + task % 2)).collect();
    calls.extend(full_queues());
    calls.extend(full_mailboxes());
    let roles = Roles {
        me: 32,
        sender: 31,
        stored: 13,
        unused: 16,
        full: 12,
        senders: &[25, 26],
        again: 1,
        empty: 9,
        receivers: &[17, 18, 19, 20],
        queued: 1,
        messages: &[(1, 1), (2, 2), (3, 3), (4, 4), (5, 5)],
        waited: 14,
        waiters: &[27, 28],
        message: 1,
        spare: 16,
        task: 3,
        to_fill: vec![],
        to_wait: vec![],
        to_wait_at_mailbox: vec![by(0, PRCV_MBX, 1)],
        to_queue: vec![],
        to_spare: vec![],
    };
    Situation { name: "full", counter: u32::MAX - 5, calls, cycles: cycles(&roles) }
}

pub fn situations() -> Vec<Situation> {
    vec![small(), typical(), full()]
}
