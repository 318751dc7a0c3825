//! The kernel in ordinary Rust, to be measured beside the proved one: the same calls on the same record, with the same test of the whole record
//! before each call. The record is changed where it stands and never copied. After every call it holds what the proved library leaves, cell by
//! cell, if it was reached from the empty record; bench/figures compares the two.
#![forbid(unsafe_code)]
#![no_std]

use linguastel::number::*;
use linguastel::*;

// ── Answers ──

// What a call does, or the code that refuses it. Nothing is written before the last test that may refuse.
type Outcome = Result<HostAnswer, i32>;

fn finished(code: i32, a: u32, b: u32, c: u32) -> HostAnswer {
    HostAnswer { kind: 0, code, place: 0, a, b, c }
}

fn done() -> Outcome {
    Ok(finished(E_OK, 0, 0, 0))
}

fn gives(a: u32, b: u32, c: u32) -> Outcome {
    Ok(finished(E_OK, a, b, c))
}

fn demand(holds: bool, code: i32) -> Result<(), i32> {
    if holds {
        Ok(())
    } else {
        Err(code)
    }
}

// ── The test of the record ──

// Numbers of each kind of object.
const OBJECTS: usize = 16;

// The latest end tick, in ticks from now: that of a wait with the longest tmout.
pub const FARTHEST_END: u32 = LONGEST_TMOUT as u32 + 1;

// Whether the four chains with heads from this cell on are empty. Most are, and the compiler reads four heads at once.
#[inline(always)]
fn four_empty(link: &[u8; 81], head: usize) -> bool {
    match link.get(head..head + 4) {
        Some(heads) => heads == [0; 4],
        None => false,
    }
}

// Marks each number with the chain that it stands in, for as many numbers as the table has. A number that is marked already stands in two places, or
// its chain comes round. CELLS is one more than there are numbers, since number 0 is nobody's.
#[inline(always)]
fn mark<const CELLS: usize>(link: &[u8; 81], marks: &mut [u8; CELLS], head: usize, chain: u8) -> bool {
    let mut next = link[head] as usize;
    let mut left = CELLS - 1;
    while next != 0 {
        if left == 0 || next >= CELLS || marks[next] != 0 {
            return false;
        }
        marks[next] = chain;
        next = link[next] as usize;
        left -= 1;
    }
    true
}

#[inline(always)]
fn chains_sound<const CELLS: usize>(link: &[u8; 81], marks: &mut [u8; CELLS]) -> bool {
    let mut head = CELLS;
    while head < link.len() {
        if four_empty(link, head) {
            head += 4;
        } else if mark(link, marks, head, (head - CELLS + 1) as u8) {
            head += 1;
        } else {
            return false;
        }
    }
    true
}

// Whether the keys of a chain lie between 1 and `most`, with none smaller than the one before it.
#[inline(always)]
fn in_order(chains: &Chains, head: usize, most: u8) -> bool {
    let mut least = 1;
    let mut next = chains.link[head] as usize;
    while next != 0 {
        let key = chains.key[next];
        if key < least || key > most {
            return false;
        }
        least = key;
        next = chains.link[next] as usize;
    }
    true
}

// `standing` is the chain that the task stands in, 0 for none.
#[inline(always)]
fn task_sound(task: &Task, priority: u8, standing: u8, counter: u32) -> bool {
    if task.flags & DEFINED == 0 {
        return task.flags == 0 && task.wait == NO_WAIT && standing == 0;
    }
    if task.flags > DEFINED + SUSPENDED || !(1..=16).contains(&priority) || !matches!(task.code, 0 | 49 | 50 | 51) {
        return false;
    }
    if task.wait == NO_WAIT {
        return standing == 0;
    }
    // The kinds of chains come in the order of the waits' numbers, with a chain for each object.
    if task.wait > AT_MAILBOX || !(1..=16).contains(&task.object) || standing != OBJECTS as u8 * (task.wait - 1) + task.object {
        return false;
    }
    match task.timed {
        0 => true,
        1 => (1..=FARTHEST_END).contains(&task.end.wrapping_sub(counter)),
        _ => false,
    }
}

#[inline(always)]
fn queue_sound(queue: &Queue, waiting: &Chains, number: usize) -> bool {
    let has_sender = waiting.link[HEADS_OF_SENDERS + number] != 0;
    let has_receiver = waiting.link[HEADS_OF_RECEIVERS + number] != 0;
    let Ring { head, count, capacity, .. } = queue.ring;
    if queue.defined == 0 {
        return count == 0 && !has_sender && !has_receiver;
    }
    if queue.defined > 1 || queue.attribute > 1 || head > 15 || capacity > 16 || count > capacity {
        return false;
    }
    if has_sender && (count != capacity || has_receiver) || has_receiver && count != 0 {
        return false;
    }
    queue.attribute == 0 || in_order(waiting, HEADS_OF_SENDERS + number, 16)
}

#[inline(always)]
fn mailbox_sound(mailbox: &Mailbox, waiting: &Chains, messages: &Chains, number: usize) -> bool {
    let has_waiter = waiting.link[HEADS_OF_WAITERS + number] != 0;
    let has_message = messages.link[HEADS_OF_MESSAGES + number] != 0;
    if mailbox.defined == 0 {
        return !has_waiter && !has_message;
    }
    if mailbox.defined > 1 || mailbox.attribute > 3 || has_waiter && has_message {
        return false;
    }
    if waiters_ranked(mailbox) && !in_order(waiting, HEADS_OF_WAITERS + number, 16) {
        return false;
    }
    !messages_ranked(mailbox) || (1..=16).contains(&mailbox.highest) && in_order(messages, HEADS_OF_MESSAGES + number, mailbox.highest)
}

/// Whether the record is sound, whatever its numbers are.
#[inline(never)]
pub fn sound(record: &Record) -> bool {
    let mut standing = [0; TASKS + 1];
    let mut queued = [0; MESSAGES + 1];
    if !chains_sound(&record.waiting.link, &mut standing) || !chains_sound(&record.messages.link, &mut queued) {
        return false;
    }
    for task in 1..TASKS + 1 {
        if !task_sound(&record.tasks[task], record.waiting.key[task], standing[task], record.counter) {
            return false;
        }
    }
    for number in 1..OBJECTS + 1 {
        if !queue_sound(&record.queues[number], &record.waiting, number) {
            return false;
        }
        if !mailbox_sound(&record.mailboxes[number], &record.waiting, &record.messages, number) {
            return false;
        }
    }
    true
}

// ── Chains and rings ──

// Puts a number into a chain, behind those at its head whose key is at most the limit, and returns how many are ahead of it.
fn insert(chains: &mut Chains, head: usize, number: u8, limit: u8) -> u32 {
    let mut at = head;
    let mut place = 0;
    loop {
        let next = chains.link[at] as usize;
        if next == 0 || chains.key[next] > limit {
            break;
        }
        at = next;
        place += 1;
    }
    chains.link[number as usize] = chains.link[at];
    chains.link[at] = number;
    place
}

// Takes the first number out of a chain that has one.
fn pop(chains: &mut Chains, head: usize) -> u8 {
    let first = chains.link[head];
    chains.link[head] = chains.link[first as usize];
    first
}

// Takes a number out of the chain that it stands in.
fn remove(chains: &mut Chains, head: usize, number: u8) {
    let mut at = head;
    while chains.link[at] != number && chains.link[at] != 0 {
        at = chains.link[at] as usize;
    }
    chains.link[at] = chains.link[number as usize];
}

// Whether a message is queued in some mailbox. The record has no mark for it, so the chains are followed.
fn is_queued(messages: &Chains, message: u8) -> bool {
    (1..MAILBOXES + 1).any(|mailbox| {
        let mut next = messages.link[HEADS_OF_MESSAGES + mailbox];
        while next != 0 && next != message {
            next = messages.link[next as usize];
        }
        next == message
    })
}

// The limit that passes every key.
const EVERY_KEY: u8 = 255;

fn limit(ranked: bool, priority: u8) -> u8 {
    if ranked {
        priority
    } else {
        EVERY_KEY
    }
}

fn new_ring(capacity: u8) -> Ring {
    Ring { words: [0; WORDS], head: 0, count: 0, capacity, spare: 0 }
}

fn push_word(ring: &mut Ring, word: u32) {
    ring.words[(ring.head + ring.count) as usize % WORDS] = word;
    ring.count += 1;
}

fn pop_word(ring: &mut Ring) -> u32 {
    let word = ring.words[ring.head as usize % WORDS];
    ring.head = (ring.head + 1) % WORDS as u8;
    ring.count -= 1;
    word
}

// ── Waits ──

// Cells of a wait: what kind, where, until when and with which word.
struct Wait {
    kind: u8,
    object: u8,
    tmout: i32,
    sending: u32,
}

// The task's wait is over; the pair is what fetch then gives.
fn end_wait(task: &mut Task, code: u8, word: u32) {
    *task = Task { word, end: 0, sending: 0, wait: NO_WAIT, object: 0, timed: 0, code, flags: task.flags };
}

// The head of a chain leaves it with E_OK and a word.
fn release(record: &mut Record, head: usize, word: u32) {
    let first = pop(&mut record.waiting, head);
    end_wait(&mut record.tasks[first as usize], 0, word);
}

// The task joins a chain and starts a wait.
fn join(record: &mut Record, head: usize, me: u32, ranked: bool, wait: Wait) -> Outcome {
    let i = me as usize;
    let behind = limit(ranked, record.waiting.key[i]);
    let place = insert(&mut record.waiting, head, me as u8, behind);
    let timed = wait.tmout >= 0;
    let end = if timed { record.counter.wrapping_add(wait.tmout as u32 + 1) } else { 0 };
    let Wait { kind, object, sending, .. } = wait;
    let flags = record.tasks[i].flags;
    record.tasks[i] = Task { word: 0, end, sending, wait: kind, object, timed: timed.into(), code: 0, flags };
    Ok(HostAnswer { kind: 1, code: NO_CODE, place, a: 0, b: 0, c: 0 })
}

// A task leaves the chain of its wait, which ends with this code and no word.
fn cancel(record: &mut Record, number: u8, code: u8) {
    let task = &mut record.tasks[number as usize];
    let heads = match task.wait {
        SENDING => HEADS_OF_SENDERS,
        RECEIVING => HEADS_OF_RECEIVERS,
        _ => HEADS_OF_WAITERS,
    };
    remove(&mut record.waiting, heads + task.object as usize, number);
    end_wait(task, code, 0);
}

const RLWAI: u8 = -E_RLWAI as u8;
const TMOUT: u8 = -E_TMOUT as u8;
const DLT: u8 = -E_DLT as u8;

// All waits of a chain end with E_DLT.
fn delete_chain(record: &mut Record, head: usize) {
    while record.waiting.link[head] != 0 {
        let first = pop(&mut record.waiting, head);
        end_wait(&mut record.tasks[first as usize], DLT, 0);
    }
}

// ── Data queues ──

// What a call does that finds no room, or no word. The tmout -1 waits without end.
enum Otherwise {
    Refuse,
    Wait { me: u32, tmout: i32 },
    Replace,
}

fn wait_for(call: &Call, tmout: i32) -> Otherwise {
    if tmout == 0 {
        Otherwise::Refuse
    } else {
        Otherwise::Wait { me: call.caller, tmout }
    }
}

fn send(record: &mut Record, q: usize, word: u32, full: Otherwise) -> Outcome {
    if record.waiting.link[HEADS_OF_RECEIVERS + q] != 0 {
        release(record, HEADS_OF_RECEIVERS + q, word);
        return done();
    }
    let queue = &mut record.queues[q];
    if queue.ring.count < queue.ring.capacity {
        push_word(&mut queue.ring, word);
        return done();
    }
    match full {
        Otherwise::Refuse => Err(E_TMOUT),
        Otherwise::Wait { me, tmout } => {
            let ranked = queue.attribute == TA_TPRI as u8;
            join(record, HEADS_OF_SENDERS + q, me, ranked, Wait { kind: SENDING, object: q as u8, tmout, sending: word })
        }
        Otherwise::Replace => {
            demand(queue.ring.capacity != 0, E_ILUSE)?;
            pop_word(&mut queue.ring);
            push_word(&mut queue.ring, word);
            done()
        }
    }
}

fn receive(record: &mut Record, q: usize, empty: Otherwise) -> Outcome {
    let sender = record.waiting.link[HEADS_OF_SENDERS + q] as usize;
    let ring = &mut record.queues[q].ring;
    if ring.count != 0 {
        let word = pop_word(ring);
        if sender != 0 {
            push_word(ring, record.tasks[sender].sending);
            release(record, HEADS_OF_SENDERS + q, 0);
        }
        return gives(word, 0, 0);
    }
    if sender != 0 {
        let word = record.tasks[sender].sending;
        release(record, HEADS_OF_SENDERS + q, 0);
        return gives(word, 0, 0);
    }
    match empty {
        Otherwise::Wait { me, tmout } => {
            join(record, HEADS_OF_RECEIVERS + q, me, false, Wait { kind: RECEIVING, object: q as u8, tmout, sending: 0 })
        }
        _ => Err(E_TMOUT),
    }
}

fn create_queue(record: &mut Record, q: usize, call: &Call) -> Outcome {
    demand(call.attribute <= TA_TPRI && call.value <= WORDS as u32, E_PAR)?;
    demand(record.queues[q].defined == 0, E_OBJ)?;
    record.queues[q] = Queue { ring: new_ring(call.value as u8), defined: 1, attribute: call.attribute as u8, spare: 0 };
    done()
}

fn delete_queue(record: &mut Record, q: usize) -> Outcome {
    delete_chain(record, HEADS_OF_SENDERS + q);
    delete_chain(record, HEADS_OF_RECEIVERS + q);
    record.queues[q] = Queue { ring: new_ring(0), defined: 0, attribute: 0, spare: 0 };
    done()
}

fn refer_queue(record: &Record, q: usize) -> Outcome {
    let link = &record.waiting.link;
    gives(link[HEADS_OF_SENDERS + q].into(), link[HEADS_OF_RECEIVERS + q].into(), record.queues[q].ring.count.into())
}

fn on_queue(record: &mut Record, call: &Call) -> Outcome {
    let q = within(call.object, QUEUES)?;
    if call.number == CRE_DTQ {
        return create_queue(record, q, call);
    }
    tmout_in_range(call)?;
    demand(record.queues[q].defined != 0, E_NOEXS)?;
    match call.number {
        DEL_DTQ => delete_queue(record, q),
        SND_DTQ => send(record, q, call.value, wait_for(call, TMO_FEVR)),
        PSND_DTQ => send(record, q, call.value, Otherwise::Refuse),
        TSND_DTQ => send(record, q, call.value, wait_for(call, call.tmout)),
        FSND_DTQ => send(record, q, call.value, Otherwise::Replace),
        RCV_DTQ => receive(record, q, wait_for(call, TMO_FEVR)),
        PRCV_DTQ => receive(record, q, Otherwise::Refuse),
        TRCV_DTQ => receive(record, q, wait_for(call, call.tmout)),
        _ => refer_queue(record, q),
    }
}

// ── Mailboxes ──

fn waiters_ranked(mailbox: &Mailbox) -> bool {
    mailbox.attribute & TA_TPRI as u8 != 0
}

fn messages_ranked(mailbox: &Mailbox) -> bool {
    mailbox.attribute & TA_MPRI as u8 != 0
}

fn create_mailbox(record: &mut Record, b: usize, call: &Call) -> Outcome {
    let ranked = call.attribute & TA_MPRI != 0;
    demand(call.attribute <= TA_TPRI + TA_MPRI && (!ranked || (1..=LOWEST_PRIORITY).contains(&call.value)), E_PAR)?;
    demand(record.mailboxes[b].defined == 0, E_OBJ)?;
    let highest = if ranked { call.value as u8 } else { 0 };
    record.mailboxes[b] = Mailbox { defined: 1, attribute: call.attribute as u8, highest };
    done()
}

fn delete_mailbox(record: &mut Record, b: usize) -> Outcome {
    delete_chain(record, HEADS_OF_WAITERS + b);
    record.messages.link[HEADS_OF_MESSAGES + b] = 0;
    record.mailboxes[b] = Mailbox { defined: 0, attribute: 0, highest: 0 };
    done()
}

fn send_message(record: &mut Record, b: usize, call: &Call) -> Outcome {
    let mailbox = record.mailboxes[b];
    let ranked = messages_ranked(&mailbox);
    demand(!ranked || (1..=mailbox.highest as u32).contains(&call.attribute), E_PAR)?;
    demand(!is_queued(&record.messages, call.value as u8), E_OBJ)?;
    if record.waiting.link[HEADS_OF_WAITERS + b] != 0 {
        release(record, HEADS_OF_WAITERS + b, call.value);
        return done();
    }
    let message = call.value as u8;
    let priority = if ranked { call.attribute as u8 } else { 0 };
    record.messages.key[message as usize] = priority;
    let place = insert(&mut record.messages, HEADS_OF_MESSAGES + b, message, limit(ranked, priority));
    gives(place, 0, 0)
}

fn receive_message(record: &mut Record, b: usize, empty: Otherwise) -> Outcome {
    if record.messages.link[HEADS_OF_MESSAGES + b] != 0 {
        let message = pop(&mut record.messages, HEADS_OF_MESSAGES + b);
        return gives(message.into(), 0, 0);
    }
    match empty {
        Otherwise::Wait { me, tmout } => {
            let ranked = waiters_ranked(&record.mailboxes[b]);
            join(record, HEADS_OF_WAITERS + b, me, ranked, Wait { kind: AT_MAILBOX, object: b as u8, tmout, sending: 0 })
        }
        _ => Err(E_TMOUT),
    }
}

fn refer_mailbox(record: &Record, b: usize) -> Outcome {
    gives(record.waiting.link[HEADS_OF_WAITERS + b].into(), record.messages.link[HEADS_OF_MESSAGES + b].into(), 0)
}

fn on_mailbox(record: &mut Record, call: &Call) -> Outcome {
    let b = within(call.object, MAILBOXES)?;
    if call.number == CRE_MBX {
        return create_mailbox(record, b, call);
    }
    tmout_in_range(call)?;
    demand(call.number != SND_MBX || (1..=MESSAGES as u32).contains(&call.value), E_PAR)?;
    demand(record.mailboxes[b].defined != 0, E_NOEXS)?;
    match call.number {
        DEL_MBX => delete_mailbox(record, b),
        SND_MBX => send_message(record, b, call),
        RCV_MBX => receive_message(record, b, wait_for(call, TMO_FEVR)),
        PRCV_MBX => receive_message(record, b, Otherwise::Refuse),
        TRCV_MBX => receive_message(record, b, wait_for(call, call.tmout)),
        _ => refer_mailbox(record, b),
    }
}

// ── Tasks and the tick ──

fn define_task(record: &mut Record, t: usize, call: &Call) -> Outcome {
    demand((1..=LOWEST_PRIORITY).contains(&call.value), E_PAR)?;
    demand(record.tasks[t].flags & DEFINED == 0, E_OBJ)?;
    record.waiting.key[t] = call.value as u8;
    record.tasks[t] = Task { word: 0, end: 0, sending: 0, wait: NO_WAIT, object: 0, timed: 0, code: 0, flags: DEFINED };
    done()
}

fn on_task(record: &mut Record, call: &Call) -> Outcome {
    let t = within(call.object, TASKS)?;
    if call.number == DEFINE_TASK {
        return define_task(record, t, call);
    }
    let task = &mut record.tasks[t];
    let suspended = task.flags & SUSPENDED != 0;
    demand(task.flags & DEFINED != 0, E_NOEXS)?;
    match call.number {
        REL_WAI => {
            demand(task.wait != NO_WAIT, E_OBJ)?;
            cancel(record, t as u8, RLWAI);
            done()
        }
        SUS_TSK => {
            demand(!suspended, E_QOVR)?;
            task.flags |= SUSPENDED;
            done()
        }
        RSM_TSK => {
            demand(suspended, E_OBJ)?;
            task.flags &= !SUSPENDED;
            done()
        }
        LOOK => {
            // A host may have left anything in the cells of a wait where there is none.
            let object = if task.wait == NO_WAIT { 0 } else { task.object };
            gives(task.wait.into(), object.into(), suspended.into())
        }
        _ => {
            demand(task.wait == NO_WAIT, E_OBJ)?;
            Ok(finished(-i32::from(task.code), task.word, 0, 0))
        }
    }
}

// An end is found by equality: less-than would go wrong where the counter wraps.
fn tick(record: &mut Record) -> HostAnswer {
    record.counter = record.counter.wrapping_add(1);
    let mut ended = 0;
    for number in 1..TASKS + 1 {
        let task = &record.tasks[number];
        if task.wait != NO_WAIT && task.timed != 0 && task.end == record.counter {
            cancel(record, number as u8, TMOUT);
            ended += 1;
        }
    }
    finished(E_OK, ended, 0, 0)
}

// ── Any call ──

// Sets of calls, a bit for each number.
const fn set(numbers: &[u32]) -> u32 {
    let mut bits = 0;
    let mut i = 0;
    while i < numbers.len() {
        bits |= 1 << numbers[i];
        i += 1;
    }
    bits
}

const MAY_WAIT: u32 = set(&[SND_DTQ, TSND_DTQ, RCV_DTQ, TRCV_DTQ, RCV_MBX, TRCV_MBX]);
const TASKS_ONLY: u32 = MAY_WAIT | set(&[DEL_DTQ, DEL_MBX]);
const WITH_TMOUT: u32 = set(&[TSND_DTQ, TRCV_DTQ, TRCV_MBX]);

fn is_in(number: u32, set: u32) -> bool {
    set >> number & 1 != 0
}

fn within(object: u32, limit: usize) -> Result<usize, i32> {
    demand((1..=limit as u32).contains(&object), E_ID)?;
    Ok(object as usize)
}

fn tmout_in_range(call: &Call) -> Result<(), i32> {
    demand(!is_in(call.number, WITH_TMOUT) || (TMO_FEVR..=LONGEST_TMOUT).contains(&call.tmout), E_PAR)
}

fn caller_may_call(record: &Record, caller: u32) -> bool {
    if caller == 0 {
        return true;
    }
    match record.tasks.get(caller as usize) {
        Some(task) => task.flags == DEFINED && task.wait == NO_WAIT,
        None => false,
    }
}

fn context_allows(call: &Call) -> bool {
    if call.locked != 0 || call.caller == 0 && is_in(call.number, TASKS_ONLY) {
        return false;
    }
    let suspends_itself = call.number == SUS_TSK && call.object == call.caller && call.caller != 0;
    call.disabled == 0 || !is_in(call.number, MAY_WAIT) && !suspends_itself
}

fn perform(record: &mut Record, call: &Call) -> Outcome {
    demand(caller_may_call(record, call.caller), E_SYS)?;
    demand(context_allows(call), E_CTX)?;
    match call.number {
        CRE_DTQ..=REF_DTQ => on_queue(record, call),
        CRE_MBX..=REF_MBX => on_mailbox(record, call),
        _ => on_task(record, call),
    }
}

#[inline(always)]
fn step(record: &mut Record, call: &Call) -> HostAnswer {
    if call.number == TICK {
        return tick(record);
    }
    match perform(record, call) {
        Ok(answer) => answer,
        Err(code) => finished(code, 0, 0, 0),
    }
}

/// One call; number 0 is the tick. A refused call changes no field.
#[inline(never)]
pub fn call(record: &mut Record, call: Call) -> HostAnswer {
    if call.number > FETCH {
        return finished(E_PAR, 0, 0, 0);
    }
    if !sound(record) {
        return finished(E_SYS, 0, 0, 0);
    }
    step(record, &call)
}

/// The same without the test of the record, which the caller knows to be sound.
#[inline(never)]
pub fn call_untested(record: &mut Record, call: Call) -> HostAnswer {
    if call.number > FETCH {
        return finished(E_PAR, 0, 0, 0);
    }
    step(record, &call)
}
