//! What bench/limits runs. Every call, accepted in each of its ways and refused, is played on the proved library and on the kernel in Rust: on a typical
//! record, on a full one, and where the most is to be done. But for the tick it is played in a table of 64 calls too, and where it can be recorded, in a
//! block that ends its record, the replay's part being the beginning. For each it prints the copies that one call makes with memcpy and memmove, and the
//! stack that it takes. It fails where the library is above a limit, where a call is above what bench/footprint.txt states of it, where the two answer
//! differently, and where a table or a block doesn't do what the single call does.
#[allow(dead_code)]
mod cycles;
#[allow(dead_code)]
mod footprint;

use cycles::*;
use footprint::{row_of, stated};
use linguastel::number::*;
use linguastel::*;
use std::ffi::c_void;
use std::fmt::Display;
use std::hint::black_box;
use std::process::exit;
use std::sync::OnceLock;

// Bytes, for any call.
const STACK_LIMIT: usize = 9_216;
const COPIED_LIMIT: usize = 7 * size_of::<Record>();
// Likewise, in a table of 64 calls: the stack is that of the whole table, the bytes copied are those of one call.
const TABLE_STACK_LIMIT: usize = 10_240;
const TABLE_COPIED_LIMIT: usize = 12_288;
// Likewise, of a block that ends one record.
const BLOCK_STACK_LIMIT: usize = 12_288;
const BLOCK_COPIED_LIMIT: usize = 12 * size_of::<Record>();

// ── What is measured ──

#[repr(C)]
struct Copied {
    whole: usize,
    bytes: usize,
}

extern "C" {
    fn linguastel_unguarded_call(record: &mut Record, call: Call) -> HostAnswer;
    fn linguastel_unguarded_table(record: &mut Record, calls: *const Call, call_count: usize, answers: *mut HostAnswer, answer_count: usize) -> i32;
    fn linguastel_unguarded_replay_feed(replay: &mut Replay, block: *const u8, size: usize) -> i32;
    fn linguastel_unguarded_replay_end(replay: &Replay) -> linguastel::Line;
    fn linguastel_unguarded_task_sets(record: &Record) -> Sets;
    // Of copies.c and stack.c.
    fn copied_so_far() -> Copied;
    fn stack_written(play: extern "C" fn(*mut c_void), job: *mut c_void) -> usize;
}

// What is played on a stack of its own.
trait Job {
    fn play(&mut self);
}

extern "C" fn play<J: Job>(job: *mut c_void) {
    // SAFETY: `raw` hands over a job of this type, which nobody else uses meanwhile.
    unsafe { &mut *job.cast::<J>() }.play();
}

#[derive(Clone, Copy, Default)]
struct Figures {
    // Copies of 2,000 bytes or more, and the bytes of all copies. A record that the compiler copies part by part is in the bytes alone, so the limit is
    // on these.
    whole: usize,
    copied: usize,
    // Bytes of stack.
    stack: usize,
}

impl Figures {
    fn most(self, other: Figures) -> Figures {
        Figures { whole: self.whole.max(other.whole), copied: self.copied.max(other.copied), stack: self.stack.max(other.stack) }
    }
}

fn raw<J: Job>(job: &mut J) -> Figures {
    // SAFETY: `play` is handed the job, which nobody else uses meanwhile; copies.c hands over two numbers.
    unsafe {
        let before = copied_so_far();
        let stack = stack_written(play::<J>, std::ptr::from_mut(job).cast());
        let after = copied_so_far();
        Figures { whole: after.whole - before.whole, copied: after.bytes - before.bytes, stack }
    }
}

// Whether copies.c is what was linked. A copy of a length that the compiler doesn't know is a call of memcpy.
fn copies_are_counted() -> bool {
    let (from, mut to) = ([1u8; 3000], [0u8; 3000]);
    let length = black_box(from.len());
    // SAFETY: as for `raw`.
    let before = unsafe { copied_so_far() };
    to[..length].copy_from_slice(&black_box(from)[..length]);
    black_box(to);
    // SAFETY: likewise.
    let after = unsafe { copied_so_far() };
    after.whole > before.whole && after.bytes >= before.bytes + length
}

// The frames that play a job, which aren't the call's. A function that does nothing puts nothing below them but the address to return to.
fn frames_around(mut does_nothing: impl Job) -> usize {
    raw(&mut does_nothing).stack - size_of::<usize>()
}

// ── One call ──

type Entry = unsafe extern "C" fn(&mut Record, Call) -> HostAnswer;

extern "C" fn rust_call(record: &mut Record, call: Call) -> HostAnswer {
    baseline::call(record, call)
}

const NO_ANSWER: HostAnswer = HostAnswer { kind: 2, code: 0, place: 0, a: 0, b: 0, c: 0 };

extern "C" fn no_call(_: &mut Record, _: Call) -> HostAnswer {
    NO_ANSWER
}

struct Single {
    entry: Entry,
    record: Record,
    call: Call,
    answer: HostAnswer,
}

impl Job for Single {
    fn play(&mut self) {
        // SAFETY: an entry takes any record and any call, and writes the record alone.
        self.answer = unsafe { (self.entry)(&mut self.record, self.call) };
    }
}

fn single(entry: Entry, record: &Record, call: Call) -> Single {
    Single { entry, record: record.clone(), call, answer: NO_ANSWER }
}

fn measured(entry: Entry, record: &Record, call: Call) -> (Figures, HostAnswer, Record) {
    static FRAMES: OnceLock<usize> = OnceLock::new();
    let frames = FRAMES.get_or_init(|| frames_around(single(no_call, &Record::empty(), A_TICK)));
    let mut job = single(entry, record, call);
    let figures = raw(&mut job);
    (Figures { stack: figures.stack - frames, ..figures }, job.answer, job.record)
}

// ── One call in a table ──

type TableEntry = unsafe extern "C" fn(&mut Record, *const Call, usize, *mut HostAnswer, usize) -> i32;

extern "C" fn no_table(_: &mut Record, _: *const Call, _: usize, _: *mut HostAnswer, _: usize) -> i32 {
    E_OK
}

struct Table {
    entry: TableEntry,
    record: Record,
    calls: [Call; TABLE],
    answers: [HostAnswer; TABLE],
    code: i32,
}

impl Job for Table {
    fn play(&mut self) {
        // SAFETY: both tables are whole and have this length. The function takes any record and any calls, and writes the record and the answers alone.
        self.code = unsafe { (self.entry)(&mut self.record, self.calls.as_ptr(), TABLE, self.answers.as_mut_ptr(), TABLE) };
    }
}

// Refused wherever it stands, so that the record is left as it is for the other calls of a table.
const UNKNOWN: Call = Call { number: FETCH + 1, ..A_TICK };
const REFUSED_AS_UNKNOWN: HostAnswer = HostAnswer { kind: 0, code: E_PAR, place: 0, a: 0, b: 0, c: 0 };

// The place of the measured call, with others before it and behind it.
const MIDDLE: usize = TABLE / 2;

fn table(entry: TableEntry, record: &Record, call: Call) -> Table {
    let mut calls = [UNKNOWN; TABLE];
    calls[MIDDLE] = call;
    Table { entry, record: record.clone(), calls, answers: [NO_ANSWER; TABLE], code: E_OK }
}

fn measured_table(record: &Record, call: Call) -> (Figures, Table) {
    static FRAMES: OnceLock<usize> = OnceLock::new();
    let frames = FRAMES.get_or_init(|| frames_around(table(no_table, &Record::empty(), UNKNOWN)));
    let mut job = table(linguastel_unguarded_table, record, call);
    let figures = raw(&mut job);
    (Figures { stack: figures.stack - frames, ..figures }, job)
}

// ── One call in a block of a recording ──

type BlockEntry = unsafe extern "C" fn(&mut Replay, *const u8, usize) -> i32;

extern "C" fn no_block(_: &mut Replay, _: *const u8, _: usize) -> i32 {
    E_OK
}

struct Block {
    entry: BlockEntry,
    replay: Replay,
    block: [u8; TRACE_SIZE - BEGINNING],
    code: i32,
}

// So many bytes of the record are in the replay's part.
const BEGINNING: usize = TRACE_SIZE / 2;

impl Job for Block {
    fn play(&mut self) {
        // SAFETY: the block is whole. The function takes any replay and any bytes, and writes the replay alone.
        self.code = unsafe { (self.entry)(&mut self.replay, self.block.as_ptr(), self.block.len()) };
    }
}

fn block(entry: BlockEntry, kernel: &Record, record: [u8; TRACE_SIZE]) -> Block {
    let replay = Replay { kernel: kernel.clone(), part: record, length: BEGINNING as u64, ..Replay::empty() };
    Block { entry, replay, block: std::array::from_fn(|i| record[BEGINNING + i]), code: E_OK }
}

fn measured_block(kernel: &Record, record: [u8; TRACE_SIZE]) -> (Figures, Block) {
    static FRAMES: OnceLock<usize> = OnceLock::new();
    let frames = FRAMES.get_or_init(|| frames_around(block(no_block, &Record::empty(), [0; TRACE_SIZE])));
    let mut job = block(linguastel_unguarded_replay_feed, kernel, record);
    let figures = raw(&mut job);
    (Figures { stack: figures.stack - frames, ..figures }, job)
}

// ── What only reads: the end of a recording, and the sets of tasks ──

const NO_LINE: linguastel::Line = linguastel::Line { records: 0, differ: 0, first: 0, tail: 0, code: E_OK, spare: 0 };

extern "C" fn no_end(_: &Replay) -> linguastel::Line {
    NO_LINE
}

// As the library hands them back.
#[repr(C)]
#[derive(Clone, Copy)]
struct Sets {
    waiting: u32,
    runnable: u32,
}

const NO_SETS: Sets = Sets { waiting: 0, runnable: 0 };

extern "C" fn no_sets(_: &Record) -> Sets {
    NO_SETS
}

struct Reading<L, T> {
    entry: unsafe extern "C" fn(&L) -> T,
    lent: L,
    read: T,
}

impl<L, T> Job for Reading<L, T> {
    fn play(&mut self) {
        // SAFETY: the function takes any record or replay and only reads it.
        self.read = unsafe { (self.entry)(&self.lent) };
    }
}

fn measured_end(kernel: &Record) -> Figures {
    let replay = Replay { kernel: kernel.clone(), ..Replay::empty() };
    let frames = frames_around(Reading { entry: no_end, lent: replay.clone(), read: NO_LINE });
    let figures = raw(&mut Reading { entry: linguastel_unguarded_replay_end, lent: replay, read: NO_LINE });
    Figures { stack: figures.stack - frames, ..figures }
}

fn measured_sets(record: &Record) -> Result<Figures, String> {
    let frames = frames_around(Reading { entry: no_sets, lent: record.clone(), read: NO_SETS });
    let mut job = Reading { entry: linguastel_unguarded_task_sets, lent: record.clone(), read: NO_SETS };
    let figures = raw(&mut job);
    let waiting = (1..=TASKS).filter(|task| record.tasks[*task].wait != NO_WAIT).fold(0, |set, task| set | 1 << (task - 1));
    let able = |task: &usize| record.tasks[*task].flags == DEFINED && record.tasks[*task].wait == NO_WAIT;
    let runnable = (1..=TASKS).filter(able).fold(0, |set, task| set | 1 << (task - 1));
    if (job.read.waiting, job.read.runnable) == (waiting, runnable) {
        Ok(Figures { stack: figures.stack - frames, ..figures })
    } else {
        Err("the sets of tasks are not those of the record".into())
    }
}

// A record to play on, and what a table takes there that has unknown calls alone.
struct Ground {
    record: Record,
    sound: bool,
    unknown: Figures,
}

impl Ground {
    fn new(record: &Record) -> Ground {
        Ground { record: record.clone(), sound: record.is_sound(), unknown: measured_table(record, UNKNOWN).0 }
    }

    // What one call copies: what it adds in the place of an unknown one, and the share of an unknown one in its table. The stack is the whole table's.
    fn share(&self, table: Figures) -> Figures {
        let of = |all: usize, unknown: usize| all + unknown.div_ceil(TABLE) - unknown;
        Figures { whole: of(table.whole, self.unknown.whole), copied: of(table.copied, self.unknown.copied), stack: table.stack }
    }

    // The call in a table, beside its answer and record when it is made singly; None where they differ. Where the record isn't sound, the table as a
    // whole is refused and no cell is written.
    fn in_a_table(&self, call: Call, answer: HostAnswer, after: &Record) -> Option<Figures> {
        let (figures, table) = measured_table(&self.record, call);
        let mut answers = [if self.sound { REFUSED_AS_UNKNOWN } else { NO_ANSWER }; TABLE];
        if self.sound {
            answers[MIDDLE] = answer;
        }
        let code = if self.sound { E_OK } else { E_SYS };
        (table.code == code && table.answers == answers && table.record == *after).then(|| self.share(figures))
    }

    // The same of a block with the call's record, which has this answer. Where the kernel's state isn't sound, the block is refused.
    fn in_a_block(&self, record: [u8; TRACE_SIZE], after: &Record) -> Option<Figures> {
        let (figures, fed) = measured_block(&self.record, record);
        let (code, records) = if self.sound { (E_OK, 1) } else { (E_SYS, 0) };
        (fed.code == code && (fed.replay.records, fed.replay.differ) == (records, 0) && fed.replay.kernel == *after).then_some(figures)
    }
}

// ── Lines ──

struct Line {
    name: String,
    // The call.
    number: u32,
    played: usize,
    library: Figures,
    // In a table; none for a tick, which can't stand in one.
    table: Option<Figures>,
    // In a block of a recording; none for an unknown number, which isn't recorded.
    block: Option<Figures>,
    rust: Figures,
}

impl Line {
    fn new(name: String, number: u32) -> Line {
        Line { name, number, played: 0, library: Figures::default(), table: None, block: None, rust: Figures::default() }
    }

    // The line keeps the most of all calls that were played for it.
    fn play(&mut self, ground: &Ground, call: Call) -> Result<HostAnswer, String> {
        let (library, answer, after) = measured(linguastel_unguarded_call, &ground.record, call);
        let (rust, other, rust_after) = measured(rust_call, &ground.record, call);
        if answer != other || after != rust_after {
            let records = if after == rust_after { "equal" } else { "not equal" };
            return Err(format!("{}: {call:?}: {answer:?}, in Rust {other:?}; the records are {records}", self.name));
        }
        if call.number != TICK {
            let table = ground.in_a_table(call, answer, &after);
            let table = table.ok_or_else(|| format!("{}: {call:?}: a table doesn't do what the single call does", self.name))?;
            self.table = Some(self.table.unwrap_or_default().most(table));
        }
        if let Some(record) = call.trace(answer) {
            let block = ground.in_a_block(record, &after);
            let block = block.ok_or_else(|| format!("{}: {call:?}: a block doesn't do what the single call does", self.name))?;
            self.block = Some(self.block.unwrap_or_default().most(block));
        }
        self.played += 1;
        self.library = self.library.most(library);
        self.rust = self.rust.most(rust);
        Ok(answer)
    }

    fn print(&self) {
        let Line { name, played, library, table, block, rust, .. } = self;
        let table = table.map_or(vec!["-".into(); 3], |table| cells([table.whole, table.copied, table.stack]));
        let block = block.map_or(vec!["-".into(); 2], |block| cells([block.copied, block.stack]));
        let library = cells([*played, library.whole, library.copied, library.stack]);
        print_row(name, &[library, table, block, cells([rust.copied, rust.stack])].concat());
    }
}

fn cells<const N: usize>(numbers: [usize; N]) -> Vec<String> {
    numbers.map(|number| number.to_string()).into()
}

fn print_row<T: Display>(name: &str, cells: &[T]) {
    let cells: Vec<String> = cells.iter().map(|cell| format!("{cell:>8}")).collect();
    println!("{name:<56}{}", cells.concat());
}

// ── The ways of a call ──

// The number behind the last call's is unknown.
fn call_name(number: u32) -> String {
    match CALL_NAMES.get(number as usize) {
        Some(name) => name.to_string(),
        None => format!("number {number}"),
    }
}

const REFUSED: &str = "refused";

// The ways in which a call is accepted.
fn ways(number: u32) -> &'static [&'static str] {
    match number {
        TICK => &["ends nothing", "ends a wait"],
        DEL_DTQ => &["nobody waits", "senders wait", "receivers wait"],
        SND_DTQ | TSND_DTQ => &["to a receiver", "stored", "waits", "waits by priority"],
        PSND_DTQ => &["to a receiver", "stored"],
        FSND_DTQ => &["to a receiver", "stored", "replaces the oldest"],
        RCV_DTQ | TRCV_DTQ => &["a stored word", "refills from a sender", "from a sender", "waits"],
        PRCV_DTQ => &["a stored word", "refills from a sender", "from a sender"],
        DEL_MBX => &["nothing in it", "tasks wait", "messages are queued"],
        SND_MBX => &["to a waiter", "queued", "queued by priority"],
        RCV_MBX | TRCV_MBX => &["a message", "waits", "waits by priority"],
        PRCV_MBX => &["a message"],
        REL_WAI => &["of a sender", "of a receiver", "at a mailbox"],
        FETCH.. if number > FETCH => &[],
        _ => &["accepted"],
    }
}

fn waits(by_priority: bool) -> &'static str {
    if by_priority {
        "waits by priority"
    } else {
        "waits"
    }
}

fn way_at_queue(before: &Record, number: u32, q: usize, answer: HostAnswer) -> &'static str {
    let (sender, receiver) = (before.waiting.link[HEADS_OF_SENDERS + q] != 0, before.waiting.link[HEADS_OF_RECEIVERS + q] != 0);
    let Queue { ring, attribute, .. } = before.queues[q];
    let sends = matches!(number, SND_DTQ..=FSND_DTQ);
    match number {
        DEL_DTQ if sender => "senders wait",
        DEL_DTQ if receiver => "receivers wait",
        DEL_DTQ => "nobody waits",
        _ if answer.read().waits() => waits(sends && attribute == TA_TPRI as u8),
        _ if sends && receiver => "to a receiver",
        _ if sends && ring.count < ring.capacity => "stored",
        _ if sends => "replaces the oldest",
        _ if !sender => "a stored word",
        _ if ring.count == 0 => "from a sender",
        _ => "refills from a sender",
    }
}

fn way_at_mailbox(before: &Record, number: u32, b: usize, answer: HostAnswer) -> &'static str {
    let (waiter, message) = (before.waiting.link[HEADS_OF_WAITERS + b] != 0, before.messages.link[HEADS_OF_MESSAGES + b] != 0);
    let attribute = u32::from(before.mailboxes[b].attribute);
    match number {
        DEL_MBX if waiter => "tasks wait",
        DEL_MBX if message => "messages are queued",
        DEL_MBX => "nothing in it",
        SND_MBX if waiter => "to a waiter",
        SND_MBX if attribute & TA_MPRI != 0 => "queued by priority",
        SND_MBX => "queued",
        _ if answer.read().waits() => waits(attribute & TA_TPRI != 0),
        _ => "a message",
    }
}

fn way(before: &Record, call: Call, answer: HostAnswer) -> &'static str {
    let object = call.object as usize;
    match call.number {
        // A code that fetch gives is that of a wait, unless there is nothing to fetch.
        FETCH if matches!(answer.code, E_OK | E_RLWAI | E_TMOUT | E_DLT) => "accepted",
        _ if matches!(answer.read(), Answer::Error(_)) => REFUSED,
        TICK if answer.a == 0 => "ends nothing",
        TICK => "ends a wait",
        DEL_DTQ..=TRCV_DTQ => way_at_queue(before, call.number, object, answer),
        DEL_MBX..=TRCV_MBX => way_at_mailbox(before, call.number, object, answer),
        REL_WAI => ["", "of a sender", "of a receiver", "at a mailbox"][before.tasks[object].wait as usize],
        _ => "accepted",
    }
}

// ── All calls on a record ──

// Who calls, and whether the CPU is locked or dispatching disabled: a task that may call, the handler, a task that waits, and no task.
fn contexts(record: &Record) -> Vec<Call> {
    let able = (1..=TASKS).rfind(|t| record.tasks[*t].flags == DEFINED && record.tasks[*t].wait == NO_WAIT).expect("a task that may call");
    let waiting = (1..=TASKS).find(|t| record.tasks[*t].wait != NO_WAIT).expect("a task that waits");
    let me = Call { caller: able as u32, ..A_TICK };
    let other = |caller| Call { caller, ..A_TICK };
    vec![me, Call { locked: 1, ..me }, Call { disabled: 1, ..me }, other(0), other(waiting as u32), other(33)]
}

// Values and attributes, with some that are out of range.
fn words(number: u32) -> (&'static [u32], &'static [u32]) {
    match number {
        DEFINE_TASK => (&[0, 1, 16, 17], &[0]),
        CRE_DTQ => (&[0, 4, 16, 17], &[0, 1, 2]),
        CRE_MBX => (&[0, 8, 16, 17], &[0, 1, 2, 3, 4]),
        SND_MBX => (&[0, 1, 20, 64, 65], &[0, 1, 3, 8, 16, 17]),
        _ => (&[7], &[0]),
    }
}

fn tmouts(number: u32) -> &'static [i32] {
    match number {
        TSND_DTQ | TRCV_DTQ | TRCV_MBX => &[-2, TMO_FEVR, TMO_POL, 1, 100],
        _ => &[0],
    }
}

// Each of the calls with each of the options.
fn each<T: Copy>(calls: &[Call], options: &[T], with: impl Fn(Call, T) -> Call) -> Vec<Call> {
    calls.iter().flat_map(|call| options.iter().map(|option| with(*call, *option))).collect()
}

fn calls_of(record: &Record, number: u32) -> Vec<Call> {
    let (values, attributes) = words(number);
    let objects: Vec<u32> = (0..=33).collect();
    let calls = each(&contexts(record), &objects, |call, object| Call { number, object, ..call });
    let calls = each(&calls, values, |call, value| Call { value, ..call });
    let calls = each(&calls, attributes, |call, attribute| Call { attribute, ..call });
    each(&calls, tmouts(number), |call, tmout| Call { tmout, ..call })
}

// One line for each way of each call, for these records together. A way that no call went is an error.
fn all_calls(name: &str, records: &[Record]) -> Result<Vec<Line>, String> {
    let grounds: Vec<Ground> = records.iter().map(Ground::new).collect();
    let mut all = Vec::new();
    for number in TICK..=FETCH + 1 {
        let ways: Vec<&str> = ways(number).iter().copied().chain([REFUSED]).collect();
        let mut lines: Vec<Line> = ways.iter().map(|way| Line::new(format!("{name}: {}, {way}", call_name(number)), number)).collect();
        for ground in &grounds {
            for call in calls_of(&ground.record, number) {
                let taken = way(&ground.record, call, ground.record.clone().host_call(call));
                let place = ways.iter().position(|way| *way == taken).ok_or(format!("{name}: {call:?}: '{taken}' is no way of this call"))?;
                let _ = lines[place].play(ground, call)?;
            }
        }
        all.extend(lines);
    }
    match all.iter().find(|line| line.played == 0) {
        Some(line) => Err(format!("{}: no call went this way", line.name)),
        None => Ok(all),
    }
}

// ── The records ──

fn made(mut record: Record, calls: &[Call]) -> Record {
    for call in calls {
        let answer = record.call(*call);
        assert!(answer.is_ok() || answer.waits(), "{call:?}: {answer:?}");
    }
    record
}

fn situation(name: &str) -> Record {
    let situation = situations().into_iter().find(|situation| situation.name == name).expect("a record of this name");
    made(Record { counter: situation.counter, ..Record::empty() }, &situation.calls)
}

// The test finds this in the last row that it looks at.
fn not_sound(mut record: Record) -> Record {
    record.mailboxes[MAILBOXES].defined = 2;
    record
}

// After one tick, this wait is a tick from its end.
fn shortest_wait(task: u32, queue: u32) -> Call {
    Call { tmout: 1, ..by(task, TRCV_DTQ, queue) }
}

// The typical record, and then one with what it lacks: a sender at a queue without places, an empty mailbox with waits by priority, a suspended task, a
// wait that the next tick ends.
fn typical_records() -> Vec<Record> {
    let record = situation("typical");
    let more = [create_queue(7, 0, 0), send(6, 7, 1), create_mailbox(5, 1, 0), by(0, SUS_TSK, 3), shortest_wait(7, 6), A_TICK];
    vec![record.clone(), made(record.clone(), &more), not_sound(record)]
}

// The full record; one with a task, a queue, a mailbox and a message less, and a suspended task; one with a mailbox in order of arrival, and a wait that
// the next tick ends.
fn full_records() -> Vec<Record> {
    let record = situation("full");
    let mut less = made(record.clone(), &[by(32, DEL_DTQ, 16), by(32, DEL_MBX, 16), by(0, PRCV_MBX, 1), by(0, SUS_TSK, 3)]);
    less.tasks[31].flags = 0;
    let other = [by(32, DEL_MBX, 16), create_mailbox(16, 0, 0), by(0, PRCV_MBX, 1), shortest_wait(31, 16), A_TICK];
    vec![record.clone(), less, made(record.clone(), &other), not_sound(record)]
}

// ── Where the most is to be done ──

// What 32 tasks wait for, all at one object.
struct Crowd {
    name: &'static str,
    object: Call,
    wait: u32,
    delete: u32,
}

fn crowds() -> [Crowd; 3] {
    [
        Crowd { name: "senders", object: create_queue(1, 1, 0), wait: TSND_DTQ, delete: DEL_DTQ },
        Crowd { name: "receivers", object: create_queue(1, 0, 16), wait: TRCV_DTQ, delete: DEL_DTQ },
        Crowd { name: "waiters at a mailbox", object: create_mailbox(1, 1, 0), wait: TRCV_MBX, delete: DEL_MBX },
    ]
}

impl Crowd {
    fn wait_of(&self, task: u32) -> Call {
        Call { tmout: 1, ..by(task, self.wait, 1) }
    }

    // So many tasks wait, a tick from their end, the smallest number last: the tick, which goes by number, then finds each at the end of the chain.
    fn waiting(&self, tasks: u32) -> Record {
        let defined = (1..=TASKS as u32).map(|task| define(task, 5));
        let calls: Vec<Call> = defined.chain([self.object]).chain((1..=tasks).rev().map(|task| self.wait_of(task))).chain([A_TICK]).collect();
        made(Record::empty(), &calls)
    }
}

fn messages_queued(count: u32) -> Record {
    let calls: Vec<Call> = [define(1, 5), create_mailbox(1, 2, 16)].into_iter().chain((1..=count).map(|number| message(0, 1, number, 5))).collect();
    made(Record::empty(), &calls)
}

fn one(name: String, record: Record, call: Call, expected: Expected) -> Result<Line, String> {
    let mut line = Line::new(name, call.number);
    let answer = line.play(&Ground::new(&record), call)?;
    if expected.is(answer) {
        Ok(line)
    } else {
        Err(format!("{}: {call:?}: {answer:?}", line.name))
    }
}

fn longest() -> Result<Vec<Line>, String> {
    let ok = Code(E_OK);
    let mut lines = Vec::new();
    for crowd in crowds() {
        let name = crowd.name;
        assert_eq!(crowd.waiting(32).host_call(A_TICK).a, 32);
        lines.push(one(format!("most: tick ends 32 waits, {name}"), crowd.waiting(32), A_TICK, ok)?);
        lines.push(one(format!("most: rel_wai of the last of 32 {name}"), crowd.waiting(32), by(0, REL_WAI, 1), ok)?);
        lines.push(one(format!("most: {} with 31 {name}", call_name(crowd.delete)), crowd.waiting(31), by(32, crowd.delete, 1), ok)?);
        lines.push(one(format!("most: {} behind 31 {name}", call_name(crowd.wait)), crowd.waiting(31), crowd.wait_of(32), Place(31))?);
    }
    lines.push(one("most: snd_mbx by priority behind 63 messages".into(), messages_queued(63), message(0, 1, 64, 5), ok)?);
    lines.push(one("most: prcv_mbx, the first of 64 messages".into(), messages_queued(64), by(0, PRCV_MBX, 1), ok)?);
    lines.push(one("most: del_mbx with 64 messages".into(), messages_queued(64), by(1, DEL_MBX, 1), ok)?);
    Ok(lines)
}

// ── The limits ──

fn all_lines() -> Result<Vec<Line>, String> {
    let mut lines = all_calls("typical", &typical_records())?;
    lines.extend(all_calls("full", &full_records())?);
    lines.extend(longest()?);
    Ok(lines)
}

// What is told of all lines together. Where there is a limit, no line may be above it.
struct Most {
    what: &'static str,
    limit: Option<usize>,
    of: fn(&Line) -> usize,
}

fn in_table(line: &Line) -> Figures {
    line.table.unwrap_or_default()
}

fn in_block(line: &Line) -> Figures {
    line.block.unwrap_or_default()
}

const ALL_MOST: [Most; 10] = [
    Most { what: "whole copies", limit: None, of: |line| line.library.whole },
    Most { what: "bytes copied", limit: Some(COPIED_LIMIT), of: |line| line.library.copied },
    Most { what: "bytes of stack", limit: Some(STACK_LIMIT), of: |line| line.library.stack },
    Most { what: "whole copies in a table of 64, for one call", limit: None, of: |line| in_table(line).whole },
    Most { what: "bytes copied in a table of 64, for one call", limit: Some(TABLE_COPIED_LIMIT), of: |line| in_table(line).copied },
    Most { what: "bytes of stack of a table of 64", limit: Some(TABLE_STACK_LIMIT), of: |line| in_table(line).stack },
    Most { what: "bytes copied by a block that ends one record", limit: Some(BLOCK_COPIED_LIMIT), of: |line| in_block(line).copied },
    Most { what: "bytes of stack of a block that ends one record", limit: Some(BLOCK_STACK_LIMIT), of: |line| in_block(line).stack },
    Most { what: "bytes copied in Rust", limit: None, of: |line| line.rust.copied },
    Most { what: "bytes of stack in Rust", limit: None, of: |line| line.rust.stack },
];

impl Most {
    // The largest of all lines, with the first line that has it.
    fn print(&self, lines: &[Line]) {
        let most = lines.iter().rev().max_by_key(|line| (self.of)(line)).expect("a line");
        let limit = self.limit.map_or(String::new(), |limit| format!(", limit {limit}"));
        println!("the most {}: {}{limit} ({})", self.what, (self.of)(most), most.name);
    }

    fn above(&self, lines: &[Line]) -> Vec<String> {
        let limit = self.limit.unwrap_or(usize::MAX);
        let over = lines.iter().filter(|line| (self.of)(line) > limit);
        over.map(|line| format!("{}: {} {}, above {limit}", line.name, (self.of)(line), self.what)).collect()
    }
}

// ── The stated figures ──

// The most of all lines, in the way that `of` names.
fn most_of<'a>(lines: impl Iterator<Item = &'a Line>, of: fn(&Line) -> Figures) -> Figures {
    lines.map(of).fold(Figures::default(), Figures::most)
}

// What is measured for each row of bench/footprint.txt.
fn measured_rows(lines: &[Line]) -> Result<Vec<(String, Figures)>, String> {
    let name = |number: u32| CALL_NAMES.get(number as usize).map_or(footprint::UNKNOWN_NUMBER.into(), |name| row_of(name));
    let of_call = |number: u32| (name(number), most_of(lines.iter().filter(|line| line.number == number), |line| line.library));
    let mut rows: Vec<(String, Figures)> = (TICK..=FETCH + 1).map(of_call).collect();
    let unsound = [not_sound(situation("typical")), not_sound(situation("full"))];
    let refused = unsound.iter().flat_map(|record| (TICK..=FETCH).map(move |number| measured(linguastel_unguarded_call, record, by(0, number, 1)).0));
    rows.push((footprint::NOT_SOUND.into(), refused.fold(Figures::default(), Figures::most)));
    let records: Vec<Record> = typical_records().into_iter().chain(full_records()).collect();
    let ends = records.iter().map(measured_end).fold(Figures::default(), Figures::most);
    let sets = records.iter().map(measured_sets).collect::<Result<Vec<_>, _>>()?.into_iter().fold(Figures::default(), Figures::most);
    rows.push((footprint::IN_TABLE.into(), most_of(lines.iter(), in_table)));
    rows.push((footprint::IN_BLOCK.into(), most_of(lines.iter(), in_block)));
    rows.push((footprint::REPLAY_END.into(), ends));
    rows.push((footprint::TASK_SETS.into(), sets));
    Ok(rows)
}

fn above_stated(lines: &[Line]) -> Result<Vec<String>, String> {
    let mut faults = Vec::new();
    for (name, figures) in measured_rows(lines)? {
        let (stack, copied) = (stated(&name, footprint::STACK)? as usize, stated(&name, footprint::COPIED)? as usize);
        println!("{name}: {} bytes of stack, {stack} stated; {} bytes copied, {copied} stated", figures.stack, figures.copied);
        if figures.stack > stack || figures.copied > copied {
            faults.push(format!("{name}: above what bench/footprint.txt states"));
        }
    }
    for (name, size, align) in [("a record", size_of::<Record>(), align_of::<Record>()), ("a replay", size_of::<Replay>(), align_of::<Replay>())] {
        if (stated(name, 0)?, stated(name, 1)?) != (size as u64, align as u64) {
            faults.push(format!("{name}: {size} bytes, a multiple of {align}; not what bench/footprint.txt states"));
        }
    }
    Ok(faults)
}

fn run() -> Result<(), String> {
    if !copies_are_counted() {
        return Err("copies aren't counted: bench/copies.c is not what was linked".into());
    }
    let lines = all_lines()?;
    print_row("", &["", "whole", "bytes", "", "table:", "", "", "block:", "", "Rust:", ""]);
    let columns = ["calls", "copies", "copied", "stack", "copies", "copied", "stack", "copied", "stack", "copied", "stack"];
    print_row("the most of all calls that were played", &columns);
    lines.iter().for_each(Line::print);
    ALL_MOST.iter().for_each(|most| most.print(&lines));
    let mut faults: Vec<String> = ALL_MOST.iter().flat_map(|most| most.above(&lines)).collect();
    faults.extend(above_stated(&lines)?);
    if faults.is_empty() {
        Ok(())
    } else {
        Err(faults.join("\n"))
    }
}

fn main() {
    if let Err(what) = run() {
        eprintln!("{what}");
        exit(1);
    }
}
