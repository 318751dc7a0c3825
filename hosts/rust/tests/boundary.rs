//! Tests the boundary between a host in Rust and the library: the layout, bad numbers, records that aren't sound, what calls write, tables of calls,
//! hosts/runs through the wrapper, the recording of calls, and the replay of a recording in blocks. hosts/c/boundary.c is the same for C. A null or
//! misaligned pointer is no `&mut Record` and no slice; noise in all unused fields, and tables and blocks at the edge of a page, are left to the test
//! in C. Every byte of a record, an answer, a replay or a line belongs to a field, so `==` compares all of them. The folder boundary has the tests of
//! what the wrapper adds to the library: answers as an enum, names, and what a host asks of a record.
#[path = "boundary/answers.rs"]
mod answers;
#[path = "boundary/names.rs"]
mod names;
#[path = "boundary/state.rs"]
mod state;

use linguastel::*;
use std::array::from_fn;
use std::collections::BTreeSet;
use std::ffi::c_void;
use std::hint::black_box;
use std::mem::{align_of, size_of};
use std::ptr::null_mut;

// ── Records ──

/// Marsaglia's generator, the same numbers in every run.
struct Noise(u32);

impl Noise {
    fn word(&mut self) -> u32 {
        self.0 ^= self.0 << 13;
        self.0 ^= self.0 >> 17;
        self.0 ^= self.0 << 5;
        self.0
    }

    fn byte(&mut self) -> u8 {
        (self.word() >> 24) as u8
    }

    fn bytes<const N: usize>(&mut self) -> [u8; N] {
        from_fn(|_| self.byte())
    }

    fn task(&mut self) -> Task {
        let [wait, object, timed, code] = self.bytes();
        Task { word: self.word(), end: self.word(), sending: self.word(), wait, object, timed, code, flags: self.word() }
    }

    fn queue(&mut self) -> Queue {
        let [head, count, capacity, spare, defined, attribute] = self.bytes();
        let ring = Ring { words: from_fn(|_| self.word()), head, count, capacity, spare };
        Queue { ring, defined, attribute, spare: self.word() as u16 }
    }

    fn mailbox(&mut self) -> Mailbox {
        let [defined, attribute, highest] = self.bytes();
        Mailbox { defined, attribute, highest }
    }

    fn chains(&mut self) -> Chains {
        Chains { link: self.bytes(), key: self.bytes() }
    }

    fn record(&mut self) -> Record {
        Record {
            counter: self.word(),
            tasks: from_fn(|_| self.task()),
            queues: from_fn(|_| self.queue()),
            waiting: self.chains(),
            messages: self.chains(),
            mailboxes: from_fn(|_| self.mailbox()),
            spare: self.byte(),
        }
    }

    fn below(&mut self, limit: u32) -> u32 {
        (self.word() >> 8) % limit
    }

    /// Few tasks, objects and messages, so that they meet.
    fn call(&mut self) -> Call {
        Call {
            number: self.below(number::FETCH + 1),
            caller: self.below(8),
            object: 1 + self.below(4),
            value: self.below(17),
            attribute: self.below(4),
            tmout: self.below(8) as i32 - 1,
            ..Call::default()
        }
    }

    fn answer(&mut self) -> HostAnswer {
        HostAnswer { kind: self.word(), code: self.word() as i32, place: self.word(), a: self.word(), b: self.word(), c: self.word() }
    }

    /// At times a number of no call, or a context in which calls are refused.
    fn call_of_table(&mut self) -> Call {
        let call = self.call();
        let number = if self.below(16) == 0 { NO_CALLS[self.below(NO_CALLS.len() as u32) as usize] } else { call.number };
        let mut one_in_16 = || u32::from(self.below(16) == 0);
        Call { number, locked: one_in_16(), disabled: one_in_16(), ..call }
    }

    fn table(&mut self) -> Vec<Call> {
        (0..self.below(TABLE as u32 + 1)).map(|_| self.call_of_table()).collect()
    }

    /// The number, or one time in so many one of the list.
    fn or_of(&mut self, number: u32, times: u32, list: &[u32]) -> u32 {
        if self.below(times) == 0 {
            list[self.below(list.len() as u32) as usize]
        } else {
            number
        }
    }

    /// At times numbers that are wider than their bytes in a trace, or that nobody has.
    fn wide_call(&mut self) -> Call {
        let (call, any) = (self.call(), self.word());
        Call {
            number: self.or_of(call.number, 64, &NO_CALLS),
            caller: self.or_of(call.caller, 16, &TOO_LARGE),
            locked: self.or_of(0, 32, &YES),
            disabled: self.or_of(0, 32, &YES),
            object: self.or_of(call.object, 16, &TOO_LARGE),
            value: self.or_of(call.value, 8, &[any]),
            tmout: self.or_of(call.tmout as u32, 16, &[any]) as i32,
            attribute: call.attribute,
        }
    }
}

fn noise() -> Noise {
    Noise(2_463_534_242)
}

/// Task 1 waits at data queue 1 with an end tick, task 2 at mailbox 1 with none; task 3 is able; queue 2 is full and task 4 waits to send there.
fn typical() -> Record {
    let mut record = Record::empty();
    accepted([1, 2, 3, 4].map(|task| record.idefine_task(task, 10 + task)));
    accepted([record.icre_dtq(1, TA_TFIFO, 2), record.icre_dtq(2, TA_TPRI, 3)]);
    accepted([record.icre_mbx(1, TA_TPRI, 0), record.icre_mbx(2, TA_MPRI, 9)]);
    accepted([40, 41, 42, 43].map(|word| record.ifsnd_dtq(2, word)));
    accepted([record.isnd_mbx(2, 64, 9), record.isnd_mbx(2, 33, 8), record.tick()]);
    waits([record.trcv_dtq(Context::task(1), 1, 7), record.rcv_mbx(Context::task(2), 1), record.snd_dtq(Context::task(4), 2, 44)]);
    record
}

fn accepted<const N: usize>(answers: [Answer; N]) {
    assert!(answers.iter().all(|answer| answer.is_ok()), "{answers:?}");
}

fn waits<const N: usize>(answers: [Answer; N]) {
    assert!(answers.iter().all(|answer| answer.waits()), "{answers:?}");
}

/// The word a of an answer that is E_OK.
fn word_a(answer: Answer) -> u32 {
    answer.words().unwrap_or_else(|| panic!("{answer}")).a
}

/// Refused with this code: no place, no words.
fn refusal(code: i32) -> HostAnswer {
    HostAnswer { code, ..HostAnswer::default() }
}

// ── A record or a replay that may only be read ──

extern "C" {
    fn mmap(at: *mut c_void, size: usize, access: i32, kind: i32, file: i32, offset: i64) -> *mut c_void;
    fn mprotect(at: *mut c_void, size: usize, access: i32) -> i32;
    fn munmap(at: *mut c_void, size: usize) -> i32;
}

// Linux on x86-64 has these numbers.
const PAGE: usize = 4096;
const NO_ACCESS: i32 = 0;
const READ: i32 = 1;
const READ_AND_WRITE: i32 = 3;
const PRIVATE_AND_OF_NO_FILE: i32 = 0x22;

/// A page between two that may not even be read. Who writes into it while it may only be read, or touches one of those, ends the program by a signal;
/// hosts/c/boundary.c shows that a call that writes is caught so.
struct Page(*mut c_void);

impl Page {
    fn new() -> Page {
        // SAFETY: new memory, in a place that the system chooses.
        let pages = unsafe { mmap(null_mut(), 3 * PAGE, NO_ACCESS, PRIVATE_AND_OF_NO_FILE, -1, 0) };
        assert_ne!(pages as isize, -1);
        Page(pages.wrapping_byte_add(PAGE))
    }

    fn allow(&self, access: i32) {
        // SAFETY: the page is this one's own, and nobody holds a reference into it.
        assert_eq!(unsafe { mprotect(self.0, PAGE, access) }, 0);
    }

    /// A copy that may only be read, at the page's start or at its end; it is aligned there, since a type's size is a multiple of its alignment.
    fn lend<T: Clone>(&self, content: &T, at_end: bool) -> *mut T {
        let lent: *mut T = self.0.wrapping_byte_add(if at_end { PAGE - size_of::<T>() } else { 0 }).cast();
        self.allow(READ_AND_WRITE);
        // SAFETY: the place is aligned, in the page, and may be written.
        unsafe { lent.write(content.clone()) };
        self.allow(READ);
        lent
    }

    /// The call on a copy of the record. The kernel's promise is that it reads alone.
    fn call(&self, record: &Record, at_end: bool, call: Call) -> HostAnswer {
        // SAFETY: a whole record is there, and this is the only reference to it.
        unsafe { &mut *self.lend(record, at_end) }.host_call(call)
    }

    /// The block on a copy of the replay, and what is there then. The promise is the same.
    fn feed(&self, replay: &Replay, block: &[u8]) -> (i32, Replay) {
        // SAFETY: a whole replay is there, and this is the only reference to it.
        let lent = unsafe { &mut *self.lend(replay, true) };
        (lent.feed(block), lent.clone())
    }
}

impl Drop for Page {
    fn drop(&mut self) {
        // SAFETY: the three pages of `new`, which nobody uses any more.
        unsafe { munmap(self.0.wrapping_byte_sub(PAGE), 3 * PAGE) };
    }
}

fn assert_writes_nothing(page: &Page, record: &Record, call: Call, expected: HostAnswer, what: &str) {
    for at_end in [false, true] {
        assert_eq!(page.call(record, at_end, call), expected, "{what}");
    }
}

// ── Tables of calls ──

/// Two calls more than a table may have, and two cells more than that.
const MOST_CALLS: usize = TABLE + 2;
const MOST_CELLS: usize = MOST_CALLS + 2;

/// Noise, so that it shows which cells are written.
fn cells() -> [HostAnswer; MOST_CELLS] {
    let mut noise = noise();
    from_fn(|_| noise.answer())
}

/// Nothing is done: the record and the cells keep every byte.
fn assert_table_refused(record: &Record, calls: &[Call], cell_count: usize, code: i32, what: &str) {
    let (mut lent, mut answers) = (record.clone(), cells());
    assert_eq!(lent.table(calls, &mut answers[..cell_count]), code, "{what}: {} calls, {cell_count} cells", calls.len());
    assert_eq!((&lent, answers), (record, cells()), "{what}: {} calls, {cell_count} cells", calls.len());
}

/// Number 0 is no tick in a table.
fn make_singly(record: &mut Record, call: Call) -> HostAnswer {
    if call.number == number::TICK {
        refusal(E_PAR)
    } else {
        record.host_call(call)
    }
}

/// The record comes from the empty one: answers and record are those of the calls made singly, byte for byte. The other cells keep theirs.
fn assert_table_made(record: &mut Record, calls: &[Call], cell_count: usize) -> Vec<HostAnswer> {
    let (mut twin, mut answers) = (record.clone(), cells());
    assert_eq!(record.table(calls, &mut answers[..cell_count]), E_OK, "{calls:?}");
    let singly: Vec<HostAnswer> = calls.iter().map(|call| make_singly(&mut twin, *call)).collect();
    let (made, kept) = answers.split_at(calls.len());
    assert_eq!(made, singly, "{calls:?}");
    assert_eq!(kept, &cells()[calls.len()..], "the cells past the last call");
    assert_eq!(*record, twin, "{calls:?}");
    singly
}

// ── Layout and numbers ──

#[test]
fn layout() {
    assert_eq!(library_layout(), (size_of::<Record>(), align_of::<Record>()));
}

#[test]
fn neighbours() {
    #[repr(C)]
    struct Memory {
        before: [u8; 256],
        record: Record,
        after: [u8; 256],
    }
    let mut memory = Memory { before: [0xA5; 256], record: typical(), after: [0xA5; 256] };
    for number in 0..=24 {
        let _ = memory.record.call(Call { value: 5, attribute: 1, ..Call::new(number, Context::task(3), 3) });
    }
    accepted([memory.record.tick()]);
    assert!(memory.record.is_sound());
    assert_eq!((memory.before, memory.after), ([0xA5; 256], [0xA5; 256]));
}

/// No task, object or message has such a number. As a byte, 257 and 65537 would be 1.
const TOO_LARGE: [u32; 8] = [65, 254, 255, 256, 257, 300, 65537, u32::MAX];

#[test]
fn callers_and_objects_that_nobody_has() {
    let mut record = typical();
    assert_eq!(record.ref_dtq(Context::task(33), 1), Answer::Error(E_SYS));
    for number in TOO_LARGE {
        assert_eq!(record.ref_dtq(Context::task(number), 1), Answer::Error(E_SYS));
        assert_eq!(record.ilook(number), Answer::Error(E_ID));
        assert_eq!(record.iref_dtq(number), Answer::Error(E_ID));
        assert_eq!(record.iref_mbx(number), Answer::Error(E_ID));
        assert_eq!(record.isnd_mbx(2, number, 1), Answer::Error(E_PAR));
        assert_eq!(record.icre_dtq(3, TA_TFIFO, number), Answer::Error(E_PAR));
        assert_eq!(record.icre_dtq(3, number, 1), Answer::Error(E_PAR));
        assert_eq!(record.idefine_task(5, number), Answer::Error(E_PAR));
    }
    assert_eq!(record, typical());
}

#[test]
fn unknown_numbers() {
    let page = Page::new();
    for record in [typical(), noise().record()] {
        for number in [24, 255, 256, 257, 279, u32::MAX] {
            let call = Call { number, caller: 77, locked: 1, ..Call::default() };
            assert_writes_nothing(&page, &record, call, refusal(E_PAR), "unknown number");
        }
    }
}

const YES: [u32; 6] = [1, 2, 256, 65536, 1 << 31, u32::MAX];

#[test]
fn locked_and_disabled_as_numbers() {
    let mut record = typical();
    for yes in YES {
        assert_eq!(record.host_call(Call { locked: yes, ..Call::new(number::REF_DTQ, Context::task(3), 1) }), refusal(E_CTX));
        assert_eq!(record.host_call(Call { disabled: yes, ..Call::new(number::RCV_DTQ, Context::task(3), 1) }), refusal(E_CTX));
    }
}

// ── Records that aren't sound ──

/// Every call of a known number is refused and writes nothing; number 0 is the tick. A table is refused; its E_SYS comes first, also with an empty
/// table, with one that is too long, and with too few cells.
fn assert_unsound(page: &Page, record: &Record, what: &str) {
    assert!(!record.is_sound(), "{what}");
    for number in number::TICK..=number::FETCH {
        let call = Call { value: 1, ..Call::new(number, Context::HANDLER, 1) };
        assert_writes_nothing(page, record, call, refusal(E_SYS), what);
    }
    let calls = [Call::new(number::PSND_DTQ, Context::HANDLER, 1); MOST_CALLS];
    for (call_count, cell_count) in [(0, 0), (0, 1), (1, 0), (1, 1), (64, 63), (64, 64), (65, 64), (65, 65), (66, 68)] {
        assert_table_refused(record, &calls[..call_count], cell_count, E_SYS, what);
    }
}

#[test]
fn random_bytes() {
    let (page, mut noise) = (Page::new(), noise());
    for _ in 0..50 {
        assert_unsound(&page, &noise.record(), "random bytes");
    }
}

type Fault = (&'static str, fn(&mut Record));

const FAULTS: [Fault; 11] = [
    ("flags 4", |record| record.tasks[3].flags = 4),
    ("wait 4", |record| record.tasks[3].wait = 4),
    ("timed 2 with a wait", |record| record.tasks[1].timed = 2),
    ("stored code 6", |record| record.tasks[3].code = 6),
    ("data queue defined 2", |record| record.queues[7].defined = 2),
    ("ring head 16", |record| record.queues[1].ring.head = 16),
    ("mailbox defined 77", |record| record.mailboxes[5].defined = 77),
    ("a message priority above the highest", |record| record.mailboxes[2].highest = 8),
    ("task priority 17", |record| record.waiting.key[3] = 17),
    ("an able task in a chain", |record| record.waiting.link[HEADS_OF_SENDERS + 5] = 3),
    ("a message in two mailboxes", |record| record.messages.link[HEADS_OF_MESSAGES + 1] = 33),
];

#[test]
fn records_with_one_fault() {
    let page = Page::new();
    assert!(typical().is_sound());
    for (what, spoil) in FAULTS {
        let mut record = typical();
        spoil(&mut record);
        assert_unsound(&page, &record, what);
    }
}

/// A task's flags are 0, 1 or 3, in all of their 32 bits.
#[test]
fn damaged_flags() {
    let page = Page::new();
    for task in 1..=TASKS {
        for flags in [2, 4, 5, 255, 256, 257, 0x0001_0001, 0x0003_0000, 0x0100_0001, 0x0300_0000, 0x8000_0001, u32::MAX - 1, u32::MAX] {
            let mut record = typical();
            record.tasks[task].flags = flags;
            assert_unsound(&page, &record, "damaged flags");
        }
    }
}

// ── What calls write ──

/// The typical record with a data queue of capacity 0, a suspended task, and tasks 5 to 7 whose waits ended.
fn various() -> Record {
    let mut record = typical();
    accepted([record.icre_dtq(3, TA_TFIFO, 0), record.icre_dtq(4, TA_TFIFO, 1), record.isus_tsk(2)]);
    for task in 5..=7 {
        accepted([record.idefine_task(task, 1)]);
        waits([record.trcv_dtq(Context::task(task), 4, if task == 6 { 1 } else { TMO_FEVR })]);
    }
    accepted([record.irel_wai(5), record.tick(), record.tick(), record.del_dtq(Context::task(3), 4)]);
    record
}

fn by_handler(number: u32, object: u32) -> Call {
    Call::new(number, Context::HANDLER, object)
}

fn by_task(task: u32, number: u32, object: u32) -> Call {
    Call::new(number, Context::task(task), object)
}

/// With their codes.
fn refused() -> [(i32, Call); 17] {
    [
        (E_PAR, by_handler(number::FETCH + 1, 0)),
        (E_SYS, by_task(33, number::REF_DTQ, 1)),
        (E_SYS, by_task(1, number::SND_DTQ, 1)),
        (E_CTX, Call { locked: 1, ..by_task(3, number::PSND_DTQ, 1) }),
        (E_CTX, by_handler(number::RCV_DTQ, 1)),
        (E_ID, by_handler(number::PSND_DTQ, 17)),
        (E_PAR, Call { value: 17, ..by_handler(number::CRE_DTQ, 5) }),
        (E_PAR, Call { tmout: -2, ..by_task(3, number::TRCV_DTQ, 1) }),
        (E_NOEXS, by_handler(number::FSND_DTQ, 4)),
        (E_PAR, Call { value: 1, attribute: 10, ..by_handler(number::SND_MBX, 2) }),
        (E_OBJ, Call { value: 33, attribute: 1, ..by_handler(number::SND_MBX, 2) }),
        (E_OBJ, Call { value: 5, ..by_handler(number::DEFINE_TASK, 3) }),
        (E_OBJ, by_handler(number::FETCH, 1)),
        (E_QOVR, by_handler(number::SUS_TSK, 2)),
        (E_ILUSE, by_handler(number::FSND_DTQ, 3)),
        (E_TMOUT, by_handler(number::PSND_DTQ, 2)),
        (E_TMOUT, by_task(3, number::TRCV_MBX, 1)),
    ]
}

/// With the codes that they give.
fn reading() -> [(i32, Call); 7] {
    [
        (E_OK, by_handler(number::LOOK, 1)),
        (E_OK, by_handler(number::REF_DTQ, 2)),
        (E_OK, by_handler(number::REF_MBX, 2)),
        (E_OK, by_handler(number::FETCH, 3)),
        (E_RLWAI, by_handler(number::FETCH, 5)),
        (E_TMOUT, by_handler(number::FETCH, 6)),
        (E_DLT, by_handler(number::FETCH, 7)),
    ]
}

#[test]
fn calls_that_write_nothing() {
    let page = Page::new();
    for (code, call) in refused().into_iter().chain(reading()) {
        let mut record = various();
        let answer = record.host_call(call);
        assert_eq!((answer.read().code(), &record), (Some(code), &various()), "{call:?}");
        assert_writes_nothing(&page, &record, call, answer, "a call that changes nothing");
    }
}

/// Leaves this number all over the stack below the caller, where the next call has its locals; a call uses less than half of that.
#[inline(never)]
fn paint_stack(number: u64) {
    black_box(&[number; 8192]);
}

/// The same calls on two records, with other bytes on the stack: what a call leaves in a record doesn't come from there.
#[test]
fn bytes_of_the_stack() {
    let mut noise = noise();
    let (mut record, mut twin) = (typical(), typical());
    for _ in 0..20_000 {
        let call = noise.call();
        paint_stack(0x1111_1111_1111_1111);
        let answer = record.host_call(call);
        paint_stack(0xeeee_eeee_eeee_eeee);
        assert_eq!((twin.host_call(call), &twin), (answer, &record), "{call:?}");
    }
}

// ── The record as Rust sees it ──

fn assert_task_view(record: &mut Record, number: u32) {
    let task = record.tasks[number as usize];
    let looked = Looked { tskwait: task.wait, wobjid: task.object.into(), suspended: task.flags == DEFINED | SUSPENDED };
    assert_eq!(record.ilook(number).words().map(Words::looked), Some(looked));
    let fetch = record.host_call(by_handler(number::FETCH, number));
    if task.wait == NO_WAIT {
        assert_eq!((fetch.code, fetch.a), (-i32::from(task.code), task.word));
    } else {
        assert_eq!(fetch, refusal(E_OBJ));
    }
}

fn assert_object_view(record: &mut Record, number: usize) {
    let (queue, mailbox) = (record.iref_dtq(number as u32), record.iref_mbx(number as u32));
    let heads = |chains: &Chains, first: usize| u32::from(chains.link[first + number]);
    let (stskid, rtskid) = (heads(&record.waiting, HEADS_OF_SENDERS), heads(&record.waiting, HEADS_OF_RECEIVERS));
    assert_eq!(queue.words().map(Words::rdtq), Some(Rdtq { stskid, rtskid, sdtqcnt: record.queues[number].ring.count.into() }));
    let (wtskid, pk_msg) = (heads(&record.waiting, HEADS_OF_WAITERS), heads(&record.messages, HEADS_OF_MESSAGES));
    assert_eq!(mailbox.words().map(Words::rmbx), Some(Rmbx { wtskid, pk_msg }));
}

#[test]
fn view() {
    let mut record = typical();
    accepted([record.isus_tsk(2), record.irel_wai(2)]);
    for number in 1..=4 {
        assert_task_view(&mut record, number);
        assert_eq!(u32::from(record.waiting.key[number as usize]), 10 + number);
    }
    assert_object_view(&mut record, 1);
    assert_object_view(&mut record, 2);
    assert_eq!((record.counter, record.tasks[1].timed, record.tasks[1].end), (1, 1, 9));
    assert_eq!((record.tasks[2].code, record.tasks[4].sending), (49, 44));
    let ring = record.queues[2].ring;
    let stored: Vec<u32> = (0..3).map(|place| ring.words[(usize::from(ring.head) + place) % WORDS]).collect();
    assert_eq!((stored, ring.capacity), (vec![41, 42, 43], 3));
    assert_eq!((record.messages.link[33], record.messages.key[33], record.messages.key[64]), (64, 8, 9));
    assert_eq!((record.mailboxes[2].attribute, record.mailboxes[2].highest), (2, 9));
}

// ── Time-outs ──

/// Task 1 waits from this counter with this tmout.
fn waiting(counter: u32, tmout: i32) -> Record {
    let mut record = Record { counter, ..Record::empty() };
    accepted([record.idefine_task(1, 5), record.icre_dtq(1, TA_TFIFO, 0)]);
    waits([record.trcv_dtq(Context::task(1), 1, tmout)]);
    record
}

/// A wait with tmout n ends in tick n + 1; the counter comes to 0 meanwhile.
#[test]
fn time_outs() {
    for tmout in 1..=3 {
        let mut record = waiting(u32::MAX - 1, tmout);
        for _ in 0..tmout {
            assert_eq!(word_a(record.tick()), 0);
        }
        assert_eq!(word_a(record.tick()), 1);
        assert_eq!(record.ifetch(1), Answer::Error(E_TMOUT));
    }
}

#[test]
fn the_longest_time_out() {
    let mut record = waiting(5, LONGEST_TMOUT);
    assert!(record.is_sound());
    record.counter -= 1;
    assert!(!record.is_sound());
    record.counter += LONGEST_TMOUT as u32;
    assert_eq!(word_a(record.tick()), 0);
    assert_eq!(word_a(record.tick()), 1);
}

// ── What tables do ──

/// A record and messages 1, 2, ... to a mailbox in order of arrival: the answers are a 0, a 1, and so on.
fn sends() -> (Record, [Call; MOST_CALLS]) {
    let mut record = Record::empty();
    accepted([record.icre_mbx(3, TA_TFIFO, 0)]);
    (record, from_fn(|i| Call { value: i as u32 + 1, ..by_handler(number::SND_MBX, 3) }))
}

#[test]
fn tables_long_and_short() {
    let (start, calls) = sends();
    for call_count in [0, 1, 63, 64, 65, 66] {
        for cell_count in 0..=MOST_CELLS {
            if call_count > TABLE || call_count > cell_count {
                assert_table_refused(&start, &calls[..call_count], cell_count, E_PAR, "too long, or too few cells");
                assert_table_refused(&marked(start.clone()), &calls[..call_count], cell_count, E_PAR, "the same with marks");
                continue;
            }
            let mut record = start.clone();
            let answers = assert_table_made(&mut record, &calls[..call_count], cell_count);
            assert!(answers.iter().enumerate().all(|(i, answer)| *answer == HostAnswer { a: i as u32, ..HostAnswer::default() }));
            assert_eq!(record.messages(3).count(), call_count);
        }
    }
}

#[test]
fn the_empty_slices() {
    let (mut record, calls) = sends();
    assert_eq!(record.table(&[], &mut []), E_OK);
    assert_eq!(record.table(&calls[..1], &mut []), E_PAR);
    assert_eq!(record, sends().0);
}

/// As a byte, 257 and 279 would be 1 and 23; in 16 bits, 65541 would be 5.
const NO_CALLS: [u32; 8] = [number::TICK, number::FETCH + 1, 255, 256, 257, 279, 65541, u32::MAX];

/// Two calls that are accepted, and between them as many of one number as there is room for. The next tick would end a wait.
#[test]
fn tables_with_numbers_of_no_call() {
    for number in NO_CALLS {
        let mut record = waiting(u32::MAX - 1, 1);
        accepted([record.tick()]);
        let mut calls = [Call { number, caller: 77, locked: 1, object: 1, value: 1, ..Call::default() }; TABLE];
        calls[..TABLE / 2].fill(by_handler(number, 1));
        (calls[0], calls[TABLE - 1]) = (Call { value: 1, ..by_handler(number::DEFINE_TASK, 7) }, by_handler(number::SUS_TSK, 7));
        let answers = assert_table_made(&mut record, &calls, TABLE);
        assert!(answers[1..TABLE - 1].iter().all(|answer| *answer == refusal(E_PAR)), "{number}");
        let [waiting, suspended] = [1, 7].map(|task| record.ilook(task).words().map(Words::looked));
        assert_eq!(record.counter, u32::MAX);
        assert_eq!(waiting, Some(Looked { tskwait: RECEIVING, wobjid: 1, suspended: false }));
        assert_eq!(suspended, Some(Looked { tskwait: NO_WAIT, wobjid: 0, suspended: true }));
        assert_eq!(word_a(record.tick()), 1);
    }
}

/// At each place of a table, among calls of which the last gives the word that the one before it sent.
#[test]
fn tables_with_a_refused_call() {
    let word = Call { value: 70, ..by_handler(number::PSND_DTQ, 9) };
    let accepted = [Call { value: 1, ..by_handler(number::CRE_DTQ, 9) }, word, by_handler(number::PRCV_DTQ, 9)];
    for (code, call) in refused() {
        for place in 0..=accepted.len() {
            let mut calls = accepted.to_vec();
            calls.insert(place, call);
            let mut answers = assert_table_made(&mut various(), &calls, MOST_CELLS);
            assert_eq!(answers.remove(place), refusal(code), "{call:?}");
            assert_eq!(answers, [refusal(E_OK), refusal(E_OK), HostAnswer { a: 70, ..HostAnswer::default() }], "{call:?}");
        }
    }
}

/// A task that waits can't call: the calls behind its wait are refused, those of others are made.
#[test]
fn a_wait_in_a_table() {
    let calls = [Call { tmout: 4, ..by_task(3, number::TRCV_DTQ, 3) }, by_task(3, number::REF_DTQ, 3), by_handler(number::REF_DTQ, 3)];
    let answers = assert_table_made(&mut various(), &calls, calls.len());
    let waits = HostAnswer { kind: 1, code: NO_CODE, ..HostAnswer::default() };
    assert_eq!(answers, [waits, refusal(E_SYS), HostAnswer { b: 3, ..HostAnswer::default() }]);
}

/// Marks in fields of which nothing is asked: the spare ones, and those of number 0.
fn marked_spares(mut record: Record, noise: &mut Noise) -> Record {
    for queue in &mut record.queues {
        (queue.spare, queue.ring.spare) = (noise.word() as u16, noise.byte());
    }
    (record.tasks[0], record.queues[0], record.mailboxes[0], record.spare) = (noise.task(), noise.queue(), noise.mailbox(), noise.byte());
    record
}

/// The same, and also in those of tasks and objects that nobody has.
fn marked(record: Record) -> Record {
    let mut noise = noise();
    let mut record = marked_spares(record, &mut noise);
    record.tasks[TASKS] = Task { wait: NO_WAIT, flags: 0, ..noise.task() };
    (record.queues[QUEUES].ring.words, record.queues[QUEUES].attribute) = (from_fn(|_| noise.word()), noise.byte());
    (record.mailboxes[MAILBOXES].attribute, record.mailboxes[MAILBOXES].highest) = (noise.byte(), noise.byte());
    (record.waiting.key[0], record.messages.link[0], record.messages.key[0]) = (noise.byte(), noise.byte(), noise.byte());
    assert!(record.is_sound());
    record
}

/// The record keeps every byte.
#[test]
fn tables_of_refused_calls() {
    for content in [various(), marked(various())] {
        for (first, count) in (0..refused().len()).flat_map(|first| (0..=TABLE).map(move |count| (first, count))) {
            let (codes, calls): (Vec<i32>, Vec<Call>) = refused().into_iter().cycle().skip(first).take(count).unzip();
            let (mut record, mut answers) = (content.clone(), cells());
            assert_eq!(record.table(&calls, &mut answers), E_OK);
            assert!(answers.iter().zip(codes).all(|(answer, code)| *answer == refusal(code)), "{calls:?}");
            assert_eq!((&record, &answers[count..]), (&content, &cells()[count..]));
        }
    }
}

/// With other bytes on the stack each time. Some records grow from the empty one, the rest go on.
#[test]
fn random_tables() {
    let mut noise = noise();
    let mut record = Record::empty();
    let (mut accepted, mut waits) = (BTreeSet::new(), 0);
    for i in 0..3000 {
        if i < 1000 || i % 100 == 0 {
            record = Record::empty();
        }
        let calls = noise.table();
        let cell_count = calls.len() + noise.below((MOST_CELLS - calls.len() + 1) as u32) as usize;
        paint_stack([0x1111_1111_1111_1111, 0xeeee_eeee_eeee_eeee][i % 2]);
        for (call, answer) in calls.iter().zip(assert_table_made(&mut record, &calls, cell_count)) {
            accepted.extend(answer.read().is_ok().then_some(call.number));
            waits += u32::from(answer.read().waits());
        }
        let _ = record.tick();
    }
    assert!(accepted.into_iter().eq(number::DEFINE_TASK..=number::FETCH) && waits > 0, "a call of each number is accepted, and calls wait");
}

// ── The runs ──

fn call_by_name(record: &mut Record, call: Call) -> Answer {
    let by = Context { caller: call.caller, locked: call.locked != 0, disabled: call.disabled != 0 };
    let Call { object, value, attribute, tmout, .. } = call;
    match call.number {
        number::DEFINE_TASK => record.define_task(by, object, value),
        number::CRE_DTQ => record.cre_dtq(by, object, attribute, value),
        number::DEL_DTQ => record.del_dtq(by, object),
        number::SND_DTQ => record.snd_dtq(by, object, value),
        number::PSND_DTQ => record.psnd_dtq(by, object, value),
        number::TSND_DTQ => record.tsnd_dtq(by, object, value, tmout),
        number::FSND_DTQ => record.fsnd_dtq(by, object, value),
        number::RCV_DTQ => record.rcv_dtq(by, object),
        number::PRCV_DTQ => record.prcv_dtq(by, object),
        number::TRCV_DTQ => record.trcv_dtq(by, object, tmout),
        number::REF_DTQ => record.ref_dtq(by, object),
        number::CRE_MBX => record.cre_mbx(by, object, attribute, value),
        number::DEL_MBX => record.del_mbx(by, object),
        number::SND_MBX => record.snd_mbx(by, object, value, attribute),
        number::RCV_MBX => record.rcv_mbx(by, object),
        number::PRCV_MBX => record.prcv_mbx(by, object),
        number::TRCV_MBX => record.trcv_mbx(by, object, tmout),
        number::REF_MBX => record.ref_mbx(by, object),
        number::REL_WAI => record.rel_wai(by, object),
        number::SUS_TSK => record.sus_tsk(by, object),
        number::RSM_TSK => record.rsm_tsk(by, object),
        number::LOOK => record.look(by, object),
        number::FETCH => record.fetch(by, object),
        _ => record.tick(),
    }
}

/// The i-form, where there is one and its context is the call's; else the call by name.
fn call_by_i_form(record: &mut Record, call: Call) -> Answer {
    let Call { object, value, attribute, .. } = call;
    if (call.caller, call.locked, call.disabled) != (0, 0, 0) {
        return call_by_name(record, call);
    }
    match call.number {
        number::DEFINE_TASK => record.idefine_task(object, value),
        number::CRE_DTQ => record.icre_dtq(object, attribute, value),
        number::PSND_DTQ => record.ipsnd_dtq(object, value),
        number::FSND_DTQ => record.ifsnd_dtq(object, value),
        number::PRCV_DTQ => record.iprcv_dtq(object),
        number::REF_DTQ => record.iref_dtq(object),
        number::CRE_MBX => record.icre_mbx(object, attribute, value),
        number::SND_MBX => record.isnd_mbx(object, value, attribute),
        number::PRCV_MBX => record.iprcv_mbx(object),
        number::REF_MBX => record.iref_mbx(object),
        number::REL_WAI => record.irel_wai(object),
        number::SUS_TSK => record.isus_tsk(object),
        number::RSM_TSK => record.irsm_tsk(object),
        number::LOOK => record.ilook(object),
        number::FETCH => record.ifetch(object),
        _ => call_by_name(record, call),
    }
}

fn answer_text(answer: HostAnswer) -> String {
    let outcome = match answer.read() {
        Answer::Waits { place } => format!("W{place}"),
        Answer::Done(_) | Answer::Error(_) => code_name(answer.code).to_string(),
    };
    format!("{outcome} {} {} {}", answer.a, answer.b, answer.c)
}

fn call_of(fields: &[&str]) -> Call {
    let number = |field: usize| fields[field].parse().unwrap();
    Call {
        number: CALL_NAMES.iter().position(|known| *known == fields[3]).unwrap() as u32,
        caller: number(1),
        locked: u32::from(fields[2] == "L"),
        disabled: u32::from(fields[2] == "D"),
        object: number(4),
        value: number(5),
        attribute: number(6),
        tmout: fields[7].parse().unwrap(),
    }
}

fn play_call(page: &Page, record: &mut Record, way: Way, fields: &[&str]) {
    let (call, before) = (call_of(fields), record.clone());
    let answer = before.clone().host_call(call);
    assert_eq!((answer_text(answer), way(record, call)), (fields[8..].join(" "), answer.read()), "{call:?}");
    let reads = matches!(call.number, number::REF_DTQ | number::REF_MBX | number::LOOK | number::FETCH);
    if reads || matches!(answer.read(), Answer::Error(_)) {
        assert_eq!(*record, before, "{call:?}");
        assert_writes_nothing(page, &before, call, answer, "a line of a run");
    }
}

fn play_line(page: &Page, record: &mut Record, way: Way, fields: &[&str]) {
    match fields[3] {
        "from" => record.counter = fields[5].parse().unwrap(),
        "leaves" => assert_eq!(record.counter.to_string(), fields[5]),
        _ => play_call(page, record, way, fields),
    }
}

type Way = fn(&mut Record, Call) -> Answer;

/// Each run starts from the record that run 0 left.
fn play_runs(lines: &[Vec<&str>], mut play: impl FnMut(&mut Record, &[Vec<&str>])) {
    let mut start = Record::empty();
    for run in lines.chunk_by(|line, next| line[0] == next[0]) {
        let mut record = start.clone();
        play(&mut record, run);
        if run[0][0] == "0" {
            start = record;
        }
    }
}

/// The calls between two ticks are handed over as one table. A tick can't stand in a table, nor can lines about the counter.
fn play_as_tables(page: &Page, record: &mut Record, run: &[Vec<&str>]) {
    let alone = |line: &[&str]| ["tick", "from", "leaves"].contains(&line[3]);
    for lines in run.chunk_by(|line, next| !alone(line) && !alone(next)).flat_map(|lines| lines.chunks(TABLE)) {
        if alone(&lines[0]) {
            play_line(page, record, Record::call, &lines[0]);
            continue;
        }
        let calls: Vec<Call> = lines.iter().map(|line| call_of(line)).collect();
        for (line, answer) in lines.iter().zip(assert_table_made(record, &calls, calls.len())) {
            assert_eq!(answer_text(answer), line[8..].join(" "), "{line:?}");
        }
    }
}

/// The text has this many runs beside run 0.
fn play(text: &str, runs: &str) {
    let page = Page::new();
    let lines = text.lines().filter(|line| !line.is_empty() && !line.starts_with('#'));
    let lines: Vec<Vec<&str>> = lines.map(|line| line.split_whitespace().collect()).collect();
    assert_eq!(lines.last().unwrap()[0], runs);
    for way in [Record::call as Way, call_by_name, call_by_i_form] {
        play_runs(&lines, |record, run| run.iter().for_each(|line| play_line(&page, record, way, line)));
    }
    play_runs(&lines, |record, run| play_as_tables(&page, record, run));
}

#[test]
fn sixteen_runs() {
    play(include_str!("../../runs/sixteen_runs.txt"), "16");
}

#[test]
fn each_call() {
    play(include_str!("../../runs/each_call.txt"), "5");
}

#[test]
fn error_table() {
    play(include_str!("../../runs/error_table.txt"), "11");
}

// ── Recording calls ──

type Bytes = [u8; TRACE_SIZE];

/// '16410343 44454647', and so on; a dash stands for a call that is left out.
fn bytes_of(text: &str) -> Option<Bytes> {
    let digits: String = text.split_whitespace().collect();
    if digits == "-" {
        return None;
    }
    assert_eq!(digits.len(), 2 * TRACE_SIZE, "{text}");
    Some(from_fn(|i| u8::from_str_radix(&digits[2 * i..2 * i + 2], 16).unwrap()))
}

/// The same bytes as in C, which reads this file too.
#[test]
fn bytes_of_recorded_calls() {
    let lines = include_str!("../../runs/trace_bytes.txt").lines().filter(|line| !line.is_empty() && !line.starts_with('#'));
    let lines: Vec<&str> = lines.collect();
    assert_eq!(lines.len(), 2 * 76);
    for pair in lines.chunks(2) {
        let fields: Vec<&str> = pair[0].split_whitespace().collect();
        let [number, caller, locked, disabled, object, value, _, attribute, kind, _, place, a, b, c]: [u32; 14] =
            from_fn(|i| if [6, 9].contains(&i) { 0 } else { fields[i].parse().unwrap() });
        let (tmout, code) = (fields[6].parse().unwrap(), fields[9].parse().unwrap());
        let call = Call { number, caller, locked, disabled, object, value, tmout, attribute };
        assert_eq!(call.trace(HostAnswer { kind, code, place, a, b, c }), bytes_of(pair[1]), "{call:?}");
    }
}

#[test]
fn bytes_of_a_tick() {
    for answer in [refusal(E_OK), HostAnswer { a: 32, ..HostAnswer::default() }, refusal(E_SYS)] {
        let bytes = Call::TICK.trace(answer).unwrap();
        assert!(bytes[..16] == [0; 16] && is_answer_in(&bytes, answer), "{answer:?}");
    }
    assert_eq!(Call::TICK, Call::default());
}

/// The calls of a table in a row, without those of no call; nothing of a table that is refused.
#[test]
fn bytes_of_a_table() {
    let calls = [by_handler(24, 0), Call { value: 5, ..by_handler(number::DEFINE_TASK, 1) }, Call::TICK, by_handler(number::LOOK, 1)];
    let mut answers = [HostAnswer::default(); 4];
    let code = Record::empty().table(&calls, &mut answers);
    assert!(trace_table(&calls, &answers, code).eq([1, 3].map(|i| calls[i].trace(answers[i]).unwrap())));
    assert_eq!(trace_table(&calls, &answers, E_PAR).count() + trace_table(&calls, &answers, E_SYS).count(), 0);
    assert_eq!(trace_table(&[], &answers, E_OK).count(), 0);
}

fn word_at(bytes: &Bytes, place: usize) -> u32 {
    (0..4).map(|i| u32::from(bytes[place + i]) << (8 * i)).sum()
}

/// Item 3's table of bytes, read.
fn call_in(bytes: &Bytes) -> Call {
    Call {
        number: bytes[0].into(),
        caller: bytes[1].into(),
        locked: (bytes[2] & 1).into(),
        disabled: (bytes[2] & 2).into(),
        object: bytes[3].into(),
        value: word_at(bytes, 4),
        tmout: word_at(bytes, 8) as i32,
        attribute: word_at(bytes, 12),
    }
}

fn is_answer_in(bytes: &Bytes, answer: HostAnswer) -> bool {
    let code_or_place = if answer.read().waits() { answer.place } else { answer.code as u32 };
    let words = (word_at(bytes, 24), u32::from(bytes[28]), u32::from(bytes[29]) + 256 * u32::from(bytes[30]));
    let spare = [bytes[17], bytes[18], bytes[19], bytes[31]];
    (u32::from(bytes[16]), word_at(bytes, 20), words, spare) == (answer.kind, code_or_place, (answer.a, answer.b, answer.c), [0; 4])
}

/// Calls by themselves, from time to time a table, and at times one with too few cells: from the empty record.
fn random_trace(noise: &mut Noise, record: &mut Record, count: usize) -> Vec<Bytes> {
    let (mut trace, mut answers) = (Vec::new(), cells());
    while trace.len() < count {
        let call = noise.wide_call();
        trace.extend(call.trace(record.host_call(call)));
        if noise.below(32) == 0 {
            let calls = noise.table();
            let cell_count = if noise.below(4) == 0 { calls.len() / 2 } else { calls.len() };
            let code = record.table(&calls, &mut answers[..cell_count]);
            trace.extend(trace_table(&calls, &answers, code));
        }
    }
    trace
}

#[test]
fn random_calls_recorded_and_replayed() {
    let (mut record, mut twin) = (Record::empty(), Record::empty());
    let (mut accepted, mut waits) = (BTreeSet::new(), 0);
    for bytes in random_trace(&mut noise(), &mut record, 20_000) {
        let call = call_in(&bytes);
        assert!(call.number <= number::LAST && bytes[2] < 4, "{bytes:?}");
        let answer = twin.host_call(call);
        assert!(is_answer_in(&bytes, answer), "{bytes:?}: {answer:?}");
        accepted.extend(answer.read().is_ok().then_some(call.number));
        waits += u32::from(answer.read().waits());
    }
    assert_eq!(record, twin);
    assert!(accepted.into_iter().eq(number::TICK..=number::LAST) && waits > 0, "a call of each number is accepted, and calls wait");
}

// ── The replay of a recording in blocks ──

#[test]
fn layout_of_a_replay() {
    assert_eq!(replay_layout(), (size_of::<Replay>(), align_of::<Replay>()));
}

fn zeros(code: i32) -> Line {
    Line { records: 0, differ: 0, first: 0, tail: 0, code, spare: 0 }
}

/// The end gives the replay's own numbers.
fn line_of(replay: &Replay) -> Line {
    Line { records: replay.records, differ: replay.differ, first: replay.first, tail: replay.length, ..zeros(E_OK) }
}

fn assert_ends(replay: &Replay, what: &str) {
    let lent = replay.clone();
    assert_eq!((lent.end(), &lent), (line_of(replay), replay), "{what}");
}

/// The replay keeps every byte, and none is written.
fn assert_block_refused(replay: &Replay, block: &[u8], code: i32, what: &str) {
    assert_eq!(Page::new().feed(replay, block), (code, replay.clone()), "{what}: {} bytes", block.len());
}

/// Nothing is said of the part's other bytes.
fn assert_same(replay: &Replay, expected: &Replay, what: &str) {
    let part = |replay: &Replay| replay.part[..replay.length as usize].to_vec();
    assert_eq!((line_of(replay), part(replay)), (line_of(expected), part(expected)), "{what}");
    assert_eq!(replay.kernel, expected.kernel, "{what}");
}

/// What the same bytes come to by single calls: item 3's rules, with the answers of `Record::call`.
fn play_singly(replay: &mut Replay, bytes: &[u8]) {
    let (whole, rest) = bytes.split_at(bytes.len() / TRACE_SIZE * TRACE_SIZE);
    for one in whole.chunks(TRACE_SIZE) {
        let one: &Bytes = one.try_into().unwrap();
        let runs = u32::from(one[0]) <= number::LAST && one[2] <= 3 && one[16] <= 1 && [one[17], one[18], one[19], one[31]] == [0; 4];
        let same = runs && is_answer_in(one, replay.kernel.host_call(call_in(one)));
        replay.records += 1;
        replay.differ += u64::from(!same);
        replay.first = if !same && replay.first == 0 { replay.records } else { replay.first };
    }
    replay.length = rest.len() as u64;
    replay.part[..rest.len()].copy_from_slice(rest);
}

#[test]
fn a_new_replay() {
    let mut replay = Replay::empty();
    assert_eq!((&replay.kernel, replay.end()), (&Record::empty(), zeros(E_OK)));
    assert_eq!((replay.feed(&[]), replay.end()), (E_OK, zeros(E_OK)));
    assert_eq!(replay, Replay::empty());
}

#[test]
fn the_line_as_text() {
    let line = Line { records: 3, differ: 1, first: 2, tail: 0, ..zeros(E_OK) };
    assert_eq!(line.to_string(), "records 3 differ 1 first 2 tail 0");
    let largest = Line { records: u64::MAX, differ: u64::MAX, first: u64::MAX, tail: 31, ..zeros(E_OK) };
    assert_eq!(largest.to_string(), "records 18446744073709551615 differ 18446744073709551615 first 18446744073709551615 tail 31");
}

macro_rules! stored {
    ($($name:literal),+) => {
        [$((
            $name,
            include_bytes!(concat!("../../../compare/corpus/", $name, ".bin")).as_slice(),
            include_str!(concat!("../../../compare/corpus/", $name, ".line")),
        )),+]
    };
}

/// With their lines. They have records that differ or aren't run, wide and signed fields, waits, and bytes after the last whole record.
const STORED: [(&str, &[u8], &str); 13] = stored!(
    "empty",
    "one-record",
    "three-records",
    "tail-alone",
    "tail-1",
    "tail-31",
    "bad",
    "each-byte-of-an-answer",
    "not-run-flags-in-tick",
    "other-kind",
    "waits-with-words",
    "wide-fields",
    "calls-1"
);

type Cut = fn(&mut Noise, usize) -> usize;

/// All at once, byte by byte, often less than a record and at times nothing, and more.
const CUTS: [Cut; 4] =
    [|_, left| left, |_, left| left.min(1), |noise, left| left.min(noise.below(71) as usize), |noise, left| left.min(noise.below(4001) as usize)];

/// At times with an empty block between two others, with the end asked there, and with marks where nothing is said.
fn feed_all(noise: &mut Noise, replay: &mut Replay, mut bytes: &[u8], cut: Cut, mark: bool) {
    let mut fed = 0;
    while !bytes.is_empty() {
        let (block, rest) = bytes.split_at(cut(noise, bytes.len()));
        if mark {
            replay.kernel = marked_spares(replay.kernel.clone(), noise);
            replay.part[replay.length as usize..].fill_with(|| noise.byte());
        }
        if noise.below(8) == 0 {
            let before = replay.clone();
            assert_eq!(replay.feed(&[]), E_OK);
            assert_same(replay, &before, "a block of no bytes");
        }
        assert_eq!(replay.feed(block), E_OK, "{} bytes after {fed}", block.len());
        (bytes, fed) = (rest, fed + block.len());
        if noise.below(8) == 0 {
            assert_eq!((replay.records, replay.length), ((fed / TRACE_SIZE) as u64, (fed % TRACE_SIZE) as u64));
            assert_ends(replay, "between two blocks");
        }
    }
}

/// In each way, from the empty state. Without marks the record is that of single calls, byte for byte. Gives the line.
fn assert_all_cuts(noise: &mut Noise, bytes: &[u8], what: &str) -> Line {
    let mut twin = Replay::empty();
    play_singly(&mut twin, bytes);
    for (cut, mark) in CUTS.into_iter().flat_map(|cut| [(cut, false), (cut, true)]) {
        let mut replay = Replay::empty();
        feed_all(noise, &mut replay, bytes, cut, mark);
        let kernel = if mark { twin.kernel.clone() } else { replay.kernel.clone() };
        assert_same(&Replay { kernel, ..replay.clone() }, &twin, what);
        assert_ends(&replay, what);
    }
    twin.end()
}

#[test]
fn stored_traces_cut_anywhere() {
    let mut noise = noise();
    for (name, bytes, line) in STORED {
        assert_eq!(format!("{}\n", assert_all_cuts(&mut noise, bytes, name)), line, "{name}");
    }
}

/// In one record of eight a bit is another one than was recorded.
#[test]
fn random_recordings_cut_anywhere() {
    let (mut noise, mut differ) = (noise(), 0);
    for _ in 0..20 {
        let mut trace = random_trace(&mut noise, &mut Record::empty(), 300);
        for bytes in &mut trace {
            if noise.below(8) == 0 {
                bytes[noise.below(TRACE_SIZE as u32) as usize] ^= 1 << noise.below(8);
            }
        }
        let (bytes, missing) = (trace.concat(), noise.below(32) as usize);
        differ += assert_all_cuts(&mut noise, &bytes[..bytes.len() - missing], "a random recording").differ;
    }
    assert!(differ > 0);
}

/// More than two records.
const MOST_BYTES: usize = 2 * TRACE_SIZE + 6;
const SIZES: [usize; 9] = [0, 1, 31, 32, 33, 63, 64, 65, MOST_BYTES];
/// Bytes of ticks that ended no wait, and of records that aren't run.
const BLOCKS: [[u8; MOST_BYTES]; 2] = [[0; MOST_BYTES], [255; MOST_BYTES]];

fn all_blocks() -> impl Iterator<Item = ([u8; MOST_BYTES], usize)> {
    BLOCKS.into_iter().flat_map(|block| SIZES.map(|size| (block, size)))
}

/// Records, differ, first and length; the kernel's state is the typical one, and the part has marks.
fn with_numbers([records, differ, first, length]: [u64; 4]) -> Replay {
    Replay { records, differ, first, length, kernel: typical(), part: noise().bytes() }
}

/// At every block and at the end, there with four zeros.
fn assert_replay_refused(replay: &Replay, what: &str) {
    for (block, size) in all_blocks() {
        assert_block_refused(replay, &block[..size], E_SYS, what);
    }
    let lent = replay.clone();
    assert_eq!((lent.end(), &lent), (zeros(E_SYS), replay), "{what}");
}

/// Each rule by itself, with the nearest numbers that it refuses. In 32 bits, 4294967296 and 4294967297 would be 0 and 1. The last rows have the most
/// records: E_SYS comes before E_PAR.
#[test]
fn replays_with_numbers_that_are_refused() {
    let cut = 1 << 32;
    let lengths = [32, 33, 64, 256, cut, u64::MAX].map(|length| [5, 2, 3, length]);
    let above = [[5, 6, 3, 0], [5, cut + 1, 3, 0], [5, u64::MAX, 3, 0], [5, 2, 6, 0], [5, 2, cut + 1, 0], [5, 2, u64::MAX, 0], [0, 1, 1, 0]];
    let one_is_0 = [[5, 1, 0, 0], [5, 5, 0, 0], [cut, cut, 0, 0], [5, 0, 1, 0], [5, 0, 5, 0], [cut, 0, cut, 0]];
    let most = [[0, 0, 0, 32], [u64::MAX, 2, 3, 32], [u64::MAX, 1, 0, 31], [u64::MAX, 0, 1, 31]];
    let almost_most = [[u64::MAX - 1, u64::MAX, 3, 0], [u64::MAX - 1, 3, u64::MAX, 0]];
    for numbers in lengths.into_iter().chain(above).chain(one_is_0).chain(most).chain(almost_most) {
        assert_replay_refused(&with_numbers(numbers), &format!("{numbers:?}"));
    }
}

#[test]
fn replays_of_records_that_are_not_sound() {
    let mut noise = noise();
    for ((what, spoil), records) in FAULTS.into_iter().flat_map(|fault| [(fault, 5), (fault, u64::MAX)]) {
        let mut replay = with_numbers([records, 2, 3, 31]);
        spoil(&mut replay.kernel);
        assert_replay_refused(&replay, what);
    }
    for _ in 0..50 {
        assert_replay_refused(&Replay { kernel: noise.record(), ..with_numbers([5, 2, 3, 31]) }, "random bytes");
    }
}

/// Nothing more is asked, though no recording leads to some of these.
#[test]
fn replays_with_numbers_that_are_let_through() {
    let cut = 1 << 32;
    let of_five = [[5, 0, 0, 31], [5, 2, 5, 0], [5, 5, 1, 1], [5, 5, 5, 1], [5, 1, 1, 30], [5, 1, 5, 30], [1, 1, 1, 31]];
    let others = [[0, 0, 0, 0], [0, 0, 0, 31], [cut, 1, 1, 31], [cut, cut, cut, 31], [u64::MAX - 3, u64::MAX - 3, u64::MAX - 3, 31]];
    for (numbers, block, size) in of_five.into_iter().chain(others).flat_map(|numbers| all_blocks().map(move |(block, size)| (numbers, block, size)))
    {
        let mut replay = Replay { part: block[..TRACE_SIZE].try_into().unwrap(), ..with_numbers(numbers) };
        let mut twin = replay.clone();
        assert_ends(&replay, "before the block");
        play_singly(&mut twin, &[&block[..numbers[3] as usize], &block[..size]].concat());
        assert_eq!(replay.feed(&block[..size]), E_OK, "{numbers:?}: {size} bytes");
        assert_same(&replay, &twin, &format!("{numbers:?}: {size} bytes"));
        assert_ends(&replay, "after the block");
    }
}

/// With so many records to go and every part, blocks of every length: E_PAR exactly where there is a record too many.
#[test]
fn the_most_records() {
    for (room, length) in (0..=3).flat_map(|room| (0..TRACE_SIZE as u64).map(move |length| (room, length))) {
        let most = u64::MAX - room;
        for size in 0..=MOST_BYTES {
            let (mut replay, block) = (with_numbers([most, most, 1, length]), &BLOCKS[1][..size]);
            let (added, tail) = ((length + size as u64) / 32, (length + size as u64) % 32);
            if added > room {
                assert_block_refused(&replay, block, E_PAR, "a record too many");
            } else {
                assert_eq!(replay.feed(block), E_OK);
                assert_eq!(replay.end(), Line { records: most + added, differ: most + added, first: 1, tail, ..zeros(E_OK) });
                assert_eq!(replay.kernel, typical());
            }
        }
    }
}

#[test]
fn the_last_record() {
    let mut replay = with_numbers([u64::MAX - 1, 0, 0, 0]);
    assert_eq!(replay.feed(&BLOCKS[1][..32]), E_OK);
    assert_eq!((replay.records, replay.differ, replay.first, replay.length), (u64::MAX, 1, u64::MAX, 0));
    assert_eq!((replay.feed(&BLOCKS[0][..31]), replay.feed(&[])), (E_OK, E_OK));
    assert_block_refused(&replay, &[0], E_PAR, "one byte that completes a record");
    assert_eq!(replay.end().to_string(), "records 18446744073709551615 differ 1 first 18446744073709551615 tail 31");
}
