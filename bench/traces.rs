//! The traces that bench/replay plays: random calls from the empty state, in one run, each recorded with the answer that the Rust kernel gives. The calls
//! are chosen by the state, so that most of them do something and the state stays as full as it is meant to be. The same seed gives the same trace.
use linguastel::number::*;
use linguastel::*;
use second::Random;
use std::io::{self, Write};

// ── The mixes ──

/// How a trace is made: tasks 1 to `tasks` and so on are in use, and each call has its share.
pub struct Mix {
    pub name: &'static str,
    tasks: u32,
    queues: u32,
    mailboxes: u32,
    messages: u32,
    share: [u32; 24],
}

// By number: the tick and define_task; data queues, cre_dtq to ref_dtq; mailboxes, cre_mbx to ref_mbx; tasks, rel_wai to fetch. Tasks and objects that
// are missing are made apart from these shares.
#[rustfmt::skip]
const EVEN: [u32; 24] = [
    80, 1,
    1, 1, 60, 60, 60, 20, 60, 60, 60, 20,
    1, 1, 110, 40, 40, 40, 20,
    10, 15, 20, 20, 40,
];

// More is sent than received, with hardly a poll that could be refused, so that words and messages pile up; with few ticks and releases waits last.
#[rustfmt::skip]
const FILLING: [u32; 24] = [
    20, 1,
    1, 1, 120, 20, 120, 20, 60, 40, 60, 20,
    1, 1, 300, 30, 30, 30, 20,
    5, 5, 20, 20, 20,
];

pub const MIXES: [Mix; 3] = [
    Mix { name: "typical", tasks: 12, queues: 6, mailboxes: 4, messages: 20, share: EVEN },
    Mix { name: "small", tasks: 2, queues: 1, mailboxes: 1, messages: 2, share: EVEN },
    Mix { name: "full", tasks: TASKS as u32, queues: QUEUES as u32, mailboxes: MAILBOXES as u32, messages: MESSAGES as u32, share: FILLING },
];

// ── What the choice of a call looks at ──

fn able(record: &Record, task: u32) -> bool {
    let task = &record.tasks[task as usize];
    task.flags == DEFINED && task.wait == NO_WAIT
}

fn waits(record: &Record, task: u32) -> bool {
    record.tasks[task as usize].wait != NO_WAIT
}

// A bit for each message that is queued somewhere.
fn queued(record: &Record) -> u128 {
    let mut bits = 0;
    for mailbox in 1..MAILBOXES + 1 {
        let mut next = record.messages.link[HEADS_OF_MESSAGES + mailbox];
        while next != 0 {
            bits |= 1 << next;
            next = record.messages.link[next as usize];
        }
    }
    bits
}

// The first number from 1 to `limit` that fits, from a random one on; where none does, the random one.
fn search(random: &mut Random, limit: u32, fits: impl Fn(u32) -> bool) -> u32 {
    let start = random.between(1, limit);
    (start..=limit).chain(1..start).find(|number| fits(*number)).unwrap_or(start)
}

// Calls that a handler may not make.
fn needs_task(number: u32) -> bool {
    matches!(number, DEL_DTQ | SND_DTQ | TSND_DTQ | RCV_DTQ | TRCV_DTQ | DEL_MBX | RCV_MBX | TRCV_MBX)
}

// ── One call ──

// Of a hundred calls so many are mistaken, and while something is missing so many make it.
const MISTAKEN: u32 = 3;
const MAKING: u32 = 30;

// An object that was deleted is made again as it was, so that the start of a trace is like the rest of it. Each message fits each mailbox.
const CAPACITIES: [u32; 6] = [8, 4, 0, 16, 2, 1];
const HIGHEST: u32 = 8;

impl Mix {
    // A task or object of the mix that isn't there: the call that makes it.
    fn missing(&self, record: &Record) -> Option<u32> {
        if (1..=self.tasks).any(|task| record.tasks[task as usize].flags == 0) {
            return Some(DEFINE_TASK);
        }
        if (1..=self.queues).any(|queue| record.queues[queue as usize].defined == 0) {
            return Some(CRE_DTQ);
        }
        (1..=self.mailboxes).any(|mailbox| record.mailboxes[mailbox as usize].defined == 0).then_some(CRE_MBX)
    }

    fn number(&self, random: &mut Random, record: &Record) -> u32 {
        if let Some(number) = self.missing(record).filter(|_| random.percent(MAKING)) {
            return number;
        }
        let mut left = random.below(self.share.iter().sum());
        let mut number = 0;
        while left >= self.share[number as usize] {
            left -= self.share[number as usize];
            number += 1;
        }
        // What would be refused for want of a task or a message gives way to a call that a handler makes or that frees a message.
        if needs_task(number) && !(1..=self.tasks).any(|task| able(record, task)) {
            return random.pick(&[TICK, PSND_DTQ, PRCV_DTQ, SND_MBX, REL_WAI, RSM_TSK]);
        }
        let every_message = (1 << (self.messages + 1)) - 2;
        if number == SND_MBX && queued(record) == every_message {
            return PRCV_MBX;
        }
        number
    }

    // A handler in a third of the calls that it may make, else an able task.
    fn caller(&self, random: &mut Random, record: &Record, number: u32) -> u32 {
        if number == TICK || !needs_task(number) && random.percent(33) {
            return 0;
        }
        let task = search(random, self.tasks, |task| able(record, task));
        if able(record, task) || needs_task(number) {
            task
        } else {
            0
        }
    }

    fn object(&self, random: &mut Random, record: &Record, number: u32) -> u32 {
        let flags = |task: u32| record.tasks[task as usize].flags;
        match number {
            TICK => 0,
            DEFINE_TASK => search(random, self.tasks, |task| flags(task) == 0),
            CRE_DTQ => search(random, self.queues, |queue| record.queues[queue as usize].defined == 0),
            DEL_DTQ..=REF_DTQ => search(random, self.queues, |queue| record.queues[queue as usize].defined != 0),
            CRE_MBX => search(random, self.mailboxes, |mailbox| record.mailboxes[mailbox as usize].defined == 0),
            DEL_MBX..=REF_MBX => search(random, self.mailboxes, |mailbox| record.mailboxes[mailbox as usize].defined != 0),
            REL_WAI => search(random, self.tasks, |task| waits(record, task)),
            SUS_TSK => search(random, self.tasks, |task| flags(task) == DEFINED),
            RSM_TSK => search(random, self.tasks, |task| flags(task) == DEFINED + SUSPENDED),
            LOOK => search(random, self.tasks, |task| flags(task) != 0),
            _ => search(random, self.tasks, |task| flags(task) != 0 && !waits(record, task)),
        }
    }

    fn value_and_attribute(&self, random: &mut Random, record: &Record, number: u32, object: u32) -> (u32, u32) {
        match number {
            DEFINE_TASK => (random.priority(), 0),
            CRE_DTQ => (CAPACITIES[object as usize % CAPACITIES.len()], object % 2),
            CRE_MBX => (HIGHEST, (object + 1) % 4),
            SND_MBX => {
                let taken = queued(record);
                (search(random, self.messages, |message| taken >> message & 1 == 0), random.between(1, HIGHEST))
            }
            SND_DTQ..=FSND_DTQ => (random.bits() as u32, 0),
            _ => (0, 0),
        }
    }

    fn call(&self, random: &mut Random, record: &Record) -> Call {
        let number = self.number(random, record);
        let caller = self.caller(random, record, number);
        let object = self.object(random, record, number);
        let (value, attribute) = self.value_and_attribute(random, record, number, object);
        let tmout = if matches!(number, TSND_DTQ | TRCV_DTQ | TRCV_MBX) { random.pick(&[1, 2, 5, 10, 20, 100, TMO_FEVR]) } else { 0 };
        let mut call = Call { number, caller, locked: 0, disabled: 0, object, value, tmout, attribute };
        if number != TICK && random.percent(MISTAKEN) {
            mistake(random, &mut call);
        }
        call
    }
}

fn mistake(random: &mut Random, call: &mut Call) {
    match random.below(6) {
        0 => call.locked = 1,
        1 => call.disabled = 1,
        2 => call.caller = random.between(1, 33),
        3 => call.object = random.pick(&[0, 33]),
        4 => call.tmout = i32::MIN,
        _ => call.value = u32::MAX,
    }
}

// ── A trace ──

/// What the records written so far were, and how full the state was after them.
#[derive(Default)]
pub struct Counts {
    pub records: u64,
    pub changed: u64,
    pub refused: u64,
    pub waits: u64,
    pub ticks: u64,
    // Looked at after every LOOKED_AT-th record, which is enough for a mean: tasks, waiting tasks, queues, words, mailboxes, messages.
    looks: u64,
    fill: [u64; 6],
}

const LOOKED_AT: u64 = 16;

impl Counts {
    fn count(&mut self, call: Call, answer: HostAnswer, record: &Record) {
        // A fetch may give the code of an ended wait without being refused.
        let fetched = call.number == FETCH && matches!(answer.code, E_RLWAI | E_TMOUT | E_DLT);
        let refused = matches!(answer.read(), Answer::Error(_)) && !fetched;
        let reads = matches!(call.number, REF_DTQ | REF_MBX | LOOK | FETCH);
        self.records += 1;
        self.refused += u64::from(refused);
        self.changed += u64::from(!refused && !reads);
        self.waits += u64::from(answer.read().waits());
        self.ticks += u64::from(call.number == TICK);
        if self.records % LOOKED_AT == 0 {
            self.look(record);
        }
    }

    fn look(&mut self, record: &Record) {
        self.looks += 1;
        for task in &record.tasks[1..] {
            self.fill[0] += u64::from(task.flags != 0);
            self.fill[1] += u64::from(task.wait != NO_WAIT);
        }
        for queue in &record.queues[1..] {
            self.fill[2] += u64::from(queue.defined);
            self.fill[3] += u64::from(queue.ring.count);
        }
        self.fill[4] += record.mailboxes[1..].iter().map(|mailbox| u64::from(mailbox.defined)).sum::<u64>();
        self.fill[5] += u64::from(queued(record).count_ones());
    }

    /// The means of what was looked at.
    pub fn fill(&self) -> [f64; 6] {
        self.fill.map(|sum| sum as f64 / self.looks as f64)
    }
}

// The second program writes the record, since its `record_of` stands already and was written from the papers alone.
fn bytes_of(call: Call, answer: HostAnswer) -> [u8; second::RECORD] {
    let Call { number, caller, locked, disabled, object, value, tmout, attribute } = call;
    let call = second::Call { number, caller, locked: locked != 0, disabled: disabled != 0, object, value, tmout, attribute };
    let answer = match answer {
        HostAnswer { kind: 0, code, a, b, c, .. } => second::Answer::Finished { code, a, b, c },
        HostAnswer { place, .. } => second::Answer::Waits { place },
    };
    second::record_of(&call, &answer)
}

/// Writes as many records as the last of the sizes, and says what there was up to each of them.
pub fn write(mix: &Mix, seed: u64, sizes: &[u64], mut out: impl Write, mut say: impl FnMut(&Counts)) -> io::Result<()> {
    let mut random = Random::new(seed);
    let mut record = Record::empty();
    let mut counts = Counts::default();
    for size in sizes {
        while counts.records < *size {
            let call = mix.call(&mut random, &record);
            let answer = baseline::call_untested(&mut record, call);
            counts.count(call, answer, &record);
            out.write_all(&bytes_of(call, answer))?;
        }
        say(&counts);
    }
    out.flush()
}
