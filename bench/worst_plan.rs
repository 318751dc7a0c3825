//! Plans of states with what is played on them: as text, as the calls that reach the state, and changed at random.
use crate::cycles::*;
use linguastel::number::*;
use linguastel::*;
use std::fmt::{self, Display, Formatter};
use std::str::FromStr;

// Marsaglia's xorshift, so that a seed gives the same plans everywhere.
pub struct Random(u64);

impl Random {
    pub fn new(seed: u64) -> Random {
        Random(seed.wrapping_mul(0x9E37_79B9_7F4A_7C15) | 1)
    }

    // From 0 to `limit` - 1.
    pub fn below(&mut self, limit: u32) -> u32 {
        self.0 ^= self.0 << 13;
        self.0 ^= self.0 >> 7;
        self.0 ^= self.0 << 17;
        ((self.0 >> 32) * u64::from(limit) >> 32) as u32
    }

    // From 1 to `limit`.
    fn number(&mut self, limit: usize) -> u32 {
        1 + self.below(limit as u32)
    }

    pub fn one_in(&mut self, count: u32) -> bool {
        self.below(count) == 0
    }

    pub fn pick<T: Copy>(&mut self, from: &[T]) -> T {
        from[self.below(from.len() as u32) as usize]
    }
}

// ── Parts of a plan, each a word of text ──

// What a task of the plan does: nothing, since it isn't defined; it is able, with nothing stored or with the pair of a wait that ended in this way; or it
// waits to send, to receive or at a mailbox.
const UNDEFINED: char = '-';
const ABLE: char = '.';
const RELEASED: char = 'R';
const TIMED_OUT: char = 'T';
const DELETED: char = 'D';
const SENDS: char = 's';
const RECEIVES: char = 'r';
const AT_BOX: char = 'm';

#[derive(Clone, Copy, PartialEq, Debug)]
pub struct TaskPlan {
    does: char,
    // Of a wait: the data queue or mailbox, and the tmout.
    object: u32,
    tmout: i32,
    suspended: bool,
}

// After the tick that ends every plan's calls, the next one ends this wait; the other is far from its end.
const NEXT: i32 = 1;
const FAR: i32 = 100;
const ENDS: [(char, i32); 2] = [('n', NEXT), ('f', FAR)];
const SUSPENDED_TASK: char = 'S';

#[derive(Clone, Copy, PartialEq, Debug)]
pub struct QueuePlan {
    defined: bool,
    attribute: u32,
    capacity: u32,
    words: u32,
}

#[derive(Clone, Copy, PartialEq, Debug)]
pub struct MailboxPlan {
    defined: bool,
    attribute: u32,
    messages: u32,
}

impl TaskPlan {
    fn waits(self) -> bool {
        matches!(self.does, SENDS | RECEIVES | AT_BOX)
    }

    fn random(random: &mut Random) -> TaskPlan {
        let does = random.pick(&[UNDEFINED, ABLE, RELEASED, TIMED_OUT, DELETED, SENDS, SENDS, SENDS, RECEIVES, RECEIVES, AT_BOX, AT_BOX, AT_BOX]);
        let task = TaskPlan { does, object: random.number(QUEUES), tmout: random.pick(&[TMO_FEVR, NEXT, NEXT, FAR]), suspended: random.one_in(4) };
        if task.waits() {
            task
        } else {
            TaskPlan { object: 0, tmout: TMO_FEVR, suspended: task.suspended && does != UNDEFINED, ..task }
        }
    }
}

impl Display for TaskPlan {
    fn fmt(&self, f: &mut Formatter) -> fmt::Result {
        write!(f, "{}", self.does)?;
        if self.waits() {
            write!(f, "{}", self.object)?;
        }
        if let Some((end, _)) = ENDS.iter().find(|(_, tmout)| *tmout == self.tmout) {
            write!(f, "{end}")?;
        }
        write!(f, "{}", if self.suspended { SUSPENDED_TASK.to_string() } else { String::new() })
    }
}

impl FromStr for TaskPlan {
    type Err = String;

    fn from_str(text: &str) -> Result<TaskPlan, String> {
        let (rest, suspended) = text.strip_suffix(SUSPENDED_TASK).map_or((text, false), |rest| (rest, true));
        let end = ENDS.iter().find_map(|(end, tmout)| Some((rest.strip_suffix(*end)?, *tmout)));
        let (rest, tmout) = end.unwrap_or((rest, TMO_FEVR));
        let does = rest.chars().next().ok_or("a task is missing")?;
        let number = &rest[does.len_utf8()..];
        let object = if number.is_empty() { 0 } else { number.parse().map_err(|_| format!("{text} is no task"))? };
        Ok(TaskPlan { does, object, tmout, suspended })
    }
}

// Numbers with / between them, or - for what isn't defined.
fn numbers<const N: usize>(text: &str) -> Result<Option<[u32; N]>, String> {
    if text.starts_with(UNDEFINED) {
        return Ok(None);
    }
    let numbers: Option<Vec<u32>> = text.split('/').map(|number| number.parse().ok()).collect();
    let numbers = numbers.and_then(|numbers| numbers.try_into().ok());
    numbers.map(Some).ok_or_else(|| format!("{text} is no object with {N} numbers"))
}

impl QueuePlan {
    fn random(random: &mut Random) -> QueuePlan {
        let capacity = random.below(WORDS as u32 + 1);
        let words = random.pick(&[0, capacity, capacity / 2]);
        QueuePlan { defined: !random.one_in(8), attribute: random.below(2), capacity, words }
    }
}

impl Display for QueuePlan {
    fn fmt(&self, f: &mut Formatter) -> fmt::Result {
        match self {
            QueuePlan { defined: false, .. } => write!(f, "{UNDEFINED}"),
            QueuePlan { attribute, capacity, words, .. } => write!(f, "{attribute}/{capacity}/{words}"),
        }
    }
}

impl FromStr for QueuePlan {
    type Err = String;

    fn from_str(text: &str) -> Result<QueuePlan, String> {
        let [attribute, capacity, words] = numbers(text)?.unwrap_or_default();
        Ok(QueuePlan { defined: !text.starts_with(UNDEFINED), attribute, capacity, words })
    }
}

impl MailboxPlan {
    fn random(random: &mut Random) -> MailboxPlan {
        MailboxPlan { defined: !random.one_in(8), attribute: random.below(4), messages: random.pick(&[0, 0, 1, 2, 4, 8, 63, 64]) }
    }
}

impl Display for MailboxPlan {
    fn fmt(&self, f: &mut Formatter) -> fmt::Result {
        match self {
            MailboxPlan { defined: false, .. } => write!(f, "{UNDEFINED}"),
            MailboxPlan { attribute, messages, .. } => write!(f, "{attribute}/{messages}"),
        }
    }
}

impl FromStr for MailboxPlan {
    type Err = String;

    fn from_str(text: &str) -> Result<MailboxPlan, String> {
        let [attribute, messages] = numbers(text)?.unwrap_or_default();
        Ok(MailboxPlan { defined: !text.starts_with(UNDEFINED), attribute, messages })
    }
}

// Words of text in a row; x*3 is x three times.
fn words<T: FromStr<Err = String>>(text: &str, separator: char) -> Result<Vec<T>, String> {
    let mut all = Vec::new();
    for word in text.split(separator).map(str::trim) {
        let (word, times) = word.rsplit_once('*').unwrap_or((word, "1"));
        let times = times.parse().map_err(|_| format!("{word}*{times}: no number"))?;
        for _ in 0..times {
            all.push(word.parse()?);
        }
    }
    Ok(all)
}

fn text_of<T: Display + PartialEq>(all: &[T], separator: &str) -> String {
    let runs = all.chunk_by(|one, next| one == next);
    let runs = runs.map(|run| if run.len() == 1 { run[0].to_string() } else { format!("{}*{}", run[0], run.len()) });
    runs.collect::<Vec<_>>().join(separator)
}

// ── What is played ──

/// Laid out as its call.
#[repr(transparent)]
#[derive(Clone, Copy, PartialEq, Debug)]
pub struct Made(pub Call);

// The first number that no call has.
pub const UNKNOWN: u32 = LAST + 1;

fn name_of(number: u32) -> &'static str {
    CALL_NAMES.get(number as usize).copied().unwrap_or("unknown")
}

// The fields behind the call's name, in their order, and those that are 0 at the end left out.
impl Display for Made {
    fn fmt(&self, f: &mut Formatter) -> fmt::Result {
        let Call { number, caller, locked, disabled, object, value, tmout, attribute } = self.0;
        let who = if caller == 0 { "H".to_string() } else { format!("T{caller}") };
        let flags = [(locked, " locked"), (disabled, " disabled")].map(|(flag, name)| if flag == 0 { "" } else { name }).concat();
        let fields = [object.to_string(), value.to_string(), tmout.to_string(), attribute.to_string()];
        let used = fields.iter().rposition(|field| field != "0").map_or(0, |last| last + 1);
        let fields: Vec<String> = fields[..used].iter().map(|field| format!(" {field}")).collect();
        write!(f, "{who}{flags} {}{}", name_of(number), fields.concat())
    }
}

impl FromStr for Made {
    type Err = String;

    fn from_str(text: &str) -> Result<Made, String> {
        let wrong = || format!("'{text}' is no call");
        let mut words: Vec<&str> = text.split(' ').collect();
        let mut flag = |name: &str| words.iter().position(|word| *word == name).map_or(0, |at| u32::from(words.remove(at) == name));
        let (locked, disabled) = (flag("locked"), flag("disabled"));
        let [who, name, fields @ ..] = &words[..] else { return Err(wrong()) };
        let caller = if *who == "H" { Some(0) } else { who.strip_prefix('T').and_then(|task| task.parse().ok()) };
        let number = (TICK..=UNKNOWN).find(|number| name_of(*number) == *name);
        let fields: Option<Vec<i64>> = fields.iter().map(|field| field.parse().ok()).collect();
        let (caller, number, fields) = (caller.ok_or_else(wrong)?, number.ok_or_else(wrong)?, fields.ok_or_else(wrong)?);
        let field = |at: usize| fields.get(at).copied().unwrap_or(0);
        let (object, value, tmout, attribute) = (field(0) as u32, field(1) as u32, field(2) as i32, field(3) as u32);
        Ok(Made(Call { number, caller, locked, disabled, object, value, tmout, attribute }))
    }
}

/// A block of a recording that ends one record: so many of its bytes are in the replay's part, and so many bytes of the next record follow.
#[derive(Clone, Copy, PartialEq, Debug)]
pub struct Block {
    pub part: usize,
    pub tail: usize,
    pub made: Made,
}

impl Block {
    fn recorded(&self, record: &Record) -> [u8; TRACE_SIZE] {
        let answer = record.clone().host_call(self.made.0);
        self.made.0.trace(answer).unwrap_or([u8::MAX; TRACE_SIZE])
    }

    pub fn bytes(&self, record: &Record) -> Vec<u8> {
        [&self.recorded(record)[self.part..], &vec![0; self.tail]].concat()
    }

    pub fn replay(&self, record: &Record) -> Replay {
        let (kernel, mut part) = (record.clone(), [0; TRACE_SIZE]);
        part[..self.part].copy_from_slice(&self.recorded(record)[..self.part]);
        Replay { kernel, part, length: self.part as u64, ..Replay::EMPTY }
    }
}

/// A call on the planned record with one byte changed, so that it isn't sound.
#[derive(Clone, Copy, PartialEq, Debug)]
pub struct Damaged {
    pub at: usize,
    pub byte: u8,
    pub made: Made,
}

/// The last two are the end of a replay of the planned state, and the sets of tasks that wait and are runnable.
#[derive(Clone, PartialEq, Debug)]
pub enum Played {
    One(Made),
    Damaged(Damaged),
    Table(Vec<Made>),
    Block(Block),
    End,
    Sets,
}

impl Display for Played {
    fn fmt(&self, f: &mut Formatter) -> fmt::Result {
        match self {
            Played::One(made) => write!(f, "{made}"),
            Played::Damaged(Damaged { at, byte, made }) => write!(f, "damaged {at} {byte} {made}"),
            Played::Table(calls) => write!(f, "table {}", text_of(calls, ", ")),
            Played::Block(Block { part, tail, made }) => write!(f, "block {part} {tail} {made}"),
            Played::End => write!(f, "end"),
            Played::Sets => write!(f, "sets"),
        }
    }
}

// Two numbers below these limits, then a call.
fn with_two_numbers(text: &str, limit: usize, other: usize) -> Result<(usize, usize, Made), String> {
    let wrong = || format!("'{text}' isn't two numbers below {limit} and {other}, and a call");
    let [one, two, made] = text.splitn(3, ' ').collect::<Vec<_>>()[..] else { return Err(wrong()) };
    let number = |word: &str, limit| word.parse().ok().filter(|number| *number < limit).ok_or_else(wrong);
    Ok((number(one, limit)?, number(two, other)?, made.parse()?))
}

impl FromStr for Played {
    type Err = String;

    fn from_str(text: &str) -> Result<Played, String> {
        let (first, rest) = text.split_once(' ').unwrap_or((text, ""));
        match first {
            "end" => Ok(Played::End),
            "sets" => Ok(Played::Sets),
            "table" => words(rest, ',').map(Played::Table),
            "block" => {
                let (part, tail, made) = with_two_numbers(rest, TRACE_SIZE, TRACE_SIZE)?;
                Ok(Played::Block(Block { part, tail, made }))
            }
            "damaged" => {
                let (at, byte, made) = with_two_numbers(rest, size_of::<Record>(), 1 << u8::BITS)?;
                Ok(Played::Damaged(Damaged { at, byte: byte as u8, made }))
            }
            _ => text.parse().map(Played::One),
        }
    }
}

// ── A plan ──

#[derive(Clone, PartialEq, Debug)]
pub struct Plan {
    pub tasks: Vec<TaskPlan>,
    pub queues: Vec<QueuePlan>,
    pub mailboxes: Vec<MailboxPlan>,
    pub played: Played,
}

impl Display for Plan {
    fn fmt(&self, f: &mut Formatter) -> fmt::Result {
        let Plan { tasks, queues, mailboxes, played } = self;
        write!(f, "{} | {} | {} | {played}", text_of(tasks, " "), text_of(queues, " "), text_of(mailboxes, " "))
    }
}

impl FromStr for Plan {
    type Err = String;

    fn from_str(text: &str) -> Result<Plan, String> {
        let [tasks, queues, mailboxes, played] = text.split('|').map(str::trim).collect::<Vec<_>>()[..] else {
            return Err(format!("'{text}' is no plan"));
        };
        let plan = Plan { tasks: words(tasks, ' ')?, queues: words(queues, ' ')?, mailboxes: words(mailboxes, ' ')?, played: played.parse()? };
        if (plan.tasks.len(), plan.queues.len(), plan.mailboxes.len()) == (TASKS, QUEUES, MAILBOXES) {
            Ok(plan)
        } else {
            Err(format!("'{text}' hasn't {TASKS} tasks, {QUEUES} data queues and {MAILBOXES} mailboxes"))
        }
    }
}

const PRIORITY: u32 = 5;
// Of a mailbox with messages by priority, and the priority of its messages.
const HIGHEST: u32 = 16;
const MESSAGE_PRIORITY: u32 = 1;

impl Plan {
    fn numbered<T>(all: &[T]) -> impl DoubleEndedIterator<Item = (u32, &T)> {
        all.iter().enumerate().map(|(index, one)| (index as u32 + 1, one))
    }

    // The waits that have ended: at two queues that are there for that alone.
    fn ended(&self) -> Vec<Call> {
        const RELEASING: u32 = 15;
        const DELETING: u32 = 16;
        let mut calls = vec![create_queue(RELEASING, TA_TFIFO, 0), create_queue(DELETING, TA_TFIFO, 0)];
        for (task, plan) in Plan::numbered(&self.tasks) {
            match plan.does {
                RELEASED => calls.extend([by(task, RCV_DTQ, RELEASING), by(0, REL_WAI, task)]),
                TIMED_OUT => calls.push(Call { tmout: NEXT, ..by(task, TRCV_DTQ, RELEASING) }),
                DELETED => calls.push(by(task, RCV_DTQ, DELETING)),
                _ => {}
            }
        }
        // A task that can call deletes the queues; all calls of others are refused.
        let deletes = Plan::numbered(&self.tasks).flat_map(|(task, _)| [by(task, DEL_DTQ, RELEASING), by(task, DEL_DTQ, DELETING)]);
        calls.into_iter().chain([A_TICK, A_TICK]).chain(deletes).collect()
    }

    fn objects(&self) -> Vec<Call> {
        let mut calls = Vec::new();
        for (queue, plan) in Plan::numbered(&self.queues).filter(|(_, plan)| plan.defined) {
            calls.push(create_queue(queue, plan.attribute, plan.capacity));
            calls.extend((1..=plan.words).map(|word| send(0, queue, word)));
        }
        let mut last = 0;
        for (mailbox, plan) in Plan::numbered(&self.mailboxes).filter(|(_, plan)| plan.defined) {
            calls.push(create_mailbox(mailbox, plan.attribute, if plan.attribute & TA_MPRI == 0 { 0 } else { HIGHEST }));
            let messages = last + 1..=(last + plan.messages).min(MESSAGES as u32);
            last = *messages.end();
            calls.extend(messages.map(|number| message(0, mailbox, number, MESSAGE_PRIORITY)));
        }
        calls
    }

    fn waits(&self) -> Vec<Call> {
        let mut calls = Vec::new();
        for (task, plan) in Plan::numbered(&self.tasks).rev().filter(|(_, plan)| plan.waits()) {
            let number = match plan.does {
                SENDS => TSND_DTQ,
                RECEIVES => TRCV_DTQ,
                _ => TRCV_MBX,
            };
            calls.push(Call { tmout: plan.tmout, value: task, ..by(task, number, plan.object) });
        }
        let suspended = Plan::numbered(&self.tasks).filter(|(_, plan)| plan.suspended);
        calls.extend(suspended.map(|(task, _)| by(0, SUS_TSK, task)));
        calls.push(A_TICK);
        calls
    }

    /// The calls from the empty record to the state.
    pub fn calls(&self) -> Vec<Call> {
        let defined = Plan::numbered(&self.tasks).filter(|(_, plan)| plan.does != UNDEFINED).map(|(task, _)| define(task, PRIORITY));
        let ended = self.tasks.iter().any(|plan| matches!(plan.does, RELEASED | TIMED_OUT | DELETED));
        defined.chain(if ended { self.ended() } else { Vec::new() }).chain(self.objects()).chain(self.waits()).collect()
    }

    /// The state. What the library refuses of the calls isn't in it.
    pub fn record(&self) -> Record {
        let mut record = Record::empty();
        for call in self.calls() {
            let _ = record.host_call(call);
        }
        if let Played::Damaged(Damaged { at, byte, .. }) = self.played {
            // SAFETY: `at` is a byte of the record, and the record may hold any bytes.
            unsafe { std::ptr::from_mut(&mut record).cast::<u8>().add(at).write(byte) };
        }
        record
    }

    /// Whether the record is as planned: its tasks wait where they should, and it is sound unless it is damaged.
    pub fn is_reached(&self, record: &Record) -> bool {
        let waits = |(task, plan): (u32, &TaskPlan)| {
            let Task { wait, object, .. } = record.tasks[task as usize];
            let planned = [SENDS, RECEIVES, AT_BOX].iter().position(|does| *does == plan.does).map_or(NO_WAIT, |at| at as u8 + SENDING);
            (wait, u32::from(object)) == (planned, plan.object)
        };
        Plan::numbered(&self.tasks).all(waits) && record.is_sound() != matches!(self.played, Played::Damaged(_))
    }
}

// ── Random plans and changes ──

pub fn random_made(random: &mut Random, number: u32) -> Made {
    let objects: usize = if matches!(number, CRE_DTQ..=REF_MBX) { QUEUES } else { TASKS };
    let flag = |random: &mut Random| u32::from(random.one_in(16));
    let (locked, disabled) = (flag(random), flag(random));
    let object = if random.one_in(16) { random.pick(&[0, 33]) } else { random.number(objects) };
    let caller = if random.one_in(3) { 0 } else { random.number(TASKS) };
    let (value, attribute) = match number {
        SND_MBX => (random.number(MESSAGES + 1), random.pick(&[0, 1, 2, 16, 17])),
        DEFINE_TASK => (random.below(18), 0),
        CRE_DTQ | CRE_MBX => (random.below(18), random.below(5)),
        _ => (7, 0),
    };
    let tmout = if matches!(number, TSND_DTQ | TRCV_DTQ | TRCV_MBX) { random.pick(&[-2, TMO_FEVR, TMO_POL, 1, FAR]) } else { 0 };
    Made(Call { number, caller, locked, disabled, object, value, tmout, attribute })
}

fn change_some<T: Copy>(all: &mut [T], random: &mut Random, new: T) {
    let count = all.len() as u32;
    let (one, other) = (random.below(count) as usize, random.below(count) as usize);
    match random.below(4) {
        0 => all[one.min(other)..=one.max(other)].fill(new),
        1 => all[one] = all[other],
        2 => all.swap(one, other),
        _ => all[one] = new,
    }
}

impl Played {
    /// The same kind of thing with other numbers.
    pub fn varied(&self, random: &mut Random) -> Played {
        let mut played = self.clone();
        played.change(random);
        played
    }

    fn change(&mut self, random: &mut Random) {
        match self {
            Played::One(made) => *made = random_made(random, made.0.number),
            Played::Table(calls) => {
                let number = random.number(LAST as usize);
                let (at, new) = (random.below(calls.len() as u32) as usize, random_made(random, number));
                let other = random.below(calls.len() as u32) as usize;
                calls[at] = if random.one_in(2) { new } else { calls[other] };
            }
            Played::Damaged(damaged) => match random.below(3) {
                0 => damaged.at = random.below(size_of::<Record>() as u32) as usize,
                1 => damaged.byte = random.below(1 << u8::BITS) as u8,
                _ => {
                    let number = random.below(LAST + 1);
                    damaged.made = random_made(random, number);
                }
            },
            Played::Block(block) => match random.below(3) {
                0 => block.part = random.below(TRACE_SIZE as u32) as usize,
                1 => block.tail = random.below(TRACE_SIZE as u32) as usize,
                _ => {
                    let number = random.below(LAST + 1);
                    block.made = random_made(random, number);
                }
            },
            Played::End | Played::Sets => {}
        }
    }
}

// What each data queue and then each mailbox is used for: SENDS, RECEIVES, AT_BOX, HOLDS for messages, or nothing. The test of a record goes over all
// these lists, so where they stand is worth a change of its own.
const HOLDS: char = 'x';
const UNUSED: char = ' ';

impl Plan {
    fn uses(&self) -> Vec<char> {
        let waits_at =
            |does: &[char], object: u32| self.tasks.iter().find(|task| does.contains(&task.does) && task.object == object).map(|task| task.does);
        let queues = (1..=QUEUES as u32).map(|queue| waits_at(&[SENDS, RECEIVES], queue).unwrap_or(UNUSED));
        let holds = |index: usize| if self.mailboxes[index].messages > 0 { HOLDS } else { UNUSED };
        let mailboxes = (0..MAILBOXES).map(|index| waits_at(&[AT_BOX], index as u32 + 1).unwrap_or(holds(index)));
        queues.chain(mailboxes).collect()
    }

    // Up to three objects are used for something else. One task waits at each that has waiters and the others at one of them; each that holds messages has
    // one, and the others are in one of them.
    fn use_otherwise(&mut self, random: &mut Random) {
        let mut uses = self.uses();
        for _ in 0..random.number(3) {
            let at = random.below(uses.len() as u32) as usize;
            uses[at] = if at < QUEUES { random.pick(&[SENDS, SENDS, RECEIVES, UNUSED]) } else { random.pick(&[AT_BOX, HOLDS, UNUSED]) };
        }
        let like = self.tasks.iter().copied().find(|task| task.waits());
        let waiting: Vec<usize> = (0..TASKS).filter(|index| self.tasks[*index].waits()).collect();
        let places: Vec<(char, u32)> = uses.iter().enumerate().map(|(at, does)| (*does, (at % QUEUES) as u32 + 1)).collect();
        let waits: Vec<(char, u32)> = places.iter().copied().filter(|(does, _)| !matches!(*does, HOLDS | UNUSED)).collect();
        let Some(like) = like.filter(|_| (1..=waiting.len()).contains(&waits.len())) else { return };
        let most =
            waits.iter().copied().max_by_key(|(does, object)| self.tasks.iter().filter(|task| (task.does, task.object) == (*does, *object)).count());
        let rest = if random.one_in(8) { random.pick(&waits) } else { most.unwrap_or(waits[0]) };
        for (place, index) in waiting.iter().enumerate() {
            let (does, object) = waits.get(place).copied().unwrap_or(rest);
            self.tasks[*index] = TaskPlan { does, object, ..like };
        }
        self.fit(&uses);
    }

    // A queue with senders is full, one with receivers empty; the messages stand where they may.
    fn fit(&mut self, uses: &[char]) {
        for (queue, does) in self.queues.iter_mut().zip(uses) {
            match *does {
                SENDS => queue.words = queue.capacity,
                RECEIVES => queue.words = 0,
                _ => {}
            }
        }
        let all = self.mailboxes.iter().map(|mailbox| mailbox.messages).sum::<u32>().min(MESSAGES as u32);
        let holding: Vec<usize> = (0..MAILBOXES).filter(|index| uses[QUEUES + index] == HOLDS).collect();
        let most = holding.iter().copied().max_by_key(|index| self.mailboxes[*index].messages);
        let each = u32::from(all >= holding.len() as u32);
        self.mailboxes.iter_mut().for_each(|mailbox| mailbox.messages = 0);
        holding.iter().for_each(|index| self.mailboxes[*index].messages = each);
        if let Some(most) = most {
            self.mailboxes[most].messages += all - each * holding.len() as u32;
        }
    }
}

impl Plan {
    pub fn random(random: &mut Random, played: Played) -> Plan {
        let tasks = (0..TASKS).map(|_| TaskPlan::random(random)).collect();
        let queues = (0..QUEUES).map(|_| QueuePlan::random(random)).collect();
        let mailboxes = (0..MAILBOXES).map(|_| MailboxPlan::random(random)).collect();
        Plan { tasks, queues, mailboxes, played }
    }

    /// The same plan with one thing changed, or more.
    pub fn changed(&self, random: &mut Random) -> Plan {
        let mut plan = self.clone();
        loop {
            match random.below(6) {
                0 => {
                    let task = TaskPlan::random(random);
                    change_some(&mut plan.tasks, random, task);
                }
                1 => {
                    let queue = QueuePlan::random(random);
                    change_some(&mut plan.queues, random, queue);
                }
                2 => {
                    let mailbox = MailboxPlan::random(random);
                    change_some(&mut plan.mailboxes, random, mailbox);
                }
                3 => plan.played.change(random),
                _ => plan.use_otherwise(random),
            }
            if !random.one_in(3) {
                return plan;
            }
        }
    }

    // How many tasks, data queues and mailboxes there are to be made like a neighbour.
    pub fn parts(&self) -> usize {
        self.tasks.len() + self.queues.len() + self.mailboxes.len()
    }

    /// The plans in which one of them is like one of its neighbours.
    pub fn simpler(&self, at: usize) -> Vec<Plan> {
        let mut plans = Vec::new();
        for behind in [false, true] {
            let mut plan = self.clone();
            let (queue, mailbox) = (at.wrapping_sub(plan.tasks.len()), at.wrapping_sub(plan.tasks.len() + plan.queues.len()));
            if at < plan.tasks.len() {
                like_neighbour(&mut plan.tasks, at, behind);
            } else if queue < plan.queues.len() {
                like_neighbour(&mut plan.queues, queue, behind);
            } else {
                like_neighbour(&mut plan.mailboxes, mailbox, behind);
            }
            plans.push(plan);
        }
        plans
    }
}

fn like_neighbour<T: Copy>(all: &mut [T], at: usize, behind: bool) {
    let other = if behind { at + 1 } else { at.wrapping_sub(1) };
    if let Some(new) = all.get(other).copied() {
        all[at] = new;
    }
}
