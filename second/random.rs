//! Random numbers and random calls; the same seed gives the same again.
//! Calls are guided by the state, so that most of them do something.

use crate::random_states::random_sound_state;
use crate::state::*;

/// A generator of random numbers (splitmix64).
#[derive(Clone, Debug)]
pub struct Random {
    seed: u64,
}

impl Random {
    pub fn new(seed: u64) -> Random {
        Random { seed }
    }

    pub fn bits(&mut self) -> u64 {
        self.seed = self.seed.wrapping_add(0x9E37_79B9_7F4A_7C15);
        let mut mixed = self.seed;
        mixed = (mixed ^ (mixed >> 30)).wrapping_mul(0xBF58_476D_1CE4_E5B9);
        mixed = (mixed ^ (mixed >> 27)).wrapping_mul(0x94D0_49BB_1331_11EB);
        mixed ^ (mixed >> 31)
    }

    /// A number from 0 to limit - 1.
    pub fn below(&mut self, limit: u32) -> u32 {
        (self.bits() % limit as u64) as u32
    }

    /// A number from `low` to `high`, both included.
    pub fn between(&mut self, low: u32, high: u32) -> u32 {
        low + self.below(high - low + 1)
    }

    /// True in so many of a hundred cases.
    pub fn percent(&mut self, chance: u32) -> bool {
        self.below(100) < chance
    }

    /// One entry of a list that is not empty.
    pub fn pick<T: Copy>(&mut self, list: &[T]) -> T {
        list[self.below(list.len() as u32) as usize]
    }

    /// Any number of 32 bits, often a small one or one next to a limit.
    pub fn number(&mut self) -> u32 {
        match self.below(4) {
            0 => self.below(70),
            1 => self.pick(&[0, 1, 15, 16, 17, 31, 32, 33, 63, 64, 65, 300, u32::MAX]),
            _ => self.bits() as u32,
        }
    }

    /// A task priority; three of the sixteen are frequent, to have equals.
    pub fn priority(&mut self) -> u32 {
        match self.percent(60) {
            true => self.between(4, 6),
            false => self.between(1, LARGEST_PRIORITY),
        }
    }

    /// Some of the numbers from 1 to `limit`, without repetition, ascending.
    fn some_of(&mut self, limit: u32, chance: u32) -> Vec<u32> {
        (1..=limit).filter(|_| self.percent(chance)).collect()
    }

    /// `count` different numbers from 1 to `limit`.
    fn few_of(&mut self, limit: u32, count: usize) -> Vec<u32> {
        let mut few = Vec::new();
        while few.len() < count {
            let number = self.between(1, limit);
            if !few.contains(&number) {
                few.push(number);
            }
        }
        few
    }
}

/// The numbers that calls may name: every valid number that a random call
/// names is one of these, its caller included. Invalid numbers may occur.
#[derive(Clone, PartialEq, Eq, Debug)]
pub struct Own {
    pub tasks: Vec<u32>,
    pub queues: Vec<u32>,
    pub mailboxes: Vec<u32>,
    pub messages: Vec<u32>,
}

impl Own {
    pub fn all() -> Own {
        Own {
            tasks: (1..=TASKS).collect(),
            queues: (1..=QUEUES).collect(),
            mailboxes: (1..=MAILBOXES).collect(),
            messages: (1..=MESSAGES).collect(),
        }
    }

    /// A few tasks and objects, so that the tasks meet at the objects.
    pub fn few(random: &mut Random) -> Own {
        Own {
            tasks: random.few_of(TASKS, 6),
            queues: random.few_of(QUEUES, 2),
            mailboxes: random.few_of(MAILBOXES, 2),
            messages: random.few_of(MESSAGES, 5),
        }
    }

    /// Two carriers that share no task, object or message.
    pub fn split(random: &mut Random) -> (Own, Own) {
        let one = Own {
            tasks: random.some_of(TASKS, 50),
            queues: random.some_of(QUEUES, 50),
            mailboxes: random.some_of(MAILBOXES, 50),
            messages: random.some_of(MESSAGES, 50),
        };
        let two = Own {
            tasks: others(&one.tasks, TASKS),
            queues: others(&one.queues, QUEUES),
            mailboxes: others(&one.mailboxes, MAILBOXES),
            messages: others(&one.messages, MESSAGES),
        };
        (one, two)
    }

    /// Keeps at most so many of each kind, to have the tasks meet more often.
    pub fn cut(&mut self, tasks: usize, objects: usize, messages: usize) {
        self.tasks.truncate(tasks);
        self.queues.truncate(objects);
        self.mailboxes.truncate(objects);
        self.messages.truncate(messages);
    }
}

fn others(list: &[u32], limit: u32) -> Vec<u32> {
    (1..=limit)
        .filter(|number| !list.contains(number))
        .collect()
}

/// A random merge of two lists of calls, or of tables: every entry of both,
/// each list in its order. With each stands whether it is of the first list.
pub fn random_merge<T: Copy>(random: &mut Random, one: &[T], two: &[T]) -> Vec<(bool, T)> {
    let (mut first, mut second) = (one.iter(), two.iter());
    let mut merge = Vec::new();
    while merge.len() < one.len() + two.len() {
        let left = first.len() as u32;
        let is_first = random.below(left + second.len() as u32) < left;
        let next = if is_first {
            first.next()
        } else {
            second.next()
        };
        merge.extend(next.map(|entry| (is_first, *entry)));
    }
    merge
}

/// What a sequence of random calls is after.
#[derive(Clone, Copy, PartialEq, Eq, Debug)]
pub enum Kind {
    /// Every call, all objects.
    Mixed,
    /// Every call, few tasks at few objects.
    Few,
    /// As `Few`, with a mistake in every other call.
    Errors,
    /// All tasks wait at one queue or mailbox.
    CrowdOfSenders,
    CrowdOfReceivers,
    CrowdAtMailbox,
    /// All messages go to one mailbox.
    Flood,
    /// Short time-outs and many ticks.
    TimeOuts,
    /// The same, with the counter near its wrap at the start.
    NearWrap,
    /// Queues without room.
    CapacityZero,
    /// Many words through queues of capacity 16.
    LargeQueues,
}

pub const KINDS: [Kind; 11] = [
    Kind::Mixed,
    Kind::Few,
    Kind::Errors,
    Kind::CrowdOfSenders,
    Kind::CrowdOfReceivers,
    Kind::CrowdAtMailbox,
    Kind::Flood,
    Kind::TimeOuts,
    Kind::NearWrap,
    Kind::CapacityZero,
    Kind::LargeQueues,
];

/// How a sequence of random calls is made.
#[derive(Clone, PartialEq, Eq, Debug)]
pub struct Profile {
    pub kind: Kind,
    pub own: Own,
    /// Whether ticks may stand among the calls.
    pub ticks: bool,
}

impl Profile {
    /// A profile of this kind, with the tasks and objects that suit it.
    pub fn new(kind: Kind, random: &mut Random) -> Profile {
        let mut own = match kind {
            Kind::Mixed => Own::all(),
            Kind::Flood => Own {
                messages: (1..=MESSAGES).collect(),
                ..Own::few(random)
            },
            _ => Own::few(random),
        };
        match kind {
            Kind::CrowdOfSenders | Kind::CrowdOfReceivers | Kind::CrowdAtMailbox => {
                own.tasks = (1..=TASKS).collect();
                own.queues.truncate(1);
                own.mailboxes.truncate(1);
            }
            Kind::Flood => own.mailboxes.truncate(1),
            _ => {}
        }
        Profile {
            kind,
            own,
            ticks: true,
        }
    }

    /// Calls that name only these tasks, objects and messages; no ticks.
    pub fn restricted(kind: Kind, own: Own) -> Profile {
        Profile {
            kind,
            own,
            ticks: false,
        }
    }

    /// A state for the sequence to start from, sound, empty or not.
    pub fn start(&self, random: &mut Random) -> State {
        let near_wrap = u32::MAX - random.below(30);
        let empty = random.percent(50);
        match self.kind {
            Kind::NearWrap => State::empty(near_wrap),
            Kind::Flood | Kind::LargeQueues => State::empty(random.number()),
            _ if empty => State::empty(random.number()),
            _ => random_sound_state(random),
        }
    }
}

/// One random call, guided by the state.
pub fn random_call(random: &mut Random, profile: &Profile, state: &State) -> Call {
    let number = random_number(random, profile, state);
    let mut call = Call {
        number,
        caller: 0,
        locked: false,
        disabled: random.percent(3),
        object: random.number(),
        value: random.number(),
        tmout: random_tmout(random, profile.kind),
        attribute: random.number(),
    };
    choose_caller(random, profile, state, &mut call);
    choose_object(random, profile, state, &mut call);
    choose_parameters(random, profile, state, &mut call);
    if random.percent(mistakes(profile.kind)) {
        spoil(random, profile, &mut call);
        if random.percent(20) {
            spoil(random, profile, &mut call);
        }
    }
    call
}

/// In how many of a hundred calls a mistake is made.
fn mistakes(kind: Kind) -> u32 {
    match kind {
        Kind::Errors => 50,
        Kind::CrowdOfSenders | Kind::CrowdOfReceivers | Kind::CrowdAtMailbox | Kind::Flood => 3,
        _ => 10,
    }
}

/// How often each call number is chosen, by number.
fn weights(kind: Kind) -> &'static [u32; 24] {
    //  tick, 1, 2..11 data queues, 12..18 mailboxes, 19..23 tasks
    match kind {
        Kind::Mixed | Kind::Few | Kind::Errors => &[
            8, 4, 4, 3, 8, 6, 8, 6, 8, 6, 8, 4, 4, 3, 12, 8, 6, 8, 4, 4, 5, 5, 4, 4,
        ],
        Kind::CrowdOfSenders => &[
            2, 2, 2, 1, 90, 4, 90, 3, 1, 2, 1, 1, 0, 0, 0, 0, 0, 0, 0, 2, 2, 5, 1, 1,
        ],
        Kind::CrowdOfReceivers => &[
            2, 2, 2, 1, 1, 1, 1, 1, 90, 4, 90, 1, 0, 0, 0, 0, 0, 0, 0, 2, 2, 5, 1, 1,
        ],
        Kind::CrowdAtMailbox => &[
            2, 2, 0, 0, 0, 0, 0, 0, 0, 0, 0, 0, 2, 1, 3, 90, 4, 90, 1, 2, 2, 5, 1, 1,
        ],
        Kind::Flood => &[
            1, 1, 0, 0, 0, 0, 0, 0, 0, 0, 0, 0, 2, 1, 200, 2, 3, 2, 2, 1, 1, 2, 1, 1,
        ],
        Kind::TimeOuts | Kind::NearWrap => &[
            40, 3, 2, 1, 2, 3, 20, 1, 1, 2, 20, 1, 2, 1, 4, 1, 1, 20, 1, 1, 4, 3, 2, 4,
        ],
        Kind::CapacityZero => &[
            4, 4, 4, 2, 9, 6, 9, 9, 9, 6, 9, 4, 0, 0, 0, 0, 0, 0, 0, 3, 3, 4, 2, 4,
        ],
        Kind::LargeQueues => &[
            2, 3, 3, 1, 15, 15, 15, 8, 10, 10, 10, 3, 0, 0, 0, 0, 0, 0, 0, 4, 2, 3, 1, 1,
        ],
    }
}

/// Calls that help when no task is able to call, and a handler may make.
const RELIEF: [u32; 8] = [
    REL_WAI, REL_WAI, PSND_DTQ, PRCV_DTQ, FSND_DTQ, SND_MBX, PRCV_MBX, LOOK,
];

fn random_number(random: &mut Random, profile: &Profile, state: &State) -> u32 {
    if let Some(number) = number_to_define(random, profile, state) {
        return number;
    }
    let weights = weights(profile.kind);
    let mut left = random.below(weights.iter().sum());
    let mut number = 0;
    while left >= weights[number as usize] {
        left -= weights[number as usize];
        number += 1;
    }
    let able = profile
        .own
        .tasks
        .iter()
        .any(|&task| state.task(task).able());
    if needs_task(number) && !able && random.percent(95) {
        let suspended = profile
            .own
            .tasks
            .iter()
            .any(|&task| state.task(task).suspended);
        number = random.pick(&RELIEF);
        if suspended && random.percent(40) {
            number = RSM_TSK;
        }
    }
    if number == TICK && !profile.ticks {
        number = LOOK;
    }
    number
}

/// The calls that a handler may not make.
fn needs_task(number: u32) -> bool {
    matches!(
        number,
        DEL_DTQ | SND_DTQ | TSND_DTQ | RCV_DTQ | TRCV_DTQ | DEL_MBX | RCV_MBX | TRCV_MBX
    )
}

/// Defines what is missing for the other calls to do something.
fn number_to_define(random: &mut Random, profile: &Profile, state: &State) -> Option<u32> {
    let own = &profile.own;
    let tasks = own
        .tasks
        .iter()
        .filter(|&&task| state.task(task).exists)
        .count();
    if tasks < own.tasks.len() && random.percent(40) {
        return Some(DEFINE_TASK);
    }
    let queue = own.queues.iter().any(|&queue| state.queue(queue).exists);
    if !queue && !own.queues.is_empty() && random.percent(20) {
        return Some(CRE_DTQ);
    }
    let mailbox = own
        .mailboxes
        .iter()
        .any(|&mailbox| state.mailbox(mailbox).exists);
    if !mailbox && !own.mailboxes.is_empty() && random.percent(20) {
        return Some(CRE_MBX);
    }
    None
}

fn random_tmout(random: &mut Random, kind: Kind) -> i32 {
    match kind {
        Kind::TimeOuts | Kind::NearWrap if random.percent(85) => random.between(1, 6) as i32,
        Kind::CrowdOfSenders | Kind::CrowdOfReceivers | Kind::CrowdAtMailbox
            if random.percent(90) =>
        {
            random.pick(&[-1, 500, 2_147_483_646])
        }
        _ => match random.below(6) {
            0 => -1,
            1 => 0,
            2 => 2_147_483_646,
            3 => random.between(1, 2_147_483_646) as i32,
            _ => random.between(1, 4) as i32,
        },
    }
}

/// An entry of the list that fits, if there is one, searched from a random
/// place; else any entry; of an empty list an invalid number.
fn search(random: &mut Random, list: &[u32], fits: impl Fn(u32) -> bool) -> u32 {
    if list.is_empty() {
        return invalid(random);
    }
    let start = random.below(list.len() as u32) as usize;
    let found = (0..list.len())
        .map(|step| list[(start + step) % list.len()])
        .find(|&n| fits(n));
    found.unwrap_or(list[start])
}

/// A number that no kind of thing has.
fn invalid(random: &mut Random) -> u32 {
    random.pick(&[0, 0, 65, 66, 300, 0x8000_0000, u32::MAX])
}

/// A handler or an able task.
fn choose_caller(random: &mut Random, profile: &Profile, state: &State, call: &mut Call) {
    if !needs_task(call.number) && random.percent(50) {
        return;
    }
    let tasks = &profile.own.tasks;
    let caller = search(random, tasks, |task| state.task(task).able());
    let able = tasks.contains(&caller) && state.task(caller).able();
    if able || needs_task(call.number) {
        call.caller = caller;
    }
}

/// The task, queue or mailbox that the call names, such that the call does
/// something where possible. Other calls keep the number that they have.
fn choose_object(random: &mut Random, profile: &Profile, state: &State, call: &mut Call) {
    let own = &profile.own;
    if random.percent(4) {
        return spoil_object(random, own, call);
    }
    call.object = match call.number {
        DEFINE_TASK => search(random, &own.tasks, |task| !state.task(task).exists),
        CRE_DTQ => search(random, &own.queues, |queue| !state.queue(queue).exists),
        DEL_DTQ..=REF_DTQ => search(random, &own.queues, |queue| state.queue(queue).exists),
        CRE_MBX => search(random, &own.mailboxes, |mailbox| {
            !state.mailbox(mailbox).exists
        }),
        DEL_MBX..=REF_MBX => search(random, &own.mailboxes, |mailbox| {
            state.mailbox(mailbox).exists
        }),
        REL_WAI => search(random, &own.tasks, |task| state.task(task).waits()),
        SUS_TSK if random.percent(10) => call.caller,
        SUS_TSK => search(random, &own.tasks, |task| {
            state.task(task).exists && !state.task(task).suspended
        }),
        RSM_TSK => search(random, &own.tasks, |task| state.task(task).suspended),
        LOOK => search(random, &own.tasks, |task| state.task(task).exists),
        FETCH => search(random, &own.tasks, |task| {
            state.task(task).exists && !state.task(task).waits()
        }),
        _ => return,
    };
}

/// The remaining parameters, in range. What a call does not use keeps a
/// random number, which has to be ignored.
fn choose_parameters(random: &mut Random, profile: &Profile, state: &State, call: &mut Call) {
    match call.number {
        DEFINE_TASK => call.value = random.priority(),
        CRE_DTQ => {
            call.attribute = random.below(2);
            call.value = match profile.kind {
                Kind::CapacityZero => 0,
                Kind::CrowdOfSenders | Kind::TimeOuts | Kind::NearWrap => random.below(3),
                Kind::LargeQueues => LARGEST_CAPACITY,
                _ => random.pick(&[0, 1, 2, 3, 7, 15, 16]),
            };
        }
        CRE_MBX => {
            call.attribute = random.below(4);
            if call.attribute >= 2 {
                call.value = random.pick(&[1, 2, 3, 4, 15, 16]);
            }
        }
        SND_MBX => choose_message(random, profile, state, call),
        _ => {}
    }
}

/// A message that is free, with a priority that the mailbox takes.
fn choose_message(random: &mut Random, profile: &Profile, state: &State, call: &mut Call) {
    let mut queued = [false; MESSAGES as usize + 1];
    for mailbox in &state.mailboxes {
        for message in &mailbox.messages {
            if message.number <= MESSAGES {
                queued[message.number as usize] = true;
            }
        }
    }
    call.value = search(random, &profile.own.messages, |message| {
        !queued[message as usize]
    });
    let known = call.object >= 1 && call.object <= MAILBOXES;
    if known && state.mailbox(call.object).messages_by_priority() {
        let highest = state
            .mailbox(call.object)
            .highest
            .clamp(1, LARGEST_PRIORITY);
        call.attribute = random.between(1, highest);
    }
}

/// Makes one mistake, of any kind, without naming a number of others.
fn spoil(random: &mut Random, profile: &Profile, call: &mut Call) {
    let own = &profile.own;
    match random.below(12) {
        0 => call.locked = true,
        1 => call.disabled = true,
        2 if call.number == SUS_TSK => {
            call.disabled = true;
            call.object = call.caller;
        }
        2 => call.caller = 0,
        3 => call.caller = search(random, &own.tasks, |_| true),
        4 => call.caller = random.pick(&[33, 34, 100, 65_536, u32::MAX]),
        5 => call.object = invalid(random),
        6 => spoil_object(random, own, call),
        7 if matches!(call.number, TSND_DTQ | TRCV_DTQ | TRCV_MBX) => {
            call.tmout = random.pick(&[0, 0, -2, -3, i32::MIN, i32::MAX])
        }
        7 | 8 => call.attribute = random.pick(&[0, 0, 2, 4, 17, u32::MAX]),
        9 if call.number == SND_MBX => call.value = search(random, &own.messages, |_| true),
        9 if call.number == CRE_MBX => {
            call.attribute = random.between(2, 3);
            call.value = random.pick(&[0, 17, u32::MAX]);
        }
        9 | 10 => call.value = invalid(random),
        _ => call.number = random.pick(&[24, 25, 100, 256, 65_536, u32::MAX]),
    }
}

/// Any own number of the right kind, fitting or not, or the one next above
/// the limit of that kind.
fn spoil_object(random: &mut Random, own: &Own, call: &mut Call) {
    let (list, limit) = match call.number {
        CRE_DTQ..=REF_DTQ => (&own.queues, QUEUES),
        CRE_MBX..=REF_MBX => (&own.mailboxes, MAILBOXES),
        _ => (&own.tasks, TASKS),
    };
    call.object = match random.percent(20) {
        true => limit + 1,
        false => search(random, list, |_| true),
    };
}
