//! Random calls on the proved library and on the baseline: the answers and the whole records, cell by cell, have to be the same after each call.
use baseline::FARTHEST_END;
use linguastel::number::*;
use linguastel::*;

// Marsaglia's xorshift, so that a seed gives the same calls everywhere.
pub struct Random(u64);

impl Random {
    pub fn new(seed: u64) -> Random {
        Random(seed.wrapping_mul(0x9E37_79B9_7F4A_7C15) | 1)
    }

    // From 0 to `limit` - 1.
    fn below(&mut self, limit: u32) -> u32 {
        self.0 ^= self.0 << 13;
        self.0 ^= self.0 >> 7;
        self.0 ^= self.0 << 17;
        ((self.0 >> 32) * u64::from(limit) >> 32) as u32
    }

    fn one_in(&mut self, count: u32) -> bool {
        self.below(count) == 0
    }

    fn pick<T: Copy>(&mut self, from: &[T]) -> T {
        from[self.below(from.len() as u32) as usize]
    }
}

// A run of calls has its own share of each call and its own few objects, so that some runs fill the record and others empty it.
struct Run {
    share: [u32; 24],
    objects: u32,
}

impl Run {
    fn new(random: &mut Random) -> Run {
        let mut share = [0; 24];
        for share in &mut share {
            *share = 1 + random.below(16);
        }
        for (number, least) in [(DEFINE_TASK, 8), (CRE_DTQ, 4), (CRE_MBX, 4)] {
            share[number as usize] += least;
        }
        for number in [DEL_DTQ, DEL_MBX, TICK] {
            share[number as usize] /= 1 + random.below(16);
        }
        Run { share, objects: 1 + random.below(MAILBOXES as u32) }
    }

    fn number(&self, random: &mut Random) -> u32 {
        if random.one_in(200) {
            return random.pick(&[24, 25, 255, 256, u32::MAX]);
        }
        let mut left = random.below(self.share.iter().sum());
        for (number, share) in self.share.iter().enumerate() {
            if left < *share {
                return number as u32;
            }
            left -= share;
        }
        TICK
    }

    // Most callers are able, since nothing else is done for the others.
    fn caller(&self, random: &mut Random, record: &Record) -> u32 {
        if random.one_in(16) {
            return random.pick(&[0, 1, 31, 32, 33, 255, 256, 257, u32::MAX]);
        }
        let start = random.below(33) as usize;
        let able = |t: &usize| record.tasks[*t].flags == DEFINED && record.tasks[*t].wait == NO_WAIT;
        (start..33).chain(1..start).find(|t| *t == 0 || able(t)).unwrap_or(0) as u32
    }

    // Sometimes the one that calls: sus_tsk looks at that, for caller 0 too.
    fn object(&self, random: &mut Random, number: u32, caller: u32) -> u32 {
        if random.one_in(40) {
            return random.pick(&[0, 16, 17, 32, 33, 255, 256, 257, u32::MAX]);
        }
        if random.one_in(16) {
            return caller;
        }
        match number {
            CRE_DTQ..=REF_MBX => 1 + random.below(self.objects),
            _ => 1 + random.below(TASKS as u32),
        }
    }

    fn value(&self, random: &mut Random, number: u32) -> u32 {
        match number {
            DEFINE_TASK | CRE_MBX => random.below(18),
            CRE_DTQ => random.pick(&[0, 0, 1, 2, 3, 15, 16, 16, 17, 256]),
            SND_MBX => random.below(66),
            _ => random.below(1000),
        }
    }

    fn call(&self, random: &mut Random, record: &Record) -> Call {
        let number = self.number(random);
        let caller = self.caller(random, record);
        let (locked, disabled) = (random.one_in(50), random.one_in(16));
        Call {
            number,
            caller,
            locked: u32::from(locked) * 256,
            disabled: u32::from(disabled) * 2,
            object: self.object(random, number, caller),
            value: self.value(random, number),
            tmout: random.pick(&[-2, -1, -1, 0, 1, 1, 2, 3, 5, 9, 100, LONGEST_TMOUT, i32::MAX, i32::MIN]),
            attribute: random.pick(&[0, 0, 1, 1, 2, 2, 3, 3, 4, 5, 8, 16, 17, 256]),
        }
    }
}

// One cell gets some other number: most such records aren't sound.
fn damage(record: &mut Record, random: &mut Random) {
    let byte = random.pick(&[0, 1, 2, 3, 4, 5, 15, 16, 17, 31, 32, 33, 49, 50, 51, 64, 65, 80, 255]);
    let task = &mut record.tasks[random.below(33) as usize];
    let queue = &mut record.queues[random.below(17) as usize];
    let mailbox = &mut record.mailboxes[random.below(17) as usize];
    match random.below(20) {
        0 => task.wait = byte,
        1 => task.object = byte,
        2 => task.timed = byte,
        3 => task.code = byte,
        4 => task.flags = random.pick(&[0, 1, 2, 3, 4, 256, 257, 1 << 31 | 1, u32::MAX]),
        5 => task.end = record.counter.wrapping_add(random.pick(&[0, 1, u32::MAX, FARTHEST_END, FARTHEST_END + 1])),
        6 => queue.ring.head = byte,
        7 => queue.ring.count = byte,
        8 => queue.ring.capacity = byte,
        9 => queue.defined = byte,
        10 => queue.attribute = byte,
        11 => mailbox.defined = byte,
        12 => mailbox.attribute = byte,
        13 => mailbox.highest = byte,
        14 => record.waiting.link[random.below(81) as usize] = byte,
        15 => record.messages.link[random.below(81) as usize] = byte,
        16 => record.waiting.key[random.below(65) as usize] = byte,
        17 => queue.ring.spare = byte,
        18 => queue.spare = byte.into(),
        _ => record.spare = byte,
    }
}

#[derive(Default)]
pub struct Counts {
    pub calls: u64,
    pub refused: u64,
    pub damaged: u64,
    pub unsound: u64,
    pub accepted: [u64; 24],
}

fn refused(call: Call, answer: HostAnswer) -> bool {
    call.number > FETCH || matches!(answer.read(), Answer::Error(_)) && call.number != FETCH
}

// A call that changes nothing leaves every cell as it was, whatever it held.
fn changes_nothing(call: Call, answer: HostAnswer) -> bool {
    refused(call, answer) || matches!(call.number, REF_DTQ | REF_MBX | LOOK | FETCH)
}

// A damaged record that is still sound may hold something in cells that say nothing. The two clear different ones of those, so after a change only
// the answers are compared.
fn same_on_damaged(record: &Record, call: Call, random: &mut Random, counts: &mut Counts) -> bool {
    let mut damaged = record.clone();
    damage(&mut damaged, random);
    let (mut proved, mut hand) = (damaged.clone(), damaged.clone());
    let is_sound = proved.is_sound();
    let answer = proved.host_call(call);
    counts.damaged += 1;
    counts.unsound += u64::from(!is_sound);
    let other = baseline::call(&mut hand, call);
    let as_it_was = proved == damaged && hand == damaged;
    is_sound == baseline::sound(&damaged) && answer == other && (as_it_was || !changes_nothing(call, answer))
}

// Says where the two differ, or counts what was played.
pub fn play(calls: u64, seed: u64) -> Result<Counts, String> {
    let mut random = Random::new(seed);
    let mut counts = Counts::default();
    while counts.calls < calls {
        let run = Run::new(&mut random);
        let mut proved = Record::empty();
        proved.counter = random.pick(&[0, 1000, u32::MAX - 5]);
        let mut hand = proved.clone();
        for _ in 0..2000.min(calls - counts.calls) {
            let call = run.call(&mut random, &proved);
            if random.one_in(4) && !same_on_damaged(&proved, call, &mut random, &mut counts) {
                return Err(format!("damaged record, {call:?}"));
            }
            let before = proved.clone();
            let (answer, other) = (proved.host_call(call), baseline::call(&mut hand, call));
            if answer != other || proved != hand || baseline::sound(&hand) != proved.is_sound() {
                return Err(format!("{call:?}: {answer:?}, baseline {other:?}; records equal: {}\nbefore: {before:?}", proved == hand));
            }
            counts.calls += 1;
            if refused(call, answer) {
                counts.refused += 1;
            } else {
                counts.accepted[call.number as usize] += 1;
            }
        }
    }
    Ok(counts)
}
