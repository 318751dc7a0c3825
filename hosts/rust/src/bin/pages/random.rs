// Calls drawn at random, always the same ones.
use linguastel::Call;

use crate::check::Check;
use crate::document::{CALLS, FETCH};
use crate::kernel::Kernel;

pub const ROUNDS: usize = 1000;
pub const ROUND: usize = 400;

// The generator splitmix64.
pub struct Random {
    pub state: u64,
}

impl Random {
    pub fn draw(&mut self) -> u64 {
        self.state = self.state.wrapping_add(0x9e37_79b9_7f4a_7c15);
        let x = (self.state ^ (self.state >> 30)).wrapping_mul(0xbf58_476d_1ce4_e5b9);
        let x = (x ^ (x >> 27)).wrapping_mul(0x94d0_49bb_1331_11eb);
        x ^ (x >> 31)
    }

    pub fn below(&mut self, limit: u64) -> u32 {
        (self.draw() % limit) as u32
    }

    pub fn one_in(&mut self, count: u64) -> bool {
        self.below(count) == 0
    }

    pub fn of<T: Copy>(&mut self, list: &[T]) -> T {
        list[self.below(list.len() as u64) as usize]
    }
}

pub fn random_number(random: &mut Random) -> u32 {
    if random.one_in(64) {
        return random.of(&[24, 25, 255, 256, u32::MAX]);
    }
    if random.one_in(8) {
        return 0;
    }
    random.below(CALLS.len() as u64)
}

// Few numbers, so that calls meet; at times others, valid or not.
pub fn random_object(random: &mut Random) -> u32 {
    if random.one_in(8) {
        return random.of(&[0, 7, 15, 16, 17, 31, 32, 33, 255, 256, u32::MAX]);
    }
    random.of(&[1, 1, 1, 2, 2, 2, 3, 3, 4, 5, 6])
}

pub fn random_value(random: &mut Random, number: u32) -> u32 {
    match number {
        1 => random.of(&[0, 1, 3, 5, 16, 17, u32::MAX]),
        2 => random.of(&[0, 0, 1, 2, 16, 17, u32::MAX]),
        12 => random.of(&[0, 1, 4, 16, 17, u32::MAX]),
        14 => random.of(&[0, 1, 2, 3, 4, 5, 63, 64, 65, u32::MAX]),
        _ => random.draw() as u32,
    }
}

pub fn random_call(random: &mut Random) -> Call {
    let number = random_number(random);
    Call {
        number,
        caller: if random.one_in(3) { 0 } else { random_object(random) },
        locked: u32::from(random.one_in(16)),
        disabled: u32::from(random.one_in(16)),
        object: random_object(random),
        value: random_value(random, number),
        tmout: random.of(&[i32::MIN, -2, -1, 0, 1, 1, 2, 2, 3, 1000, 2_147_483_646, i32::MAX]),
        attribute: random.of(&[0, 0, 1, 1, 2, 2, 3, 3, 4, 5, 16, 17, u32::MAX]),
    }
}

// Every other round starts from the empty state, the rest from the examples' setting. At times a call gets a damaged record first, and at times
// a fetch follows it, so that the ends of waits are seen.
pub fn play_at_random(check: &mut Check) {
    let mut random = Random { state: 1 };
    for round in 0..ROUNDS {
        let mut kernel = if round % 2 == 0 { check.setting.clone() } else { Kernel::empty() };
        for _ in 0..ROUND {
            let call = random_call(&mut random);
            if random.one_in(50) {
                let mut damaged = kernel.clone();
                damaged.damage();
                damaged.call(call, &mut check.seen);
            }
            kernel.call(call, &mut check.seen);
            if random.one_in(4) {
                let object = random_object(&mut random);
                kernel.call(Call { number: FETCH as u32, object, ..Call::default() }, &mut check.seen);
            }
        }
    }
}
