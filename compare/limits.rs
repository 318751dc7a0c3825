//! Random calls and tables: the second program's, some calls changed so that a number stands at a limit of the error table or next to it.
use crate::play::leaves_the_record;
use crate::record::kernel_answer;
use linguastel::{number, MAILBOXES, MESSAGES, QUEUES, TASKS};
use second::{random_call, random_table, Call, Profile, Random, Reached, State, Table};

/// Number 0 and the limit of a kind, and their neighbours.
fn number_at_a_limit(most: usize, random: &mut Random) -> u32 {
    random.pick(&[0, 1, most as u32, most as u32 + 1])
}

pub fn next_call(random: &mut Random, profile: &Profile, state: &State) -> Call {
    let mut call = random_call(random, profile, state);
    change_some(&mut call, state, random);
    call
}

/// In every sixth table no call changes the state.
pub fn next_table(random: &mut Random, profile: &Profile, state: &State) -> Table {
    let mut table = random_table(random, profile, state);
    for call in &mut table.calls {
        change_some(call, state, random);
    }
    if random.below(6) == 0 {
        make_idle(&mut table.calls, state);
    }
    table
}

/// Calls that would change this state get the CPU locked, with which every call of known number is refused. The others stay as they are.
fn make_idle(calls: &mut [Call], state: &State) {
    // What is reached here is not part of any run.
    let (mut left, mut reached) = (state.clone(), Reached::new());
    for call in calls.iter_mut().filter(|call| call.number != number::TICK) {
        let answer = left.play(call, &mut reached);
        if !leaves_the_record(call, &kernel_answer(&answer)) {
            call.locked = true;
            left = state.clone();
        }
    }
}

fn change_some(call: &mut Call, state: &State, random: &mut Random) {
    if random.percent(10) {
        match random.below(4) {
            0 => change_context(call, random),
            1 => change_object(call, random),
            _ => change_parameters(call, state, random),
        }
    }
}

fn change_context(call: &mut Call, random: &mut Random) {
    match random.below(4) {
        0 => call.caller = number_at_a_limit(TASKS, random),
        1 => call.locked = true,
        2 => (call.caller, call.disabled) = (0, random.percent(50)),
        _ => call.disabled = true,
    }
}

fn change_object(call: &mut Call, random: &mut Random) {
    let most = match call.number {
        number::CRE_DTQ..=number::REF_DTQ => QUEUES,
        number::CRE_MBX..=number::REF_MBX => MAILBOXES,
        _ => TASKS,
    };
    call.object = number_at_a_limit(most, random);
}

fn change_parameters(call: &mut Call, state: &State, random: &mut Random) {
    match call.number {
        number::DEFINE_TASK => call.value = random.pick(&[0, 1, 16, 17]),
        number::CRE_DTQ if random.percent(50) => call.attribute = random.below(3),
        number::CRE_DTQ => call.value = random.pick(&[0, 1, 16, 17]),
        number::CRE_MBX => (call.attribute, call.value) = (random.below(5), random.pick(&[0, 1, 16, 17])),
        number::SND_MBX if random.percent(30) => call.value = number_at_a_limit(MESSAGES, random),
        number::SND_MBX => {
            let highest = state.mailboxes.get(call.object as usize).map_or(16, |mailbox| mailbox.highest);
            call.attribute = random.pick(&[0, 1, highest, highest.wrapping_add(1)]);
        }
        number::TSND_DTQ | number::TRCV_DTQ | number::TRCV_MBX => {
            call.tmout = random.pick(&[i32::MIN, -2, -1, 0, 0, 1, i32::MAX - 1, i32::MAX]);
            // A time-out of 0 makes no poll of it that a handler may call.
            if random.percent(20) {
                call.caller = 0;
            }
        }
        number::SUS_TSK | number::RSM_TSK | number::REL_WAI | number::LOOK | number::FETCH => call.object = random.between(1, TASKS as u32),
        _ => call.number = random.pick(&[22, 23, 24, 255, 256]),
    }
}

#[cfg(test)]
mod tests {
    use super::*;
    use second::random_sound_state;

    /// No call of an idle table changes the state, and not all of them are locked.
    #[test]
    fn idle_tables() {
        let mut random = Random::new(1);
        let mut unlocked = 0;
        for _ in 0..300 {
            let profile = Profile::new(random.pick(&second::KINDS), &mut random);
            let mut state = random_sound_state(&mut random);
            let before = state.clone();
            let mut calls = random_table(&mut random, &profile, &state).calls;
            make_idle(&mut calls, &state);
            second::post(&mut state, &calls, &mut vec![second::Answer::refused(0); calls.len()], &mut Reached::new());
            assert!(state == before);
            unlocked += calls.iter().filter(|call| !call.locked).count();
        }
        assert!(unlocked > 1000);
    }
}
