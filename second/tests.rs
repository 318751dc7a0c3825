//! The paper's sixteen runs, and some cases around them. Item 1 of document 02
//! amends runs 10 and 11. The tables of its item 2 and the replay of its item 3
//! come last; its item 5 is in `tests_blocks.rs`.

use crate::*;
use std::io::{self, Read};

/// A state with the answers compared call by call.
struct Run {
    state: State,
    reached: Reached,
}

impl Run {
    /// The start that the sixteen runs share.
    fn from(counter: u32) -> Run {
        let mut run = Run {
            state: State::empty(counter),
            reached: Reached::new(),
        };
        for (task, priority) in [(1, 5), (2, 3), (3, 5), (4, 3)] {
            run.ok(DEFINE_TASK, 0, task, priority);
        }
        run.expect(call(CRE_DTQ, 0, 1, 2), Answer::done(0, 0, 0));
        run.expect(
            Call {
                attribute: 1,
                ..call(CRE_DTQ, 0, 2, 0)
            },
            Answer::done(0, 0, 0),
        );
        run.expect(
            Call {
                attribute: 2,
                ..call(CRE_MBX, 0, 1, 4)
            },
            Answer::done(0, 0, 0),
        );
        run
    }

    fn start() -> Run {
        Run::from(0)
    }

    fn expect(&mut self, call: Call, answer: Answer) {
        let before = self.state.clone();
        assert_eq!(
            self.state.play(&call, &mut self.reached),
            answer,
            "{call} from\n{before}"
        );
        assert_eq!(self.state.fault(), None);
    }

    fn gives(&mut self, number: u32, caller: u32, object: u32, value: u32, words: [u32; 3]) {
        let [a, b, c] = words;
        self.expect(call(number, caller, object, value), Answer::done(a, b, c));
    }

    fn ok(&mut self, number: u32, caller: u32, object: u32, value: u32) {
        self.gives(number, caller, object, value, [0, 0, 0]);
    }

    fn waits(&mut self, number: u32, caller: u32, object: u32, value: u32, place: u32) {
        self.expect(call(number, caller, object, value), Answer::Waits { place });
    }

    fn refused(&mut self, number: u32, caller: u32, object: u32, value: u32, code: i32) {
        let before = self.state.clone();
        self.expect(call(number, caller, object, value), Answer::refused(code));
        assert!(self.state.equal(&before));
    }

    fn fetch(&mut self, task: u32, code: i32, word: u32) {
        let answer = Answer::Finished {
            code,
            a: word,
            b: 0,
            c: 0,
        };
        self.expect(call(FETCH, 0, task, 0), answer);
    }

    /// Polls the queue as the task; each word is received in turn.
    fn polls(&mut self, task: u32, queue: u32, words: &[u32]) {
        for &word in words {
            self.gives(PRCV_DTQ, task, queue, 0, [word, 0, 0]);
        }
    }

    fn tick(&mut self, ended: u32) {
        self.gives(TICK, 0, 0, 0, [ended, 0, 0]);
    }

    fn message(&mut self, caller: u32, message: u32, priority: u32, answer: Answer) {
        self.expect(
            Call {
                attribute: priority,
                ..call(SND_MBX, caller, 1, message)
            },
            answer,
        );
    }
}

pub(crate) fn call(number: u32, caller: u32, object: u32, value: u32) -> Call {
    Call {
        number,
        caller,
        object,
        value,
        ..Call::default()
    }
}

#[test]
fn run_1() {
    let mut run = Run::start();
    run.ok(SND_DTQ, 1, 1, 10);
    run.ok(SND_DTQ, 1, 1, 11);
    run.polls(2, 1, &[10, 11]);
    run.refused(PRCV_DTQ, 2, 1, 0, E_TMOUT);
}

#[test]
fn run_2() {
    let mut run = Run::start();
    run.ok(SND_DTQ, 1, 1, 10);
    run.ok(SND_DTQ, 1, 1, 11);
    run.waits(SND_DTQ, 1, 1, 12, 0);
    run.polls(2, 1, &[10]);
    run.fetch(1, E_OK, 0);
    run.gives(REF_DTQ, 0, 1, 0, [0, 0, 2]);
    run.polls(2, 1, &[11, 12]);
}

#[test]
fn run_3() {
    let mut run = Run::start();
    run.ok(SND_DTQ, 1, 1, 10);
    run.ok(SND_DTQ, 1, 1, 11);
    run.ok(FSND_DTQ, 1, 1, 12);
    run.polls(2, 1, &[11, 12]);
}

#[test]
fn run_4() {
    let mut run = Run::start();
    run.ok(SND_DTQ, 1, 1, 10);
    run.ok(SND_DTQ, 1, 1, 11);
    run.waits(SND_DTQ, 1, 1, 12, 0);
    run.ok(FSND_DTQ, 2, 1, 13);
    run.gives(REF_DTQ, 0, 1, 0, [1, 0, 2]);
    run.polls(2, 1, &[11, 13, 12]);
}

#[test]
fn run_5() {
    let mut run = Run::start();
    run.refused(PSND_DTQ, 1, 2, 7, E_TMOUT);
    run.refused(FSND_DTQ, 1, 2, 7, E_ILUSE);
}

#[test]
fn run_6() {
    let mut run = Run::start();
    run.waits(RCV_DTQ, 3, 2, 0, 0);
    run.ok(FSND_DTQ, 1, 2, 7);
    run.fetch(3, E_OK, 7);
}

#[test]
fn run_7() {
    let mut run = Run::start();
    run.waits(SND_DTQ, 1, 2, 1, 0);
    run.waits(SND_DTQ, 3, 2, 3, 1);
    run.waits(SND_DTQ, 2, 2, 2, 0);
    run.gives(REF_DTQ, 0, 2, 0, [2, 0, 0]);
    run.polls(4, 2, &[2, 1, 3]);
}

#[test]
fn run_8() {
    let mut run = Run::start();
    run.waits(RCV_DTQ, 1, 2, 0, 0);
    run.waits(RCV_DTQ, 2, 2, 0, 1);
    run.ok(PSND_DTQ, 3, 2, 9);
    run.fetch(1, E_OK, 9);
    run.refused(FETCH, 0, 2, 0, E_OBJ);
}

#[test]
fn run_9() {
    let mut run = Run::start();
    run.ok(SND_DTQ, 1, 1, 10);
    run.ok(SND_DTQ, 1, 1, 11);
    run.waits(SND_DTQ, 1, 1, 12, 0);
    run.ok(REL_WAI, 0, 1, 0);
    run.fetch(1, E_RLWAI, 0);
    run.polls(2, 1, &[10, 11]);
    run.refused(PRCV_DTQ, 2, 1, 0, E_TMOUT);
}

/// Runs 10 and 11 differ in the counter at the start. Item 1 of document 02
/// amends both: one tick more, and run 11 then leaves 1.
fn time_out_after_three_ticks(counter: u32) -> u32 {
    let mut run = Run::from(counter);
    run.expect(
        Call {
            tmout: 2,
            ..call(TRCV_DTQ, 1, 1, 0)
        },
        Answer::Waits { place: 0 },
    );
    run.tick(0);
    run.tick(0);
    run.tick(1);
    run.fetch(1, E_TMOUT, 0);
    run.state.counter
}

#[test]
fn run_10() {
    assert_eq!(time_out_after_three_ticks(0), 3);
}

#[test]
fn run_11() {
    assert_eq!(time_out_after_three_ticks(4_294_967_294), 1);
}

#[test]
fn run_12() {
    let mut run = Run::start();
    run.message(1, 5, 3, Answer::done(0, 0, 0));
    run.message(1, 6, 1, Answer::done(0, 0, 0));
    run.message(1, 7, 3, Answer::done(2, 0, 0));
    for message in [6, 5, 7] {
        run.gives(PRCV_MBX, 2, 1, 0, [message, 0, 0]);
    }
}

#[test]
fn run_13() {
    let mut run = Run::start();
    run.message(0, 5, 0, Answer::refused(E_PAR));
    run.message(0, 5, 5, Answer::refused(E_PAR));
    run.message(0, 5, 4, Answer::done(0, 0, 0));
    run.message(0, 5, 4, Answer::refused(E_OBJ));
    run.gives(PRCV_MBX, 0, 1, 0, [5, 0, 0]);
    run.message(0, 5, 4, Answer::done(0, 0, 0));
}

#[test]
fn run_14() {
    let mut run = Run::start();
    run.waits(SND_DTQ, 1, 2, 1, 0);
    run.ok(DEL_DTQ, 2, 2, 0);
    run.fetch(1, E_DLT, 0);
    run.refused(REF_DTQ, 0, 2, 0, E_NOEXS);
}

#[test]
fn run_15() {
    let mut run = Run::start();
    run.waits(RCV_DTQ, 3, 1, 0, 0);
    run.ok(SUS_TSK, 0, 3, 0);
    run.ok(SND_DTQ, 1, 1, 8);
    run.gives(LOOK, 0, 3, 0, [0, 0, 1]);
    run.refused(SND_DTQ, 3, 1, 1, E_SYS);
    run.ok(RSM_TSK, 0, 3, 0);
    run.fetch(3, E_OK, 8);
}

#[test]
fn run_16() {
    let mut run = Run::start();
    for (caller, queue, tmout, code) in [
        (0, 99, -2, E_CTX),
        (1, 99, -2, E_ID),
        (1, 3, -2, E_PAR),
        (1, 3, 0, E_NOEXS),
    ] {
        run.expect(
            Call {
                tmout,
                ..call(TRCV_DTQ, caller, queue, 0)
            },
            Answer::refused(code),
        );
    }
}

/// Two conditions at once: the earlier step gives the code.
#[test]
fn order_of_steps_0_to_3() {
    let mut run = Run::start();
    run.refused(24, 99, 0, 0, E_PAR);
    let mut attempt = call(SND_DTQ, 99, 0, 0);
    attempt.locked = true;
    run.expect(attempt, Answer::refused(E_SYS));
    attempt.caller = 1;
    run.expect(attempt, Answer::refused(E_CTX));
    attempt.number = LOOK;
    run.expect(attempt, Answer::refused(E_CTX));
    attempt.locked = false;
    run.expect(attempt, Answer::refused(E_ID));
}

#[test]
fn order_of_steps_4_to_6() {
    let mut run = Run::start();
    run.refused(SND_MBX, 1, 2, 65, E_PAR);
    run.refused(SND_MBX, 1, 2, 64, E_NOEXS);
    run.message(1, 64, 1, Answer::done(0, 0, 0));
    run.message(1, 64, 9, Answer::refused(E_PAR));
    run.message(1, 64, 2, Answer::refused(E_OBJ));
    run.refused(DEFINE_TASK, 0, 1, 0, E_PAR);
    run.refused(DEFINE_TASK, 0, 1, 1, E_OBJ);
}

/// A handler may suspend while dispatching is disabled, and a task may suspend
/// another one, but not itself.
#[test]
fn suspending_while_dispatching_is_disabled() {
    let mut run = Run::start();
    for (caller, task, code) in [
        (1, 1, E_CTX),
        (0, 0, E_ID),
        (1, 2, E_OK),
        (0, 2, E_QOVR),
        (0, 3, E_OK),
    ] {
        let mut attempt = call(SUS_TSK, caller, task, 0);
        attempt.disabled = true;
        run.expect(attempt, Answer::refused(code));
    }
    run.ok(SUS_TSK, 1, 1, 0);
    run.refused(RSM_TSK, 1, 1, 0, E_SYS);
}

/// Highest message priority counts with attribute 2 or 3 only.
#[test]
fn highest_message_priority() {
    let mut run = Run::start();
    for (attribute, highest, code) in [
        (3, 17, E_PAR),
        (2, 0, E_PAR),
        (4, 1, E_PAR),
        (1, 99, E_OK),
        (1, 99, E_OBJ),
    ] {
        let mut attempt = call(CRE_MBX, 0, 3, highest);
        attempt.attribute = attribute;
        run.expect(attempt, Answer::refused(code));
    }
}

#[test]
fn time_out_limits() {
    let mut run = Run::start();
    let timed = |tmout| Call {
        tmout,
        ..call(TRCV_MBX, 1, 1, 0)
    };
    run.expect(timed(2_147_483_647), Answer::refused(E_PAR));
    run.expect(timed(-2), Answer::refused(E_PAR));
    run.expect(timed(0), Answer::refused(E_TMOUT));
    run.expect(timed(2_147_483_646), Answer::Waits { place: 0 });
    assert_eq!(
        run.state.task(1).wait,
        Wait::AtMailbox {
            mailbox: 1,
            end: Some(2_147_483_647)
        }
    );
    run.expect(
        Call {
            caller: 2,
            ..timed(-1)
        },
        Answer::Waits { place: 1 },
    );
    assert_eq!(
        run.state.task(2).wait,
        Wait::AtMailbox {
            mailbox: 1,
            end: None
        }
    );
}

/// Item 1 of document 02: a wait with tmout n ends in tick n + 1 after the
/// call, whatever the counter was.
#[test]
fn time_out_one_tick_after_tmout() {
    for counter in [0, 1, 2_147_483_640, 4_294_967_290, u32::MAX - 1, u32::MAX] {
        for tmout in [1, 2, 3, 10] {
            for (number, object) in [(TSND_DTQ, 2), (TRCV_DTQ, 1), (TRCV_MBX, 1)] {
                let mut run = Run::from(counter);
                let timed = Call {
                    tmout,
                    ..call(number, 1, object, 7)
                };
                run.expect(timed, Answer::Waits { place: 0 });
                for _ in 0..tmout {
                    run.tick(0);
                }
                run.refused(FETCH, 0, 1, 0, E_OBJ);
                run.tick(1);
                run.fetch(1, E_TMOUT, 0);
            }
        }
    }
}

/// The largest tmout gives the farthest sound end tick. The counter is put
/// next to that tick, since so many ticks cannot be played.
#[test]
fn time_out_of_the_largest_tmout() {
    for counter in [0, 1, 2_147_483_647, 2_147_483_648, 2_147_483_649, u32::MAX] {
        let mut run = Run::from(counter);
        let timed = Call {
            tmout: 2_147_483_646,
            ..call(TRCV_DTQ, 1, 1, 0)
        };
        run.expect(timed, Answer::Waits { place: 0 });
        let end = counter.wrapping_add(2_147_483_647);
        assert_eq!(run.state.task(1).wait.end(), Some(end));
        run.tick(0);
        run.state.counter = end.wrapping_sub(2);
        run.tick(0);
        run.tick(1);
        assert_eq!(run.state.counter, end);
        run.fetch(1, E_TMOUT, 0);
    }
}

/// A time-out withdraws the word of the sender, and several end in one tick.
#[test]
fn several_time_outs_in_one_tick() {
    let mut run = Run::from(u32::MAX);
    for (task, tmout) in [(3, 2), (1, 2), (2, 3)] {
        let send = Call {
            tmout,
            ..call(TSND_DTQ, task, 2, task)
        };
        let place = if task == 1 { 1 } else { 0 };
        run.expect(send, Answer::Waits { place });
    }
    run.ok(SUS_TSK, 0, 1, 0);
    run.tick(0);
    assert_eq!(run.state.counter, 0);
    run.tick(0);
    run.tick(2);
    run.fetch(1, E_TMOUT, 0);
    run.gives(LOOK, 0, 1, 0, [0, 0, 1]);
    run.gives(LOOK, 0, 2, 0, [1, 2, 0]);
    run.polls(4, 2, &[2]);
    run.tick(0);
    run.refused(PRCV_DTQ, 4, 2, 0, E_TMOUT);
}

#[test]
fn mailbox_delete_and_waiters_by_priority() {
    let mut run = Run::start();
    run.expect(
        Call {
            attribute: 1,
            ..call(CRE_MBX, 0, 2, 0)
        },
        Answer::done(0, 0, 0),
    );
    run.waits(RCV_MBX, 1, 2, 0, 0);
    run.waits(RCV_MBX, 2, 2, 0, 0);
    run.waits(RCV_MBX, 3, 2, 0, 2);
    run.gives(REF_MBX, 0, 2, 0, [2, 0, 0]);
    // The message goes to the head waiter and is free again at once.
    run.ok(SND_MBX, 4, 2, 9);
    run.fetch(2, E_OK, 9);
    run.ok(SND_MBX, 4, 2, 9);
    run.fetch(1, E_OK, 9);
    run.ok(DEL_MBX, 4, 2, 0);
    run.fetch(3, E_DLT, 0);
    // Messages of a deleted mailbox are free again.
    run.message(4, 9, 2, Answer::done(0, 0, 0));
    run.ok(DEL_MBX, 4, 1, 0);
    run.ok(CRE_MBX, 4, 2, 0);
    run.ok(SND_MBX, 4, 2, 9);
    run.gives(REF_MBX, 0, 2, 0, [0, 9, 0]);
}

/// Makes a change in the start of the runs, with task 1 sending at queue 2
/// and message 7 queued, and tells whether the state is sound then.
fn sound_after(change: impl Fn(&mut State)) -> bool {
    let mut run = Run::start();
    run.waits(SND_DTQ, 1, 2, 1, 0);
    run.message(2, 7, 4, Answer::done(0, 0, 0));
    change(&mut run.state);
    run.state.sound()
}

#[test]
fn sentences_on_lists_of_tasks() {
    assert!(sound_after(|_| {}));
    assert!(!sound_after(|state| state.tasks[1].wait = Wait::No));
    assert!(!sound_after(|state| state.queues[2].senders.clear()));
    for number in [0, 1, 2, 33, u32::MAX] {
        assert!(!sound_after(|state| state.queues[2].senders.push(number)));
        assert!(!sound_after(|state| state.queues[1].receivers.push(number)));
    }
    // Task 3 has priority 5 as task 1, task 4 has 3.
    assert!(sound_after(|state| also_sending(state, 3)));
    assert!(!sound_after(|state| also_sending(state, 4)));
}

/// Puts the task behind task 1 as a sender of queue 2.
fn also_sending(state: &mut State, task: u32) {
    state.queues[2].senders.push(task);
    state.tasks[task as usize].wait = Wait::Sending {
        queue: 2,
        word: 1,
        end: None,
    };
}

#[test]
fn sentences_on_task_records() {
    assert!(!sound_after(|state| state.tasks[1].exists = false));
    assert!(!sound_after(|state| state.tasks[5].suspended = true));
    assert!(!sound_after(|state| state.tasks[1].priority = 0));
    assert!(!sound_after(|state| state.tasks[1].priority = 17));
    assert!(sound_after(|state| state.tasks[5].priority = 17));
    assert!(!sound_after(|state| state.tasks[2].code = -17));
    assert!(sound_after(|state| state.tasks[5].code = -17));
}

/// The limits of item 1 of document 02, from counters on both sides of the
/// wrap; with an unsound end tick a call and the tick give E_SYS.
#[test]
fn sentence_on_end_ticks() {
    for counter in [0, 1, 2_147_483_647, 2_147_483_648, u32::MAX] {
        for (away, sound) in [
            (0, false),
            (1, true),
            (2_147_483_646, true),
            (2_147_483_647, true),
            (2_147_483_648, false),
            (u32::MAX, false),
        ] {
            let mut state = sending_until(counter, away);
            assert_eq!(state.sound(), sound);
            let refused = [Answer::refused(E_SYS); 2];
            let calls = [call(LOOK, 0, 1, 0), call(TICK, 0, 0, 0)];
            assert_eq!(answers(&mut state, &calls) == refused, !sound);
        }
    }
}

/// The start of the runs with this counter, task 1 sending at queue 2 with an
/// end tick so many ticks away.
fn sending_until(counter: u32, away: u32) -> State {
    let mut state = Run::from(counter).state;
    state.queues[2].senders.push(1);
    state.tasks[1].wait = Wait::Sending {
        queue: 2,
        word: 1,
        end: Some(counter.wrapping_add(away)),
    };
    state
}

#[test]
fn sentences_on_queues() {
    assert!(!sound_after(|state| state.queues[2].exists = false));
    assert!(!sound_after(|state| state.queues[2].capacity = 1));
    assert!(!sound_after(|state| state.queues[1].capacity = 17));
    assert!(!sound_after(|state| state.queues[1].attribute = 2));
    assert!(!sound_after(|state| state.queues[1].words = vec![1, 2, 3]));
    assert!(sound_after(|state| state.queues[1].words = vec![1, 2]));
    assert!(!sound_after(|state| state.queues[3].words = vec![1]));
}

#[test]
fn sentences_on_mailboxes() {
    assert!(!sound_after(|state| state.mailboxes[1].highest = 3));
    assert!(!sound_after(|state| state.mailboxes[1].highest = 17));
    assert!(!sound_after(|state| state.mailboxes[1].attribute = 4));
    assert!(!sound_after(|state| state.mailboxes[1].exists = false));
    for (number, priority, sound) in [
        (7, 4, false),
        (8, 3, false),
        (8, 0, false),
        (8, 5, false),
        (64, 4, true),
        (65, 4, false),
        (0, 4, false),
    ] {
        let message = Message { number, priority };
        assert_eq!(
            sound_after(|state| state.mailboxes[1].messages.push(message.clone())),
            sound
        );
    }
    assert!(!sound_after(|state| {
        state.mailboxes[1].waiters.push(2);
        state.tasks[2].wait = Wait::AtMailbox {
            mailbox: 1,
            end: None,
        };
    }));
}

#[test]
fn equality_ignores_unused_fields_only() {
    let start = Run::start().state;
    let equal_after = |change: fn(&mut State)| {
        let mut state = start.clone();
        change(&mut state);
        state.equal(&start)
    };
    assert!(equal_after(|state| state.tasks[0].exists = true));
    assert!(equal_after(|state| state.tasks[5].priority = 9));
    assert!(equal_after(|state| state.queues[5].capacity = 9));
    assert!(equal_after(|state| state.mailboxes[5].attribute = 9));
    assert!(!equal_after(|state| state.counter = 1));
    assert!(!equal_after(|state| state.tasks[5].exists = true));
    assert!(!equal_after(|state| state.tasks[4].priority = 4));
    assert!(!equal_after(|state| state.tasks[4].suspended = true));
    assert!(!equal_after(|state| state.tasks[4].word = 1));
    assert!(!equal_after(|state| state.queues[1].capacity = 3));
    assert!(!equal_after(|state| state.queues[1].words.push(3)));
    assert!(!equal_after(|state| state.mailboxes[1].highest = 3));
    assert!(!equal_after(|state| state.mailboxes[1].attribute = 3));
}

#[test]
fn random_states_are_sound() {
    let mut random = Random::new(3);
    for _ in 0..2_000 {
        assert_eq!(random_sound_state(&mut random).fault(), None);
        assert!(!random_unsound_state(&mut random).sound());
    }
}

/// The random states have end ticks at both limits, and just outside of them
/// with nothing else wrong.
#[test]
fn random_end_ticks_at_the_limits() {
    let mut random = Random::new(5);
    let (mut inside, mut outside) = (Vec::new(), Vec::new());
    for _ in 0..2_000 {
        inside.extend(ticks_left(&random_sound_state(&mut random)));
        let state = random_unsound_state(&mut random);
        if matches!(state.fault(), Some(text) if text.starts_with("end tick")) {
            outside.extend(ticks_left(&state));
        }
    }
    assert!(inside.contains(&1) && inside.contains(&2_147_483_647));
    assert!(outside.contains(&0) && outside.contains(&2_147_483_648));
}

/// For each wait with an end, how many ticks away the end is.
fn ticks_left(state: &State) -> Vec<u32> {
    let ends = state.tasks.iter().filter_map(|task| task.wait.end());
    ends.map(|end| end.wrapping_sub(state.counter)).collect()
}

/// Every valid number that a restricted call names is of its own.
#[test]
fn restricted_calls_name_their_own_only() {
    let mut random = Random::new(4);
    let mut reached = Reached::new();
    for turn in 0..220 {
        let (mut own, _) = Own::split(&mut random);
        own.cut(turn % 7, turn % 3, turn % 5);
        let profile = Profile::restricted(KINDS[turn % KINDS.len()], own.clone());
        let mut state = random_sound_state(&mut random);
        for _ in 0..100 {
            let call = random_call(&mut random, &profile, &state);
            assert!(call.number != TICK);
            assert!(call.caller == 0 || is_own(&own.tasks, TASKS, call.caller));
            assert!(match call.number {
                CRE_DTQ..=REF_DTQ => is_own(&own.queues, QUEUES, call.object),
                CRE_MBX..=REF_MBX => is_own(&own.mailboxes, MAILBOXES, call.object),
                1..=FETCH => is_own(&own.tasks, TASKS, call.object),
                _ => true,
            });
            assert!(call.number != SND_MBX || is_own(&own.messages, MESSAGES, call.value));
            state.play(&call, &mut reached);
        }
    }
}

fn is_own(list: &[u32], limit: u32, number: u32) -> bool {
    list.contains(&number) || number < 1 || number > limit
}

/// Plays a list and gives the answers.
fn answers(state: &mut State, calls: &[Call]) -> Vec<Answer> {
    let mut reached = Reached::new();
    calls
        .iter()
        .map(|call| state.play(call, &mut reached))
        .collect()
}

/// Calls that a guided sequence made, from an empty state.
fn own_calls(random: &mut Random, profile: &Profile) -> Vec<Call> {
    let mut state = State::empty(0);
    let mut reached = Reached::new();
    let mut calls = Vec::new();
    for _ in 0..300 {
        let call = random_call(random, profile, &state);
        state.play(&call, &mut reached);
        calls.push(call);
    }
    calls
}

/// Two carriers that share nothing do not notice each other in a merge.
#[test]
fn merges_of_two_carriers() {
    let mut random = Random::new(9);
    for turn in 0..44 {
        let (mut one, mut two) = Own::split(&mut random);
        one.cut(6, 2, 5);
        two.cut(6, 2, 5);
        let kind = KINDS[turn % KINDS.len()];
        let first = own_calls(&mut random, &Profile::restricted(kind, one));
        let second = own_calls(&mut random, &Profile::restricted(kind, two));
        let (mut alone, mut merged) = (State::empty(0), State::empty(0));
        let first_answers = answers(&mut alone, &first);
        let second_answers = answers(&mut alone, &second);
        let merge = random_merge(&mut random, &first, &second);
        let calls: Vec<Call> = merge.iter().map(|(_, call)| *call).collect();
        let merged_answers = answers(&mut merged, &calls);
        let of = |list: bool| {
            let pairs = merge.iter().zip(&merged_answers);
            pairs
                .filter(|((is, _), _)| *is == list)
                .map(|(_, a)| *a)
                .collect::<Vec<_>>()
        };
        assert_eq!(of(true), first_answers);
        assert_eq!(of(false), second_answers);
        assert!(alone.equal(&merged));
    }
}

/// A new wait sets the stored pair to 0 and 0; a call that does not wait, and
/// a fetch, leave it.
#[test]
fn stored_pair() {
    let mut run = Run::start();
    run.waits(RCV_DTQ, 1, 1, 0, 0);
    run.ok(SND_DTQ, 2, 1, 8);
    run.fetch(1, E_OK, 8);
    run.ok(SND_DTQ, 1, 1, 9);
    run.fetch(1, E_OK, 8);
    run.waits(SND_DTQ, 1, 2, 1, 0);
    assert_eq!((run.state.task(1).code, run.state.task(1).word), (0, 0));
    run.ok(REL_WAI, 2, 1, 0);
    run.fetch(1, E_RLWAI, 0);
    run.waits(SND_DTQ, 1, 2, 1, 0);
    assert_eq!((run.state.task(1).code, run.state.task(1).word), (0, 0));
}

/// Without attribute 2 any priority is taken and none is kept.
#[test]
fn messages_by_arrival() {
    let mut run = Run::start();
    run.ok(CRE_MBX, 0, 2, 0);
    for (message, priority, ahead) in [(3, 9, 0), (1, 0, 1), (2, u32::MAX, 2)] {
        let mut send = call(SND_MBX, 1, 2, message);
        send.attribute = priority;
        run.expect(send, Answer::done(ahead, 0, 0));
    }
    let kept = |message: &Message| message.priority == 0;
    assert!(run.state.mailbox(2).messages.iter().all(kept));
    for message in [3, 1, 2] {
        run.gives(PRCV_MBX, 0, 2, 0, [message, 0, 0]);
    }
}

impl Run {
    /// Posts the calls with so many cells; gives the code and the cells. The
    /// marks are always the same, so a caller can ask which have stayed.
    fn post(&mut self, calls: &[Call], cells: usize) -> (i32, Vec<Answer>) {
        let mut answers = marks(cells);
        let code = post(&mut self.state, calls, &mut answers, &mut self.reached);
        (code, answers)
    }

    /// A table that gives E_OK and these answers. It has three cells more than
    /// calls, which stay as they are.
    fn posts(&mut self, calls: &[Call], answers: &[Answer]) {
        let cells = calls.len() + 3;
        let expected = [answers, &marks(cells)[calls.len()..]].concat();
        assert_eq!(self.post(calls, cells), (E_OK, expected));
        assert_eq!(self.state.fault(), None);
    }

    /// A refused table: nothing is done and the cells keep their marks.
    fn post_refused(&mut self, calls: &[Call], cells: usize, code: i32) {
        let before = self.state.clone();
        assert_eq!(self.post(calls, cells), (code, marks(cells)));
        assert_eq!(self.state, before);
    }
}

fn marks(cells: usize) -> Vec<Answer> {
    random_marks(&mut Random::new(6), cells)
}

/// As many psnd_dtq of task 1 to queue 1, which has room for two words.
fn sends(count: u32) -> Vec<Call> {
    (1..=count).map(|word| call(PSND_DTQ, 1, 1, word)).collect()
}

/// The answers to `sends` from the start of the runs.
fn sends_answered(count: usize) -> Vec<Answer> {
    let mut answers = vec![Answer::refused(E_TMOUT); count];
    answers[..count.min(2)].fill(Answer::done(0, 0, 0));
    answers
}

/// Run 4 as one table, with run 2's fetch at its end.
#[test]
fn table_of_a_run() {
    let calls = [
        call(SND_DTQ, 1, 1, 10),
        call(SND_DTQ, 1, 1, 11),
        call(SND_DTQ, 1, 1, 12),
        call(FSND_DTQ, 2, 1, 13),
        call(REF_DTQ, 0, 1, 0),
        call(PRCV_DTQ, 2, 1, 0),
        call(PRCV_DTQ, 2, 1, 0),
        call(PRCV_DTQ, 2, 1, 0),
        call(FETCH, 0, 1, 0),
    ];
    let expected = [
        Answer::done(0, 0, 0),
        Answer::done(0, 0, 0),
        Answer::Waits { place: 0 },
        Answer::done(0, 0, 0),
        Answer::done(1, 0, 2),
        Answer::done(11, 0, 0),
        Answer::done(13, 0, 0),
        Answer::done(12, 0, 0),
        Answer::done(0, 0, 0),
    ];
    let mut run = Run::start();
    run.posts(&calls, &expected);
    let mut single = Run::start().state;
    assert_eq!(answers(&mut single, &calls), expected);
    assert_eq!(run.state, single);
}

/// The state is asked before the lengths, and of an empty table too.
#[test]
fn table_on_an_unsound_state() {
    let mut run = Run::start();
    run.state.tasks[4].priority = 17;
    for (count, cells) in [(0, 0), (0, 3), (1, 1), (3, 2), (64, 64), (65, 65), (65, 0)] {
        run.post_refused(&sends(count), cells, E_SYS);
    }
    // Even where every record would be refused at step 0.
    run.post_refused(&[call(TICK, 0, 0, 0), call(24, 0, 0, 0)], 2, E_SYS);
    assert_eq!(run.reached.count(Path::TableUnsound), 8);
    assert_eq!(run.reached.count(Path::TableUnsoundEmpty), 2);
    assert_eq!(run.reached.count(Path::TableUnsoundTooLong), 2);
    assert_eq!(run.reached.count(Path::TableUnsoundShort), 2);
    // No record was played.
    assert_eq!(run.reached.count(Path::UnsoundCall), 0);
    assert_eq!(run.reached.count(Path::TableNumberZero), 0);
}

/// Up to 64 records are taken; one more and none of them is played.
#[test]
fn table_lengths_at_the_limit() {
    for count in [1, 2, 63, 64] {
        Run::start().posts(&sends(count), &sends_answered(count as usize));
    }
    let mut run = Run::start();
    for (count, cells) in [(65, 65), (65, 64), (65, 100), (66, 66), (1_000, 1_000)] {
        run.post_refused(&sends(count), cells, E_PAR);
    }
    assert!(run.state.queue(1).words.is_empty());
    assert_eq!(run.reached.count(Path::TableTooLong), 4);
    assert_eq!(run.reached.count(Path::TableOf65), 2);
    assert_eq!(run.reached.count(Path::TableTooLongShort), 1);
}

/// With fewer cells than calls nothing is done, not even what has a cell.
#[test]
fn table_with_too_few_cells() {
    for count in [1, 2, 5, 63, 64] {
        let mut run = Run::start();
        for cells in 0..count as usize {
            run.post_refused(&sends(count), cells, E_PAR);
        }
        assert_eq!(run.reached.count(Path::TableShort), count as u64);
        // As many cells as calls are enough.
        let taken = run.post(&sends(count), count as usize);
        assert_eq!(taken, (E_OK, sends_answered(count as usize)));
        assert_eq!(run.state.queue(1).words.len(), count.min(2) as usize);
    }
}

/// An empty table gives E_OK, with cells or without, and does nothing.
#[test]
fn empty_table() {
    let mut run = Run::start();
    let before = run.state.clone();
    for cells in [0, 1, 64, 65, 200] {
        assert_eq!(run.post(&[], cells), (E_OK, marks(cells)));
        assert_eq!(run.state, before);
    }
    assert_eq!(run.reached.count(Path::TableEmpty), 5);
}

/// The number of cells has no limit of its own, and those past the last call
/// keep their contents.
#[test]
fn cells_past_the_last_call() {
    for cells in [3, 4, 64, 65, 200] {
        let mut run = Run::start();
        let (code, after) = run.post(&sends(3), cells);
        assert_eq!((code, after.len()), (E_OK, cells));
        assert_eq!(after[..3], sends_answered(3));
        assert_eq!(after[3..], marks(cells)[3..]);
    }
}

/// The records behind a refused one are played, from the state before it.
#[test]
fn refused_call_in_a_table() {
    let mut locked = call(PSND_DTQ, 1, 1, 9);
    locked.locked = true;
    let timed = call(TRCV_DTQ, 0, 99, 0);
    let calls = [
        call(PSND_DTQ, 1, 1, 10),
        locked,
        timed,
        call(PSND_DTQ, 33, 1, 9),
        call(DEFINE_TASK, 0, 1, 5),
        call(PSND_DTQ, 1, 1, 11),
        call(PSND_DTQ, 1, 1, 12),
        call(REF_DTQ, 0, 1, 0),
    ];
    let expected = [
        Answer::done(0, 0, 0),
        Answer::refused(E_CTX),
        Answer::refused(E_CTX),
        Answer::refused(E_SYS),
        Answer::refused(E_OBJ),
        Answer::done(0, 0, 0),
        Answer::refused(E_TMOUT),
        Answer::done(0, 0, 2),
    ];
    let mut run = Run::start();
    run.posts(&calls, &expected);
    assert_eq!(run.state.queue(1).words, [10, 11]);
    // Both calls that were accepted behind a refused one.
    assert_eq!(run.reached.count(Path::TableGoesOn), 2);
}

/// A wait that a table begins refuses the task's next record, and one that it
/// ends lets the task call again.
#[test]
fn waits_within_a_table() {
    let calls = [
        call(RCV_DTQ, 1, 1, 0),
        call(PSND_DTQ, 1, 1, 7),
        call(PSND_DTQ, 2, 1, 8),
        call(FETCH, 1, 1, 0),
        call(RCV_MBX, 1, 1, 0),
    ];
    let expected = [
        Answer::Waits { place: 0 },
        Answer::refused(E_SYS),
        Answer::done(0, 0, 0),
        Answer::done(8, 0, 0),
        Answer::Waits { place: 0 },
    ];
    let mut run = Run::start();
    run.posts(&calls, &expected);
    assert_eq!(run.reached.count(Path::TableCallWaits), 2);
    // The next table finds what this one left.
    let look = [call(LOOK, 0, 1, 0), call(FETCH, 0, 1, 0)];
    run.posts(&look, &[Answer::done(3, 1, 0), Answer::refused(E_OBJ)]);
}

/// Number 0 in a table is refused at step 0 and is no tick: neither the
/// counter nor a wait that the next tick ends has changed.
#[test]
fn number_0_in_a_table_is_no_tick() {
    for counter in [0, u32::MAX - 1, u32::MAX] {
        let mut run = Run::from(counter);
        let timed = Call {
            tmout: 1,
            ..call(TRCV_DTQ, 1, 1, 0)
        };
        let (tick, look) = (call(TICK, 0, 0, 0), call(LOOK, 0, 1, 0));
        let waiting = Answer::done(2, 1, 0);
        let refused = Answer::refused(E_PAR);
        run.posts(
            &[timed, tick, look, tick, tick, look],
            &[
                Answer::Waits { place: 0 },
                refused,
                waiting,
                refused,
                refused,
                waiting,
            ],
        );
        assert_eq!(run.state.counter, counter);
        run.tick(0);
        // The wait ends with the next tick; a table does not bring it.
        let before = run.state.clone();
        run.posts(&[tick; 64], &[refused; 64]);
        assert_eq!(run.state, before);
        run.tick(1);
        run.fetch(1, E_TMOUT, 0);
        assert_eq!(run.state.counter, counter.wrapping_add(2));
        assert_eq!(run.reached.count(Path::TableNumberZero), 67);
        assert_eq!(run.reached.count(Path::AcceptedTick), 2);
    }
}

/// Step 0 goes before the caller and the context of the record, for number 0
/// and for unknown numbers, and what the record names is not touched.
#[test]
fn unknown_numbers_in_a_table() {
    for number in [0, 24, 25, 255, 256, 65_536, u32::MAX] {
        let mut record = call(number, 1, 1, 7);
        let mut records = vec![record];
        record.caller = 99;
        records.push(record);
        record.locked = true;
        record.disabled = true;
        records.push(record);
        record.caller = 0;
        record.object = 0;
        record.tmout = i32::MIN;
        records.push(record);
        let mut run = Run::start();
        let before = run.state.clone();
        run.posts(&records, &[Answer::refused(E_PAR); 4]);
        assert_eq!(run.state, before);
        // In the middle of other calls.
        let calls = [
            call(PSND_DTQ, 1, 1, 10),
            record,
            call(PSND_DTQ, 1, 1, 11),
            call(REF_DTQ, 0, 1, 0),
        ];
        let done = Answer::done(0, 0, 0);
        let refused = Answer::refused(E_PAR);
        run.posts(&calls, &[done, refused, done, Answer::done(0, 0, 2)]);
        assert_eq!(run.state.queue(1).words, [10, 11]);
    }
}

/// The calls of a table made singly, as far as it has no more than 64 and a
/// cell for each; else none. Number 0 is not played.
fn single_answers(state: &mut State, table: &Table) -> Vec<Answer> {
    let calls = match table.calls.len() {
        count if count > 64 || count > table.answers.len() => &[],
        _ => &table.calls[..],
    };
    let mut reached = Reached::new();
    let mut single = |call: &Call| match call.number {
        0 => Answer::refused(E_PAR),
        _ => state.play(call, &mut reached),
    };
    calls.iter().map(&mut single).collect()
}

/// The answers and the state are those of the calls made singly, from any
/// sound state; of a refused table all stays as it was.
#[test]
fn random_tables_and_single_calls() {
    let mut random = Random::new(7);
    for turn in 0..2_200 {
        let profile = Profile::new(KINDS[turn % KINDS.len()], &mut random);
        let mut state = profile.start(&mut random);
        let mut single = state.clone();
        let table = random_table(&mut random, &profile, &state);
        let mut cells = table.answers.clone();
        let code = post(&mut state, &table.calls, &mut cells, &mut Reached::new());
        let expected = single_answers(&mut single, &table);
        let (answered, kept) = cells.split_at(expected.len());
        assert_eq!(answered, expected, "{table}");
        assert_eq!(kept, &table.answers[expected.len()..], "{table}");
        assert_eq!(state, single, "{table}");
        assert_eq!(state.fault(), None);
        let done = expected.len() == table.calls.len();
        assert_eq!(code, if done { E_OK } else { E_PAR });
    }
}

/// Random tables are made for unsound states too, and are refused there.
#[test]
fn random_tables_on_unsound_states() {
    let mut random = Random::new(8);
    for turn in 0..1_100 {
        let profile = Profile::new(KINDS[turn % KINDS.len()], &mut random);
        let start = random_unsound_state(&mut random);
        let table = random_table(&mut random, &profile, &start);
        let (mut state, mut cells) = (start.clone(), table.answers.clone());
        let code = post(&mut state, &table.calls, &mut cells, &mut Reached::new());
        assert_eq!((code, cells), (E_SYS, table.answers));
        assert_eq!(state, start);
    }
}

/// Every length up to 66 occurs, those next to a limit often; so do fewer, as
/// many and more cells, and number 0 and unknown numbers, also without ticks.
#[test]
fn random_tables_have_all_lengths() {
    let mut random = Random::new(10);
    let (mut lengths, mut kinds) = ([0; 67], [0; 3]);
    let (mut zero, mut unknown, mut records) = (0, 0, 0);
    let (own, _) = Own::split(&mut random);
    let profile = Profile::restricted(Kind::Mixed, own);
    let state = random_sound_state(&mut random);
    for _ in 0..3_000 {
        let table = random_table(&mut random, &profile, &state);
        let (calls, cells) = (table.calls.len(), table.answers.len());
        lengths[calls] += 1;
        let kind = (cells >= calls) as usize + (cells > calls) as usize;
        kinds[kind] += 1;
        records += calls;
        zero += table.calls.iter().filter(|call| call.number == 0).count();
        unknown += table.calls.iter().filter(|call| call.number > 23).count();
    }
    assert!(lengths.iter().all(|&count| count > 0));
    for length in [0, 1, 63, 64, 65, 66] {
        assert!(lengths[length] > 100, "{length}: {}", lengths[length]);
    }
    assert!(kinds.iter().all(|&count| count > 750), "{kinds:?}");
    assert!(zero > records / 100 && unknown > records / 100);
}

/// No mark equals another one or an answer that a call can have.
#[test]
fn marks_are_different() {
    let mut random = Random::new(11);
    for _ in 0..100 {
        let marks = random_marks(&mut random, 80);
        for (place, mark) in marks.iter().enumerate() {
            assert!(!marks[..place].contains(mark));
            assert!(match *mark {
                Answer::Waits { place } => place > 31,
                Answer::Finished { code, .. } => code_name(code).starts_with("unknown"),
            });
        }
    }
}

/// Tables that a guided sequence posted, from an empty state.
fn own_tables(random: &mut Random, profile: &Profile) -> Vec<Table> {
    let mut state = State::empty(0);
    let mut tables = Vec::new();
    for _ in 0..20 {
        let table = random_table(random, profile, &state);
        table_answers(&mut state, &table);
        tables.push(table);
    }
    tables
}

/// Posts a table for demand 3, where a refused one counts as no call.
fn table_answers(state: &mut State, table: &Table) -> Vec<Answer> {
    let mut cells = table.answers.clone();
    let code = post(state, &table.calls, &mut cells, &mut Reached::new());
    cells.truncate(if code == E_OK { table.calls.len() } else { 0 });
    cells
}

/// Two carriers that share nothing do not notice each other's tables. What is
/// compared with a merge of tables is the single calls of each carrier: a
/// table counts as its calls in a row, and number 0 in it is no tick.
#[test]
fn merges_of_tables() {
    let mut random = Random::new(12);
    for turn in 0..44 {
        let (mut one, mut two) = Own::split(&mut random);
        one.cut(6, 2, 5);
        two.cut(6, 2, 5);
        let kind = KINDS[turn % KINDS.len()];
        let first = own_tables(&mut random, &Profile::restricted(kind, one));
        let second = own_tables(&mut random, &Profile::restricted(kind, two));
        let (mut alone, mut merged) = (State::empty(0), State::empty(0));
        let mut singly = |table: &Table| single_answers(&mut alone, table);
        let first_answers: Vec<Answer> = first.iter().flat_map(&mut singly).collect();
        let second_answers: Vec<Answer> = second.iter().flat_map(&mut singly).collect();
        let first: Vec<&Table> = first.iter().collect();
        let second: Vec<&Table> = second.iter().collect();
        let (mut of_first, mut of_second) = (Vec::new(), Vec::new());
        for (is_first, table) in random_merge(&mut random, &first, &second) {
            let answers = table_answers(&mut merged, table);
            match is_first {
                true => of_first.extend(answers),
                false => of_second.extend(answers),
            }
        }
        assert_eq!(of_first, first_answers);
        assert_eq!(of_second, second_answers);
        assert!(alone.equal(&merged));
        assert_eq!(merged.counter, 0);
    }
}

/// The records of calls with the answers that they have from the empty state.
pub(crate) fn recorded(calls: &[Call]) -> Vec<[u8; 32]> {
    let mut state = State::empty(0);
    let answers = answers(&mut state, calls);
    let records = calls.iter().zip(&answers);
    records
        .map(|(call, answer)| record_of(call, answer))
        .collect()
}

/// Task 1, a queue of capacity 2 and a word in it.
pub(crate) fn first_calls() -> Vec<Call> {
    vec![
        call(DEFINE_TASK, 0, 1, 5),
        call(CRE_DTQ, 0, 1, 2),
        call(PSND_DTQ, 1, 1, 10),
    ]
}

fn replay_records(records: &[[u8; 32]]) -> Replayed {
    replay(&records.concat())
}

/// The line of these records in words.
fn line_of(records: &[[u8; 32]]) -> String {
    replay_records(records).line.to_string()
}

/// The record counts as differing and is not run.
fn assert_not_run(before: &[[u8; 32]], record: [u8; 32]) {
    let state = replay_records(before).state;
    let replayed = replay_records(&[before, &[record]].concat());
    let number = before.len() as u64 + 1;
    let line = format!("records {number} differ 1 first {number} tail 0");
    assert_eq!(replayed.line.to_string(), line, "{record:?}");
    assert_eq!(replayed.state, state, "{record:?}");
}

/// Each field by its bytes, little-endian, tmout and code signed.
#[test]
fn fields_of_a_record() {
    let mut bytes = [0; 32];
    for (place, byte) in bytes.iter_mut().enumerate() {
        *byte = 0x80 + place as u8;
    }
    let expected = Record {
        number: 0x80,
        caller: 0x81,
        flags: 0x82,
        object: 0x83,
        value: 0x8786_8584,
        tmout: 0x8B8A_8988_u32 as i32,
        attribute: 0x8F8E_8D8C,
        kind: 0x90,
        spare: [0x91, 0x92, 0x93, 0x9F],
        code: 0x9796_9594_u32 as i32,
        place: 0x9796_9594,
        a: 0x9B9A_9998,
        b: 0x9C,
        c: 0x9E9D,
    };
    assert_eq!(Record::decode(&bytes), expected);
    assert!(expected.tmout < 0 && expected.code < 0);
}

/// The record of a refused call, written byte by byte.
#[test]
fn record_of_a_finished_call() {
    let call = Call {
        number: TSND_DTQ,
        caller: 32,
        locked: false,
        disabled: true,
        object: 16,
        value: 0x0102_0304,
        tmout: -2,
        attribute: 0x0506_0708,
    };
    let answer = Answer::Finished {
        code: E_TMOUT,
        a: 0x090A_0B0C,
        b: 13,
        c: 0x0E0F,
    };
    let expected = [
        6, 32, 2, 16, 4, 3, 2, 1, 0xFE, 0xFF, 0xFF, 0xFF, 8, 7, 6, 5, 0, 0, 0, 0, 0xCE, 0xFF, 0xFF,
        0xFF, 12, 11, 10, 9, 13, 15, 14, 0,
    ];
    assert_eq!(record_of(&call, &answer), expected);
    assert_eq!(Record::decode(&expected).call(), call);
    assert!(Record::decode(&expected).has_answer(&answer));
}

/// The record of a wait has kind 1, its place and zero words.
#[test]
fn record_of_a_wait() {
    let mut locked = call(RCV_DTQ, 1, 2, 0);
    locked.locked = true;
    let record = record_of(&locked, &Answer::Waits { place: 31 });
    let mut expected = [0; 32];
    expected[..4].copy_from_slice(&[8, 1, 1, 2]);
    expected[16] = 1;
    expected[20] = 31;
    assert_eq!(record, expected);
}

#[test]
fn empty_file() {
    let replayed = replay(&[]);
    let line = "records 0 differ 0 first 0 tail 0";
    assert_eq!(replayed.line.to_string(), line);
    assert_eq!(replayed.state, State::empty(0));
}

/// The paper's three records whose second answer differs.
#[test]
fn second_of_three_differs() {
    let mut records = recorded(&first_calls());
    assert_eq!(line_of(&records), "records 3 differ 0 first 0 tail 0");
    records[1][20] = 1;
    assert_eq!(line_of(&records), "records 3 differ 1 first 2 tail 0");
}

/// First stays with the first of several, and record 1 has number 1.
#[test]
fn first_of_several() {
    let mut records = recorded(&first_calls());
    records[2][24] = 1;
    assert_eq!(line_of(&records), "records 3 differ 1 first 3 tail 0");
    records[0][24] = 1;
    assert_eq!(line_of(&records), "records 3 differ 2 first 1 tail 0");
}

/// A record of 32 zeros is a tick that ends no wait.
#[test]
fn tick_is_a_known_call() {
    let replayed = replay(&[0; 64]);
    let line = "records 2 differ 0 first 0 tail 0";
    assert_eq!(replayed.line.to_string(), line);
    assert_eq!(replayed.state, State::empty(2));
}

/// An unknown number is not run, though step 0 would give the same answer.
#[test]
fn unknown_call_is_not_run() {
    let before = recorded(&first_calls());
    for number in 24..=255 {
        let unknown = call(number, 1, 1, 11);
        assert_not_run(&before, record_of(&unknown, &Answer::refused(E_PAR)));
    }
    for number in 0..=23 {
        let known = call(number, 0, 99, 0);
        assert_eq!(replay_records(&recorded(&[known])).line.differ, 0);
    }
}

/// Every other kind, whichever of the two the answer has.
#[test]
fn unknown_kind_is_not_run() {
    let before = recorded(&first_calls());
    for answer in [Answer::done(0, 0, 0), Answer::Waits { place: 0 }] {
        for kind in 2..=255 {
            let mut record = record_of(&call(PSND_DTQ, 1, 1, 11), &answer);
            record[16] = kind;
            assert_not_run(&before, record);
        }
    }
}

/// An unknown flag, in a tick too; there the known ones are ignored.
#[test]
fn unknown_flag_is_not_run() {
    let before = recorded(&first_calls());
    for flags in 4..=255 {
        for number in [TICK, PSND_DTQ, LOOK] {
            let mut record = record_of(&call(number, 1, 1, 11), &Answer::done(0, 0, 0));
            record[2] = flags;
            assert_not_run(&before, record);
        }
    }
    for flags in 0..=3 {
        let mut tick = [0; 32];
        tick[2] = flags;
        let replayed = replay(&tick);
        assert_eq!((replayed.line.differ, replayed.state.counter), (0, 1));
    }
}

/// Flags 1 and 2 are the context of a call.
#[test]
fn known_flags_of_a_call() {
    let mut records = recorded(&first_calls());
    let receive = call(RCV_DTQ, 1, 1, 0);
    let codes = [(1, E_CTX), (2, E_CTX), (3, E_CTX), (0, E_OK)];
    for (flags, code) in codes {
        let a = if code == E_OK { 10 } else { 0 };
        let (b, c) = (0, 0);
        let mut record = record_of(&receive, &Answer::Finished { code, a, b, c });
        record[2] = flags;
        records.push(record);
    }
    // Dispatching disabled is no reason for a poll.
    let mut poll = record_of(&call(PSND_DTQ, 1, 1, 11), &Answer::done(0, 0, 0));
    poll[2] = 2;
    records.push(poll);
    assert_eq!(line_of(&records), "records 8 differ 0 first 0 tail 0");
}

/// Bytes 17, 18, 19 and 31, in calls, waits and ticks.
#[test]
fn spare_bytes_are_zero() {
    let before = recorded(&first_calls());
    for place in [17, 18, 19, 31] {
        for value in 1..=255 {
            for number in [TICK, PSND_DTQ, RCV_MBX] {
                let mut record = record_of(&call(number, 1, 1, 11), &Answer::done(0, 0, 0));
                record[place] = value;
                assert_not_run(&before, record);
                record[16] = 1;
                assert_not_run(&before, record);
            }
        }
    }
}

/// Several reasons count once, and the next record is run from the same state.
#[test]
fn after_a_record_that_is_not_run() {
    let mut records = recorded(&first_calls());
    records.insert(1, [0xFF; 32]);
    records.insert(1, [0xFF; 32]);
    assert_eq!(line_of(&records), "records 5 differ 2 first 2 tail 0");
}

/// An answer that differs was run all the same, with the state that it left.
#[test]
fn after_an_answer_that_differs() {
    let mut records = recorded(&first_calls());
    records[2][20] = 0xCE;
    let poll = call(PRCV_DTQ, 1, 1, 0);
    records.push(record_of(&poll, &Answer::done(10, 0, 0)));
    records.push(record_of(&poll, &Answer::refused(E_TMOUT)));
    assert_eq!(line_of(&records), "records 5 differ 1 first 3 tail 0");
}

/// Every bit of the answer counts, of a finished one and of a wait; a wait
/// with other words than 0 is run and differs.
#[test]
fn every_bit_of_an_answer() {
    let mut calls = first_calls();
    calls.push(call(REF_DTQ, 0, 1, 0));
    calls.push(call(RCV_DTQ, 1, 1, 0));
    calls.push(call(RCV_DTQ, 1, 1, 0));
    let records = recorded(&calls);
    assert_eq!(records[5][16], 1);
    let state = replay_records(&records).state;
    for number in 0..records.len() {
        // The bytes from code or place to c, and the kind.
        let bits = (0..88).map(|bit| (20 + bit / 8, 1 << (bit % 8)));
        for (byte, bit) in bits.chain([(16, 1)]) {
            let mut changed = records.clone();
            changed[number][byte] ^= bit;
            let replayed = replay_records(&changed);
            let first = number + 1;
            let line = format!("records 6 differ 1 first {first} tail 0");
            assert_eq!(replayed.line.to_string(), line);
            assert_eq!(replayed.state, state);
        }
    }
}

/// Whether a call uses bytes 4 to 7, tmout, and bytes 12 to 15.
fn used_fields(number: u32) -> [bool; 3] {
    let value = [1, 2, 4, 5, 6, 7, 12, 14].contains(&number);
    let tmout = [6, 10, 17].contains(&number);
    let attribute = [2, 12, 14].contains(&number);
    [value, tmout, attribute]
}

/// Any bits in fields that the call does not use change nothing. Of a tick
/// this is so for the caller and the object too.
#[test]
fn unused_fields_are_ignored() {
    let before = recorded(&first_calls());
    for number in 0..=23 {
        let mut calls = first_calls();
        calls.push(call(number, 1, 1, 11));
        let records = recorded(&calls);
        let expected = replay_records(&records).state;
        let mut record = records[3];
        for (field, used) in used_fields(number).iter().enumerate() {
            if !used {
                record[4 + 4 * field..8 + 4 * field].fill(0xFF);
            }
        }
        if number == TICK {
            record[1..4].copy_from_slice(&[0xFF, 3, 0xFF]);
        }
        let replayed = replay_records(&[&before[..], &[record]].concat());
        assert_eq!(replayed.line.differ, 0, "{number}");
        assert_eq!(replayed.state, expected, "{number}");
    }
}

/// The highest priority of a mailbox without attribute 2, and the priority of
/// a message to it, are not used.
#[test]
fn unused_priorities_are_ignored() {
    for attribute in [0, 1] {
        let create = Call {
            attribute,
            ..call(CRE_MBX, 0, 1, u32::MAX)
        };
        let send = Call {
            attribute: u32::MAX,
            ..call(SND_MBX, 0, 1, 64)
        };
        let done = Answer::done(0, 0, 0);
        let records = [record_of(&create, &done), record_of(&send, &done)];
        assert_eq!(line_of(&records), "records 2 differ 0 first 0 tail 0");
    }
}

/// A field that the call uses is taken whole: a bit above its lowest byte
/// makes a valid number invalid.
#[test]
fn used_fields_are_taken_whole() {
    let with = |attribute, call| Call { attribute, ..call };
    let mailbox = with(2, call(CRE_MBX, 0, 1, 4));
    let calls = [
        call(DEFINE_TASK, 0, 1, 5),
        call(CRE_DTQ, 0, 1, 2),
        with(2, call(CRE_MBX, 0, 2, 4)),
        with(4, call(SND_MBX, 0, 1, 64)),
    ];
    for (call, bit) in calls
        .iter()
        .flat_map(|call| (8..32).map(move |bit| (call, bit)))
    {
        let (mut value, mut attribute) = (*call, *call);
        value.value |= 1 << bit;
        attribute.attribute |= 1 << bit;
        for (wide, used) in [(value, true), (attribute, used_fields(call.number)[2])] {
            let answer = if used {
                Answer::refused(E_PAR)
            } else {
                Answer::done(0, 0, 0)
            };
            let records = [recorded(&[mailbox])[0], record_of(&wide, &answer)];
            assert_eq!(line_of(&records), "records 2 differ 0 first 0 tail 0");
        }
    }
}

/// A word comes back with all its 32 bits, and tmout is signed.
#[test]
fn words_and_time_outs_are_taken_whole() {
    let timed = |tmout| Call {
        tmout,
        ..call(TRCV_DTQ, 1, 1, 0)
    };
    let mut calls = first_calls();
    calls[2].value = 0xFEDC_BA98;
    calls.extend([
        timed(-1),
        timed(-2),
        timed(i32::MAX),
        timed(256),
        call(TICK, 0, 0, 0),
    ]);
    let codes: Vec<i32> = recorded(&calls)
        .iter()
        .map(|record| Record::decode(record).code)
        .collect();
    assert_eq!(codes, [0, 0, 0, 0, E_PAR, E_PAR, 0, 0]);
    let replayed = replay_records(&recorded(&calls));
    assert_eq!(replayed.line.differ, 0);
    assert_eq!(recorded(&calls)[3][24..28], [0x98, 0xBA, 0xDC, 0xFE]);
    assert_eq!(replayed.state.task(1).wait.end(), Some(257));
}

/// The tail is counted and not looked at, with records before it and without.
#[test]
fn bytes_after_the_last_whole_record() {
    for tail in 0..32 {
        for byte in [0, 1, 0xFF] {
            let mut bytes = recorded(&first_calls()).concat();
            let state = replay(&bytes).state;
            bytes.extend(vec![byte; tail]);
            let replayed = replay(&bytes);
            let line = format!("records 3 differ 0 first 0 tail {tail}");
            assert_eq!(replayed.line.to_string(), line);
            assert_eq!(replayed.state, state);
            let alone = replay(&bytes[96..]);
            let line = format!("records 0 differ 0 first 0 tail {tail}");
            assert_eq!(alone.line.to_string(), line);
            assert_eq!(alone.state, State::empty(0));
        }
    }
}

/// Gives its bytes a few at a time.
struct Few<'a> {
    bytes: &'a [u8],
    at_once: usize,
}

impl Read for Few<'_> {
    fn read(&mut self, buffer: &mut [u8]) -> io::Result<usize> {
        let count = self.at_once.min(buffer.len());
        self.bytes.read(&mut buffer[..count])
    }
}

/// However the file comes in, the reader gives what the whole file gives.
#[test]
fn replay_of_a_reader() {
    let mut random = Random::new(13);
    for turn in 0..200 {
        let profile = Profile::new(KINDS[turn % KINDS.len()], &mut random);
        let length = random.below(20);
        let bytes = random_trace(&mut random, &profile, length, 20);
        let at_once = random.between(1, 70) as usize;
        let bytes = &bytes[..];
        let read = replay_reader(Few { bytes, at_once }).expect("no error here");
        assert_eq!(read, replay(bytes));
    }
    // More than one block, with the end of a block at and near that of a file.
    for length in [1 << 20, (1 << 20) + 1, (1 << 20) - 1, (1 << 20) + 63] {
        let ticks = vec![0; length];
        let read = replay_reader(&ticks[..]).expect("no error here");
        let line = Line {
            records: length as u64 / 32,
            differ: 0,
            first: 0,
            tail: length as u64 % 32,
        };
        assert_eq!(read.line, line);
        assert_eq!(read.state, State::empty(length as u32 / 32));
    }
}

/// A number above 255 fits no byte, and 255 gets the same answer.
#[test]
fn large_numbers_in_a_record() {
    let mut random = Random::new(14);
    for turn in 0..1_100 {
        let profile = Profile::new(KINDS[turn % KINDS.len()], &mut random);
        let state = random_sound_state(&mut random);
        let call = random_call(&mut random, &profile, &state);
        let (mut one, mut two) = (state.clone(), state);
        let answer = one.play(&call, &mut Reached::new());
        let record = Record::decode(&record_of(&call, &answer));
        let other = two.play(&record.call(), &mut Reached::new());
        assert_eq!((other, two), (answer, one), "{call}");
        assert!(record.has_answer(&answer));
    }
}

/// The line and the state are those that the making of a trace tells, and a
/// trace without damage differs nowhere. Every path of the replay is reached.
#[test]
fn random_traces() {
    let mut random = Random::new(15);
    let mut reached = TraceReached::new();
    for turn in 0..1_100 {
        let profile = Profile::new(KINDS[turn % KINDS.len()], &mut random);
        let length = random.pick(&[0, 1, 2, 100, 200]);
        let damage = random.pick(&[0, 1, 10, 50]);
        let trace = random_trace_and_end(&mut random, &profile, length, damage);
        let replayed = replay(&trace.bytes);
        assert_eq!(replayed.line, trace.line);
        assert_eq!(replayed.state, trace.state);
        assert_eq!(replayed.line.records, length as u64);
        assert!(damage > 0 || replayed.line.differ == 0);
        reached.merge(&replayed.reached);
    }
    assert_eq!(reached.missing(), Vec::<&str>::new(), "{reached}");
}

/// The same seed gives the same trace.
#[test]
fn random_traces_again() {
    let trace = |seed| {
        let mut random = Random::new(seed);
        let profile = Profile::new(Kind::Few, &mut random);
        random_trace(&mut random, &profile, 50, 10)
    };
    assert_eq!(trace(1), trace(1));
    assert_ne!(trace(1), trace(2));
}
