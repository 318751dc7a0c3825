//! Item 5 of document 02, "Traces over a serial line": its sentences one by
//! one, then random recordings in random cuts, and random blocks for random
//! replay states.

use crate::tests::{call, first_calls, recorded};
use crate::*;

/// Feeds one block; what is reached is not looked at.
fn feed(replay: &mut ReplayState, block: &[u8]) -> i32 {
    replay.feed(block, &mut BlocksReached::new())
}

fn end(replay: &ReplayState) -> (i32, Line) {
    replay.end(&mut BlocksReached::new())
}

/// Feeds blocks that are all taken, and keeps the part short.
fn fed(blocks: &[&[u8]]) -> ReplayState {
    let mut replay = ReplayState::new();
    for block in blocks {
        assert_eq!(feed(&mut replay, block), E_OK);
        assert!(replay.part.len() <= 31);
    }
    replay
}

/// The replay is where the whole file would be.
fn assert_whole(replay: &ReplayState, bytes: &[u8]) {
    let whole = crate::replay(bytes);
    assert_eq!(end(replay), (E_OK, whole.line));
    assert_eq!(replay.state, whole.state);
    assert_eq!(replay.part, bytes[bytes.len() / 32 * 32..]);
}

/// The end and every block get E_SYS, and nothing changes.
fn assert_unfit(replay: &ReplayState) {
    assert!(replay.fault().is_some(), "{replay}");
    assert_eq!(end(replay), (E_SYS, Line::ZEROS), "{replay}");
    for length in [0, 1, 31, 32, 33, 64, 100] {
        let mut fed = replay.clone();
        assert_eq!(feed(&mut fed, &vec![0; length]), E_SYS, "{replay}");
        assert_eq!(fed, *replay);
    }
}

/// The end and an empty block get E_OK, and nothing changes. The line has the
/// numbers of the replay.
fn assert_fit(replay: &ReplayState) {
    assert_eq!(replay.fault(), None, "{replay}");
    let line = Line {
        records: replay.records,
        differ: replay.differ,
        first: replay.first,
        tail: replay.part.len() as u64,
    };
    assert_eq!(end(replay), (E_OK, line), "{replay}");
    let mut fed = replay.clone();
    assert_eq!(feed(&mut fed, &[]), E_OK, "{replay}");
    assert_eq!(fed, *replay);
}

/// A replay of the empty state with these numbers and no part.
fn with_numbers(records: u64, differ: u64, first: u64) -> ReplayState {
    ReplayState {
        records,
        differ,
        first,
        ..ReplayState::new()
    }
}

/// The bytes of the paper's three records whose second answer differs, with a
/// tail of 7 bytes.
fn three_records() -> Vec<u8> {
    let mut records = recorded(&first_calls());
    records[1][20] = 1;
    let mut bytes = records.concat();
    bytes.extend([4, 1, 0, 1, 9, 9, 9]);
    bytes
}

#[test]
fn new_replay() {
    let replay = ReplayState::new();
    assert_eq!(replay, ReplayState::default());
    assert_eq!(replay.state, State::empty(0));
    assert_eq!(replay, with_numbers(0, 0, 0));
    assert!(replay.part.is_empty());
    assert_fit(&replay);
    assert_whole(&replay, &[]);
}

/// "wherever it was cut": at every place, and at every two places.
#[test]
fn every_cut_of_three_records() {
    let bytes = three_records();
    let line = "records 3 differ 1 first 2 tail 7";
    for one in 0..=bytes.len() {
        for two in one..=bytes.len() {
            let blocks = [&bytes[..one], &bytes[one..two], &bytes[two..]];
            let replay = fed(&blocks);
            assert_whole(&replay, &bytes);
            assert_eq!(end(&replay).1.to_string(), line);
            assert_eq!(replay.part, [4, 1, 0, 1, 9, 9, 9]);
            assert_eq!(replay.state.queue(1).words, [10]);
        }
    }
}

/// At every point the replay is where a file that ends there would be.
#[test]
fn one_byte_at_a_time() {
    let bytes = three_records();
    let mut replay = ReplayState::new();
    for (place, byte) in bytes.iter().enumerate() {
        assert_whole(&replay, &bytes[..place]);
        assert_eq!(feed(&mut replay, &[*byte]), E_OK);
        assert_eq!(replay.part.len(), (place + 1) % 32);
    }
    assert_whole(&replay, &bytes);
}

/// "blocks of arbitrary length, also of no bytes".
#[test]
fn blocks_of_no_bytes() {
    let bytes = three_records();
    for place in 0..=bytes.len() {
        let (one, two) = bytes.split_at(place);
        let before = fed(&[one]);
        assert_fit(&before);
        assert_eq!(fed(&[one, &[]]), before);
        assert_whole(&fed(&[&[], &[], one, &[], &[], two, &[]]), &bytes);
    }
}

/// The end changes nothing: more may be fed after it.
#[test]
fn blocks_after_an_end() {
    let bytes = three_records();
    let mut replay = fed(&[&bytes[..70]]);
    let before = replay.clone();
    assert_eq!(end(&replay), end(&before));
    assert_eq!(replay, before);
    assert_eq!(feed(&mut replay, &bytes[70..]), E_OK);
    assert_whole(&replay, &bytes);
}

/// A record joined of two blocks may be run and agree, be run and differ, or
/// not be run, and counts as it does in a whole file.
#[test]
fn records_joined_at_a_cut() {
    let records = recorded(&first_calls());
    // Each with whether it differs, and whether it is run.
    let (mut other, mut unknown) = (records[2], records[2]);
    other[24] = 1;
    unknown[0] = 24;
    let cases = [
        (records[2], false, true),
        (other, true, true),
        (unknown, true, false),
    ];
    for (record, differs, is_run) in cases {
        for place in 1..32 {
            let mut replay = fed(&[&records[0], &records[1], &record[..place]]);
            assert_eq!((replay.records, replay.differ), (2, 0));
            assert_eq!(replay.part, record[..place]);
            assert!(replay.state.queue(1).words.is_empty());
            assert_eq!(feed(&mut replay, &record[place..]), E_OK);
            assert_eq!(replay.records, 3);
            assert_eq!(replay.differ, differs as u64);
            assert_eq!(replay.first, 3 * differs as u64);
            assert_eq!(replay.state.queue(1).words.len(), is_run as usize);
            assert!(replay.part.is_empty());
        }
    }
}

/// "a part above 31 bytes", whatever the bytes are.
#[test]
fn long_part() {
    let bytes = three_records();
    for length in 0..=bytes.len() {
        for part in [&bytes[..length], &vec![0; length]] {
            let replay = ReplayState {
                part: part.to_vec(),
                ..ReplayState::new()
            };
            match length {
                0..=31 => assert_fit(&replay),
                _ => assert_unfit(&replay),
            }
        }
    }
}

/// "differ or first above records, or only one of these two 0": all small
/// numbers, and all near the largest.
#[test]
fn differ_and_first() {
    let numbers = [0, 1, 2, 3, 4, u64::MAX - 2, u64::MAX - 1, u64::MAX];
    for records in numbers {
        for differ in numbers {
            for first in numbers {
                let above = differ > records || first > records;
                let one_zero = (differ == 0 && first != 0) || (differ != 0 && first == 0);
                let replay = with_numbers(records, differ, first);
                match above || one_zero {
                    true => assert_unfit(&replay),
                    false => assert_fit(&replay),
                }
            }
        }
    }
}

/// The same rules, a line for each number next to its limit.
#[test]
fn limits_of_differ_and_first() {
    for (differ, first) in [(0, 0), (1, 1), (1, 5), (5, 1), (5, 5), (2, 5)] {
        assert_fit(&with_numbers(5, differ, first));
    }
    for (differ, first) in [(6, 1), (1, 6), (6, 6), (0, 1), (1, 0), (0, 5), (5, 0)] {
        assert_unfit(&with_numbers(5, differ, first));
    }
    assert_unfit(&with_numbers(0, 1, 1));
    assert_unfit(&with_numbers(u64::MAX - 1, u64::MAX, 1));
    assert_unfit(&with_numbers(u64::MAX - 1, 1, u64::MAX));
}

/// "an unsound kernel state": document 01's section "A sound record", with the
/// end ticks of item 1.
#[test]
fn unsound_kernel_state() {
    let mut calls = first_calls();
    calls.push(call(CRE_MBX, 0, 1, 0));
    calls.push(call(DEFINE_TASK, 0, 2, 5));
    calls.push(call(RCV_MBX, 2, 1, 0));
    let replay = fed(&[&recorded(&calls).concat()]);
    assert_eq!(replay.state.mailbox(1).waiters, [2]);
    assert_fit(&replay);
    let changes: [fn(&mut State); 6] = [
        |state| state.tasks[1].priority = 17,
        |state| state.tasks[1].code = -17,
        |state| state.tasks[3].suspended = true,
        |state| state.queues[1].capacity = 0,
        |state| state.queues[2].words.push(1),
        |state| state.mailboxes[1].waiters.push(2),
    ];
    for change in changes {
        let mut unsound = replay.clone();
        change(&mut unsound.state);
        assert_unfit(&unsound);
        unsound.records = 0;
        assert_unfit(&unsound);
    }
    for (end, sound) in [
        (0, false),
        (1, true),
        (FARTHEST_END, true),
        (1 << 31, false),
    ] {
        let mut until = replay.clone();
        until.state.tasks[2].wait = Wait::AtMailbox {
            mailbox: 1,
            end: Some(end),
        };
        assert_eq!(until.fault().is_none(), sound, "end tick {end}");
    }
}

/// A sound state that no recording reaches is let through, and the records are
/// run from there.
#[test]
fn blocks_from_any_sound_state() {
    let mut replay = ReplayState {
        state: State::empty(u32::MAX),
        ..ReplayState::new()
    };
    assert_eq!(feed(&mut replay, &[0; 70]), E_OK);
    assert_eq!(replay.state, State::empty(1));
    assert_eq!(
        end(&replay).1.to_string(),
        "records 2 differ 0 first 0 tail 6"
    );
}

/// "a block that would take records past 64 bits gets E_PAR": for every part,
/// the longest block that is taken and the next one.
#[test]
fn records_past_64_bits() {
    for room in 0..4 {
        for part in 0..32 {
            let replay = ReplayState {
                part: vec![0; part],
                ..with_numbers(u64::MAX - room, 0, 0)
            };
            let longest = (room as usize + 1) * 32 - 1 - part;
            for length in [longest + 1, longest + 2, longest + 32, longest + 100] {
                let mut past = replay.clone();
                assert_eq!(feed(&mut past, &vec![0; length]), E_PAR);
                assert_eq!(past, replay);
            }
            let mut last = replay.clone();
            assert_eq!(feed(&mut last, &vec![0; longest]), E_OK);
            assert_eq!((last.records, last.part.len()), (u64::MAX, 31));
            assert_eq!(last.state, State::empty(room as u32));
            assert_eq!(end(&last).1.records, u64::MAX);
        }
    }
}

/// At the limit blocks are taken until the part is full, and the end is not
/// refused.
#[test]
fn bytes_at_the_limit() {
    let mut replay = with_numbers(u64::MAX, 0, 0);
    for length in 0..31 {
        assert_eq!(replay.part.len(), length);
        assert_eq!(feed(&mut replay, &[]), E_OK);
        assert_eq!(feed(&mut replay, &[7]), E_OK);
    }
    assert_eq!(feed(&mut replay, &[7]), E_PAR);
    assert_eq!(feed(&mut replay, &[]), E_OK);
    assert_fit(&replay);
    assert_eq!(replay.state, State::empty(0));
    assert_eq!(replay.part, [7; 31]);
}

/// A block is refused whole: its first records would have fitted.
#[test]
fn refused_block_takes_no_record() {
    let mut replay = with_numbers(u64::MAX - 2, 1, 1);
    assert_eq!(feed(&mut replay, &[0; 96]), E_PAR);
    assert_eq!(replay, with_numbers(u64::MAX - 2, 1, 1));
    assert_eq!(feed(&mut replay, &[0; 64]), E_OK);
    assert_eq!(replay.state, State::empty(2));
    assert_eq!((replay.records, replay.differ), (u64::MAX, 1));
}

/// E_SYS comes first where both would hold.
#[test]
fn unfit_replay_past_64_bits() {
    let replay = with_numbers(u64::MAX, 0, 0);
    let mut fit = replay.clone();
    assert_eq!(feed(&mut fit, &[0; 32]), E_PAR);
    let changes: [fn(&mut ReplayState); 4] = [
        |replay| replay.state.tasks[1].suspended = true,
        |replay| replay.part = vec![0; 32],
        |replay| replay.differ = 1,
        |replay| replay.first = 1,
    ];
    for change in changes {
        let mut unfit = replay.clone();
        change(&mut unfit);
        assert_unfit(&unfit);
    }
    // Differ and first are above records only where these are below the limit.
    assert_unfit(&with_numbers(u64::MAX - 1, u64::MAX, 1));
    assert_unfit(&with_numbers(u64::MAX - 1, 1, u64::MAX));
}

/// Differ and first reach the largest number too.
#[test]
fn largest_differ_and_first() {
    let unknown = [24; 32];
    let mut replay = with_numbers(u64::MAX - 1, 0, 0);
    assert_eq!(feed(&mut replay, &unknown), E_OK);
    assert_eq!(replay, with_numbers(u64::MAX, 1, u64::MAX));
    let mut replay = with_numbers(u64::MAX - 1, u64::MAX - 1, 1);
    assert_eq!(feed(&mut replay, &unknown), E_OK);
    assert_eq!(replay, with_numbers(u64::MAX, u64::MAX, 1));
    assert_fit(&replay);
}

/// Numbers that no recording gives are let through and counted on.
#[test]
fn odd_numbers() {
    let unknown = [24; 32];
    for (differ, first) in [(2, 5), (5, 5), (5, 2), (1, 5), (1, 1)] {
        let mut replay = with_numbers(5, differ, first);
        assert_fit(&replay);
        assert_eq!(feed(&mut replay, &[0; 32]), E_OK);
        assert_eq!((replay.differ, replay.first), (differ, first));
        assert_eq!(feed(&mut replay, &unknown), E_OK);
        assert_eq!((replay.differ, replay.first), (differ + 1, first));
        assert_eq!(replay.records, 7);
        assert_fit(&replay);
    }
    let mut replay = with_numbers(5, 0, 0);
    assert_eq!(
        feed(&mut replay, &[[0; 32], unknown, unknown].concat()),
        E_OK
    );
    assert_eq!((replay.differ, replay.first), (2, 7));
}

/// The records that the sum needs more than 64 bits for are given exactly.
#[test]
fn records_with_a_block() {
    let replay = ReplayState {
        part: vec![0; 31],
        ..with_numbers(u64::MAX, 0, 0)
    };
    let largest = u64::MAX as u128;
    assert_eq!(replay.records_with(0), largest);
    assert_eq!(replay.records_with(1), largest + 1);
    assert_eq!(replay.records_with(32), largest + 1);
    assert_eq!(replay.records_with(33), largest + 2);
    assert_eq!(ReplayState::new().records_with(31), 0);
}

/// A replay state is printed with its numbers, its part and its state.
#[test]
fn printed_replay_state() {
    let replay = ReplayState {
        part: vec![0, 10, 255],
        ..with_numbers(5, 2, 3)
    };
    let text = "records 5 differ 2 first 3\npart of 3 bytes: 00 0a ff\ncounter 0\n";
    assert_eq!(replay.to_string(), text);
}

/// "gives at the end the same four numbers and the same kernel state as the
/// whole file would, wherever it was cut".
#[test]
fn random_traces_in_random_cuts() {
    let mut random = Random::new(51);
    for turn in 0..660 {
        let profile = Profile::new(KINDS[turn % KINDS.len()], &mut random);
        let length = random.pick(&[0, 1, 2, 10, 60]);
        let damage = random.pick(&[0, 1, 10, 50]);
        let trace = random_trace_and_end(&mut random, &profile, length, damage);
        let whole = replay(&trace.bytes);
        let tail = &trace.bytes[length as usize * 32..];
        for cut in CUTS {
            let lengths = random_cuts(&mut random, trace.bytes.len(), cut);
            let mut replay = ReplayState::new();
            let mut reached = BlocksReached::new();
            let code = feed_in_blocks(&mut replay, &trace.bytes, &lengths, &mut reached);
            assert_eq!(code, E_OK);
            assert_eq!(replay.end(&mut reached), (E_OK, trace.line), "{cut:?}");
            assert_eq!(whole.line, trace.line);
            assert_eq!(replay.state, trace.state);
            assert_eq!(whole.state, trace.state);
            assert_eq!(replay.part, tail);
            // The records reach the same, cut or not.
            assert_eq!(reached.traces, whole.reached);
        }
    }
}

/// What item 5 says of a replay state, written anew.
fn unfit(replay: &ReplayState) -> bool {
    let ReplayState {
        records,
        differ,
        first,
        ..
    } = *replay;
    let numbers = match (differ, first) {
        (0, 0) => true,
        (0, _) | (_, 0) => false,
        _ => records >= differ && records >= first,
    };
    !(replay.state.sound() && replay.part.len() < 32 && numbers)
}

/// The replay after a block, record by record as in a whole file; the code
/// and no change where it is refused.
fn expected(replay: &ReplayState, block: &[u8]) -> (i32, ReplayState) {
    if unfit(replay) {
        return (E_SYS, replay.clone());
    }
    let mut bytes = replay.part.clone();
    bytes.extend(block);
    let mut file = Replay {
        state: replay.state.clone(),
        records: replay.records,
        differ: replay.differ,
        first: replay.first,
        reached: TraceReached::new(),
    };
    while bytes.len() >= 32 {
        if file.records == u64::MAX {
            return (E_PAR, replay.clone());
        }
        let rest = bytes.split_off(32);
        file.take_record(&bytes.try_into().expect("32 bytes"));
        bytes = rest;
    }
    let after = ReplayState {
        state: file.state,
        records: file.records,
        differ: file.differ,
        first: file.first,
        part: bytes,
    };
    (E_OK, after)
}

/// Random blocks for random replay states: the code, the replay afterwards,
/// and the end before and after. Every path is reached.
#[test]
fn random_blocks() {
    let mut random = Random::new(52);
    let mut reached = BlocksReached::new();
    for turn in 0..22_000 {
        let profile = Profile::new(KINDS[turn % KINDS.len()], &mut random);
        let Fed { mut replay, block } = random_fed(&mut random, &profile, 40);
        let before = replay.clone();
        let (code, after) = expected(&before, &block);
        check_end(&before, &mut reached);
        assert_eq!(replay.feed(&block, &mut reached), code, "{before}");
        assert_eq!(replay, after, "{before}\nblock {block:?}");
        check_end(&replay, &mut reached);
    }
    assert_eq!(reached.missing(), Vec::<&str>::new(), "{reached}");
}

fn check_end(replay: &ReplayState, reached: &mut BlocksReached) {
    let line = Line {
        records: replay.records,
        differ: replay.differ,
        first: replay.first,
        tail: replay.part.len() as u64,
    };
    let expected = match unfit(replay) {
        true => (E_SYS, Line::ZEROS),
        false => (E_OK, line),
    };
    assert_eq!(replay.end(reached), expected, "{replay}");
    assert_eq!(replay.fault().is_some(), unfit(replay), "{replay}");
}

/// From any replay state that is let through, a block in pieces gives what it
/// gives whole. If it is refused whole, so is the first piece that goes past
/// the limit, and the pieces before it are taken.
#[test]
fn random_blocks_in_pieces() {
    let mut random = Random::new(53);
    for turn in 0..4_400 {
        let profile = Profile::new(KINDS[turn % KINDS.len()], &mut random);
        let Fed { mut replay, block } = random_fed(&mut random, &profile, 0);
        let before = replay.clone();
        let cut = random.pick(&CUTS);
        let (mut taken, mut code) = (0, E_OK);
        for length in random_cuts(&mut random, block.len(), cut) {
            code = feed(&mut replay, &block[taken..taken + length]);
            if code != E_OK {
                assert_eq!(expected(&before, &block[..taken + length]).0, code);
                break;
            }
            taken += length;
        }
        assert_eq!(expected(&before, &block).0, code);
        assert_eq!(expected(&before, &block[..taken]), (E_OK, replay));
    }
}

/// Most parts begin a record that is run and has the right answer, whatever
/// the length of the part.
#[test]
fn random_parts_are_completed() {
    let mut random = Random::new(54);
    let mut same = [0; 32];
    for turn in 0..11_000 {
        let profile = Profile::new(KINDS[turn % KINDS.len()], &mut random);
        let Fed { mut replay, block } = random_fed(&mut random, &profile, 0);
        let before = replay.clone();
        let missing = 32 - before.part.len();
        if block.len() < missing || feed(&mut replay, &block[..missing]) != E_OK {
            continue;
        }
        let is_same = replay.differ == before.differ;
        same[before.part.len()] += is_same as u32;
    }
    assert!(same.iter().all(|count| *count >= 10), "{same:?}");
}

/// Random replay states are let through; each damage is the only reason.
#[test]
fn random_replay_states() {
    let mut random = Random::new(55);
    for turn in 0..2_200 {
        let profile = Profile::new(KINDS[turn % KINDS.len()], &mut random);
        let replay = random_replay_state(&mut random, &profile);
        assert_eq!(replay.fault(), None, "{replay}");
        assert!(!unfit(&replay));
        for damage in DAMAGES {
            let mut damaged = replay.clone();
            damage_replay_state(&mut random, &mut damaged, damage);
            let broken = broken_rules(&damaged);
            match damage {
                Damage::Several => assert!(broken.len() > 1, "{damaged}"),
                _ => assert_eq!(broken, [damage], "{damaged}"),
            }
            assert!(damaged.fault().is_some());
            assert!(unfit(&damaged));
        }
    }
}

/// Which rules of item 5 the replay state breaks.
fn broken_rules(replay: &ReplayState) -> Vec<Damage> {
    let rules = [
        (Damage::Kernel, replay.state.fault().is_none()),
        (Damage::Part, replay.part.len() <= 31),
        (Damage::Differ, replay.differ <= replay.records),
        (Damage::First, replay.first <= replay.records),
        (Damage::DifferZero, replay.differ > 0 || replay.first == 0),
        (Damage::FirstZero, replay.first > 0 || replay.differ == 0),
    ];
    let broken = rules.iter().filter(|(_, holds)| !holds);
    broken.map(|(damage, _)| *damage).collect()
}

/// The lengths add up, are those of their kind, and some are 0.
#[test]
fn random_cuts_of_every_kind() {
    let mut random = Random::new(56);
    for cut in CUTS {
        let mut empty = 0;
        for bytes in 0..500 {
            let lengths = random_cuts(&mut random, bytes, cut);
            assert_eq!(lengths.iter().sum::<usize>(), bytes);
            empty += lengths.iter().filter(|length| **length == 0).count();
            let mut at = 0;
            for length in &lengths {
                at += length;
                let edge = (at + 2) % 32 <= 4 || at == bytes;
                assert!(match cut {
                    Cut::Whole => [0, bytes].contains(length),
                    Cut::Bytes => *length <= 1,
                    Cut::Short => *length <= 70,
                    Cut::Middle => *length <= 1_000,
                    // An empty block at the beginning is at an edge too.
                    Cut::Edges => edge,
                });
            }
        }
        assert!(empty > 30, "{cut:?}");
    }
}

/// The same seed gives the same replay state and block.
#[test]
fn random_blocks_again() {
    let fed = |seed| {
        let mut random = Random::new(seed);
        let profile = Profile::new(Kind::Few, &mut random);
        random_fed(&mut random, &profile, 50)
    };
    assert_eq!(fed(1), fed(1));
    assert_ne!(fed(1), fed(2));
}

/// The counts of two runs are added, and each path is printed.
#[test]
fn counts_of_blocks() {
    let mut one = BlocksReached::new();
    assert_eq!(one, BlocksReached::default());
    assert_eq!(one.missing().len(), BLOCK_PATHS.len());
    ReplayState::new().feed(&[], &mut one);
    let mut two = one.clone();
    two.merge(&one);
    assert_eq!(one.count(BlockPath::EmptyWithoutPart), 1);
    assert_eq!(two.count(BlockPath::EmptyWithoutPart), 2);
    assert_eq!(two.missing().len(), BLOCK_PATHS.len() - 1);
    assert_eq!(two.to_string().lines().count(), BLOCK_PATHS.len());
}
