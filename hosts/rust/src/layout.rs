//! The layout: the library was compiled for these places.
use core::mem::{align_of, offset_of, size_of};

use crate::library::TaskSets;
use crate::{Call, Chains, HostAnswer, Line, Mailbox, Queue, Record, Replay, Ring, Task};

const fn size_of_field<T, F>(_: fn(&T) -> &F) -> usize {
    size_of::<F>()
}

// Fields whose sizes add up to their struct's leave no byte between or behind them.
macro_rules! layout {
    ($type:ty, $size:literal, $align:literal, $($field:ident $offset:literal),+) => {
        const _: () = assert!(size_of::<$type>() == $size && align_of::<$type>() == $align);
        $(const _: () = assert!(offset_of!($type, $field) == $offset);)+
        const _: () = assert!($(size_of_field(|whole: &$type| &whole.$field) +)+ 0 == $size);
    };
}

layout!(Task, 20, 4, word 0, end 4, sending 8, wait 12, object 13, timed 14, code 15, flags 16);
layout!(Ring, 68, 4, words 0, head 64, count 65, capacity 66, spare 67);
layout!(Queue, 72, 4, ring 0, defined 68, attribute 69, spare 70);
layout!(Mailbox, 3, 1, defined 0, attribute 1, highest 2);
layout!(Chains, 146, 1, link 0, key 81);
layout!(Record, 2232, 4, counter 0, tasks 4, queues 664, waiting 1888, messages 2034, mailboxes 2180, spare 2231);
layout!(Call, 32, 4, number 0, caller 4, locked 8, disabled 12, object 16, value 20, tmout 24, attribute 28);
layout!(HostAnswer, 24, 4, kind 0, code 4, place 8, a 12, b 16, c 20);
layout!(TaskSets, 8, 4, waiting 0, runnable 4);
layout!(Replay, 2296, 8, records 0, differ 8, first 16, length 24, kernel 32, part 2264);
layout!(Line, 40, 8, records 0, differ 8, first 16, tail 24, code 32, spare 36);
