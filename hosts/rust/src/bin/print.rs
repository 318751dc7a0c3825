//! Prints three records in words: the empty one, one that some calls make, with every form of a line, and one that isn't sound; and before the last one
//! answers in words. Calls and output are those of hosts/c/print.c, and hosts/print.txt has the output. The exit status is 1 where a call is refused that
//! should be accepted.
use linguastel::{Answer, Context, Record, LONGEST_TMOUT, TA_MPRI, TA_TFIFO, TA_TPRI, TMO_FEVR};
use std::process::ExitCode;

// From here the counter comes to 0 before the timed waits end.
const COUNTER: u32 = 4_294_967_294;

const TASKS: [(u32, u32); 10] = [(1, 5), (2, 3), (3, 5), (4, 3), (5, 9), (6, 1), (7, 2), (8, 16), (9, 9), (32, 16)];

fn objects(record: &mut Record) -> Vec<Answer> {
    let mut answers: Vec<Answer> = TASKS.iter().map(|(task, priority)| record.idefine_task(*task, *priority)).collect();
    answers.extend([record.icre_dtq(1, TA_TFIFO, 2), record.icre_dtq(2, TA_TPRI, 4), record.icre_dtq(3, TA_TPRI, 0)]);
    answers.extend([record.icre_dtq(16, TA_TFIFO, 16), record.icre_mbx(1, TA_TFIFO, 0), record.icre_mbx(2, TA_TPRI, 0)]);
    answers.extend([record.icre_mbx(3, TA_MPRI, 16), record.icre_mbx(16, TA_TPRI + TA_MPRI, 4)]);
    answers
}

fn at_queues(record: &mut Record) -> Vec<Answer> {
    let task = Context::task;
    vec![
        record.ipsnd_dtq(1, 10),
        record.ipsnd_dtq(1, 11),
        record.snd_dtq(task(3), 1, 12),
        record.tsnd_dtq(task(2), 1, u32::MAX, 3),
        record.rcv_dtq(task(5), 2),
        record.trcv_dtq(task(4), 2, LONGEST_TMOUT),
        record.tsnd_dtq(task(8), 3, 7, TMO_FEVR),
        record.tsnd_dtq(task(6), 3, 8, 1),
        record.ipsnd_dtq(16, 0),
    ]
}

fn at_mailboxes(record: &mut Record) -> Vec<Answer> {
    vec![
        record.isnd_mbx(1, 9, 0),
        record.isnd_mbx(1, 5, 0),
        record.rcv_mbx(Context::task(32), 2),
        record.trcv_mbx(Context::task(7), 2, 1),
        record.isnd_mbx(3, 64, 16),
        record.isnd_mbx(3, 3, 1),
    ]
}

fn main() -> ExitCode {
    let mut record = Record::EMPTY;
    println!("{record}");
    record.counter = COUNTER;
    let mut answers = [objects(&mut record), at_queues(&mut record), at_mailboxes(&mut record)].concat();
    answers.extend([record.isus_tsk(7), record.isus_tsk(9), record.isus_tsk(32), record.tick()]);
    println!("{record}");
    println!("{}", record.iref_dtq(1));
    println!("{}", record.iref_dtq(4));
    println!("{}", record.rcv_dtq(Context::task(1), 2));
    // These links lead to numbers that no task has.
    record.waiting.link.fill(255);
    println!("{record}");
    ExitCode::from(u8::from(!answers.iter().all(|answer| answer.is_ok() || answer.waits())))
}
