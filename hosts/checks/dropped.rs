//! Drops answers, codes and lines, each in a line that says so. It must not compile with -D unused_must_use.
use linguastel::{Call, Context, HostAnswer, Record, Replay};

pub fn drop(record: &mut Record, replay: &mut Replay, call: Call, answers: &mut [HostAnswer]) {
    record.call(call); // dropped
    record.host_call(call); // dropped
    record.tick(); // dropped
    record.snd_dtq(Context::task(1), 1, 42); // dropped
    record.iprcv_dtq(1); // dropped
    record.table(&[call], answers); // dropped
    replay.feed(&[]); // dropped
    replay.end(); // dropped
    let _taken = record.iprcv_dtq(1);
}
