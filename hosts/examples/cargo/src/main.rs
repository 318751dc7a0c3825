//! A first host in Rust: the same as first.c.
use linguastel::{code_name, library_fits, Answer, Context, Record, TA_TFIFO};

type Outcome = Result<(), Answer>;

fn done(answer: Answer) -> Result<u32, Answer> {
    answer.words().map(|words| words.a).ok_or(answer)
}

/// Task 1, of priority 5, sends 42 to data queue 1, which has room for 8 words. The call that takes a word without a wait is a handler's.
fn send_and_take(record: &mut Record) -> Outcome {
    done(record.idefine_task(1, 5))?;
    done(record.icre_dtq(1, TA_TFIFO, 8))?;
    done(record.snd_dtq(Context::task(1), 1, 42))?;
    println!("received {}", done(record.iprcv_dtq(1))?);
    Ok(())
}

/// The data queue is empty now, so task 1 waits until a handler sends a word. fetch gives what its wait ended with.
fn wait_and_fetch(record: &mut Record) -> Outcome {
    let asked = record.rcv_dtq(Context::task(1), 1);
    if !asked.waits() {
        return Err(asked);
    }
    done(record.ipsnd_dtq(1, 43))?;
    println!("task 1 waited, and received {}", done(record.ifetch(1))?);
    Ok(())
}

/// A refused call has a code, and changes nothing.
fn be_refused(record: &mut Record) -> Outcome {
    match record.iprcv_dtq(2) {
        Answer::Error(code) => println!("data queue 2: {}", code_name(code)),
        other => return Err(other),
    }
    Ok(())
}

fn main() -> Result<(), String> {
    if !library_fits() {
        return Err("these are not the archives of this wrapper".into());
    }
    let mut record = Record::EMPTY;
    send_and_take(&mut record)
        .and_then(|()| wait_and_fetch(&mut record))
        .and_then(|()| be_refused(&mut record))
        .map_err(|answer| answer.to_string())
}
