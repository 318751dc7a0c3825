//! Answers: as the library writes them, in numbers, and as a host reads them.
use super::*;

/// The calls that may wait, for a record that lets them: data queue 1 is full and 2 is empty, and so is mailbox 1.
fn calls_that_wait() -> [Call; 6] {
    let timed = Call { tmout: 5, ..Call::default() };
    [
        by_handler(number::SND_DTQ, 1),
        Call { number: number::TSND_DTQ, object: 1, ..timed },
        by_handler(number::RCV_DTQ, 2),
        Call { number: number::TRCV_DTQ, object: 2, ..timed },
        by_handler(number::RCV_MBX, 1),
        Call { number: number::TRCV_MBX, object: 1, ..timed },
    ]
}

fn record_to_wait_in() -> Record {
    let mut record = Record::EMPTY;
    accepted([1, 2, 3].map(|task| record.idefine_task(task, 5)));
    accepted([record.icre_dtq(1, TA_TFIFO, 0), record.icre_dtq(2, TA_TFIFO, 4), record.icre_mbx(1, TA_TFIFO, 0)]);
    record
}

/// The three tasks wait one behind the other; singly and in a table.
#[test]
fn an_answer_that_waits_has_no_code() {
    let expected = |place| HostAnswer { kind: 1, code: 1, place, a: 0, b: 0, c: 0 };
    for call in calls_that_wait() {
        let calls = [1, 2, 3].map(|caller| Call { caller, ..call });
        let mut record = record_to_wait_in();
        assert_eq!(calls.map(|call| record.host_call(call)), [0, 1, 2].map(expected), "{call:?}");
        let mut record = record_to_wait_in();
        assert_eq!(calls.map(|call| record.call(call)), [0, 1, 2].map(|place| Answer::Waits { place }), "{call:?}");
        let mut cells = [HostAnswer::default(); 3];
        assert_eq!((record_to_wait_in().table(&calls, &mut cells), cells), (E_OK, [0, 1, 2].map(expected)), "{call:?}");
    }
    assert_eq!(NO_CODE, 1);
}

/// Of whatever call: the code is no code exactly where the call waits, and what a kind of answer doesn't have is 0.
#[test]
fn answers_of_random_calls() {
    let (mut noise, mut record, mut seen) = (noise(), Record::EMPTY, [0; 3]);
    for _ in 0..20_000 {
        let call = noise.wide_call();
        let answer = record.clone().host_call(call);
        let HostAnswer { kind, code, place, a, b, c } = answer;
        let (number, right) = match answer.read() {
            Answer::Done(words) => (0, (kind, code, place) == (0, E_OK, 0) && words == Words { a, b, c }),
            Answer::Error(read) => (1, (kind, place, a, b, c) == (0, 0, 0, 0, 0) && read == code && code < 0),
            Answer::Waits { place: read } => (2, (kind, code, a, b, c) == (1, NO_CODE, 0, 0, 0) && read == place),
        };
        assert!(right, "{call:?}: {answer:?}");
        assert_eq!(record.call(call), answer.read(), "{call:?}");
        seen[number] += 1;
    }
    assert!(seen.iter().all(|count| *count > 50), "{seen:?}");
}

#[test]
fn each_kind_of_answer() {
    let words = Words { a: 10, b: 0, c: 1 };
    let asked = |answer: Answer| (answer.is_ok(), answer.waits(), answer.code(), answer.words());
    assert_eq!(asked(Answer::Done(words)), (true, false, Some(E_OK), Some(words)));
    assert_eq!(asked(Answer::Error(E_TMOUT)), (false, false, Some(E_TMOUT), None));
    assert_eq!(asked(Answer::Waits { place: 0 }), (false, true, None, None));
}

/// A cell may hold any numbers: what isn't finished waits.
#[test]
fn any_numbers_as_an_answer() {
    let mut noise = noise();
    for _ in 0..1000 {
        let answer = noise.answer();
        assert_eq!(Answer::from(answer), Answer::Waits { place: answer.place }, "{answer:?}");
        let [of_code, ok] = [answer.code, E_OK].map(|code| HostAnswer { kind: 0, code, ..answer });
        assert_eq!((Answer::from(of_code), of_code.read()), (Answer::Error(answer.code), Answer::Error(answer.code)));
        assert_eq!(Answer::from(ok), Answer::Done(Words { a: answer.a, b: answer.b, c: answer.c }));
    }
}

#[test]
fn answers_in_words() {
    let done = |a, b, c| Answer::Done(Words { a, b, c }).to_string();
    assert_eq!([done(0, 0, 0), done(10, 0, 1), done(0, 64, 0)], ["E_OK", "E_OK, a 10, c 1", "E_OK, b 64"]);
    assert_eq!([E_PAR, E_DLT, 7].map(|code| Answer::Error(code).to_string()), ["E_PAR", "E_DLT", "no code of the kernel"]);
    assert_eq!([0, 31].map(|place| Answer::Waits { place }.to_string()), ["waits, place 0", "waits, place 31"]);
}

#[test]
fn words_by_their_names() {
    let mut record = various();
    assert_eq!(record.iref_dtq(2).words().map(Words::rdtq), Some(Rdtq { stskid: 4, rtskid: TSK_NONE, sdtqcnt: 3 }));
    assert_eq!(record.iref_dtq(1).words().map(Words::rdtq), Some(Rdtq { stskid: TSK_NONE, rtskid: 1, sdtqcnt: 0 }));
    assert_eq!(record.iref_mbx(1).words().map(Words::rmbx), Some(Rmbx { wtskid: 2, pk_msg: 0 }));
    assert_eq!(record.iref_mbx(2).words().map(Words::rmbx), Some(Rmbx { wtskid: TSK_NONE, pk_msg: 33 }));
    assert_eq!(record.ilook(2).words().map(Words::looked), Some(Looked { tskwait: AT_MAILBOX, wobjid: 1, suspended: true }));
    assert_eq!(record.ilook(3).words().map(Words::looked), Some(Looked { tskwait: NO_WAIT, wobjid: 0, suspended: false }));
    assert_eq!((record.iref_dtq(4).words(), record.ilook(9).words()), (None, None));
    // Cut down to a byte, 256 would be no wait.
    assert_eq!([254, 255, 256, u32::MAX].map(|a| Words { a, ..Words::default() }.looked().tskwait), [254, 255, 255, 255]);
}

/// What ends a wait isn't told apart from a refusal by the code alone, and has no words.
#[test]
fn what_ended_a_wait() {
    let mut record = various();
    let ended = [3, 5, 6, 7].map(|task| record.ifetch(task));
    assert_eq!(ended, [Answer::Done(Words::default()), Answer::Error(E_RLWAI), Answer::Error(E_TMOUT), Answer::Error(E_DLT)]);
}
