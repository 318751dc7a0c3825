//! Calls and answers in words: the papers' names, and what document 01 says that each word of an answer is.
use linguastel::{call_name, code_name, number, Call, HostAnswer};
use linguastel::{AT_MAILBOX, E_DLT, E_OK, E_RLWAI, E_TMOUT, NO_WAIT, RECEIVING, SENDING, TA_MPRI, TA_TFIFO, TA_TPRI, TMO_FEVR};

// ── A call ──

/// The tick has no caller.
pub fn caller(call: &Call) -> String {
    match (call.number, call.caller) {
        (number::TICK, _) => String::new(),
        (_, 0) => "handler".to_string(),
        (_, task) => format!("task {task}"),
    }
}

/// By their names in the standard; a sum that isn't known as its number.
pub fn attribute(attribute: u32) -> String {
    match attribute {
        TA_TFIFO => "TA_TFIFO".to_string(),
        TA_TPRI => "TA_TPRI".to_string(),
        TA_MPRI => "TA_MPRI".to_string(),
        3 => "TA_TPRI+TA_MPRI".to_string(),
        other => other.to_string(),
    }
}

fn tmout(ticks: i32) -> String {
    if ticks == TMO_FEVR {
        "tmout -1 (for ever)".to_string()
    } else {
        format!("tmout {ticks}")
    }
}

/// The context and the arguments by name; only those that the call uses.
pub fn arguments(call: &Call) -> String {
    let mut parts = named(call);
    if call.number != number::TICK {
        parts.extend((call.locked != 0).then(|| "[locked]".to_string()));
        parts.extend((call.disabled != 0).then(|| "[dispatching disabled]".to_string()));
    }
    parts.join(", ")
}

fn named(call: &Call) -> Vec<String> {
    use number::*;
    let (object, value) = (call.object, call.value);
    let queue = format!("data queue {object}");
    let mailbox = format!("mailbox {object}");
    let attributes = format!("attribute {}", attribute(call.attribute));
    match call.number {
        DEFINE_TASK => vec![format!("task {object}"), format!("priority {value}")],
        CRE_DTQ => vec![queue, attributes, format!("capacity {value}")],
        SND_DTQ | PSND_DTQ | FSND_DTQ => vec![queue, format!("word {value}")],
        TSND_DTQ => vec![queue, format!("word {value}"), tmout(call.tmout)],
        TRCV_DTQ => vec![queue, tmout(call.tmout)],
        DEL_DTQ | RCV_DTQ | PRCV_DTQ | REF_DTQ => vec![queue],
        // Without TA_MPRI the highest message priority isn't looked at.
        CRE_MBX if call.attribute <= TA_TPRI => vec![mailbox, attributes],
        CRE_MBX => vec![mailbox, attributes, format!("highest priority {value}")],
        SND_MBX => vec![mailbox, format!("message {value}"), format!("priority {}", call.attribute)],
        TRCV_MBX => vec![mailbox, tmout(call.tmout)],
        DEL_MBX | RCV_MBX | PRCV_MBX | REF_MBX => vec![mailbox],
        REL_WAI | SUS_TSK | RSM_TSK | LOOK | FETCH => vec![format!("task {object}")],
        _ => Vec::new(),
    }
}

/// The whole call in one line.
pub fn call(call: &Call) -> String {
    let parts = [caller(call), call_name(call.number).to_string(), arguments(call)];
    parts.into_iter().filter(|part| !part.is_empty()).collect::<Vec<_>>().join(" ")
}

// ── An answer ──

pub fn code(code: i32) -> String {
    match code_name(code) {
        name if name.starts_with("E_") => name.to_string(),
        _ => format!("code {code}, which the kernel doesn't have"),
    }
}

fn number_or_none(what: &str, number: u32) -> String {
    if number == 0 {
        "none".to_string()
    } else {
        format!("{what}{number}")
    }
}

/// So many of something, whose name in the plural has an s.
pub fn count(number: u64, name: &str) -> String {
    format!("{number} {name}{}", if number == 1 { "" } else { "s" })
}

/// What look says of a wait, where a and b are numbers that it gives.
fn looked_at(a: u32, b: u32) -> Option<String> {
    match (u8::try_from(a).ok()?, b) {
        (NO_WAIT, 0) => Some("no wait".to_string()),
        (SENDING, queue) => Some(format!("waits to send to data queue {queue}")),
        (RECEIVING, queue) => Some(format!("waits to receive from data queue {queue}")),
        (AT_MAILBOX, mailbox) => Some(format!("waits at mailbox {mailbox}")),
        _ => None,
    }
}

/// What the words of an accepted call mean, and which of a, b and c that covers.
fn meanings(number: u32, answer: &HostAnswer) -> (Vec<String>, [bool; 3]) {
    use number::*;
    let HostAnswer { a, b, c, .. } = *answer;
    let one = |text: String| (vec![text], [true, false, false]);
    match number {
        TICK => one(format!("waits ended {a}")),
        RCV_DTQ | PRCV_DTQ | TRCV_DTQ | FETCH => one(format!("word {a}")),
        RCV_MBX | PRCV_MBX | TRCV_MBX => one(format!("message {a}")),
        SND_MBX => one(format!("messages ahead {a}")),
        REF_DTQ => {
            let (sender, receiver) = (number_or_none("task ", a), number_or_none("task ", b));
            (vec![format!("first sender {sender}"), format!("first receiver {receiver}"), format!("words stored {c}")], [true; 3])
        }
        REF_MBX => {
            let (waiter, message) = (number_or_none("task ", a), number_or_none("", b));
            (vec![format!("first waiter {waiter}"), format!("first message {message}")], [true, true, false])
        }
        LOOK => look_meanings(answer),
        _ => (Vec::new(), [false; 3]),
    }
}

fn look_meanings(answer: &HostAnswer) -> (Vec<String>, [bool; 3]) {
    let wait = looked_at(answer.a, answer.b);
    let known = wait.is_some();
    let mut texts: Vec<String> = wait.into_iter().collect();
    texts.extend((answer.c == 1).then(|| "suspended".to_string()));
    (texts, [known, known, answer.c == 1])
}

/// The code that fetch gives of an ended wait isn't a refusal.
fn accepted(number: u32, code: i32) -> bool {
    code == E_OK || (number == number::FETCH && [E_RLWAI, E_TMOUT, E_DLT].contains(&code))
}

/// An answer to the call of this number, a recorded one as well: words that such an answer doesn't have are shown by their letters.
pub fn answer(number: u32, answer: &HostAnswer) -> String {
    let (mut parts, covered) = match *answer {
        HostAnswer { kind: 0, code: ended, .. } if accepted(number, ended) => {
            let (texts, covered) = meanings(number, answer);
            let stored = if number == number::FETCH { "stored " } else { "" };
            ([vec![format!("{stored}{}", code(ended))], texts].concat(), covered)
        }
        HostAnswer { kind: 0, code: refused, .. } => (vec![code(refused)], [false; 3]),
        HostAnswer { place, .. } => (vec![format!("waits, place {place}")], [false; 3]),
    };
    for ((letter, word), covered) in [("a", answer.a), ("b", answer.b), ("c", answer.c)].into_iter().zip(covered) {
        if word != 0 && !covered {
            parts.push(format!("{letter} {word}"));
        }
    }
    parts.join(", ")
}

/// Each field in which two answers differ. Code and place are compared where the kinds are the same.
pub fn differences(recorded: &HostAnswer, replayed: &HostAnswer) -> Vec<String> {
    let kind = |answer: &HostAnswer| if answer.kind == 0 { "finished" } else { "waits" };
    let mut fields = Vec::new();
    if recorded.kind != replayed.kind {
        fields.push(format!("kind: recorded {}, replayed {}", kind(recorded), kind(replayed)));
    } else if recorded.code != replayed.code {
        fields.push(format!("code: recorded {}, replayed {}", recorded.code, replayed.code));
    } else if recorded.place != replayed.place {
        fields.push(format!("place: recorded {}, replayed {}", recorded.place, replayed.place));
    }
    for (letter, ours, theirs) in [("a", recorded.a, replayed.a), ("b", recorded.b, replayed.b), ("c", recorded.c, replayed.c)] {
        if ours != theirs {
            fields.push(format!("{letter}: recorded {ours}, replayed {theirs}"));
        }
    }
    fields
}

#[cfg(test)]
mod tests {
    use super::*;

    const FULL: Call = Call { number: 0, caller: 1, locked: 0, disabled: 0, object: 2, value: 3, tmout: 4, attribute: 1 };

    /// Each call by its name, with the arguments that it uses and no others.
    #[test]
    fn each_call_once() {
        let expected = [
            "tick",
            "task 1 define_task task 2, priority 3",
            "task 1 cre_dtq data queue 2, attribute TA_TPRI, capacity 3",
            "task 1 del_dtq data queue 2",
            "task 1 snd_dtq data queue 2, word 3",
            "task 1 psnd_dtq data queue 2, word 3",
            "task 1 tsnd_dtq data queue 2, word 3, tmout 4",
            "task 1 fsnd_dtq data queue 2, word 3",
            "task 1 rcv_dtq data queue 2",
            "task 1 prcv_dtq data queue 2",
            "task 1 trcv_dtq data queue 2, tmout 4",
            "task 1 ref_dtq data queue 2",
            "task 1 cre_mbx mailbox 2, attribute TA_TPRI",
            "task 1 del_mbx mailbox 2",
            "task 1 snd_mbx mailbox 2, message 3, priority 1",
            "task 1 rcv_mbx mailbox 2",
            "task 1 prcv_mbx mailbox 2",
            "task 1 trcv_mbx mailbox 2, tmout 4",
            "task 1 ref_mbx mailbox 2",
            "task 1 rel_wai task 2",
            "task 1 sus_tsk task 2",
            "task 1 rsm_tsk task 2",
            "task 1 look task 2",
            "task 1 fetch task 2",
        ];
        for (number, text) in (0..).zip(expected) {
            assert_eq!(call(&Call { number, ..FULL }), text);
        }
    }

    #[test]
    fn contexts_and_special_arguments() {
        let both = Call { number: 17, caller: 0, locked: 1, disabled: 1, tmout: -1, ..FULL };
        assert_eq!(call(&both), "handler trcv_mbx mailbox 2, tmout -1 (for ever), [locked], [dispatching disabled]");
        assert_eq!(call(&Call { number: 0, ..both }), "tick");
        let create = Call { number: 12, attribute: 3, value: 4, ..FULL };
        assert_eq!(call(&create), "task 1 cre_mbx mailbox 2, attribute TA_TPRI+TA_MPRI, highest priority 4");
        assert_eq!(call(&Call { number: 2, attribute: 7, ..FULL }), "task 1 cre_dtq data queue 2, attribute 7, capacity 3");
    }

    fn finished(code: i32, a: u32, b: u32, c: u32) -> HostAnswer {
        HostAnswer { kind: 0, code, place: 0, a, b, c }
    }

    #[test]
    fn words_by_meaning() {
        for (number, given, text) in [
            (0, finished(0, 2, 0, 0), "E_OK, waits ended 2"),
            (1, finished(0, 0, 0, 0), "E_OK"),
            (9, finished(0, 7, 0, 0), "E_OK, word 7"),
            (11, finished(0, 1, 0, 8), "E_OK, first sender task 1, first receiver none, words stored 8"),
            (14, finished(0, 2, 0, 0), "E_OK, messages ahead 2"),
            (16, finished(0, 5, 0, 0), "E_OK, message 5"),
            (18, finished(0, 0, 6, 0), "E_OK, first waiter none, first message 6"),
            (22, finished(0, 0, 0, 0), "E_OK, no wait"),
            (22, finished(0, 1, 2, 1), "E_OK, waits to send to data queue 2, suspended"),
            (22, finished(0, 2, 2, 0), "E_OK, waits to receive from data queue 2"),
            (22, finished(0, 3, 2, 0), "E_OK, waits at mailbox 2"),
            (23, finished(-50, 0, 0, 0), "stored E_TMOUT, word 0"),
            (23, finished(-41, 0, 0, 0), "E_OBJ"),
            (9, finished(-50, 0, 0, 0), "E_TMOUT"),
        ] {
            assert_eq!(answer(number, &given), text);
        }
    }

    /// A recorded answer may have any numbers.
    #[test]
    fn answers_that_no_kernel_gives() {
        assert_eq!(answer(4, &HostAnswer { kind: 1, code: linguastel::NO_CODE, place: 3, a: 1, b: 0, c: 2 }), "waits, place 3, a 1, c 2");
        assert_eq!(answer(9, &finished(-50, 4, 5, 0)), "E_TMOUT, a 4, b 5");
        assert_eq!(answer(5, &finished(1, 0, 0, 0)), "code 1, which the kernel doesn't have");
        assert_eq!(answer(22, &finished(0, 7, 2, 3)), "E_OK, a 7, b 2, c 3");
        assert_eq!(answer(22, &finished(0, 256, 0, 0)), "E_OK, a 256");
    }

    #[test]
    fn counts() {
        assert_eq!([0, 1, 2].map(|number| count(number, "tick")), ["0 ticks", "1 tick", "2 ticks"]);
    }

    #[test]
    fn differences_field_by_field() {
        let waits = |place| HostAnswer { kind: 1, code: linguastel::NO_CODE, place, ..HostAnswer::default() };
        assert_eq!(
            differences(&finished(0, 1, 0, 2), &finished(-50, 1, 3, 0)).join("; "),
            "code: recorded 0, replayed -50; b: recorded 0, replayed 3; c: recorded 2, replayed 0"
        );
        assert_eq!(differences(&finished(0, 0, 0, 0), &waits(0)).join("; "), "kind: recorded finished, replayed waits");
        assert_eq!(differences(&waits(2), &waits(1)).join("; "), "place: recorded 2, replayed 1");
        assert!(differences(&waits(1), &waits(1)).is_empty());
    }
}
