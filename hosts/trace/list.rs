//! Every record of a trace in words.
use crate::decode::SIZE;
use crate::play::{self, Run, Step};
use crate::{state, words};
use linguastel::{call_name, number};
use std::io::{Result, Write};

// Widths of the columns for the caller, the call's name and its arguments.
const CALLER: usize = 8;
const NAME: usize = 12;
const ARGUMENTS: usize = 50;

/// A record that differs has a '!' in front of it. Below a record stands what the replay says besides: the kernel's answer where it is another one,
/// and the waits that ended.
pub fn write(to: &mut dyn Write, bytes: &[u8], counter: u32) -> Result<()> {
    let width = (bytes.len() / SIZE).to_string().len().max("record".len());
    writeln!(to, "  {:>width$}  {:CALLER$}{:NAME$}{:ARGUMENTS$}recorded answer", "record", "caller", "call", "arguments")?;
    for step in play::steps(bytes, counter) {
        let mark = if step.same() { ' ' } else { '!' };
        writeln!(to, "{mark} {:width$}  {}", step.number, of_step(&step))?;
        for line in below(&step) {
            writeln!(to, "  {:width$}  {:CALLER$}{line}", "", "")?;
        }
    }
    let tail = play::tail(bytes);
    if !tail.is_empty() {
        writeln!(to, "  {:width$}  {} after the last whole record: {}", "", words::count(tail.len() as u64, "byte"), hexadecimal(tail))?;
    }
    Ok(())
}

/// The record's own line.
pub fn of_step(step: &Step) -> String {
    let run = match &step.outcome {
        Ok(run) => run,
        Err(why) => return format!("isn't run: {why}"),
    };
    let call = &run.recorded.call;
    let arguments = match call.number {
        number::TICK => format!("counter {} afterwards", step.after.counter),
        _ => words::arguments(call),
    };
    let answer = words::answer(call.number, &run.recorded.answer);
    format!("{:CALLER$}{:NAME$}{:ARGUMENTS$}{answer}", words::caller(call), call_name(call.number), format!("{arguments} "))
}

/// The lines under it.
fn below(step: &Step) -> Vec<String> {
    let mut lines = match &step.outcome {
        Ok(run) if !step.same() => vec![difference(run)],
        Ok(_) => Vec::new(),
        Err(_) => vec![format!("bytes {}", hexadecimal(&step.bytes))],
    };
    lines.extend(state::ended(&step.before, &step.after).iter().map(|ended| ended.to_string()));
    lines
}

fn difference(run: &Run) -> String {
    let replayed = words::answer(run.recorded.call.number, &run.replayed);
    format!("differs: the kernel answers {replayed} ({})", words::differences(&run.recorded.answer, &run.replayed).join("; "))
}

/// In groups of four bytes, which are a record's fields or have several of them.
pub fn hexadecimal(bytes: &[u8]) -> String {
    let group = |bytes: &[u8]| bytes.iter().map(|byte| format!("{byte:02x}")).collect::<String>();
    bytes.chunks(4).map(group).collect::<Vec<_>>().join(" ")
}

#[cfg(test)]
mod tests {
    use super::*;
    use crate::stored::Writer;
    use linguastel::{Call, Context};

    fn listed(bytes: &[u8]) -> String {
        let mut text = Vec::new();
        write(&mut text, bytes, 0).expect("a vector takes all");
        String::from_utf8(text).expect("words are UTF-8")
    }

    fn example() -> Writer {
        let mut writer = Writer::empty(0);
        writer.add(Call { value: 5, ..Call::new(1, Context::HANDLER, 1) });
        writer.add(Call { value: 2, ..Call::new(2, Context::HANDLER, 1) });
        writer.add(Call::new(8, Context::task(1), 1));
        writer
    }

    #[test]
    fn who_is_woken() {
        let mut writer = example();
        writer.add(Call { value: 42, ..Call::new(5, Context::HANDLER, 1) });
        let text = listed(writer.bytes());
        let last: Vec<&str> = text.lines().rev().take(2).collect();
        assert_eq!(last[1].split_whitespace().collect::<Vec<_>>().join(" "), "4 handler psnd_dtq data queue 1, word 42 E_OK");
        assert_eq!(last[0].trim(), "task 1: its wait to receive from data queue 1 ended with E_OK, word 42");
    }

    #[test]
    fn what_differs() {
        let mut writer = example();
        writer.add_changed(Call { value: 42, ..Call::new(5, Context::HANDLER, 1) }, 20, 1);
        let text = listed(writer.bytes());
        assert!(text.lines().any(|line| line.starts_with("!      4 ") && line.ends_with("code 1, which the kernel doesn't have")), "{text}");
        assert!(text.contains("differs: the kernel answers E_OK (code: recorded 1, replayed 0)"), "{text}");
    }

    #[test]
    fn what_is_not_run_and_the_tail() {
        let mut writer = example();
        writer.add_not_run(Call::default(), 0, 99);
        writer.add_tail(&[1, 0xab]);
        let text = listed(writer.bytes());
        assert!(text.contains("!      4  isn't run: unknown call, number 99 (byte 0)"), "{text}");
        assert!(text.contains("bytes 63000000 00000000 "), "{text}");
        assert!(text.ends_with("2 bytes after the last whole record: 01ab\n"), "{text}");
    }
}
