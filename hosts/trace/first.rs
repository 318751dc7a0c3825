//! The first record that differs, with the state before and after it.
use crate::list::hexadecimal;
use crate::play::{self, Step};
use crate::{state, words};
use std::io::{Result, Write};

pub fn write(to: &mut dyn Write, bytes: &[u8], counter: u32) -> Result<()> {
    match play::steps(bytes, counter).find(|step| !step.same()) {
        Some(step) => of_step(to, &step),
        None => writeln!(to, "no record differs"),
    }
}

fn of_step(to: &mut dyn Write, step: &Step) -> Result<()> {
    let number = step.number;
    match &step.outcome {
        Err(why) => {
            writeln!(to, "record {number} isn't run: {why}\n    bytes {}", hexadecimal(&step.bytes))?;
            writeln!(to, "state before and after it:")?;
            return write_state(to, &state::in_words(&step.before), &[]);
        }
        Ok(run) => {
            let call = &run.recorded.call;
            writeln!(to, "record {number}: {}", words::call(call))?;
            writeln!(to, "    recorded: {}", words::answer(call.number, &run.recorded.answer))?;
            writeln!(to, "    replayed: {}", words::answer(call.number, &run.replayed))?;
            for field in words::differences(&run.recorded.answer, &run.replayed) {
                writeln!(to, "    {field}")?;
            }
        }
    }
    write_states(to, step)
}

fn write_states(to: &mut dyn Write, step: &Step) -> Result<()> {
    let (before, after) = (state::in_words(&step.before), state::in_words(&step.after));
    if before == after {
        writeln!(to, "state before and after it:")?;
        return write_state(to, &before, &before);
    }
    writeln!(to, "state before it; a * marks what it changes:")?;
    write_state(to, &before, &after)?;
    writeln!(to, "state after it:")?;
    write_state(to, &after, &before)?;
    for ended in state::ended(&step.before, &step.after) {
        writeln!(to, "{ended}")?;
    }
    Ok(())
}

/// The lines that the other state doesn't have are marked.
fn write_state(to: &mut dyn Write, lines: &[String], other: &[String]) -> Result<()> {
    for line in lines {
        let mark = if other.is_empty() || other.contains(line) { ' ' } else { '*' };
        writeln!(to, "  {mark} {line}")?;
    }
    Ok(())
}

#[cfg(test)]
mod tests {
    use super::*;
    use crate::stored::Writer;
    use linguastel::{Call, Context};

    fn text_of(writer: &Writer) -> String {
        let mut text = Vec::new();
        write(&mut text, writer.bytes(), 0).expect("a vector takes all");
        String::from_utf8(text).expect("words are UTF-8")
    }

    fn example() -> Writer {
        let mut writer = Writer::empty(0);
        writer.add(Call { value: 5, ..Call::new(1, Context::HANDLER, 1) });
        writer.add(Call { value: 2, ..Call::new(2, Context::HANDLER, 1) });
        writer
    }

    #[test]
    fn none() {
        assert_eq!(text_of(&example()), "no record differs\n");
    }

    #[test]
    fn both_answers_and_both_states() {
        let mut writer = example();
        writer.add_changed(Call { value: 42, ..Call::new(5, Context::HANDLER, 1) }, 24, 9);
        let expected = "record 3: handler psnd_dtq data queue 1, word 42
    recorded: E_OK, a 9
    replayed: E_OK
    a: recorded 9, replayed 0
state before it; a * marks what it changes:
    counter 0
  * data queue 1, TA_TFIFO: 0 of 2 words; nobody waits
state after it:
    counter 0
  * data queue 1, TA_TFIFO: 1 of 2 words: 42; nobody waits
";
        assert_eq!(text_of(&writer), expected);
    }

    #[test]
    fn a_record_that_is_not_run() {
        let mut writer = example();
        writer.add_not_run(Call::default(), 17, 3);
        let text = text_of(&writer);
        assert!(text.starts_with("record 3 isn't run: spare byte 17 is 3, not 0\n    bytes 00000000 "), "{text}");
        assert!(text.contains("state before and after it:\n    counter 0\n    data queue 1"), "{text}");
    }

    #[test]
    fn a_call_that_changes_nothing() {
        let mut writer = example();
        writer.add_changed(Call::new(11, Context::HANDLER, 1), 29, 1);
        assert!(text_of(&writer).contains("state before and after it:\n    counter 0\n"));
    }
}
