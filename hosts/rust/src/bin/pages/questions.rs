// What a host asks of a record beside its calls: the notation's questions, and the state in words.
use linguastel::{task_bit, Record, TASKS};

use crate::check::Check;
use crate::kernel::Kernel;
use crate::notation::{caller_of, parsed};
use crate::page::{Block, Page};
use crate::sources::HEADER;

// '3 2', or 'none'.
fn listed(numbers: impl Iterator<Item = u32>) -> String {
    let numbers: Vec<String> = numbers.map(|number| number.to_string()).collect();
    if numbers.is_empty() {
        "none".to_string()
    } else {
        numbers.join(" ")
    }
}

fn tasks_in(mask: u32) -> String {
    listed((1..=TASKS as u32).filter(|task| mask & task_bit(*task) != 0))
}

// The header has the same words.
fn cause(record: &Record, caller: u32) -> Result<String, String> {
    let cause = record.sys_cause(caller).map_or("none".to_string(), |cause| cause.to_string());
    if HEADER.contains(&format!("return \"{cause}\";")) {
        Ok(cause)
    } else {
        Err(format!("the wrapper says '{cause}', which the header doesn't"))
    }
}

// What the record answers to 'runnable' or 'senders 1'; nothing where the step is no question.
pub fn asked(record: &Record, step: &str) -> Result<Option<String>, String> {
    let words: Vec<&str> = step.split_whitespace().collect();
    Ok(Some(match words[..] {
        ["runnable"] => tasks_in(record.runnable()),
        ["waiting"] => tasks_in(record.waiting()),
        ["sound"] => if record.is_sound() { "yes" } else { "no" }.to_string(),
        ["cause", caller] => cause(record, caller_of(caller)?)?,
        ["senders", queue] => listed(record.senders(parsed(queue)?)),
        ["receivers", queue] => listed(record.receivers(parsed(queue)?)),
        ["words", queue] => listed(record.words(parsed(queue)?)),
        ["waiters", mailbox] => listed(record.waiters(parsed(mailbox)?)),
        ["messages", mailbox] => listed(record.messages(parsed(mailbox)?)),
        _ => return Ok(None),
    }))
}

impl Check {
    // The state in words is that of the record after the worked example before it.
    pub fn check_state(&mut self, page: &Page, block: &Block, kernel: Option<&Kernel>) {
        let at = block.lines.first().map_or(1, |line| line.at);
        let Some(kernel) = kernel else {
            return self.differs(page, at, "no worked example stands before this state");
        };
        self.examples += 1;
        let text = kernel.record.to_string();
        let right = block.lines.iter().map(|line| line.text.as_str()).eq(text.lines());
        self.expect(right, page, at, &format!("the state is\n{text}"));
    }
}
