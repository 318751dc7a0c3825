// The section on traces.
use linguastel::{Call, HostAnswer, TRACE_SIZE};

use crate::check::{Check, BYTES, TRACED};
use crate::kernel::Outcome;
use crate::page::{quoted, Page, Section, Table};

// Document 02's trace: the fields in the order of their bytes, and the functions' names.
pub const TRACE_FIELDS: [&str; 14] =
    ["number", "caller", "locked", "disabled", "object", "value", "tmout", "attribute", "kind", "code", "place", "a", "b", "c"];
pub const TRACE_IN_C: [&str; 3] = ["linguastel_trace", "linguastel_trace_tick", "linguastel_trace_table"];
pub const TRACE_IN_RUST: [&str; 2] = ["trace", "trace_table"];

// The bytes of a recorded call, four to a group.
pub fn bytes_in_text(bytes: &[u8; TRACE_SIZE]) -> String {
    let groups = bytes.chunks(4).map(|group| group.iter().map(|byte| format!("{byte:02x}")).collect::<String>());
    groups.collect::<Vec<String>>().join(" ")
}

// The bytes that a field of the call or of the answer changes in a trace.
pub fn changed_by(field: &str) -> impl Iterator<Item = usize> {
    let mut call = Call { number: 1, ..Call::TICK };
    let mut answer = HostAnswer { kind: u32::from(field == "place"), ..Default::default() };
    let before = call.trace(answer);
    match field {
        "number" => call.number = linguastel::number::LAST,
        "caller" => call.caller = u32::MAX,
        "locked" => call.locked = u32::MAX,
        "disabled" => call.disabled = u32::MAX,
        "object" => call.object = u32::MAX,
        "value" => call.value = u32::MAX,
        "tmout" => call.tmout = -1,
        "attribute" => call.attribute = u32::MAX,
        "kind" => answer.kind = 1,
        "code" => answer.code = -1,
        "place" => answer.place = u32::MAX,
        "a" => answer.a = u32::MAX,
        "b" => answer.b = u32::MAX,
        "c" => answer.c = u32::MAX,
        _ => {}
    }
    let after = call.trace(answer);
    (0..TRACE_SIZE).filter(move |place| before.map(|bytes| bytes[*place]) != after.map(|bytes| bytes[*place]))
}

impl Check {
    // The section on traces.
    pub fn check_recording(&mut self, page: &Page, section: &Section) {
        self.check_prototypes(page, section, &TRACE_IN_C.map(String::from), &TRACE_IN_RUST.map(String::from));
        self.check_kinds(page, section, &["trace", "c", "rust"]);
        let (Some(bytes), Some(traced)) = (section.table(&BYTES), section.table(&TRACED)) else {
            return self.differs(page, section.at, "the table of bytes or that of recorded calls is missing");
        };
        self.check_bytes(page, section.at, bytes);
        for row in &traced.rows {
            let played = self.play_row(page, row, Check::play_recorded);
            self.expect(played.iter().all(|records| records.to_string() == row.1[0]), page, row.0, "an example adds more or less to a trace");
        }
    }

    // Every byte has a row, in order; every field is named, and changes the bytes of its row and no others.
    pub fn check_bytes(&mut self, page: &Page, at: usize, table: &Table) {
        let (mut next, mut named) = (0, vec![]);
        for (at, cells) in &table.rows {
            let (first, last) = cells[0].split_once(" to ").unwrap_or((&cells[0], &cells[0]));
            let (Ok(first), Ok(last)) = (first.parse::<usize>(), last.parse::<usize>()) else {
                return self.differs(page, *at, "the first column doesn't hold numbers of bytes");
            };
            let fields = quoted(&cells[1]);
            self.expect(first == next && fields.iter().all(|field| changed_by(field).eq(first..=last)), page, *at, "these aren't the field's bytes");
            next = last + 1;
            named.extend(fields);
        }
        self.expect(next == TRACE_SIZE && named == TRACE_FIELDS, page, at, "a byte or a field is missing");
    }

    // An example whose last step is a call or a table. Gives how many records it adds to a trace.
    pub fn play_recorded(&mut self, outcome: Outcome, text: &str) -> Result<usize, String> {
        if text.rsplit(';').next().is_some_and(|last| last.trim().starts_with("table")) {
            self.play_table_example(outcome, text)?;
        } else {
            self.play_example(outcome, text)?;
        }
        Ok(self.seen.recorded.len())
    }
}
