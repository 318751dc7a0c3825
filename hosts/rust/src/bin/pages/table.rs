// The section on tables of calls.
use crate::check::{Check, TABLE_CHECKS};
use crate::document::{outcome_named, E_OK, E_PAR};
use crate::kernel::{Kernel, Outcome};
use crate::notation::CallTable;
use crate::page::{Line, Page, Section};

// Document 02's table of calls: its checks in order, the most calls that it may have, the codes at the limits of its lengths (calls, then cells), and
// its functions' names.
pub const TABLE_STEPS: [(&str, &str); 2] = [("1", "E_SYS"), ("2", "E_PAR")];
pub const MOST_CALLS: usize = 64;
pub const TABLE_LENGTHS: [(Outcome, usize, usize); 4] =
    [(E_OK, 0, 0), (E_OK, MOST_CALLS, MOST_CALLS), (E_PAR, MOST_CALLS + 1, MOST_CALLS + 1), (E_PAR, 1, 0)];
pub const TABLE_IN_C: [&str; 1] = ["linguastel_table"];
pub const TABLE_IN_RUST: [&str; 1] = ["table"];

impl Check {
    // The same where the last step is a table of calls, with a comma between its lines. Gives its code, and how many calls and cells it has.
    pub fn play_table_example(&mut self, outcome: Outcome, text: &str) -> Result<(Outcome, usize, usize), String> {
        let mut kernel = self.setting.clone();
        let last = self.play_before(&mut kernel, text)?;
        let lines = last.strip_prefix("table").ok_or("the last step is no table")?;
        let table = CallTable::of(lines.split(',').filter(|_| !lines.is_empty()))?;
        table.play(&mut kernel, outcome, &mut self.seen)?;
        Ok((outcome, table.calls.len(), table.cells.len()))
    }

    // A table with this code.
    pub fn play_lines(&mut self, kernel: &mut Kernel, code: &str, lines: &[&Line]) -> Result<(), String> {
        let table = CallTable::of(lines.iter().map(|line| line.text.as_str()))?;
        table.play(kernel, outcome_named(code)?, &mut self.seen)
    }

    // The section on tables of calls.
    pub fn check_call_table(&mut self, page: &Page, section: &Section) {
        self.check_prototypes(page, section, &TABLE_IN_C.map(String::from), &TABLE_IN_RUST.map(String::from));
        self.check_kinds(page, section, &["calls", "c"]);
        let Some(checks) = section.table(&TABLE_CHECKS) else {
            return self.differs(page, section.at, "the table of checks is missing");
        };
        self.check_order(page, checks, &TABLE_STEPS, |outcome| outcome == E_OK);
        self.check_steps(page, section.at, checks, &TABLE_STEPS, |_| true);
        let shown: Vec<_> = checks.rows.iter().flat_map(|row| self.play_row(page, row, Check::play_table_example)).collect();
        for lengths in TABLE_LENGTHS.iter().filter(|lengths| !shown.contains(lengths)) {
            let (code, calls, cells) = lengths;
            self.differs(page, section.at, &format!("no example shows that {calls} calls with {cells} cells give {code}"));
        }
    }
}
