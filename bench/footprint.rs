//! The stated figures: bench/footprint.txt, whose tables docs/FIGURES.md has too. A row has a name and numbers, and behind them words.
const TEXT: &str = include_str!("footprint.txt");

/// Cells of a row of the table of calls: bytes of stack, bytes copied, instructions.
pub const STACK: usize = 0;
pub const COPIED: usize = 1;
pub const INSTRUCTIONS: usize = 2;

/// Rows that have no call's name.
pub const UNKNOWN_NUMBER: &str = "a number above 23";
pub const NOT_SOUND: &str = "any call, the record not sound";
pub const IN_TABLE: &str = "a table of 64, for each call";
pub const IN_BLOCK: &str = "a block that ends one record";
pub const REPLAY_END: &str = "the end of a replay";
pub const TASK_SETS: &str = "which tasks wait, which are runnable";

/// The name of a call's row.
pub fn row_of(call: &str) -> String {
    format!("`{call}`")
}

fn number(cell: &str) -> Option<u64> {
    cell.replace(',', "").parse().ok()
}

/// A number of the row with this name.
pub fn stated(name: &str, cell: usize) -> Result<u64, String> {
    let cells = TEXT.lines().map(|line| line.split('|').map(str::trim).skip(1).collect::<Vec<_>>());
    let row = cells.into_iter().find(|cells| cells.first() == Some(&name)).ok_or_else(|| format!("bench/footprint.txt has no row '{name}'"))?;
    row.get(cell + 1).and_then(|cell| number(cell)).ok_or_else(|| format!("bench/footprint.txt, row '{name}': cell {cell} is no number"))
}
