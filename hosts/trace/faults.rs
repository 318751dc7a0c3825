//! Records that differ: two rows above the lanes, and lines through these.
use crate::lanes::{Fault, Lanes};
use crate::scale::{Scale, LEFT};
use crate::svg::{at, block, Svg};

pub const PITCH: f64 = 14.0;

/// In more columns than this, lines through the lanes would hide them.
const MOST_LINES: usize = 50;

/// The two rows: whether their records are run, name, class of the marks and of the lines.
const ROWS: [(bool, &str, &str, &str); 2] = [(true, "differs", "differs", "line-differs"), (false, "not run", "not-run", "line-not-run")];

/// The columns with such a record, each with what a reader who points at it is told.
fn marked(lanes: &Lanes, run: bool, scale: &Scale) -> Vec<(u64, String)> {
    let mut columns: Vec<(u64, Vec<&Fault>)> = Vec::new();
    for fault in lanes.faults.iter().filter(|fault| fault.run == run) {
        let column = scale.column_of(fault.record);
        match columns.last_mut() {
            Some((last, faults)) if *last == column => faults.push(fault),
            _ => columns.push((column, vec![fault])),
        }
    }
    columns.into_iter().map(|(column, faults)| (column, title(&faults))).collect()
}

fn title(faults: &[&Fault]) -> String {
    let more = match faults.len() {
        1 => String::new(),
        several => format!("; and {} more in this column", several - 1),
    };
    format!("{}{more}", faults[0].words)
}

/// How many rows there are: one for each kind that occurs.
pub fn rows(lanes: &Lanes) -> usize {
    ROWS.iter().filter(|(run, ..)| lanes.faults.iter().any(|fault| fault.run == *run)).count()
}

/// Draws the rows below y.
pub fn draw(svg: &mut Svg, lanes: &Lanes, scale: &Scale, y: f64) {
    let mut top = y;
    for (run, name, class, _) in ROWS {
        let columns = marked(lanes, run, scale);
        if columns.is_empty() {
            continue;
        }
        svg.text("name", LEFT - 26.0, top + 9.0, name);
        for (column, title) in &columns {
            let middle = (scale.edge(*column) + scale.edge(column + 1)) / 2.0;
            if scale.dense() {
                svg.path(&format!("{class} crisp"), &block(middle - 0.5, middle + 0.5, top, top + 10.0), title);
            } else {
                symbol(svg, run, middle, top + 5.0, title);
            }
        }
        top += PITCH;
    }
}

/// A triangle that points down, or a square.
pub fn symbol(svg: &mut Svg, run: bool, x: f64, y: f64, title: &str) {
    let (left, right) = (x - 4.5, x + 4.5);
    if run {
        svg.path("differs", &format!("M{} {}H{}L{} {}z", at(left), at(y - 4.5), at(right), at(x), at(y + 4.5)), title);
    } else {
        svg.path("not-run", &block(left, right, y - 4.0, y + 4.0), title);
    }
}

/// Whether there are so few that lines are drawn.
pub fn lines_drawn(lanes: &Lanes, scale: &Scale) -> bool {
    ROWS.iter().map(|(run, ..)| marked(lanes, *run, scale).len()).sum::<usize>() <= MOST_LINES
}

/// Draws the lines from the rows, which start at `top`, to the bottom of the lanes.
pub fn draw_lines(svg: &mut Svg, lanes: &Lanes, scale: &Scale, top: f64, bottom: f64) {
    if !lines_drawn(lanes, scale) {
        return;
    }
    // A line starts under its mark, and where the marks are thin lines themselves, under both rows.
    let mut start = top + if scale.dense() { PITCH * rows(lanes) as f64 } else { PITCH };
    for (run, _, _, class) in ROWS {
        let columns = marked(lanes, run, scale);
        for (column, title) in &columns {
            let middle = (scale.edge(*column) + scale.edge(column + 1)) / 2.0;
            svg.path(class, &format!("M{} {}V{}", at(middle), at(start), at(bottom)), title);
        }
        start += if scale.dense() || columns.is_empty() { 0.0 } else { PITCH };
    }
}

#[cfg(test)]
mod tests {
    use super::*;

    fn lanes(records: impl Iterator<Item = (u64, bool)>) -> Lanes {
        let faults = records.map(|(record, run)| Fault { record, run, words: format!("record {record}") }).collect();
        Lanes { faults, ..Lanes::default() }
    }

    #[test]
    fn rows_that_occur() {
        assert_eq!(rows(&lanes([(3, true), (5, true)].into_iter())), 1);
        assert_eq!(rows(&lanes([(3, true), (5, false)].into_iter())), 2);
        assert_eq!(rows(&lanes([].into_iter())), 0);
    }

    #[test]
    fn several_in_a_column() {
        let scale = Scale { records: 100, per_column: 10, columns: 10 };
        let found = marked(&lanes([(3, true), (4, false), (5, true), (11, true)].into_iter()), true, &scale);
        assert_eq!(found, [(0, "record 3; and 1 more in this column".to_string()), (1, "record 11".to_string())]);
    }

    #[test]
    fn too_many_for_lines() {
        let scale = Scale::new(1000);
        assert!(lines_drawn(&lanes((1..=50).map(|record| (record, true))), &scale));
        assert!(!lines_drawn(&lanes((1..=51).map(|record| (record, true))), &scale));
    }
}
