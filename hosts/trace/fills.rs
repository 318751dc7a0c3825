//! Lanes of data queues and mailboxes: what they hold, over the records.
use crate::lanes::{Holder, Level};
use crate::scale::{Scale, LEFT};
use crate::svg::{at, block, Svg};
use crate::words;

/// Of a lane, and of the room below it.
const HEIGHT: f64 = 30.0;
pub const PITCH: f64 = 42.0;

/// What a column's records have in common.
#[derive(Clone, Copy, PartialEq, Debug)]
struct Column {
    /// In one of its records at least.
    exists: bool,
    capacity: u32,
    least: u32,
    most: u32,
}

/// Columns next to each other that are the same: the first of them, and the first after them.
struct Run {
    start: u64,
    end: u64,
    column: Column,
}

/// The two kinds of lanes.
#[derive(Clone, Copy, PartialEq)]
pub enum Sort {
    Queue,
    Mailbox,
}

impl Sort {
    fn name(self) -> &'static str {
        match self {
            Sort::Queue => "data queue",
            Sort::Mailbox => "mailbox",
        }
    }

    /// The classes of the background, of the most and of the least that a column holds.
    fn classes(self) -> [&'static str; 3] {
        match self {
            Sort::Queue => ["capacity crisp", "words-most crisp", "words crisp"],
            Sort::Mailbox => ["exists crisp", "messages-most crisp", "messages crisp"],
        }
    }

    /// What is counted in it.
    fn item(self) -> &'static str {
        match self {
            Sort::Queue => "word",
            Sort::Mailbox => "message",
        }
    }
}

fn with(column: Option<Column>, level: &Level) -> Column {
    let new = Column { exists: level.exists, capacity: level.capacity, least: level.held, most: level.held };
    column.map_or(new, |old| Column {
        exists: old.exists || new.exists,
        capacity: old.capacity.max(new.capacity),
        least: old.least.min(new.least),
        most: old.most.max(new.most),
    })
}

fn columns(lane: &Holder, scale: &Scale) -> Vec<Column> {
    let absent = Level { record: 1, exists: false, capacity: 0, held: 0 };
    let mut columns = vec![None; scale.columns as usize];
    let starts = std::iter::once(&absent).chain(&lane.levels);
    let ends = lane.levels.iter().map(|level| level.record).chain([scale.records + 1]);
    for (level, end) in starts.zip(ends).filter(|(level, end)| level.record < *end) {
        for column in &mut columns[scale.column_of(level.record) as usize..=scale.column_of(end - 1) as usize] {
            *column = Some(with(*column, level));
        }
    }
    columns.into_iter().map(|column| column.unwrap_or(with(None, &absent))).collect()
}

fn runs(lane: &Holder, scale: &Scale) -> Vec<Run> {
    let mut runs: Vec<Run> = Vec::new();
    for (place, column) in (0..).zip(columns(lane, scale)) {
        match runs.last_mut() {
            Some(run) if run.column == column => run.end = place + 1,
            _ => runs.push(Run { start: place, end: place + 1, column }),
        }
    }
    runs
}

/// Draws a lane below y.
pub fn draw(svg: &mut Svg, sort: Sort, lane: &Holder, scale: &Scale, y: f64) {
    let runs = runs(lane, scale);
    let capacity = runs.iter().map(|run| run.column.capacity).max().unwrap_or(0);
    let most = runs.iter().map(|run| run.column.most).max().unwrap_or(0);
    let top = if sort == Sort::Queue { capacity } else { most };
    let unit = HEIGHT / f64::from(top.max(1));
    let area = |height: &dyn Fn(&Column) -> f64| areas(&runs, scale, y + HEIGHT, height);
    let [background, light, dark] = sort.classes();
    let room = |column: &Column| if sort == Sort::Queue { f64::from(column.capacity) * unit } else { HEIGHT * f64::from(u8::from(column.exists)) };
    svg.path(background, &area(&room), "");
    if scale.sampled() {
        svg.path(light, &area(&|column| f64::from(column.most) * unit), "");
    }
    svg.path(dark, &area(&|column| f64::from(column.least) * unit), "");
    svg.path("edge crisp", &baseline(&runs, scale, y + HEIGHT), "");
    if !scale.dense() {
        point_at(svg, sort, lane.number, &runs, scale, y);
    }
    let amount = words::count(most.into(), sort.item());
    write_labels(svg, y, &format!("{} {}", sort.name(), lane.number), &format!("at most {amount}"), top);
}

fn areas(runs: &[Run], scale: &Scale, base: f64, height: &dyn Fn(&Column) -> f64) -> String {
    let drawn = runs.iter().filter(|run| height(&run.column) > 0.0);
    drawn.map(|run| block(scale.edge(run.start), scale.edge(run.end), base - height(&run.column), base)).collect()
}

/// A line where the object exists: a data queue of capacity 0 has nothing else to show.
fn baseline(runs: &[Run], scale: &Scale, base: f64) -> String {
    let drawn = runs.iter().filter(|run| run.column.exists);
    drawn.map(|run| format!("M{} {}H{}", at(scale.edge(run.start)), at(base), at(scale.edge(run.end)))).collect()
}

/// A title for each run, in a picture with a column for each record.
fn point_at(svg: &mut Svg, sort: Sort, number: usize, runs: &[Run], scale: &Scale, y: f64) {
    for run in runs.iter().filter(|run| run.column.exists) {
        let (left, right) = (scale.edge(run.start), scale.edge(run.end));
        let held = words::count(run.column.most.into(), sort.item());
        let room = if sort == Sort::Queue { format!(", capacity {}", run.column.capacity) } else { String::new() };
        let title = format!("{} {number}: {held}{room}, after records {} to {}", sort.name(), run.start + 1, run.end);
        svg.rect("pointed", (left, y), (right - left, HEIGHT), &title);
    }
}

fn write_labels(svg: &mut Svg, y: f64, name: &str, note: &str, top: u32) {
    svg.text("name", LEFT - 26.0, y + 13.0, name);
    svg.text("small", LEFT - 26.0, y + 26.0, note);
    if top > 0 {
        svg.text("small", LEFT - 5.0, y + 7.0, &top.to_string());
    }
    svg.text("small", LEFT - 5.0, y + HEIGHT + 1.0, "0");
}

#[cfg(test)]
mod tests {
    use super::*;

    fn lane() -> Holder {
        let level = |record, exists, held| Level { record, exists, capacity: if exists { 4 } else { 0 }, held };
        Holder { number: 1, levels: vec![level(2, true, 0), level(3, true, 1), level(5, true, 4), level(6, false, 0)], used: true }
    }

    #[test]
    fn a_column_for_each_record() {
        let found: Vec<(bool, u32, u32)> = columns(&lane(), &Scale::new(7)).iter().map(|column| (column.exists, column.least, column.most)).collect();
        assert_eq!(found, [(false, 0, 0), (true, 0, 0), (true, 1, 1), (true, 1, 1), (true, 4, 4), (false, 0, 0), (false, 0, 0)]);
        let spans: Vec<(u64, u64)> = runs(&lane(), &Scale::new(7)).iter().map(|run| (run.start, run.end)).collect();
        assert_eq!(spans, [(0, 1), (1, 2), (2, 4), (4, 5), (5, 7)]);
    }

    #[test]
    fn least_and_most_of_a_column() {
        let scale = Scale { records: 7, per_column: 3, columns: 3 };
        let found: Vec<(bool, u32, u32)> = columns(&lane(), &scale).iter().map(|column| (column.exists, column.least, column.most)).collect();
        assert_eq!(found, [(true, 0, 1), (true, 0, 4), (false, 0, 0)]);
    }
}
