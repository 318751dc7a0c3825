//! Lanes of tasks: their waits as bars, and how these ended.
use crate::lanes::{Bar, TaskLane};
use crate::scale::{Scale, LEFT};
use crate::state::Kind;
use crate::svg::{at, block, width_of, Svg};
use linguastel::{E_DLT, E_RLWAI, E_TMOUT};

/// Of a bar, and of a row of ends under it in a dense picture.
const HEIGHT: f64 = 12.0;
const ROW: f64 = 4.0;

pub fn pitch(scale: &Scale) -> f64 {
    if scale.dense() {
        HEIGHT + 3.0 * ROW + 6.0
    } else {
        HEIGHT + 10.0
    }
}

// ── Ends ──

/// The ends of waits that are marked: all but E_OK.
#[derive(Clone, Copy, PartialEq, Debug)]
pub enum End {
    TimeOut,
    Release,
    Delete,
}

pub const ENDS: [End; 3] = [End::TimeOut, End::Release, End::Delete];

impl End {
    fn of(code: i32) -> Option<End> {
        match code {
            E_TMOUT => Some(End::TimeOut),
            E_RLWAI => Some(End::Release),
            E_DLT => Some(End::Delete),
            _ => None,
        }
    }

    pub fn row_class(self) -> &'static str {
        match self {
            End::TimeOut => "row-time-out crisp",
            End::Release => "row-release crisp",
            End::Delete => "row-delete crisp",
        }
    }

    /// Told apart by shape: a ring, a triangle, a cross.
    pub fn symbol(self, svg: &mut Svg, x: f64, y: f64, title: &str) {
        let (left, right, top, bottom) = (at(x - 4.5), at(x + 4.5), at(y - 4.5), at(y + 4.5));
        match self {
            End::TimeOut => svg.circle("time-out", (x, y), 4.0, title),
            End::Release => svg.path("release", &format!("M{left} {bottom}H{right}L{} {top}z", at(x)), title),
            End::Delete => {
                let cross = format!("M{left} {top}L{right} {bottom}M{left} {bottom}L{right} {top}");
                svg.path("halo", &cross, "");
                svg.path("delete", &cross, title);
            }
        }
    }
}

/// The end of a wait that is to be marked, with the record that ended it.
fn marked(bar: &Bar) -> Option<(u64, End)> {
    bar.ended.and_then(|(record, ended)| End::of(ended.code).map(|end| (record, end)))
}

/// Whether some wait ended so.
pub fn occurs(tasks: &[TaskLane], end: End) -> bool {
    tasks.iter().flat_map(|lane| &lane.bars).any(|bar| marked(bar).is_some_and(|(_, found)| found == end))
}

// ── A lane ──

/// The classes of bars, by what is waited for. Where a column stands for several records, an outline would hide the column beside it.
pub fn classes(scale: &Scale) -> [&'static str; 3] {
    if scale.sampled() {
        ["sending-columns crisp", "receiving-columns crisp", "at-mailbox-columns crisp"]
    } else {
        ["sending", "receiving", "at-mailbox"]
    }
}

pub fn kind_of(bar: &Bar) -> usize {
    match bar.wait.kind {
        Kind::Sending(_) => 0,
        Kind::Receiving => 1,
        Kind::AtMailbox => 2,
    }
}

/// Draws a lane below y.
pub fn draw(svg: &mut Svg, lane: &TaskLane, scale: &Scale, y: f64) {
    svg.text("name", LEFT - 26.0, y + 10.0, &format!("task {}", lane.number));
    if scale.sampled() {
        draw_columns(svg, lane, scale, y);
    } else {
        lane.bars.iter().for_each(|bar| draw_bar(svg, lane.number, bar, scale, y));
    }
    if scale.dense() {
        draw_rows(svg, lane, scale, y);
        return;
    }
    for bar in &lane.bars {
        if let Some((record, end)) = marked(bar) {
            end.symbol(svg, scale.left_of(record), y + HEIGHT / 2.0, &bar_in_words(lane.number, bar));
        }
    }
}

fn bar_in_words(task: usize, bar: &Bar) -> String {
    let how = match &bar.ended {
        Some((record, ended)) => format!("ended by record {record} with {}", ended.how()),
        None => "not ended in this trace".to_string(),
    };
    format!("task {task} waits {} from record {} on, {how}", bar.wait, bar.first)
}

fn draw_bar(svg: &mut Svg, task: usize, bar: &Bar, scale: &Scale, y: f64) {
    let left = scale.left_of(bar.first);
    let right = scale.left_of(bar.ended.map_or(scale.records + 1, |(record, _)| record));
    let kind = kind_of(bar);
    svg.rect(classes(scale)[kind], (left, y), (right - left, HEIGHT), &bar_in_words(task, bar));
    // Not under the symbol of the end, and not on stripes.
    let room = right - left - 12.0;
    let texts = [bar.wait.to_string(), bar.wait.place()];
    if let Some(text) = texts.iter().find(|text| kind != 2 && width_of(text, 9.0) < room) {
        svg.text(if kind == 0 { "inside-dark" } else { "inside" }, left + 4.0, y + 9.0, text);
    }
}

/// In a dense picture: a row under the bar for each way to end, with a mark in the column of the record that ended the wait.
fn draw_rows(svg: &mut Svg, lane: &TaskLane, scale: &Scale, y: f64) {
    for (place, end) in ENDS.into_iter().enumerate() {
        let top = y + HEIGHT + 1.0 + ROW * place as f64;
        let mut columns: Vec<u64> =
            lane.bars.iter().filter_map(marked).filter(|(_, found)| *found == end).map(|(record, _)| scale.column_of(record)).collect();
        columns.dedup();
        let marks: String =
            columns.iter().map(|column| block(scale.edge(*column), scale.edge(column + 1).max(scale.edge(*column) + 1.0), top, top + ROW)).collect();
        svg.path(end.row_class(), &marks, "");
    }
}

// ── Several records in a column ──

/// In how many records of each column the task waits, by what is waited for.
fn waited(lane: &TaskLane, scale: &Scale) -> Vec<[u64; 3]> {
    let mut columns = vec![[0; 3]; scale.columns as usize];
    for bar in &lane.bars {
        let end = bar.ended.map_or(scale.records + 1, |(record, _)| record);
        for column in scale.column_of(bar.first)..=scale.column_of(end - 1) {
            let (first, last) = scale.records_of(column);
            columns[column as usize][kind_of(bar)] += last.min(end - 1) + 1 - first.max(bar.first);
        }
    }
    columns
}

/// A bar is half as high where the task waits in some of a column's records only. Its kind is the one of most of these.
fn draw_columns(svg: &mut Svg, lane: &TaskLane, scale: &Scale, y: f64) {
    let mut paths = [const { String::new() }; 3];
    let mut runs: Vec<(usize, bool, u64, u64)> = Vec::new();
    for (column, counts) in (0..).zip(waited(lane, scale)) {
        let (first, last) = scale.records_of(column);
        let (kind, most) = (0..3).map(|kind| (kind, counts[kind])).fold((0, 0), |best, next| if next.1 > best.1 { next } else { best });
        let whole = counts.iter().sum::<u64>() == last + 1 - first;
        match runs.last_mut() {
            Some(run) if most > 0 && (run.0, run.1, run.3) == (kind, whole, column) => run.3 = column + 1,
            _ if most > 0 => runs.push((kind, whole, column, column + 1)),
            _ => (),
        }
    }
    for (kind, whole, start, end) in runs {
        let top = if whole { y } else { y + HEIGHT / 2.0 };
        paths[kind].push_str(&block(scale.edge(start), scale.edge(end), top, y + HEIGHT));
    }
    for (class, path) in classes(scale).into_iter().zip(&paths) {
        svg.path(class, path, "");
    }
}

#[cfg(test)]
mod tests {
    use super::*;
    use crate::state::{Ended, Wait};

    fn lane() -> TaskLane {
        let wait = |kind| Wait { kind, object: 1, end: None };
        let bar = |first, last, kind, code| {
            let ended = Ended { task: 7, wait: wait(kind), code, word: 0 };
            Bar { first, wait: wait(kind), ended: Some((last, ended)) }
        };
        let open = Bar { first: 8, wait: wait(Kind::AtMailbox), ended: None };
        let bars = vec![bar(1, 4, Kind::Sending(9), E_TMOUT), bar(5, 7, Kind::Receiving, 0), open];
        TaskLane { number: 7, defined: true, bars }
    }

    #[test]
    fn records_of_waits_by_column() {
        let scale = Scale { records: 10, per_column: 4, columns: 3 };
        assert_eq!(waited(&lane(), &scale), [[3, 0, 0], [0, 2, 1], [0, 0, 2]]);
    }

    #[test]
    fn bars_with_titles_and_marks() {
        let mut svg = Svg::default();
        draw(&mut svg, &lane(), &Scale::new(10), 0.0);
        assert!(svg.text.contains("task 7 waits to send word 9 to data queue 1 from record 1 on, ended by record 4 with E_TMOUT, word 9 withdrawn"));
        assert!(svg.text.contains("task 7 waits at mailbox 1 from record 8 on, not ended in this trace"));
        assert_eq!(svg.text.matches("class=\"time-out\"").count(), 1);
        assert!(occurs(&[lane()], End::TimeOut) && !occurs(&[lane()], End::Release) && !occurs(&[lane()], End::Delete));
    }

    #[test]
    fn ends_in_rows() {
        let mut svg = Svg::default();
        draw(&mut svg, &lane(), &Scale::new(20_000), 0.0);
        assert_eq!(svg.text.matches("class=\"row-time-out crisp\"").count(), 1);
        assert!(!svg.text.contains("class=\"time-out\""));
    }
}
