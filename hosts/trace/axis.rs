//! The two axes of a picture, above and below the lanes: record numbers, and the counter's values where ticks brought it to them.
use crate::lanes::Lanes;
use crate::scale::{Scale, LEFT, RIGHT};
use crate::svg::{at, width_of, Svg};

pub const HEIGHT: f64 = 32.0;

const MOST_LABELS: u64 = 20;

/// 1, 2 or 5 times a power of ten: the smallest step with which `count` values have no more labels than `MOST_LABELS`.
fn step_for(count: u64) -> u64 {
    let mut power = 1;
    loop {
        if let Some(step) = [1, 2, 5].map(|factor| factor * power).into_iter().find(|step| count / step <= MOST_LABELS) {
            return step;
        }
        power *= 10;
    }
}

/// A label: the place that it stands for, where its middle stands, and the text.
pub type Label = (f64, f64, String);

/// The middle of the label is at its place, but for a long one at the left edge, which would reach into the axis's name.
fn label(x: f64, text: String) -> Label {
    (x, x.max(LEFT - 18.0 + width_of(&text, 10.0) / 2.0), text)
}

/// The labels that don't touch the one before them.
fn apart(labels: impl Iterator<Item = Label>) -> Vec<Label> {
    let mut kept: Vec<Label> = Vec::new();
    let mut free = 0.0;
    for (x, middle, text) in labels {
        let half = width_of(&text, 10.0) / 2.0;
        if middle - half >= free {
            free = middle + half + 6.0;
            kept.push((x, middle, text));
        }
    }
    kept
}

fn record_labels(scale: &Scale) -> Vec<Label> {
    let step = step_for(scale.records);
    let numbers = (1..=scale.records).filter(|number| *number == 1 || number % step == 0);
    apart(numbers.map(|number| label(scale.middle_of(number), number.to_string())))
}

/// The counter at the start, and where a tick brought it to a multiple of a step.
pub fn counter_labels(lanes: &Lanes, scale: &Scale) -> Vec<Label> {
    let step = step_for(lanes.ticks.len() as u64);
    let reached = lanes.ticks.iter().filter(|(_, counter)| u64::from(*counter) % step == 0);
    let labels = reached.map(|(record, counter)| label(scale.left_of(*record), counter.to_string()));
    apart([label(LEFT, lanes.start.to_string())].into_iter().chain(labels))
}

/// Draws both rows of labels below y; `above` says that the lanes are below them.
pub fn draw(svg: &mut Svg, lanes: &Lanes, scale: &Scale, y: f64, above: bool) {
    let rows = [("record", record_labels(scale)), ("counter", counter_labels(lanes, scale))];
    for (place, (name, labels)) in rows.into_iter().enumerate() {
        let base = y + 11.0 + 13.0 * place as f64;
        svg.text("name", LEFT - 26.0, base, name);
        for (_, middle, text) in labels {
            svg.text("label", middle, base, &text);
        }
    }
    let edge = if above { y + HEIGHT - 3.0 } else { y };
    svg.path("edge crisp", &format!("M{} {}H{}", at(LEFT), at(edge), at(RIGHT)), "");
}

/// A line through the lanes at each labelled value of the counter.
pub fn draw_grid(svg: &mut Svg, lanes: &Lanes, scale: &Scale, top: f64, bottom: f64) {
    for (x, _, counter) in counter_labels(lanes, scale) {
        svg.path("grid", &format!("M{} {}V{}", at(x), at(top), at(bottom)), &format!("counter {counter}"));
    }
}

#[cfg(test)]
mod tests {
    use super::*;

    #[test]
    fn steps() {
        for (count, step) in [(0, 1), (20, 1), (41, 2), (42, 5), (82, 5), (20_000, 1000), (20_999, 1000), (21_000, 2000)] {
            assert_eq!(step_for(count), step, "{count}");
        }
    }

    #[test]
    fn labels_are_apart() {
        for records in [1, 20, 82, 999, 20_000, 123_456] {
            let labels = record_labels(&Scale::new(records));
            assert!((1..=MOST_LABELS as usize + 1).contains(&labels.len()), "{records}");
            for pair in labels.windows(2) {
                assert!(pair[0].1 + width_of(&pair[0].2, 10.0) / 2.0 < pair[1].1 - width_of(&pair[1].2, 10.0) / 2.0);
            }
        }
    }

    #[test]
    fn counters() {
        let lanes = Lanes { start: u32::MAX, ticks: vec![(50, 0), (100, 1)], ..Lanes::default() };
        let texts: Vec<String> = counter_labels(&lanes, &Scale::new(100)).into_iter().map(|(.., text)| text).collect();
        assert_eq!(texts, ["4294967295", "0", "1"]);
    }
}
