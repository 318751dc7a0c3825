//! Where a record stands on a picture's horizontal axis.

/// Left of the plot stand the lanes' names.
pub const LEFT: f64 = 160.0;
pub const WIDTH: f64 = 1000.0;
pub const RIGHT: f64 = LEFT + WIDTH;
/// Of the whole picture.
pub const WHOLE: f64 = RIGHT + 30.0;

/// A column must have so many units for the ends of waits to be drawn as symbols: a wait takes two records, and a symbol eight units.
const ROOM_FOR_SYMBOLS: f64 = 4.0;

/// The records of a trace in columns of equal width, each of at least one unit. Record r's column shows the state after it.
#[derive(Clone, Copy)]
pub struct Scale {
    pub records: u64,
    pub per_column: u64,
    pub columns: u64,
}

impl Scale {
    pub fn new(records: u64) -> Scale {
        let per_column = records.div_ceil(WIDTH as u64).max(1);
        Scale { records, per_column, columns: records.div_ceil(per_column).max(1) }
    }

    /// Whether a column stands for several records.
    pub fn sampled(&self) -> bool {
        self.per_column > 1
    }

    pub fn dense(&self) -> bool {
        self.column_width() < ROOM_FOR_SYMBOLS
    }

    pub fn column_width(&self) -> f64 {
        WIDTH / self.columns as f64
    }

    pub fn column_of(&self, record: u64) -> u64 {
        (record - 1) / self.per_column
    }

    /// The left edge of a column; of the one after the last, the right edge of the plot.
    pub fn edge(&self, column: u64) -> f64 {
        LEFT + WIDTH * column.min(self.columns) as f64 / self.columns as f64
    }

    /// The left edge of a record's column; of the record after the last, the right edge of the plot.
    pub fn left_of(&self, record: u64) -> f64 {
        if record > self.records {
            RIGHT
        } else {
            self.edge(self.column_of(record))
        }
    }

    pub fn middle_of(&self, record: u64) -> f64 {
        self.left_of(record) + self.column_width() / 2.0
    }

    /// The first and the last record of a column.
    pub fn records_of(&self, column: u64) -> (u64, u64) {
        (column * self.per_column + 1, ((column + 1) * self.per_column).min(self.records))
    }
}

#[cfg(test)]
mod tests {
    use super::*;

    #[test]
    fn a_column_for_each_record() {
        let scale = Scale::new(20);
        assert!(!scale.sampled() && !scale.dense());
        assert_eq!((scale.left_of(1), scale.left_of(11), scale.left_of(21)), (LEFT, LEFT + 500.0, RIGHT));
        assert_eq!(scale.records_of(19), (20, 20));
        assert!(Scale::new(1000).dense() && !Scale::new(1000).sampled());
    }

    #[test]
    fn several_records_in_a_column() {
        let scale = Scale::new(20_001);
        assert_eq!((scale.per_column, scale.columns), (21, 953));
        assert_eq!(scale.records_of(952), (19_993, 20_001));
        assert_eq!(scale.column_of(20_001), 952);
        assert!(scale.left_of(20_001) < RIGHT);
    }

    #[test]
    fn no_records() {
        let scale = Scale::new(0);
        assert_eq!((scale.columns, scale.left_of(1)), (1, RIGHT));
    }
}
