// The places of the picture: rows for the seeds, columns for their slices, boxes for cells and chains.

use crate::drawing::BOX;

/// From one box to the next, and from the boxes of one column to those of the next.
const PITCH: f64 = BOX + 4.0;
const GAP: f64 = 138.0;

/// The height of a row.
pub const ROW: f64 = 336.0;

/// Heights in a row, from its top: the register, what a slice is held against, the slice, and the words below it.
pub const REGISTER: f64 = 62.0;
pub const AGAINST: f64 = 154.0;
pub const SLICE: f64 = 210.0;
pub const VERDICT: f64 = 282.0;

pub const MARGIN: f64 = 60.0;

/// The words above the rows have space in this width.
const LEAST_WIDTH: f64 = 560.0;

/// How wide so many boxes are.
fn wide(boxes: usize) -> f64 {
    boxes as f64 * PITCH - (PITCH - BOX)
}

/// A picture whose columns have space for so many boxes.
#[derive(Clone, Copy)]
pub struct Layout {
    pub boxes: usize,
}

impl Layout {
    /// The middle of a column.
    pub fn middle(self, column: usize) -> f64 {
        let column = column as f64;
        MARGIN + column * (wide(self.boxes) + GAP) + wide(self.boxes) / 2.0
    }

    /// The left edge of a box among `count` in the middle of a column.
    pub fn left(self, column: usize, count: usize, number: usize) -> f64 {
        self.middle(column) - wide(count) / 2.0 + number as f64 * PITCH
    }

    /// The width of a picture of so many columns.
    pub fn width(self, columns: usize) -> f64 {
        let columns = columns as f64;
        let all = columns * (wide(self.boxes) + GAP) - GAP;
        LEAST_WIDTH.max(MARGIN + all + MARGIN)
    }
}
