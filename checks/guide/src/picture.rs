// The picture of a small sheet: how each window runs to its stop slice, the last one to the end of the slices; one row for a seed, one column for a slice.
// `guide picture examples/sheet.txt` draws docs/window.svg.

use crate::captions;
use crate::drawing::{Drawing, Look, AGREED, BOX, CELL, OPEN, PLAIN, STOP};
use crate::layout::{Layout, AGAINST, MARGIN, REGISTER, ROW, SLICE, VERDICT};
use crate::text::{bit, character};
use crate::windows::{Moment, Sheet, Window};
use std::path::Path;

/// Most cells or chains, and most slices of a window.
const WIDEST: usize = 12;
const LONGEST: usize = 8;

const TITLE: &str = "How a window runs to its stop slice, the last one to the end of the slices";

struct Picture<'a> {
    sheet: &'a Sheet,
    layout: Layout,
    drawing: Drawing,
    /// Where the first row begins.
    top: f64,
}

impl Picture<'_> {
    fn head(&mut self) {
        self.drawing.title((MARGIN, 36.0), TITLE);
        let mut y = 60.0;
        for line in captions::head(self.sheet) {
            self.drawing.words((MARGIN, y), PLAIN, &line);
            y += 19.0;
        }
        self.top = y + 4.0;
    }

    /// The register with a state.
    fn register(&mut self, column: usize, y: f64, state: u64) {
        let above = (self.layout.middle(column), y - 8.0);
        self.drawing
            .centred(above, CELL, &format!("state {state:x}"));
        for cell in 0..self.sheet.cells {
            let left = self.layout.left(column, self.sheet.cells, cell);
            self.drawing.square((left, y), CELL, bit(state, cell));
            let middle = left + BOX / 2.0;
            self.drawing
                .number((middle, y + BOX), CELL, "cell", cell, 0);
            if bit(self.sheet.taps, cell) == '1' {
                self.drawing.dot((middle, y + BOX + 23.0), CELL);
            }
        }
    }

    /// The step to a state, with what comes into cell 0.
    fn step(&mut self, column: usize, y: f64, state: u64) {
        let cells = self.sheet.cells;
        let from = self.layout.left(column - 1, cells, cells - 1) + BOX + 8.0;
        let to = self.layout.left(column, cells, 0) - 8.0;
        let (middle, y) = ((from + to) / 2.0, y + BOX / 2.0);
        self.drawing.arrow(&[(from, y), (to, y)], CELL);
        self.drawing.centred((middle, y - 8.0), CELL, "one step");
        let gets = format!("cell 0 gets {}", bit(state, 0));
        self.drawing.centred((middle, y + 20.0), CELL, &gets);
    }

    /// A slice below what it is held against; `look` is that of the positions that are specified.
    fn slice(&mut self, column: usize, row: f64, moment: &Moment, look: Look) {
        let chains = self.sheet.masks.len();
        for position in 0..chains {
            let left = self.layout.left(column, chains, position);
            let middle = left + BOX / 2.0;
            let wanted = character(moment.against, position);
            let (held, shown) = match wanted {
                'x' => (OPEN, PLAIN),
                _ => (look, look),
            };
            self.drawing.square((left, row + AGAINST), held, wanted);
            let delivered = bit(moment.slice, position);
            self.drawing.square((left, row + SLICE), shown, delivered);
            if wanted == delivered {
                let between = (AGAINST + BOX + SLICE) / 2.0;
                self.drawing.same((middle, row + between), look);
            }
            let below = (middle, row + SLICE + BOX);
            self.drawing.number(below, PLAIN, "chain", position + 1, 1);
        }
    }

    /// A column: a slice of the seed, at its place from 0.
    fn column(&mut self, row: f64, window: &Window, place: usize) {
        let moment = &window.moments[place];
        let test = format!("test slice {}", window.start + place + 1);
        let (look, held, verdict) = match place == window.delivered() {
            true => (STOP, "stop slice", "shows the stop"),
            false => (AGREED, test.as_str(), "agrees, is not the stop"),
        };
        self.register(place, row + REGISTER, moment.state);
        if place > 0 {
            self.step(place, row + REGISTER, moment.state);
        }
        self.slice(place, row, moment, look);
        let middle = self.layout.middle(place);
        for (y, words) in [
            (AGAINST - 8.0, held),
            (VERDICT, &format!("slice {place}")),
            (VERDICT + 18.0, verdict),
        ] {
            self.drawing.centred((middle, row + y), look, words);
        }
    }

    /// The way to the first state of a row, from the stop slice of the row before or, in the first row, from above.
    fn load(&mut self, row: f64, window: &Window, before: Option<&Window>) {
        let first = self.layout.middle(0);
        let end = row + REGISTER - 26.0;
        let mut way = Vec::from([(first, row), (first, end)]);
        if let Some(before) = before {
            let last = self.layout.middle(before.moments.len() - 1);
            let bottom = row - ROW + VERDICT + 28.0;
            way.splice(..0, [(last, bottom), (last, row)]);
        }
        self.drawing.arrow(&way, STOP);
        let beside = (first + 14.0, end - 8.0);
        self.drawing.words(beside, STOP, &captions::loaded(window));
    }

    fn rows(&mut self) {
        let mut row = self.top;
        let mut before = None;
        for window in &self.sheet.windows {
            self.load(row, window, before);
            for place in 0..window.moments.len() {
                self.column(row, window, place);
            }
            before = Some(window);
            row += ROW;
        }
        if let Some(window) = before {
            let place = (self.layout.middle(window.moments.len() - 1), row - 14.0);
            self.drawing
                .centred(place, STOP, "every slice is delivered");
        }
    }
}

/// The picture of a sheet.
fn of_sheet(sheet: &Sheet) -> Result<String, String> {
    let columns = sheet.windows.iter().map(|window| window.moments.len());
    let columns = columns.max().unwrap_or(0);
    let boxes = sheet.cells.max(sheet.masks.len());
    if boxes > WIDEST || columns > LONGEST + 1 {
        return Err(format!("a picture has at most {WIDEST} cells and chains, and windows of at most {LONGEST} slices"));
    }
    let layout = Layout { boxes };
    let mut picture = Picture {
        sheet,
        layout,
        drawing: Drawing::new(),
        top: 0.0,
    };
    picture.head();
    picture.rows();
    let height = picture.top + ROW * sheet.windows.len() as f64 + 10.0;
    Ok(picture.drawing.svg(layout.width(columns), height, TITLE))
}

/// The picture of the sheet in a file.
pub fn of_file(file: &Path) -> Result<String, String> {
    let sheet = std::fs::read_to_string(file);
    let sheet = sheet.map_err(|why| format!("{}: {why}", file.display()))?;
    of_sheet(&Sheet::read(&sheet)?)
}
