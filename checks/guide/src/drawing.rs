// A small writer of SVG: boxes, words, marks and arrows.

use std::fmt::Write;

/// How something looks: the colour of its line and words, the colour of its ground, and whether its line is broken.
#[derive(Clone, Copy)]
pub struct Look {
    pub line: &'static str,
    pub ground: &'static str,
    pub broken: bool,
}

const fn look(line: &'static str, ground: &'static str, broken: bool) -> Look {
    Look {
        line,
        ground,
        broken,
    }
}

pub const PLAIN: Look = look("#222222", "#ffffff", false);
pub const CELL: Look = look("#1f4f8a", "#e8f0fa", false);
pub const OPEN: Look = look("#8a8a8a", "#ffffff", true);
pub const AGREED: Look = look("#1e6b34", "#e4f3e7", false);
pub const STOP: Look = look("#a81f1a", "#fbe6e4", false);

/// The side of a box.
pub const BOX: f64 = 34.0;

pub struct Drawing {
    text: String,
}

impl Drawing {
    pub fn new() -> Drawing {
        Drawing {
            text: String::new(),
        }
    }

    fn add(&mut self, element: std::fmt::Arguments) {
        self.text.write_fmt(element).expect("a text takes more");
        self.text.push('\n');
    }

    fn write(&mut self, (x, y): (f64, f64), anchor: &str, look: Look, words: &str) {
        let colour = look.line;
        self.add(format_args!(
            "<text x=\"{x:.1}\" y=\"{y:.1}\" text-anchor=\"{anchor}\" fill=\"{colour}\">{words}</text>"
        ));
    }

    /// Words from a place on.
    pub fn words(&mut self, place: (f64, f64), look: Look, words: &str) {
        self.write(place, "start", look, words);
    }

    /// Words with a place in their middle.
    pub fn centred(&mut self, place: (f64, f64), look: Look, words: &str) {
        self.write(place, "middle", look, words);
    }

    /// The number of a box, below it; the first one has the noun in front.
    pub fn number(
        &mut self,
        (x, y): (f64, f64),
        look: Look,
        noun: &str,
        number: usize,
        first: usize,
    ) {
        let y = y + 15.0;
        self.centred((x, y), look, &number.to_string());
        if number == first {
            self.write((x - 9.0, y), "end", look, noun);
        }
    }

    /// Large words from a left end on.
    pub fn title(&mut self, (x, y): (f64, f64), words: &str) {
        let colour = PLAIN.line;
        self.add(format_args!(
            "<text x=\"{x:.1}\" y=\"{y:.1}\" font-size=\"17\" font-weight=\"bold\" fill=\"{colour}\">{words}</text>"
        ));
    }

    /// A box with a character, by its upper left corner.
    pub fn square(&mut self, (x, y): (f64, f64), look: Look, character: char) {
        let Look { line, ground, .. } = look;
        let dash = match look.broken {
            true => " stroke-dasharray=\"4 3\"",
            false => "",
        };
        self.add(format_args!(
            "<rect x=\"{x:.1}\" y=\"{y:.1}\" width=\"{BOX}\" height=\"{BOX}\" rx=\"4\" fill=\"{ground}\" stroke=\"{line}\" stroke-width=\"2\"{dash}/>"
        ));
        let (x, y) = (x + BOX / 2.0, y + BOX / 2.0 + 6.0);
        self.add(format_args!(
            "<text x=\"{x:.1}\" y=\"{y:.1}\" font-size=\"17\" font-weight=\"bold\" text-anchor=\"middle\" fill=\"{line}\">{character}</text>"
        ));
    }

    pub fn dot(&mut self, (x, y): (f64, f64), look: Look) {
        let colour = look.line;
        self.add(format_args!(
            "<circle cx=\"{x:.1}\" cy=\"{y:.1}\" r=\"3\" fill=\"{colour}\"/>"
        ));
    }

    /// Two short bars that say "the same", around a place.
    pub fn same(&mut self, (x, y): (f64, f64), look: Look) {
        let (left, right, colour) = (x - 6.0, x + 6.0, look.line);
        for y in [y - 3.0, y + 3.0] {
            self.add(format_args!(
                "<line x1=\"{left:.1}\" y1=\"{y:.1}\" x2=\"{right:.1}\" y2=\"{y:.1}\" stroke=\"{colour}\" stroke-width=\"2\"/>"
            ));
        }
    }

    /// A line through places, with a head at the last; the last part goes right or down.
    pub fn arrow(&mut self, places: &[(f64, f64)], look: Look) {
        let colour = look.line;
        let all: Vec<String> = places
            .iter()
            .map(|(x, y)| format!("{x:.1},{y:.1}"))
            .collect();
        let all = all.join(" ");
        self.add(format_args!(
            "<polyline points=\"{all}\" fill=\"none\" stroke=\"{colour}\" stroke-width=\"2\"/>"
        ));
        let [.., (from, _), (x, y)] = *places else {
            return;
        };
        let (a, b) = match from < x {
            true => ((x - 9.0, y - 5.0), (x - 9.0, y + 5.0)),
            false => ((x - 5.0, y - 9.0), (x + 5.0, y - 9.0)),
        };
        let head = [a, b, (x + 1.0, y)].map(|(x, y)| format!("{x:.1},{y:.1}"));
        let head = head.join(" ");
        self.add(format_args!(
            "<polygon points=\"{head}\" fill=\"{colour}\"/>"
        ));
    }

    /// The whole picture on a white ground; `title` is what a reader is told who can't see it.
    pub fn svg(&self, width: f64, height: f64, title: &str) -> String {
        format!(
            "<svg xmlns=\"http://www.w3.org/2000/svg\" role=\"img\" viewBox=\"0 0 {width} {height}\" width=\"{width}\" height=\"{height}\" font-family=\"sans-serif\" font-size=\"13\">\n<title>{title}</title>\n<rect width=\"{width}\" height=\"{height}\" fill=\"#ffffff\"/>\n{}</svg>\n",
            self.text
        )
    }
}
