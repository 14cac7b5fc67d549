// A small writer of SVG plots: lines over a linear or logarithmic x axis and a logarithmic y axis, with a legend.

use std::fmt::Write;

const WIDTH: f64 = 860.0;
const HEIGHT: f64 = 460.0;
const LEFT: f64 = 84.0;
const RIGHT: f64 = 256.0;
const TOP: f64 = 64.0;
const BOTTOM: f64 = 60.0;

/// What the y axis of most plots is.
pub const SECONDS: &str = "CPU seconds of one call";

/// A point; one that was stopped at the limit is drawn hollow.
#[derive(Clone, Copy)]
pub struct Point {
    pub x: f64,
    pub y: f64,
    pub stopped: bool,
}

pub struct Series {
    pub name: String,
    pub colour: &'static str,
    /// Drawn with a broken line.
    pub dashed: bool,
    /// Points that follow one another; no line is drawn from one run to the next, since places between them were left out.
    pub runs: Vec<Vec<Point>>,
}

impl Series {
    fn points(&self) -> impl Iterator<Item = &Point> {
        self.runs.iter().flatten()
    }
}

pub struct Plot {
    /// What was run.
    pub title: String,
    /// The second line of the title.
    pub more: String,
    pub x_label: &'static str,
    pub y_label: &'static str,
    pub ticks: Vec<f64>,
    pub logarithmic: bool,
    pub series: Vec<Series>,
}

/// The place of a number between the ends of an axis, from 0 to 1.
fn part(value: f64, low: f64, high: f64) -> f64 {
    if high > low {
        (value - low) / (high - low)
    } else {
        0.5
    }
}

/// A line of text at a place; `more` holds further attributes.
fn words(to: &mut String, x: f64, y: f64, more: &str, text: &str) {
    writeln!(to, "<text x=\"{x:.1}\" y=\"{y:.1}\" {more}>{text}</text>")
        .expect("a text takes more");
}

fn line(to: &mut String, from: (f64, f64), end: (f64, f64), more: &str) {
    let ((a, b), (c, d)) = (from, end);
    writeln!(
        to,
        "<line x1=\"{a:.1}\" y1=\"{b:.1}\" x2=\"{c:.1}\" y2=\"{d:.1}\" {more}/>"
    )
    .expect("a text takes more");
}

impl Plot {
    fn points(&self) -> impl Iterator<Item = &Point> {
        self.series.iter().flat_map(Series::points)
    }

    /// The powers of ten at both ends of the y axis.
    fn powers(&self) -> (i32, i32) {
        let powers = || self.points().map(|point| point.y.log10());
        let low = powers().fold(f64::INFINITY, f64::min);
        let high = powers().fold(f64::NEG_INFINITY, f64::max);
        if low > high {
            return (-3, 0);
        }
        (
            low.floor() as i32,
            (high.ceil() as i32).max(low.floor() as i32 + 1),
        )
    }

    fn x(&self, value: f64) -> f64 {
        let scaled = |value: f64| if self.logarithmic { value.ln() } else { value };
        let low = self.ticks.first().map_or(0.0, |&tick| scaled(tick));
        let high = self.ticks.last().map_or(1.0, |&tick| scaled(tick));
        LEFT + 16.0 + (WIDTH - LEFT - RIGHT - 32.0) * part(scaled(value), low, high)
    }

    fn y(&self, value: f64) -> f64 {
        let (low, high) = self.powers();
        let part = part(value.log10(), low.into(), high.into());
        HEIGHT - BOTTOM - (HEIGHT - TOP - BOTTOM) * part
    }

    fn axes(&self, to: &mut String) {
        let (bottom, right) = (HEIGHT - BOTTOM, WIDTH - RIGHT);
        let (low, high) = self.powers();
        for power in low..=high {
            let y = self.y(10f64.powi(power));
            line(to, (LEFT, y), (right, y), "stroke=\"#ddd\"");
            let label = match power {
                -3..=3 => format!("{}", 10f64.powi(power)),
                _ => format!("1e{power}"),
            };
            words(to, LEFT - 8.0, y + 4.0, "text-anchor=\"end\"", &label);
        }
        for &tick in &self.ticks {
            let x = self.x(tick);
            line(to, (x, bottom), (x, bottom + 5.0), "stroke=\"#333\"");
            words(
                to,
                x,
                bottom + 20.0,
                "text-anchor=\"middle\"",
                &tick.to_string(),
            );
        }
        line(to, (LEFT, bottom), (right, bottom), "stroke=\"#333\"");
        line(to, (LEFT, TOP), (LEFT, bottom), "stroke=\"#333\"");
        let middle = (LEFT + right) / 2.0;
        words(
            to,
            middle,
            HEIGHT - 16.0,
            "text-anchor=\"middle\"",
            self.x_label,
        );
        let (x, y) = (22.0, (TOP + bottom) / 2.0);
        let turned = format!("text-anchor=\"middle\" transform=\"rotate(-90 {x} {y})\"");
        words(to, x, y, &turned, self.y_label);
    }

    fn run(&self, to: &mut String, run: &[Point], stroke: &str) {
        let places: Vec<String> = run
            .iter()
            .map(|point| format!("{:.1},{:.1}", self.x(point.x), self.y(point.y)))
            .collect();
        writeln!(
            to,
            "<polyline points=\"{}\" fill=\"none\" {stroke}/>",
            places.join(" ")
        )
        .expect("a text takes more");
    }

    fn curve(&self, to: &mut String, series: &Series) {
        for run in &series.runs {
            self.run(to, run, &stroke(series));
        }
        let colour = series.colour;
        for point in series.points() {
            let fill = if point.stopped { "white" } else { colour };
            writeln!(
                to,
                "<circle cx=\"{:.1}\" cy=\"{:.1}\" r=\"4\" fill=\"{fill}\" stroke=\"{colour}\"/>",
                self.x(point.x),
                self.y(point.y)
            )
            .expect("a text takes more");
        }
    }

    fn legend(&self, to: &mut String) {
        let left = WIDTH - RIGHT + 16.0;
        let mut y = TOP + 10.0;
        for series in &self.series {
            line(to, (left, y - 4.0), (left + 28.0, y - 4.0), &stroke(series));
            words(to, left + 36.0, y, "", &series.name);
            y += 20.0;
        }
        if self.points().any(|point| point.stopped) {
            words(to, left, y + 8.0, "", "hollow: stopped there");
        }
    }

    pub fn svg(&self) -> String {
        let mut text = format!(
            "<svg xmlns=\"http://www.w3.org/2000/svg\" viewBox=\"0 0 {WIDTH} {HEIGHT}\" width=\"{WIDTH}\" height=\"{HEIGHT}\" font-family=\"sans-serif\" font-size=\"13\">\n<rect width=\"{WIDTH}\" height=\"{HEIGHT}\" fill=\"white\"/>\n"
        );
        words(&mut text, LEFT, 26.0, "font-size=\"15\"", &self.title);
        words(&mut text, LEFT, 46.0, "fill=\"#555\"", &self.more);
        self.axes(&mut text);
        // The first of the legend is drawn last, so that no other hides it.
        for series in self.series.iter().rev() {
            self.curve(&mut text, series);
        }
        self.legend(&mut text);
        text.push_str("</svg>\n");
        text
    }
}

/// The attributes of a curve's lines.
fn stroke(series: &Series) -> String {
    let dash = if series.dashed {
        "stroke-dasharray=\"6 4\""
    } else {
        ""
    };
    format!("stroke=\"{}\" stroke-width=\"2\" {dash}", series.colour)
}
