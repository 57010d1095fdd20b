//! The few shapes that a chart is made of.

use std::fmt::Write;

pub const INK: &str = "#222222";
pub const PALE: &str = "#d9d9d9";

/// What a character of the size that all labels have is reckoned to take. More
/// than fonts do, so that a label never meets what is beside it.
pub const CHARACTER: f64 = 7.4;

const SIZE: f64 = 13.0;

pub enum Anchor {
    Start,
    Middle,
    End,
}

pub struct Picture {
    width: f64,
    height: f64,
    body: String,
}

impl Picture {
    pub fn new(width: f64, height: f64) -> Self {
        Self {
            width,
            height,
            body: String::new(),
        }
    }

    pub fn rectangle(&mut self, [x, y, width, height]: [f64; 4], colour: &str) {
        self.add(format_args!(
            "<rect x='{x:.1}' y='{y:.1}' width='{width:.1}' height='{height:.1}' fill='{colour}'/>"
        ));
    }

    pub fn line(&mut self, [x1, y1, x2, y2]: [f64; 4], colour: &str, width: f64) {
        self.add(format_args!(
            "<line x1='{x1:.1}' y1='{y1:.1}' x2='{x2:.1}' y2='{y2:.1}' stroke='{colour}' stroke-width='{width}'/>"
        ));
    }

    /// A line through points, with a dot at each.
    pub fn path(&mut self, points: &[[f64; 2]], colour: &str, dashed: bool) {
        let places: Vec<String> = points
            .iter()
            .map(|[x, y]| format!("{x:.1},{y:.1}"))
            .collect();
        let dashes = if dashed { "6 4" } else { "none" };
        self.add(format_args!(
            "<polyline points='{}' fill='none' stroke='{colour}' stroke-width='2' stroke-dasharray='{dashes}'/>",
            places.join(" ")
        ));
        for [x, y] in points {
            self.add(format_args!(
                "<circle cx='{x:.1}' cy='{y:.1}' r='3' fill='{colour}'/>"
            ));
        }
    }

    pub fn text(&mut self, [x, y]: [f64; 2], anchor: Anchor, text: &str) {
        self.text_of(SIZE, "normal", [x, y], anchor, text);
    }

    pub fn title(&mut self, [x, y]: [f64; 2], text: &str) {
        self.text_of(17.0, "bold", [x, y], Anchor::Start, text);
    }

    fn text_of(&mut self, size: f64, weight: &str, [x, y]: [f64; 2], anchor: Anchor, text: &str) {
        let anchor = match anchor {
            Anchor::Start => "start",
            Anchor::Middle => "middle",
            Anchor::End => "end",
        };
        self.add(format_args!(
            "<text x='{x:.1}' y='{y:.1}' font-size='{size}' font-weight='{weight}' text-anchor='{anchor}' fill='{INK}'>{}</text>",
            escaped(text)
        ));
    }

    fn add(&mut self, shape: std::fmt::Arguments) {
        writeln!(self.body, "{shape}").expect("a string takes all text");
    }

    pub fn finish(self) -> String {
        let Self {
            width,
            height,
            body,
        } = self;
        format!(
            "<svg xmlns='http://www.w3.org/2000/svg' width='{width}' height='{height}' \
             viewBox='0 0 {width} {height}' font-family='sans-serif'>\n\
             <rect width='{width}' height='{height}' fill='#ffffff'/>\n{body}</svg>\n"
        )
    }
}

fn escaped(text: &str) -> String {
    text.replace('&', "&amp;")
        .replace('<', "&lt;")
        .replace('>', "&gt;")
}
