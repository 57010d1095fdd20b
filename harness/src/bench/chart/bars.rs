//! Grouped bars: how long the crate through a real call, the port and the library
//! take where the crate takes 1.

use super::scale::Scale;
use super::svg::{Anchor, Picture, CHARACTER, INK, PALE};
use crate::bench::timing::{ratio_text, Span, ROUNDS};

/// The bars of one row of a table: how many times as long as the crate.
pub struct Bars {
    pub label: String,
    pub called: Option<Span>,
    pub port: Option<Span>,
    pub rattle: Span,
}

/// Told apart by light and dark as well.
const CALLED: &str = "#c9ced6";
const PORT: &str = "#f0a840";
const RATTLE: &str = "#5b93d0";

const WIDTH: f64 = 960.0;
const MARGIN: f64 = 16.0;
const TOP: f64 = 92.0;
const BOTTOM: f64 = 56.0;
const BAR: f64 = 13.0;
const GROUP: f64 = 3.0 * BAR + 14.0;

/// Room for the number behind the longest bar.
const NUMBER: f64 = 56.0;

impl Bars {
    /// The bars that there are, each with its colour.
    fn drawn(&self) -> impl Iterator<Item = (&Span, &'static str)> + Clone {
        let called = self.called.iter().map(|span| (span, CALLED));
        let port = self.port.iter().map(|span| (span, PORT));
        called.chain(port).chain([(&self.rattle, RATTLE)])
    }
}

pub fn draw(rows: &[Bars]) -> String {
    let end = TOP + GROUP * rows.len() as f64;
    let mut picture = Picture::new(WIDTH, end + BOTTOM);
    let longest = rows.iter().map(|row| row.label.chars().count()).max();
    let left = 2.0 * MARGIN + CHARACTER * longest.unwrap_or(0) as f64;
    let scale = Scale::fitting(numbers(rows), [left, WIDTH - MARGIN - NUMBER]);
    draw_head(&mut picture);
    draw_axis(&mut picture, &scale, end);
    for (place, row) in rows.iter().enumerate() {
        draw_row(&mut picture, &scale, row, TOP + GROUP * place as f64);
    }
    let one = scale.at(1.0);
    picture.line([one, TOP - 6.0, one, end], INK, 1.5);
    picture.text([one, TOP - 10.0], Anchor::Middle, "crate = 1");
    picture.finish()
}

fn numbers(rows: &[Bars]) -> impl Iterator<Item = f64> + Clone + '_ {
    let spans = rows.iter().flat_map(Bars::drawn);
    spans.flat_map(|(span, _)| [span.least, span.most])
}

fn draw_head(picture: &mut Picture) {
    picture.title(
        [MARGIN, 28.0],
        "Time beside lexical-util with the word compiled in",
    );
    let legend = [
        (CALLED, "crate, a real call for each"),
        (PORT, "plain Rust port, word at run time"),
        (RATTLE, "Rattle, word at run time"),
    ];
    let mut x = MARGIN;
    for (colour, name) in legend {
        picture.rectangle([x, 43.0, BAR, BAR], colour);
        picture.text([x + BAR + 6.0, 54.0], Anchor::Start, name);
        x += BAR + 30.0 + CHARACTER * name.len() as f64;
    }
    let marks = format!("marks: least to most of {ROUNDS} rounds");
    picture.text([WIDTH - MARGIN, 28.0], Anchor::End, &marks);
}

fn draw_axis(picture: &mut Picture, scale: &Scale, end: f64) {
    for tick in scale.ticks() {
        let x = scale.at(tick);
        picture.line([x, TOP - 4.0, x, end], PALE, 1.0);
        picture.text([x, end + 18.0], Anchor::Middle, &format!("{tick}"));
    }
    let name = if scale.logarithmic {
        "times as long as the crate (logarithmic scale)"
    } else {
        "times as long as the crate"
    };
    picture.text([WIDTH - MARGIN, end + 42.0], Anchor::End, name);
}

fn draw_row(picture: &mut Picture, scale: &Scale, row: &Bars, top: f64) {
    let middle = top + GROUP / 2.0;
    let label = [MARGIN, middle + 4.5];
    picture.text(label, Anchor::Start, &row.label);
    let mut y = middle - BAR * row.drawn().count() as f64 / 2.0;
    for (span, colour) in row.drawn() {
        draw_bar(picture, scale, span, colour, y);
        y += BAR;
    }
}

/// From the crate's line on a logarithmic scale, which has no 0.
fn draw_bar(picture: &mut Picture, scale: &Scale, span: &Span, colour: &str, y: f64) {
    let base = scale.at(if scale.logarithmic { 1.0 } else { 0.0 });
    let [least, median, most] = [span.least, span.median, span.most].map(|x| scale.at(x));
    let left = base.min(median);
    let width = (base - median).abs();
    picture.rectangle([left, y + 0.5, width, BAR - 1.0], colour);
    let middle = y + BAR / 2.0;
    picture.line([least, middle, most, middle], INK, 1.0);
    for end in [least, most] {
        picture.line([end, middle - 3.0, end, middle + 3.0], INK, 1.0);
    }
    let number = ratio_text(span.median);
    let behind = most.max(base) + 6.0;
    picture.text([behind, middle + 4.5], Anchor::Start, &number);
}
