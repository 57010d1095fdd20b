//! Lines on two logarithmic axes: what is linear has the same slope everywhere,
//! and what is quadratic twice that.

use super::scale::Scale;
use super::svg::{Anchor, Picture, CHARACTER, INK, PALE};

pub struct Line {
    pub label: String,
    pub colour: &'static str,
    pub dashed: bool,
    /// One for each place on the lower axis.
    pub values: Vec<f64>,
}

const HEIGHT: f64 = 560.0;
const MARGIN: f64 = 16.0;
const LEFT: f64 = 84.0;
const TOP: f64 = 72.0;
const BOTTOM: f64 = HEIGHT - 60.0;
const PLOT: f64 = 460.0;

/// Between the labels of neighbouring lines.
const LABEL: f64 = 17.0;

pub fn draw(places: &[f64], lines: &[Line]) -> String {
    let right = LEFT + PLOT;
    let longest = lines.iter().map(|line| line.label.chars().count()).max();
    let width = right + 40.0 + CHARACTER * longest.unwrap_or(0) as f64 + MARGIN;
    let mut picture = Picture::new(width, HEIGHT);
    picture.title(
        [MARGIN, 28.0],
        "Time of a take to the end, by the length of the cell",
    );
    let legend = "full lines: Rattle; broken lines: the crate, word compiled in";
    picture.text([MARGIN, 50.0], Anchor::Start, legend);
    let across = Scale::logarithmic([places[0], places[places.len() - 1]], [LEFT, right]);
    let values = || lines.iter().flat_map(|line| line.values.iter().copied());
    let least = values().fold(f64::INFINITY, f64::min);
    let most = values().fold(0.0, f64::max);
    let up = Scale::logarithmic([least * 0.8, most * 1.2], [BOTTOM, TOP]);
    draw_axes(&mut picture, places, &across, &up);
    for line in lines {
        draw_line(&mut picture, places, line, &across, &up);
    }
    draw_labels(&mut picture, lines, &up, right);
    picture.finish()
}

fn draw_axes(picture: &mut Picture, places: &[f64], across: &Scale, up: &Scale) {
    for &place in places {
        let x = across.at(place);
        picture.line([x, TOP, x, BOTTOM], PALE, 1.0);
        picture.text([x, BOTTOM + 20.0], Anchor::Middle, &format!("{place}"));
    }
    let right = across.at(places[places.len() - 1]);
    for decade in up.decades() {
        let y = up.at(decade);
        picture.line([LEFT, y, right, y], PALE, 1.0);
        picture.text([LEFT - 8.0, y + 4.5], Anchor::End, &nanoseconds(decade));
    }
    let name = "bytes of the cell (both scales logarithmic)";
    picture.text([right, BOTTOM + 44.0], Anchor::End, name);
}

fn nanoseconds(number: f64) -> String {
    match number {
        1e6.. => format!("{} ms", number / 1e6),
        1e3.. => format!("{} µs", number / 1e3),
        _ => format!("{number} ns"),
    }
}

fn draw_line(picture: &mut Picture, places: &[f64], line: &Line, across: &Scale, up: &Scale) {
    let points: Vec<[f64; 2]> = places
        .iter()
        .zip(&line.values)
        .map(|(&place, &value)| [across.at(place), up.at(value)])
        .collect();
    picture.path(&points, line.colour, line.dashed);
}

/// Beside the lines' ends, from the top down, no two closer than a label is high.
fn draw_labels(picture: &mut Picture, lines: &[Line], up: &Scale, right: f64) {
    let end = |line: &Line| up.at(line.values[line.values.len() - 1]);
    let mut sorted: Vec<&Line> = lines.iter().collect();
    sorted.sort_by(|one, other| end(one).total_cmp(&end(other)));
    let mut lowest = BOTTOM - LABEL * sorted.len() as f64;
    let mut places = vec![0.0; sorted.len()];
    let mut last = f64::NEG_INFINITY;
    for (place, line) in places.iter_mut().zip(&sorted) {
        lowest += LABEL;
        *place = end(line).max(last + LABEL).min(lowest);
        last = *place;
    }
    for (place, line) in places.into_iter().zip(sorted) {
        picture.line(
            [right + 2.0, end(line), right + 28.0, place],
            line.colour,
            1.0,
        );
        picture.text([right + 34.0, place + 4.5], Anchor::Start, &line.label);
    }
    picture.line([LEFT, BOTTOM, right, BOTTOM], INK, 1.0);
}
