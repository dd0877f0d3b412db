//! The plot of time against the number of letters, one panel a call, as an SVG.

use crate::timing::{Compared, BYTES, ENGINE, SIDES, WORDS};
use std::ops::RangeInclusive;

/// A call at each number of letters, from the first on.
pub struct Series {
    pub name: &'static str,
    pub points: Vec<Compared>,
}

const COLUMNS: usize = 3;
const PANEL_WIDTH: f64 = 250.0;
const PANEL_HEIGHT: f64 = 200.0;
const LEFT: f64 = 78.0;
const TOP: f64 = 112.0;
const RIGHT: f64 = 26.0;
const BOTTOM: f64 = 58.0;
const COLUMN_STEP: f64 = PANEL_WIDTH + 70.0;
const ROW_STEP: f64 = PANEL_HEIGHT + 62.0;

const SUBTITLE: &str =
    "best of the rounds, optimised builds, typical inputs (texts of 180 to 200 bytes)";

const STYLE: &str = "\
    .title { font-size: 19px; font-weight: bold } \
    .subtitle { font-size: 13px; fill: #555555 } \
    .panel { font-size: 14px; font-weight: bold } \
    .axis { font-size: 13px } \
    .tick { font-size: 12px; fill: #444444 }";

/// How a side is drawn: filled circles on a whole line, or open squares on a dashed one.
struct Mark {
    name: &'static str,
    colour: &'static str,
    is_dashed: bool,
}

const MARKS: [(usize, Mark); SIDES] = [
    (ENGINE, Mark { name: "engine", colour: "#0b57a4", is_dashed: false }),
    (BYTES, Mark { name: "plain Rust, bytes", colour: "#b8480b", is_dashed: true }),
    (WORDS, Mark { name: "plain Rust, words", colour: "#4a7a1c", is_dashed: true }),
];

/// Where a number of letters and a time stand in a panel.
struct Axes {
    letters: RangeInclusive<usize>,
    /// The times at the bottom and at the top, in nanoseconds.
    low: f64,
    high: f64,
}

impl Axes {
    /// With a little room below and above all times.
    fn around(letters: RangeInclusive<usize>, series: &[Series]) -> Axes {
        let points = series.iter().flat_map(|series| &series.points);
        let times: Vec<f64> = points.flat_map(|p| p.times.map(|times| times.best)).collect();
        let least = times.iter().copied().fold(f64::INFINITY, f64::min);
        let most = times.iter().copied().fold(0.0, f64::max);
        let low = steps().take_while(|step| step * 1.15 <= least).last().unwrap_or(1.0);
        let high = steps().find(|&step| step >= most * 1.15).unwrap_or(most);
        Axes { letters, low, high }
    }

    fn x(&self, letters: usize) -> f64 {
        let (first, last) = (*self.letters.start(), *self.letters.end());
        12.0 + (PANEL_WIDTH - 24.0) * (letters - first) as f64 / (last - first) as f64
    }

    fn y(&self, nanoseconds: f64) -> f64 {
        PANEL_HEIGHT * (self.high / nanoseconds).ln() / (self.high / self.low).ln()
    }
}

/// 1, 2 and 5 times each power of ten, in nanoseconds.
fn steps() -> impl Iterator<Item = f64> {
    (0..10).flat_map(|power| [1.0, 2.0, 5.0].map(|step| step * 10f64.powi(power)))
}

pub fn plot(letters: RangeInclusive<usize>, series: &[Series], machine: &str) -> String {
    let axes = Axes::around(letters, series);
    let rows = series.len().div_ceil(COLUMNS);
    let right = LEFT + (COLUMNS - 1) as f64 * COLUMN_STEP + PANEL_WIDTH;
    let bottom = TOP + (rows - 1) as f64 * ROW_STEP + PANEL_HEIGHT;
    let (width, height) = (right + RIGHT, bottom + BOTTOM);
    let mut svg = vec![
        format!(
            r##"<svg xmlns="http://www.w3.org/2000/svg" width="{width}" height="{height}" viewBox="0 0 {width} {height}" font-family="Helvetica, Arial, sans-serif" fill="#222222">"##
        ),
        format!("<style>{STYLE}</style>"),
        format!(r##"<rect width="{width}" height="{height}" fill="#ffffff"/>"##),
        text("title", "start", (LEFT, 32.0), "Time of a call against the number of letters"),
        text("subtitle", "start", (LEFT, 53.0), SUBTITLE),
        text("subtitle", "end", (right, 78.5), machine),
    ];
    for (place, (_, mark)) in MARKS.iter().enumerate() {
        svg.extend(legend(mark, LEFT + [0.0, 130.0, 320.0][place], 74.0));
    }
    for (place, series) in series.iter().enumerate() {
        let x = LEFT + (place % COLUMNS) as f64 * COLUMN_STEP;
        let y = TOP + (place / COLUMNS) as f64 * ROW_STEP;
        svg.push(format!(r#"<g transform="translate({x} {y})">"#));
        svg.extend(panel(&axes, series));
        svg.push("</g>".to_string());
    }
    svg.push(format!(r#"<g transform="translate(22 {}) rotate(-90)">"#, (TOP + bottom) / 2.0));
    svg.push(text("axis", "middle", (0.0, 0.0), "time of one call (logarithmic scale)"));
    svg.push("</g>".to_string());
    let below = ((LEFT + right) / 2.0, height - 14.0);
    svg.push(text("axis", "middle", below, "number of letters, n = U + G"));
    svg.push("</svg>\n".to_string());
    svg.join("\n")
}

fn legend(mark: &Mark, x: f64, y: f64) -> [String; 3] {
    [
        line(mark, &[(x, y), (x + 46.0, y)]),
        point(mark, (x + 23.0, y)),
        text("axis", "start", (x + 54.0, y + 4.5), mark.name),
    ]
}

fn panel(axes: &Axes, series: &Series) -> Vec<String> {
    let mut svg = vec![text("panel", "start", (0.0, -10.0), series.name)];
    svg.extend(time_axis(axes));
    svg.extend(letters_axis(axes));
    svg.push(format!(
        r##"<rect width="{PANEL_WIDTH}" height="{PANEL_HEIGHT}" fill="none" stroke="#888888"/>"##
    ));
    for (side, mark) in &MARKS {
        let points = axes.letters.clone().zip(&series.points);
        let places: Vec<_> =
            points.map(|(n, point)| (axes.x(n), axes.y(point.times[*side].best))).collect();
        svg.push(line(mark, &places));
        svg.extend(places.iter().map(|&place| point(mark, place)));
    }
    if let Some(last) = series.points.last() {
        let ratios = (last.ratios[BYTES], last.ratios[WORDS]);
        let ratio = format!("at {}: {:.2} and {:.2}", axes.letters.end(), ratios.0, ratios.1);
        svg.push(text("tick", "end", (PANEL_WIDTH - 9.0, PANEL_HEIGHT - 9.0), &ratio));
    }
    svg
}

/// A line for each step, and the powers of ten in words.
fn time_axis(axes: &Axes) -> Vec<String> {
    let mut svg = Vec::new();
    for step in steps().filter(|step| (axes.low..=axes.high).contains(step)) {
        let y = axes.y(step);
        let is_power = step.log10().fract() == 0.0;
        let colour = if is_power { "#c4c4c4" } else { "#ececec" };
        svg.push(format!(r#"<path d="M 0 {y:.1} H {PANEL_WIDTH}" stroke="{colour}"/>"#));
        if is_power {
            svg.push(text("tick", "end", (-7.0, y + 4.0), &duration(step)));
        }
    }
    svg
}

fn letters_axis(axes: &Axes) -> Vec<String> {
    let mut svg = Vec::new();
    for letters in axes.letters.clone() {
        let x = axes.x(letters);
        svg.push(format!(r##"<path d="M {x:.1} {PANEL_HEIGHT} v 5" stroke="#888888"/>"##));
        svg.push(text("tick", "middle", (x, PANEL_HEIGHT + 19.0), &letters.to_string()));
    }
    svg
}

/// In the unit that people say.
fn duration(nanoseconds: f64) -> String {
    match nanoseconds {
        ..1e3 => format!("{nanoseconds} ns"),
        ..1e6 => format!("{} µs", nanoseconds / 1e3),
        _ => format!("{} ms", nanoseconds / 1e6),
    }
}

fn text(class: &str, anchor: &str, (x, y): (f64, f64), words: &str) -> String {
    format!(r#"<text class="{class}" text-anchor="{anchor}" x="{x:.1}" y="{y:.1}">{words}</text>"#)
}

fn line(mark: &Mark, places: &[(f64, f64)]) -> String {
    let places: Vec<String> = places.iter().map(|(x, y)| format!("{x:.1},{y:.1}")).collect();
    let dashes = if mark.is_dashed { r#" stroke-dasharray="7 4""# } else { "" };
    let (places, colour) = (places.join(" "), mark.colour);
    format!(
        r#"<polyline points="{places}" fill="none" stroke="{colour}" stroke-width="2"{dashes}/>"#
    )
}

fn point(mark: &Mark, (x, y): (f64, f64)) -> String {
    let colour = mark.colour;
    if mark.is_dashed {
        let (x, y) = (x - 3.2, y - 3.2);
        format!(
            r##"<rect x="{x:.1}" y="{y:.1}" width="6.4" height="6.4" fill="#ffffff" stroke="{colour}" stroke-width="1.6"/>"##
        )
    } else {
        format!(r#"<circle cx="{x:.1}" cy="{y:.1}" r="3.6" fill="{colour}"/>"#)
    }
}
