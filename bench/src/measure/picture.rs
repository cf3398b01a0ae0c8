//! The ratios and the growth as a picture.

use super::bed::Directory;
use super::growth::Grown;
use super::rows::Row;
use std::fmt::Write;

const WIDTH: f64 = 860.0;
const HEIGHT: f64 = 380.0;
const TOP: f64 = 52.0;
const BOTTOM: f64 = 336.0;
/// The cards' colours by S, and the lines' of the growth.
const CARDS: [(u32, &str); 4] = [
    (10, "#9aa5b1"),
    (256, "#56a0d3"),
    (4_096, "#1f5f99"),
    (65_536, "#d1495b"),
];
const LINES: [(&str, &str); 8] = [
    ("one compare", "#9aa5b1"),
    ("one pass", "#9aa5b1"),
    ("mount", "#d1495b"),
    ("sync", "#1f5f99"),
    ("list", "#8e6bbf"),
    ("free", "#2a9d8f"),
    ("put 1", "#e08e2b"),
    ("fit", "#333333"),
];

/// The picture as text.
pub fn picture(rows: &[Row], grown: &[Grown]) -> String {
    let mut text = format!(
        "<svg xmlns=\"http://www.w3.org/2000/svg\" viewBox=\"0 0 {WIDTH} {HEIGHT}\" \
         font-family=\"sans-serif\" font-size=\"11\">\n\
         <rect width=\"{WIDTH}\" height=\"{HEIGHT}\" fill=\"#ffffff\"/>\n"
    );
    ratios(&mut text, rows);
    growth(&mut text, grown);
    text + "</svg>\n"
}

/// One axis with a scale by powers: two values and where they stand.
struct Scale {
    from: (f64, f64),
    to: (f64, f64),
}

impl Scale {
    fn at(&self, value: f64) -> f64 {
        let (low, high) = (self.from.0.ln(), self.to.0.ln());
        let part = (value.ln() - low) / (high - low);
        self.from.1 + part.clamp(0.0, 1.0) * (self.to.1 - self.from.1)
    }
}

fn label(text: &mut String, (x, y): (f64, f64), anchor: &str, fill: &str, words: &str) {
    let _ = writeln!(
        text,
        "<text x=\"{x:.1}\" y=\"{y:.1}\" text-anchor=\"{anchor}\" fill=\"{fill}\">{words}</text>"
    );
}

fn line(text: &mut String, (x, y): (f64, f64), (to_x, to_y): (f64, f64), style: &str) {
    let _ = writeln!(
        text,
        "<line x1=\"{x:.1}\" y1=\"{y:.1}\" x2=\"{to_x:.1}\" y2=\"{to_y:.1}\" {style}/>"
    );
}

fn dot(text: &mut String, (x, y): (f64, f64), colour: &str) {
    let _ = writeln!(
        text,
        "<circle cx=\"{x:.1}\" cy=\"{y:.1}\" r=\"3\" fill=\"{colour}\" fill-opacity=\"0.7\"/>"
    );
}

const GREY: &str = "stroke=\"#d9dee3\"";
const BLACK: &str = "stroke=\"#111\"";
/// The cards of the growth.
const SECTORS: [f64; 3] = [256.0, 4_096.0, 65_536.0];

/// A dot for each row, a line of dots for each call.
fn ratios(text: &mut String, rows: &[Row]) {
    let all = rows.iter().map(Row::ratio);
    let x = Scale {
        from: (all.clone().fold(0.5, f64::min), 168.0),
        to: (all.fold(2.0, f64::max), 430.0),
    };
    ratio_axis(text, &x);
    let mut calls: Vec<&str> = Vec::new();
    for row in rows {
        if !calls.contains(&row.call.as_str()) {
            calls.push(&row.call);
        }
    }
    let step = (BOTTOM - TOP) / calls.len().max(1) as f64;
    for (i, call) in calls.iter().enumerate() {
        let y = TOP + step * (i as f64 + 0.5);
        label(text, (160.0, y + 4.0), "end", "#333", call);
        for row in rows.iter().filter(|row| row.call == *call) {
            let colour = CARDS.iter().find(|(s, _)| *s == row.geometry.0);
            let colour = colour.map_or("#333", |(_, colour)| colour);
            dot(text, (x.at(row.ratio()), y), colour);
        }
    }
}

/// The head of the ratios, their scale, and what the colours mean.
fn ratio_axis(text: &mut String, x: &Scale) {
    let head = "proved / plain, a dot for each row of the table";
    label(text, (20.0, 20.0), "start", "#111", head);
    for value in [0.01, 0.03, 0.1, 0.3, 1.0, 3.0, 10.0] {
        if !(x.from.0..=x.to.0).contains(&value) {
            continue;
        }
        let style = if value == 1.0 { BLACK } else { GREY };
        line(text, (x.at(value), TOP), (x.at(value), BOTTOM), style);
        let words = value.to_string();
        label(text, (x.at(value), BOTTOM + 16.0), "middle", "#555", &words);
    }
    for (i, (s, colour)) in CARDS.iter().enumerate() {
        let at = 168.0 + 72.0 * i as f64;
        dot(text, (at, 36.0), colour);
        label(text, (at + 7.0, 40.0), "start", "#333", &format!("S = {s}"));
    }
}

/// A line for each call over the three cards, with a full directory.
fn growth(text: &mut String, grown: &[Grown]) {
    let x = Scale {
        from: (256.0, 520.0),
        to: (65_536.0, 720.0),
    };
    let y = Scale {
        from: (100.0, BOTTOM),
        to: (1e8, TOP),
    };
    growth_axes(text, &x, &y);
    let mut ends = Vec::new();
    for (what, colour) in LINES {
        let same = |one: &&Grown| one.what == what && one.directory == Directory::Full;
        let Some(one) = grown.iter().find(same) else {
            continue;
        };
        let [a, b, c] = one.times.map(|time| y.at(time));
        let [at_a, at_b, at_c] = SECTORS.map(|s| x.at(s));
        let _ = writeln!(
            text,
            "<polyline points=\"{at_a:.1},{a:.1} {at_b:.1},{b:.1} {at_c:.1},{c:.1}\" fill=\"none\" \
             stroke=\"{colour}\" stroke-width=\"1.8\"/>"
        );
        ends.push((c, what, colour));
    }
    names_apart(text, ends);
}

/// The head of the growth, its times and its cards.
fn growth_axes(text: &mut String, x: &Scale, y: &Scale) {
    let head = "time of a call as the card grows, full directory";
    label(text, (470.0, 20.0), "start", "#111", head);
    let times = [
        (1e2, "100 ns"),
        (1e3, "1 us"),
        (1e4, "10 us"),
        (1e5, "100 us"),
        (1e6, "1 ms"),
        (1e7, "10 ms"),
        (1e8, "100 ms"),
    ];
    for (value, words) in times {
        line(text, (520.0, y.at(value)), (720.0, y.at(value)), GREY);
        label(text, (514.0, y.at(value) + 4.0), "end", "#555", words);
    }
    for s in SECTORS {
        line(text, (x.at(s), TOP), (x.at(s), BOTTOM), GREY);
        let words = format!("S = {s}");
        label(text, (x.at(s), BOTTOM + 16.0), "middle", "#555", &words);
    }
}

/// The lines' names at their ends, none on another.
fn names_apart(text: &mut String, mut ends: Vec<(f64, &str, &str)>) {
    ends.sort_by(|a, b| b.0.total_cmp(&a.0));
    let mut lowest = BOTTOM + 14.0;
    for (y, what, colour) in ends {
        lowest = y.min(lowest - 13.0);
        label(text, (727.0, lowest + 4.0), "start", colour, what);
    }
}
