//! Tables as text.

use super::bed::Geometry;

/// A table whose first columns are words and whose others are numbers.
pub fn table(words: usize, head: &[&str], rows: &[Vec<String>]) -> String {
    let line = |cells: &[String]| format!("| {} |\n", cells.join(" | "));
    let head: Vec<String> = head.iter().map(|cell| cell.to_string()).collect();
    let rule = (0..head.len()).map(|i| if i < words { "---|" } else { "--:|" });
    let body: String = rows.iter().map(|row| line(row)).collect();
    format!("{}|{}\n{body}", line(&head), rule.collect::<String>())
}

/// S, T and D in one cell.
pub fn card((s, t, d): Geometry) -> String {
    format!("{}, {t}, {d}", grouped(s))
}

/// A time.
pub fn nanoseconds(time: f64) -> String {
    format!("{time:.0}")
}

/// A ratio.
pub fn ratio(ratio: f64) -> String {
    format!("{ratio:.2}")
}

/// A ratio, in bold where it is above its aim.
pub fn marked(ratio: f64, aim: f64) -> String {
    if above(ratio, aim) {
        format!("**{ratio:.2}**")
    } else {
        format!("{ratio:.2}")
    }
}

/// Whether a ratio of two figures behind the point is above its aim.
pub fn above(ratio: f64, aim: f64) -> bool {
    ratio >= aim + 0.005
}

/// The least and the most of some ratios, and how many are above their aim.
pub fn range(name: &str, ratios: &[f64], aim: f64) -> String {
    let least = ratios.iter().copied().fold(f64::INFINITY, f64::min);
    let most = ratios.iter().copied().fold(0.0, f64::max);
    let over = ratios.iter().filter(|ratio| above(**ratio, aim)).count();
    let count = ratios.len();
    format!("{name}: {least:.2} to {most:.2}, above {aim} in {over} of {count} rows.\n")
}

/// A number with a comma before its last three digits, if it has more.
pub fn grouped(number: u32) -> String {
    match number / 1_000 {
        0 => number.to_string(),
        thousands => format!("{thousands},{:03}", number % 1_000),
    }
}
