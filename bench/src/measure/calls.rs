//! The long table, and beside it the rows of an earlier tree.

use super::markdown::{above, card, marked, nanoseconds, ratio, table};
use super::rows::Row;

/// A row is slower than before if a ratio grew by more than 3 in 100.
const SLOWER: f64 = 1.03;

/// The columns of the changes.
const CHANGES: [&str; 10] = [
    "call",
    "rows",
    "ratio, least",
    "middle",
    "most",
    "slower",
    "passes, least",
    "middle",
    "most",
    "slower",
];

/// How a row stands to the same one of an earlier tree.
struct Change {
    /// Proved / plain, now and then.
    ratios: f64,
    /// The proved store's time in passes, now and then; a pass is the same code
    /// in both trees, and the plain version is not.
    passes: f64,
}

fn change(row: &Row, before: &[Row]) -> Option<Change> {
    let old = before.iter().find(|old| old.same(row))?;
    Some(Change {
        ratios: row.ratio() / old.ratio(),
        passes: (row.proved / row.pass) / (old.proved / old.pass),
    })
}

/// Every row, the long table.
pub fn calls(rows: &[Row], before: &[Row]) -> String {
    let cells = |row: &Row| {
        let mut cells = vec![
            card(row.geometry),
            row.directory.clone(),
            row.call.clone(),
            row.number.to_string(),
            nanoseconds(row.proved),
            nanoseconds(row.plain),
            marked(row.ratio(), 1.0),
        ];
        if !before.is_empty() {
            let change = change(row, before);
            let cell = |of: fn(&Change) -> f64| {
                let ratio = change.as_ref().map(of);
                ratio.map_or(String::new(), |ratio| marked(ratio, SLOWER))
            };
            cells.extend([cell(|c| c.ratios), cell(|c| c.passes)]);
        }
        cells
    };
    let mut head = vec![
        "S, T, D",
        "directory",
        "call",
        "gives",
        "proved",
        "plain",
        "proved / plain",
    ];
    if !before.is_empty() {
        head.extend(["ratio, now / before", "passes, now / before"]);
    }
    let lines: Vec<Vec<String>> = rows.iter().map(cells).collect();
    "### Every call\n\n".to_string() + &table(3, &head, &lines)
}

/// The ratios in short: for each call the least and the most.
pub fn ratios(rows: &[Row]) -> String {
    let mut lines = Vec::new();
    for call in names(rows) {
        let own = rows.iter().filter(|row| row.call == call);
        let ratios: Vec<f64> = own.map(Row::ratio).collect();
        lines.push(short(call, &ratios, 1.0));
    }
    let head = ["call", "rows", "least", "middle", "most", "above 1.00"];
    format!(
        "### Proved / plain\n\n{}\nRatios above 1.00: {} of {}.\n",
        table(1, &head, &lines),
        rows.iter().filter(|row| above(row.ratio(), 1.0)).count(),
        rows.len()
    )
}

/// The same of the changes since an earlier tree, and the rows that are slower.
pub fn changes(rows: &[Row], before: &[Row]) -> String {
    let mut lines = Vec::new();
    let mut slower = Vec::new();
    for call in names(rows) {
        let own = rows.iter().filter(|row| row.call == call);
        let own: Vec<(&Row, Change)> = own
            .filter_map(|row| Some((row, change(row, before)?)))
            .collect();
        if own.is_empty() {
            continue;
        }
        let both = |of: fn(&Change) -> f64| own.iter().map(|(_, c)| of(c)).collect::<Vec<f64>>();
        let mut cells = short(call, &both(|c| c.ratios), SLOWER);
        cells.extend(short(String::new(), &both(|c| c.passes), SLOWER).split_off(2));
        lines.push(cells);
        slower.extend(
            own.iter()
                .filter(|(_, c)| above(c.passes, SLOWER))
                .map(told),
        );
    }
    format!(
        "### Now and before\n\n\
         Before is the tree without any request of document 02 (`bench/before.rows`), or that of the file\n\
         given, measured on the same processor. Ratio is\n\
         proved / plain, now over before. The plain version changed too, and its speed moves with every\n\
         build, so passes tell more: the proved store's time in passes over the F sectors, now over before.\n\
         A pass is the same code in both. Slower: by more than 3 in 100.\n\n{}\n{}\n{}",
        table(1, &CHANGES, &lines),
        smallest_read(rows, before),
        list_of(&slower)
    )
}

/// How often faster read is on the smallest card, which No. 6 asks for.
fn smallest_read(rows: &[Row], before: &[Row]) -> String {
    let own = rows
        .iter()
        .filter(|row| row.geometry.0 == 10 && row.call == "read");
    let faster = own.filter_map(|row| {
        let passes = change(row, before)?.passes;
        Some(format!("{:.2} times, {}", 1.0 / passes, row.directory))
    });
    let list: Vec<String> = faster.collect();
    format!(
        "Read on S = 10 is faster than before by {}.\n",
        list.join("; ")
    )
}

fn told((row, change): &(&Row, Change)) -> String {
    let (place, directory) = (card(row.geometry), &row.directory);
    let (call, passes) = (&row.call, change.passes);
    format!("- {call} on {place}, {directory}: {passes:.2}\n")
}

fn list_of(slower: &[String]) -> String {
    if slower.is_empty() {
        return "No row is slower in passes.\n".into();
    }
    format!("Slower in passes:\n\n{}", slower.concat())
}

/// The calls of some rows, each once.
fn names(rows: &[Row]) -> Vec<String> {
    let mut names: Vec<String> = Vec::new();
    for row in rows {
        if !names.contains(&row.call) {
            names.push(row.call.clone());
        }
    }
    names
}

/// How many ratios, the least, the middle one, the most, and how many are above.
fn short(name: String, ratios: &[f64], aim: f64) -> Vec<String> {
    let mut sorted = ratios.to_vec();
    sorted.sort_by(f64::total_cmp);
    let at = |i: usize| sorted.get(i).copied().unwrap_or(0.0);
    let over = sorted.iter().filter(|ratio| above(**ratio, aim)).count();
    vec![
        name,
        sorted.len().to_string(),
        ratio(at(0)),
        ratio(at(sorted.len() / 2)),
        marked(at(sorted.len().saturating_sub(1)), aim),
        over.to_string(),
    ]
}
