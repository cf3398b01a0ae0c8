//! Times and stack of the proved store's calls for a host beside the plain
//! version and beside plain looks and copies, as tables and a picture.

mod bed;
mod calls;
mod copies;
mod fit;
mod goals;
mod growth;
mod machine;
mod markdown;
mod page;
mod picture;
mod rows;
mod stacks;
mod timing;
mod untested;

pub use page::{Marks, STACK, TABLES};
pub use rows::Row;
pub use stacks::{stacks, OWN};

/// The parts of the tables that can be taken alone.
pub const PARTS: [&str; 8] = [
    "fit", "free", "sync", "mount", "goal", "untested", "growth", "calls",
];

/// The tables, and the picture if its parts were asked for.
pub struct Taken {
    pub tables: String,
    pub picture: Option<String>,
}

/// Tells of what is being measured: the part, and how much of it is done.
pub type Progress<'a> = &'a dyn Fn(&str, usize, usize);

/// Measures the named parts; `before` is the rows of an earlier tree.
pub fn take(parts: &[&str], before: &[Row], progress: Progress) -> Taken {
    let asked = |part: &str| parts.contains(&part);
    let first = subjects(parts, progress);
    let (mut grown, mut own) = (Vec::new(), Vec::new());
    if asked("growth") {
        progress("growth", 0, 1);
        grown = growth::growths();
    }
    if asked("calls") {
        own = rows(progress);
    }
    let mut tables = vec![machine::told()];
    if asked("calls") {
        tables.push(calls::ratios(&own));
    }
    if asked("calls") && !before.is_empty() {
        tables.push(calls::changes(&own, before));
    }
    tables.extend(first);
    if asked("growth") {
        tables.push(growth::growth_table(&grown));
    }
    if asked("calls") {
        tables.push(calls::calls(&own, before));
    }
    let both = asked("calls") && asked("growth");
    Taken {
        tables: tables.join("\n"),
        picture: both.then(|| picture::picture(&own, &grown)),
    }
}

/// A part's name, and what measures it.
type Subject = (&'static str, fn() -> String);

/// The parts that are one table each.
fn subjects(parts: &[&str], progress: Progress) -> Vec<String> {
    let all: [Subject; 6] = [
        ("fit", fit::fits),
        ("free", fit::frees),
        ("sync", copies::syncs),
        ("mount", copies::mounts),
        ("goal", goals::goals),
        ("untested", untested::untested),
    ];
    let asked = all.iter().filter(|(name, _)| parts.contains(name));
    let taken = asked.map(|(name, table)| {
        progress(name, 0, 1);
        table()
    });
    taken.collect()
}

/// Measures the rows of the long table.
pub fn rows(progress: Progress) -> Vec<Row> {
    rows::rows(&|done, all| progress("calls", done, all))
}

/// The rows as text, one line each, under the processor's name.
pub fn rows_text(rows: &[Row]) -> String {
    rows::text(rows)
}

/// The rows of such a text, if they are of this processor.
pub fn rows_before(text: &str) -> Result<Vec<Row>, String> {
    let (processor, rows) = rows::of_text(text).ok_or("these are no rows of `measure --rows`")?;
    if processor != machine::processor() {
        return Err(format!(
            "the rows before are of another processor, {processor}"
        ));
    }
    Ok(rows)
}

/// Both sets of rows beside each other.
pub fn beside(rows: &[Row], before: &[Row]) -> String {
    calls::changes(rows, before) + "\n" + &calls::calls(rows, before)
}
