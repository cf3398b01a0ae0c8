//! The rows of the long table, and the same as lines of text, so that those of
//! an earlier tree can stand beside them.

use super::bed::{Bed, Call, Directory, Geometry, CALLS, CARDS, MANY_FILES};
use super::machine::processor;
use super::timing::{race, Lane};
use std::time::Duration;

/// About how long a row takes.
const SPENT: Duration = Duration::from_millis(350);

/// The calls measured on the cards with 256 files in every directory.
const CALLS_ON_MANY: [Call; 6] = [
    Call::Read,
    Call::Mount,
    Call::Put(0),
    Call::Sync,
    Call::Fit,
    Call::List,
];

/// One measured call; times in nanoseconds.
#[derive(Clone, Debug)]
pub struct Row {
    pub geometry: Geometry,
    pub directory: String,
    pub call: String,
    pub number: u32,
    pub proved: f64,
    pub plain: f64,
    /// One pass over the sectors before the data.
    pub pass: f64,
}

impl Row {
    fn take(bed: &Bed, (geometry, directory, call): Asked) -> Row {
        let bed = [bed.ready(call)];
        let lanes = [Lane::proved(0, call), Lane::plain(0, call), Lane::pass(0)];
        let [proved, plain, pass] = race(&bed, lanes, SPENT);
        assert_eq!(proved.number, plain.number);
        Row {
            geometry,
            directory: directory.name().into(),
            call: call.name(),
            number: proved.number,
            proved: proved.time,
            plain: plain.time,
            pass: pass.time,
        }
    }

    pub fn ratio(&self) -> f64 {
        self.proved / self.plain
    }

    /// Whether two rows are of the same call on the same card.
    pub fn same(&self, other: &Row) -> bool {
        let key = |row: &Row| (row.geometry, row.directory.clone(), row.call.clone());
        key(self) == key(other)
    }

    /// The row as a line of text.
    fn line(&self) -> String {
        let (s, t, d) = self.geometry;
        format!(
            "{s},{t},{d}\t{}\t{}\t{}\t{:.1}\t{:.1}\t{:.1}\n",
            self.directory, self.call, self.number, self.proved, self.plain, self.pass
        )
    }

    /// The row of a line.
    fn of_line(line: &str) -> Option<Row> {
        let cells: Vec<&str> = line.split('\t').collect();
        let [geometry, directory, call, number, times @ ..] = cells.as_slice() else {
            return None;
        };
        let words: Vec<u32> = geometry.split(',').flat_map(str::parse).collect();
        let times: Vec<f64> = times.iter().flat_map(|time| time.parse()).collect();
        let (&[s, t, d], &[proved, plain, pass]) = (&words[..], &times[..]) else {
            return None;
        };
        Some(Row {
            geometry: (s, t, d),
            directory: directory.to_string(),
            call: call.to_string(),
            number: number.parse().ok()?,
            proved,
            plain,
            pass,
        })
    }
}

type Asked = (Geometry, Directory, Call);

/// The cards, directories and calls of the long table.
fn asked() -> Vec<Asked> {
    let mut list = Vec::new();
    for geometry in CARDS {
        list.extend(CALLS.map(|call| (geometry, Directory::Fresh, call)));
        // A make does not see what the card held.
        let others = CALLS.into_iter().filter(|call| *call != Call::Make);
        list.extend(others.map(|call| (geometry, Directory::Full, call)));
    }
    for geometry in MANY_FILES {
        for directory in Directory::ALL {
            list.extend(CALLS_ON_MANY.map(|call| (geometry, directory, call)));
        }
    }
    let mut once: Vec<Asked> = Vec::new();
    list.retain(|one| {
        !once.contains(one) && {
            once.push(*one);
            true
        }
    });
    list
}

/// Measures every row; `progress` is told how many are done.
pub fn rows(progress: &dyn Fn(usize, usize)) -> Vec<Row> {
    let list = asked();
    let count = list.len();
    let mut rows = Vec::new();
    for same in list.chunk_by(|a, b| (a.0, a.1) == (b.0, b.1)) {
        let bed = Bed::filled(same[0].0, same[0].1);
        for one in same {
            progress(rows.len(), count);
            rows.push(Row::take(&bed, *one));
        }
    }
    rows
}

/// The rows as text, under the processor's name.
pub fn text(rows: &[Row]) -> String {
    let lines: String = rows.iter().map(Row::line).collect();
    format!("{}\n{lines}", processor())
}

/// The processor and the rows of a text.
pub fn of_text(text: &str) -> Option<(String, Vec<Row>)> {
    let (processor, lines) = text.split_once('\n')?;
    let rows: Option<Vec<Row>> = lines.lines().map(Row::of_line).collect();
    Some((processor.into(), rows?))
}
