//! What was done, counted.

use std::ops::AddAssign;

/// Counts of one history, or of many.
#[derive(Clone, Copy, Debug, Default, PartialEq, Eq)]
pub struct Tally {
    pub histories: u64,
    /// Calls made through both stores and compared.
    pub calls: u64,
    /// Lands that gave 0.
    pub landed: u64,
    /// Moments at which the power went off, or might have.
    pub cuts: u64,
    /// Cards read back and compared with the files that they must show.
    pub cards: u64,
    /// How often each call gave each number.
    pub given: [[u64; 12]; 14],
    /// The first call since this was last cleared, and its number.
    pub first: Option<(Call, u32)>,
}

/// One of the calls for a host, as a row of the numbers given.
#[derive(Clone, Copy, Debug, PartialEq, Eq)]
pub enum Call {
    Make,
    Read,
    Mount,
    Put,
    PutAt,
    Remove,
    Get,
    Free,
    Sync,
    Land,
    Unmount,
    List,
    ReadList,
    ReadGet,
}

/// The calls and their names, with the numbers that the paper lets each give.
const NUMBERS: [(Call, &str, &[usize]); 14] = [
    (Call::Make, "make", &[0, 1]),
    (Call::Read, "read", &[0, 1, 2]),
    (Call::Mount, "mount", &[0, 1, 2, 3]),
    (Call::Put, "put", &[0, 2, 4, 5, 7, 8, 9]),
    (Call::PutAt, "put-at", &[0, 2, 4, 5, 7, 8, 9, 11]),
    (Call::Remove, "remove", &[0, 2, 4, 5, 6, 9]),
    (Call::Get, "get", &[0, 2, 4, 5, 6, 10]),
    (Call::Free, "free", &[0, 2, 4]),
    (Call::Sync, "sync", &[0, 1, 2, 4, 9]),
    (Call::Land, "land", &[0, 1, 2, 4, 11]),
    (Call::Unmount, "unmount", &[0, 1, 2, 4]),
    (Call::List, "list", &[0, 2, 4, 10]),
    (Call::ReadList, "read-list", &[0, 1, 2, 10]),
    (Call::ReadGet, "read-get", &[0, 1, 2, 5, 6, 10]),
];

impl Call {
    /// The name in the tables.
    pub fn name(self) -> &'static str {
        let named = NUMBERS.iter().find(|(call, ..)| *call == self);
        named.map_or("", |(_, name, _)| name)
    }
}

impl Tally {
    /// Counts a call and its number.
    pub fn count(&mut self, call: Call, number: u32) {
        self.calls += 1;
        self.first = self.first.or(Some((call, number)));
        let row = &mut self.given[call as usize];
        if let Some(place) = row.get_mut(number as usize) {
            *place += 1;
        }
    }

    /// Whether every call gave each number of its own, and no other.
    pub fn gave_all(&self) -> bool {
        NUMBERS.iter().all(|(call, _, own)| {
            let row = &self.given[*call as usize];
            (0..row.len()).all(|n| (row[n] > 0) == own.contains(&n))
        })
    }
}

impl AddAssign for Tally {
    fn add_assign(&mut self, other: Tally) {
        self.histories += other.histories;
        self.calls += other.calls;
        self.landed += other.landed;
        self.cuts += other.cuts;
        self.cards += other.cards;
        let places = self.given.iter_mut().flatten();
        places
            .zip(other.given.iter().flatten())
            .for_each(|(sum, n)| *sum += n);
    }
}

/// A line of the summary.
pub struct Row {
    pub part: &'static str,
    pub tally: Tally,
    pub disagreements: u64,
    pub seconds: f64,
}

/// All parts together.
pub fn total(rows: &[Row]) -> Row {
    let mut all = Row {
        part: "all",
        tally: Tally::default(),
        disagreements: 0,
        seconds: 0.0,
    };
    for row in rows {
        all.tally += row.tally;
        all.disagreements += row.disagreements;
        all.seconds += row.seconds;
    }
    all
}

/// The summary, with a last line for all parts, and the numbers given.
pub fn table(rows: &[Row]) -> String {
    let mut text = format!(
        "{:<12}{:>11}{:>12}{:>10}{:>10}{:>10}{:>15}{:>9}\n",
        "part", "histories", "calls", "lands", "cuts", "cards", "disagreements", "seconds"
    );
    let all = total(rows);
    text.extend(rows.iter().map(line));
    text + &line(&all) + "\n" + &numbers(&all.tally)
}

/// A line for each call: how often it gave each number.
fn numbers(tally: &Tally) -> String {
    let mut text = String::from("numbers given\n");
    for (call, name, own) in NUMBERS {
        let row = &tally.given[call as usize];
        let seen = (0..row.len()).filter(|n| row[*n] > 0 || own.contains(n));
        let list: Vec<String> = seen.map(|n| format!("{n}: {}", row[n])).collect();
        text += &format!("{name:<12}{}\n", list.join(", "));
    }
    text
}

fn line(row: &Row) -> String {
    let t = row.tally;
    format!(
        "{:<12}{:>11}{:>12}{:>10}{:>10}{:>10}{:>15}{:>9.1}\n",
        row.part, t.histories, t.calls, t.landed, t.cuts, t.cards, row.disagreements, row.seconds
    )
}
