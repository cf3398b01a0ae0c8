//! List and reading's list, over tables that hold rubbish beforehand.

use super::files::Files;
use super::summary::Call;
use super::world::{Outcome, World};
use crate::host::Answer;
use crate::plain::{Line, Session, DONE, SECTOR, SHORT_OUTPUT};

/// What every line holds before a call.
const RUBBISH: Line = Line {
    length: 0xEEEE_EEEE,
    name: [0xEE; 32],
    start: 0xEEEE_EEEE,
    sectors: 0xEEEE_EEEE,
    bytes: 0xEEEE_EEEE,
};

/// The longest table that is lent.
const LONGEST: usize = 1_024;

/// What a list gave, and its table with a line before and one after it that
/// were not lent.
#[derive(PartialEq)]
struct Listed {
    answer: Answer,
    table: Vec<Line>,
}

impl Listed {
    /// Lends a table of so many lines of rubbish.
    fn over(length: usize, list: impl FnOnce(&mut [Line]) -> Answer) -> Listed {
        let mut table = vec![RUBBISH; length + 2];
        let answer = list(&mut table[1..=length]);
        Listed { answer, table }
    }

    /// The lines that were counted; all the others must be as they were.
    fn lines(&self) -> Outcome<&[Line]> {
        let Answer { number, count } = self.answer;
        let (first, rest) = self.table.split_at(1);
        let lent = rest.len() - 1;
        if count as usize > lent || (number != DONE && count > 0) {
            return Err(format!(
                "list counts {count} lines of {lent}, and gives {number}"
            ));
        }
        let (lines, later) = rest.split_at(count as usize);
        if first.iter().chain(later).any(|line| *line != RUBBISH) {
            return Err(format!(
                "list touches another line than the first {count} of {lent}, and gives {number}"
            ));
        }
        Ok(lines)
    }
}

impl World<'_> {
    /// Lists the session's present files by both stores.
    pub(super) fn list(&mut self, length: usize) -> Outcome {
        let length = length.min(LONGEST);
        let mut both = Vec::new();
        self.call(Call::List, |store, side| {
            let (session, work) = (&side.session, side.work.bytes());
            let listed = Listed::over(length, |lines| store.list(session, work, lines));
            both.push(listed);
            both[both.len() - 1].answer.number
        })?;
        let lines = same(&both[0], &both[1])?;
        match &self.track {
            Some(track) if self.session() != Session::Closed => {
                must_be(&track.present, both[0].answer.number, length, lines)
            }
            _ => Ok(()),
        }
    }

    /// Lists the files that the card shows by both stores.
    pub(super) fn list_card(&mut self, length: usize) -> Outcome {
        let length = length.min(LONGEST);
        let (number, lines) = self.with_card(|world, card| world.read_list(card, length))?;
        match &self.track {
            Some(track) => must_be(&track.shown, number, length, &lines),
            None => Ok(()),
        }
    }

    /// Reads the list of a card by both stores: the number, and the lines.
    pub(super) fn read_list(&mut self, card: &[u8], length: usize) -> Outcome<(u32, Vec<Line>)> {
        let [one, other] = self
            .stores
            .map(|store| Listed::over(length, |lines| store.read_list(card, lines)));
        self.tally.count(Call::ReadList, one.answer.number);
        let lines = same(&one, &other)?;
        Ok((one.answer.number, lines.to_vec()))
    }
}

/// The lines of two lists, which must be the same.
fn same<'a>(one: &'a Listed, other: &Listed) -> Outcome<&'a [Line]> {
    if one.answer != other.answer {
        let (a, b) = (one.answer, other.answer);
        return Err(format!("list gives {a:?}, the plain version {b:?}"));
    }
    let (lines, others) = (one.lines()?, other.lines()?);
    match lines.iter().zip(others).find(|(a, b)| a != b) {
        Some((a, b)) => Err(format!("lines differ: {a:?}, the plain version {b:?}")),
        None => Ok(lines),
    }
}

/// A list of known files is refused just where they are too many, and else has
/// each of them once.
fn must_be(files: &Files, number: u32, length: usize, lines: &[Line]) -> Outcome {
    let right = match number {
        SHORT_OUTPUT => length < files.len(),
        DONE => {
            let names: Vec<&[u8]> = lines.iter().map(Line::used_name).collect();
            let all = files.keys().all(|name| names.contains(&&name[..]));
            all && lines.len() == files.len() && lines.iter().all(|line| fits(files, line))
        }
        _ => false,
    };
    if right {
        return Ok(());
    }
    let files = files.len();
    Err(format!(
        "list of {files} files into {length} lines gives {number} and {lines:?}"
    ))
}

/// Whether a line has the bytes and sectors of its file.
fn fits(files: &Files, line: &Line) -> bool {
    files.get(line.used_name()).is_some_and(|content| {
        let sectors = content.len().div_ceil(SECTOR);
        (line.bytes as usize, line.sectors as usize) == (content.len(), sectors)
    })
}
