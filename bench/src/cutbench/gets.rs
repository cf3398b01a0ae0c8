//! Get and reading's get, into outputs that hold rubbish beforehand.

use super::files::Files;
use super::summary::Call;
use super::world::{Outcome, World};
use crate::host::Answer;
use crate::plain::{self, Line, Session};
use crate::plain::{BAD_GEOMETRY, BAD_NAME, DONE, NOT_SOUND, NO_FILE, SHORT_OUTPUT};

const RUBBISH: u8 = 0xEE;
/// Bytes on both sides that are not lent; odd, so that an output is at no even
/// place.
const BESIDE: usize = 5;

/// What a get gave, and its output with the bytes beside it.
#[derive(PartialEq)]
struct Got {
    answer: Answer,
    bytes: Vec<u8>,
}

impl Got {
    /// Lends so many bytes of rubbish.
    fn into(room: usize, get: impl FnOnce(&mut [u8]) -> Answer) -> Got {
        let mut bytes = vec![RUBBISH; room + 2 * BESIDE];
        let answer = get(&mut bytes[BESIDE..BESIDE + room]);
        Got { answer, bytes }
    }

    /// The bytes that were counted; all the others must be as they were.
    fn content(&self) -> Outcome<&[u8]> {
        let Answer { number, count } = self.answer;
        let (before, rest) = self.bytes.split_at(BESIDE);
        let lent = rest.len() - BESIDE;
        if count as usize > lent || (number != DONE && count > 0) {
            return Err(format!(
                "get counts {count} bytes of {lent}, and gives {number}"
            ));
        }
        let (content, later) = rest.split_at(count as usize);
        if before.iter().chain(later).any(|byte| *byte != RUBBISH) {
            return Err(format!(
                "get touches another byte than the first {count} of {lent}, and gives {number}"
            ));
        }
        Ok(content)
    }
}

impl World<'_> {
    /// Gets a file of the session by both stores, into outputs that are too
    /// short, just long enough, and longer.
    pub(super) fn get(&mut self, name: &[u8]) -> Outcome {
        let mut lines = [Line::default(); 256];
        let listed = plain::list(&self.session(), self.sides[1].work.bytes(), &mut lines);
        let lines = &lines[..listed.unwrap_or(0) as usize];
        for room in rooms(name, lines) {
            self.get_into(name, room)?;
        }
        Ok(())
    }

    /// The same into an output of so many bytes.
    pub(super) fn get_into(&mut self, name: &[u8], room: usize) -> Outcome {
        let [one, other] = [0, 1].map(|i| {
            let (store, side) = (self.stores[i], &self.sides[i]);
            Got::into(room, |out| {
                store.get(&side.session, side.work.bytes(), name, out)
            })
        });
        self.tally.count(Call::Get, one.answer.number);
        let content = same(&one, &other)?;
        match &self.track {
            Some(track) if self.session() != Session::Closed => {
                must_be(&track.present, name, one.answer.number, room, content)
            }
            _ => Ok(()),
        }
    }

    /// Gets a file that the card shows by both stores, in the same way.
    pub(super) fn get_card(&mut self, name: &[u8]) -> Outcome {
        self.with_card(|world, card| {
            let mut lines = [Line::default(); 256];
            let listed = plain::read_list(card, &mut lines);
            for room in rooms(name, &lines[..listed.unwrap_or(0) as usize]) {
                let (number, content) = world.read_get(card, name, room)?;
                if let Some(track) = &world.track {
                    must_be(&track.shown, name, number, room, &content)?;
                }
            }
            Ok(())
        })
    }

    /// Gets a file of a card by both stores: the number, and the content.
    pub(super) fn read_get(
        &mut self,
        card: &[u8],
        name: &[u8],
        room: usize,
    ) -> Outcome<(u32, Vec<u8>)> {
        let [one, other] = self
            .stores
            .map(|store| Got::into(room, |out| store.read_get(card, name, out)));
        self.tally.count(Call::ReadGet, one.answer.number);
        let content = same(&one, &other)?;
        Ok((one.answer.number, content.to_vec()))
    }

    /// The files of a list of a card, by both stores.
    pub(super) fn contents(&mut self, card: &[u8], lines: &[Line]) -> Outcome<Files> {
        let mut files = Files::new();
        for line in lines {
            let name = line.used_name();
            let (number, content) = self.read_get(card, name, line.bytes as usize)?;
            if number != DONE || content.len() != line.bytes as usize {
                return Err(format!("get of a listed file gives {number}"));
            }
            files.insert(name.to_vec(), content);
        }
        Ok(files)
    }
}

/// The lengths of the outputs for a file, of 0 bytes if it is not listed.
fn rooms(name: &[u8], lines: &[Line]) -> Vec<usize> {
    let line = lines.iter().find(|line| line.used_name() == name);
    let bytes = line.map_or(0, |line| line.bytes as usize);
    let mut rooms = vec![0, bytes.saturating_sub(1), bytes, bytes + 3];
    rooms.dedup();
    rooms
}

/// The content of two gets, which must be the same.
fn same<'a>(one: &'a Got, other: &Got) -> Outcome<&'a [u8]> {
    if one.answer != other.answer {
        let (a, b) = (one.answer, other.answer);
        return Err(format!("get gives {a:?}, the plain version {b:?}"));
    }
    let (content, others) = (one.content()?, other.content()?);
    match content == others {
        true => Ok(content),
        false => Err("get gives other bytes than the plain version".into()),
    }
}

/// A get of known files gives the content, or is refused just where the name is
/// none of them, or the output too short.
fn must_be(files: &Files, name: &[u8], number: u32, room: usize, content: &[u8]) -> Outcome {
    let right = match (number, files.get(name)) {
        (DONE, Some(known)) => content == known,
        (SHORT_OUTPUT, Some(known)) => room < known.len(),
        (NO_FILE | BAD_NAME, known) => known.is_none(),
        _ => false,
    };
    if right {
        return Ok(());
    }
    if number == BAD_GEOMETRY || number == NOT_SOUND {
        return Err(format!("a session in order is refused with {number}"));
    }
    let known = files.get(name).map(Vec::len);
    Err(format!(
        "get into {room} bytes gives {number} where the file has {known:?}"
    ))
}
