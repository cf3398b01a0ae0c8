//! One history, told line by line.

use super::files::{files_of, told};
use super::op::Op;
use super::parts::Pair;
use super::summary::Call;
use super::world::World;
use crate::plain::{self, Line, Session};

/// Runs a history and tells of each line what it gave: the number, the count
/// where the call counts, and the files after it. Gives the calls and cards, and
/// whether all agreed; the first line that does not ends it.
pub fn replay(pair: Pair, history: &[Op], tell: &mut dyn FnMut(String)) -> bool {
    let mut world = World::new(pair.0, pair.1);
    for (i, op) in history.iter().enumerate() {
        let (own, count) = (world.own_of(op), world.count_of(op));
        world.tally.first = None;
        let outcome = world.run(op);
        let line = format!("{:>4}  {:<28}", i + 1, op.to_string());
        if let Err(what) = outcome {
            tell(format!("{line}{what}"));
            return false;
        }
        let asked = |call| call != Call::Free || *op == Op::Free;
        let first = world.tally.first.filter(|(call, _)| asked(*call));
        let first = first.map(|(call, number)| format!("{} {number}", call.name()));
        let number = first.or(own).unwrap_or_else(|| "-".into());
        let count = count.map_or(String::new(), |count| format!(", count {count}"));
        let (room, files) = (world.room(), world.shown());
        tell(format!("{line}{number}{count}{room}{files}"));
    }
    let tally = world.tally;
    tell(format!("{} calls, {} cards", tally.calls, tally.cards));
    true
}

impl World<'_> {
    /// What a call from here will count, by the store under test on a copy.
    fn count_of(&self, op: &Op) -> Option<u32> {
        let (store, mut side) = (self.stores[0], self.sides[0].clone());
        let (card, work) = (side.card.bytes_mut(), side.work.bytes_mut());
        Some(match op {
            Op::Sync => store.sync_count(&mut side.session, card, work).count,
            Op::Unmount => plain::unmount_count(&mut self.session(), card, work).unwrap_or(0),
            Op::List(length) => {
                let mut lines = vec![Line::default(); *length];
                store.list(&side.session, work, &mut lines).count
            }
            Op::ReadList(length) => {
                let mut lines = vec![Line::default(); *length];
                store.read_list(card, &mut lines).count
            }
            _ => return None,
        })
    }

    /// The number of a call that the plain version makes for both stores.
    fn own_of(&self, op: &Op) -> Option<String> {
        let (mut session, mut side) = (self.session(), self.sides[0].clone());
        let (card, work) = (side.card.bytes_mut(), side.work.bytes_mut());
        match op {
            Op::Remove(name) => Some(format!("remove {}", plain::remove(&session, work, name))),
            Op::Unmount => Some(format!(
                "unmount {}",
                plain::unmount(&mut session, card, work)
            )),
            _ => None,
        }
    }

    /// Free and waiting, where the session fits.
    fn room(&self) -> String {
        let room = plain::free(&self.session(), self.sides[0].work.bytes());
        room.map_or(String::new(), |room| {
            format!("; free {}, waiting {}", room.free, room.waiting)
        })
    }

    /// The present files of an open session, else those that the card shows.
    fn shown(&self) -> String {
        let (session, side) = (self.session(), &self.sides[0]);
        let (card, work) = (side.card.bytes(), side.work.bytes());
        if session == Session::Closed {
            return match files_of(card) {
                Ok(files) => format!("; card shows {}", told(&files)),
                Err(refusal) => format!("; the card is refused {refusal}"),
            };
        }
        let mut lines = [Line::default(); 256];
        match plain::list(&session, work, &mut lines) {
            Ok(count) => {
                let files = lines[..count as usize].iter();
                let files =
                    files.map(|line| (line.used_name().to_vec(), vec![0; line.bytes as usize]));
                format!("; files {}", told(&files.collect()))
            }
            Err(refusal) => format!("; the session is refused {refusal}"),
        }
    }
}
