//! The calls of a history, and what a cut may leave and show after each.

use super::choices::Choices;
use super::files::{files_of, Files};
use super::image::Image;
use super::op::Cuttable;
use super::summary::Call;
use super::world::{Outcome, World};
use crate::host::{Answer, Goal};
use crate::plain::steps::Step;
use crate::plain::{Session, DONE, NO_ROOM, NO_SECTOR, PAGE_SECTORS, SECTOR};
use crate::store::Driver;
use std::ops::RangeInclusive;

/// What is known of a history.
pub struct Track {
    /// What each sector may hold after a cut.
    pub choices: Choices,
    /// The files shown at the latest moment.
    pub shown: Files,
    /// The files of the present view.
    pub present: Files,
    /// The data sectors of the puts since the latest sync or mount, and the
    /// puts and removes themselves.
    changes: usize,
}

impl Track {
    /// Everything has landed and these files are shown.
    pub fn settled(card: &[u8], files: Files, driver: Driver) -> Track {
        Track {
            choices: Choices::settled(card, driver),
            shown: files.clone(),
            present: files,
            changes: 0,
        }
    }

    /// After a sync with these steps; where the driver flushes everything, all
    /// has landed.
    fn synced(mut self, card: &[u8], list: &[Step], driver: Driver) -> Track {
        let mut after = Track::settled(card, self.present, driver);
        if driver == Driver::FlushesOwn {
            list.iter().for_each(|step| self.choices.step(step));
            after.choices = self.choices;
        }
        after
    }

    /// The most sectors that a sync or an unmount of a card of S sectors may
    /// write: one if nothing was changed, and else the changes and P + 2.
    fn most(&self, s: u32) -> usize {
        match self.changes {
            0 => 1,
            changes => changes + s.div_ceil(PAGE_SECTORS) as usize + 2,
        }
    }
}

impl World<'_> {
    pub(super) fn make(&mut self, s: u32, t: u32, d: u32) -> Outcome {
        let track = self.track.take();
        let number = self.call(Call::Make, |store, side| {
            store.make(s, t, d, side.card.bytes_mut())
        })?;
        self.track = track.filter(|_| number != DONE);
        Ok(())
    }

    /// A mount with a session still open counts as a cut at which the card
    /// stays as it is, also when it is refused.
    pub(super) fn mount(&mut self) -> Outcome {
        let was_open = self.session() != Session::Closed;
        let number = self.call(Call::Mount, |store, side| {
            let (card, work) = (side.card.bytes_mut(), side.work.bytes_mut());
            store.mount(card, work, &mut side.session)
        })?;
        if number != DONE && !(was_open && self.track.is_some()) {
            return Ok(());
        }
        self.with_card(|world, card| {
            let files = match world.track.take() {
                Some(track) => track.shown,
                None => files_of(card).map_err(|n| format!("a mounted card is refused {n}"))?,
            };
            world.look(card, &[&files])?;
            world.track = Some(Track::settled(card, files, world.stores[0].driver()));
            Ok(())
        })
    }

    /// A put, with a goal or without.
    pub(super) fn put(&mut self, name: &[u8], content: &[u8], goal: Option<Goal>) -> Outcome {
        let other = self.put_otherwise(name, content, goal);
        let number = match goal {
            None => self.call(Call::Put, |store, side| {
                store.put(&side.session, side.work.bytes_mut(), name, content)
            })?,
            Some(goal) => self.call(Call::PutAt, |store, side| {
                store.put_at(&side.session, side.work.bytes_mut(), name, content, goal)
            })?,
        };
        self.goals_agree(number, goal, other)?;
        if let Some(track) = self.track.as_mut().filter(|_| number == DONE) {
            track.present.insert(name.to_vec(), content.to_vec());
            track.changes += content.len().div_ceil(SECTOR) + 1;
            track.choices.all_written(self.sides[0].work.bytes());
            self.get_into(name, content.len())?;
        }
        if number == NO_ROOM && content.len() <= SECTOR {
            return match self.free()? {
                Some(0) => Ok(()),
                free => Err(format!("put of one sector gives 8 with free {free:?}")),
            };
        }
        Ok(())
    }

    /// What the store under test would give, and leave, if a put without a goal
    /// had goal 0, and one with a goal had none.
    fn put_otherwise(&self, name: &[u8], content: &[u8], goal: Option<Goal>) -> (u32, Image) {
        let (store, side) = (self.stores[0], &self.sides[0]);
        let mut image = side.work.clone();
        let work = image.bytes_mut();
        let number = match goal {
            None => store.put_at(&side.session, work, name, content, Goal(0)),
            Some(_) => store.put(&side.session, work, name, content),
        };
        (number, image)
    }

    /// Goal 0 is the put without a goal, to the byte; and any goal that is
    /// taken leaves the number as it is.
    fn goals_agree(&self, number: u32, goal: Option<Goal>, other: (u32, Image)) -> Outcome {
        if number != other.0 && number != NO_SECTOR {
            return Err(format!("goals: put gives {number}, and {}", other.0));
        }
        let same = self.sides[0].work.bytes() == other.1.bytes();
        if goal.is_none_or(|goal| goal == Goal(0)) && (number != other.0 || !same) {
            return Err("goals: put differs with goal 0".into());
        }
        Ok(())
    }

    pub(super) fn remove(&mut self, name: &[u8]) -> Outcome {
        let number = self.call(Call::Remove, |store, side| {
            store.remove(&side.session, side.work.bytes_mut(), name)
        })?;
        if let Some(track) = self.track.as_mut().filter(|_| number == DONE) {
            track.choices.all_written(self.sides[0].work.bytes());
            track.changes += 1;
            if track.present.remove(name).is_none() {
                return Err("a file that is not there was removed".into());
            }
        }
        Ok(())
    }

    pub(super) fn land(&mut self, sector: u32) -> Outcome {
        let number = self.call(Call::Land, |store, side| {
            let (card, work) = (side.card.bytes_mut(), side.work.bytes());
            store.land(&side.session, card, work, sector)
        })?;
        if number == DONE {
            self.tally.landed += 1;
        }
        Ok(())
    }

    pub(super) fn sync(&mut self) -> Outcome {
        let (bounds, driver) = (self.bounds(), self.stores[0].driver());
        let list = match driver {
            Driver::FlushesAll => Vec::new(),
            Driver::FlushesOwn => self.steps_of(Cuttable::Sync, u32::MAX)?,
        };
        let mut answers = Vec::new();
        let mut counted = self.sides[0].clone();
        let number = self.call(Call::Sync, |store, side| {
            let mut copy = side.clone();
            let (card, work) = (copy.card.bytes_mut(), copy.work.bytes_mut());
            answers.push(store.sync_count(&mut copy.session, card, work));
            if answers.len() == 1 {
                counted.copy_from(&copy);
            }
            let (card, work) = (side.card.bytes_mut(), side.work.bytes_mut());
            store.sync(&mut side.session, card, work)
        })?;
        if answers[0] != answers[1] || answers[0].number != number {
            return Err(format!("sync counts {answers:?}, and sync gives {number}"));
        }
        if let Some(difference) = counted.differs(&self.sides[0]) {
            return Err(format!("sync that counts: {difference}"));
        }
        within(answers[0], bounds)?;
        match self.track.take() {
            Some(track) if number == DONE => self.with_card(|world, card| {
                world.look(card, &[&track.present])?;
                world.track = Some(track.synced(card, &list, driver));
                Ok(())
            }),
            track => {
                self.track = track;
                Ok(())
            }
        }
    }

    /// How many sectors a sync or an unmount from here may write, where nothing
    /// but calls changed the card.
    fn bounds(&self) -> RangeInclusive<usize> {
        match (&self.track, self.session()) {
            (Some(track), Session::Open { s, worn: false, .. }) => 1..=track.most(s),
            (Some(_), _) => 0..=0,
            (None, _) => 0..=usize::MAX,
        }
    }

    pub(super) fn unmount(&mut self) -> Outcome {
        let list = self.steps_of(Cuttable::Unmount, u32::MAX)?;
        let bounds = self.bounds();
        let mut answers = Vec::new();
        let number = self.call(Call::Unmount, |store, side| {
            let (card, work) = (side.card.bytes_mut(), side.work.bytes_mut());
            answers.push(store.unmount(&mut side.session, card, work));
            answers[answers.len() - 1].number
        })?;
        if answers[0] != answers[1] {
            return Err(format!("unmount counts {answers:?}"));
        }
        within(answers[0], bounds)?;
        if number == DONE && self.sides[0].session != Session::Closed.encode() {
            return Err("unmount leaves the session open".into());
        }
        if let Some(track) = self.track.as_mut().filter(|_| number == DONE) {
            list.iter().for_each(|step| track.choices.step(step));
            track.shown = track.present.clone();
        }
        Ok(())
    }
}

/// A call that gives 0 counts its writes within the bounds, and a refusal none.
fn within(answer: Answer, bounds: RangeInclusive<usize>) -> Outcome {
    let Answer { number, count } = answer;
    let right = match number {
        DONE => bounds.contains(&(count as usize)),
        _ => count == 0,
    };
    if right {
        return Ok(());
    }
    Err(format!(
        "writes {count} sectors, not {bounds:?}, and gives {number}"
    ))
}
