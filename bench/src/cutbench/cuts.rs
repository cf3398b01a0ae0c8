//! Cuts: between calls, inside calls, and all that there can be.

use super::choices::Choices;
use super::files::Files;
use super::image::Side;
use super::op::Cuttable;
use super::track::Track;
use super::world::{Outcome, World};
use crate::dice::Dice;
use crate::host::Answer;
use crate::plain::steps::Step;
use crate::plain::{Session, DONE, SECTOR};
use crate::store::Store;

impl World<'_> {
    /// The places of a call before its first barrier.
    fn before_barrier(&self, call: Cuttable) -> u32 {
        match (call, self.session()) {
            (Cuttable::Mount, _) => 1,
            (_, Session::Open { s, t, .. }) => s.saturating_sub(t),
            (_, Session::Closed) => 0,
        }
    }

    /// What both stores leave on the card after so many places of a call, which
    /// must be the same; nothing where it is refused.
    fn left_after(&self, call: Cuttable, k: u32) -> Outcome<Option<Vec<u8>>> {
        let [one, other] = [0, 1].map(|i| left_by(self.stores[i], call, &self.sides[i], k));
        if one.0 != other.0 {
            let (a, b) = (one.0, other.0);
            return Err(format!(
                "steps: {k} places of {call} give {a:?}, the plain version {b:?}"
            ));
        }
        if one.1 != other.1 {
            return Err(format!(
                "steps: the card differs after {k} places of {call}"
            ));
        }
        let Answer { number, count } = one.0;
        if number != DONE && (count > 0 || one.1 != self.sides[0].card.bytes()) {
            return Err(format!(
                "steps: {call} is refused with {number}, but writes"
            ));
        }
        Ok((number == DONE).then_some(one.1))
    }

    /// The steps of a call from here that stand at its first places: what these
    /// leave on the card, and the barriers among them. None where it is refused,
    /// nor for the unmount of a worn session.
    pub(super) fn steps_of(&self, call: Cuttable, k: u32) -> Outcome<Vec<Step>> {
        let end = self.before_barrier(call);
        let k = k.min(end.saturating_add(4));
        let Some(first) = self.left_after(call, k.min(end))? else {
            return Ok(Vec::new());
        };
        let mut steps = changes(self.sides[0].card.bytes(), &first);
        if matches!(self.session(), Session::Open { worn: true, .. }) && call != Cuttable::Mount {
            return Ok(steps);
        }
        if k > end {
            steps.push(Step::Barrier);
        }
        if call == Cuttable::Mount || k <= end + 1 {
            return Ok(steps);
        }
        let second = self.left_after(call, k.min(end + 2))?.unwrap_or_default();
        steps.extend(self.table_step(&first, &second));
        if k > end + 2 {
            steps.push(Step::Barrier);
        }
        if k > end + 3 {
            let third = self.left_after(call, k)?.unwrap_or_default();
            steps.extend(changes(&second, &third));
        }
        Ok(steps)
    }

    /// The sectors written between the barriers: those that differ, or, as the
    /// table sector may come out as it was, that one.
    fn table_step(&self, before: &[u8], after: &[u8]) -> Vec<Step> {
        let written = changes(before, after);
        match self.session() {
            Session::Open { c, .. } if written.is_empty() => vec![write(after, 1 + c / 128)],
            _ => written,
        }
    }

    /// Looks at the card as it is, with what has been landed on it, and at
    /// some other card that a cut now could leave.
    pub(super) fn try_cut(&mut self, seed: u64) -> Outcome {
        let Some(mut track) = self.track.take() else {
            return Ok(());
        };
        self.tally.cuts += 1;
        self.with_card(|world, card| world.look(card, &[&track.shown]))?;
        let card = track.choices.pick(&mut Dice::new(seed));
        self.look(card, &[&track.shown])?;
        self.track = Some(track);
        Ok(())
    }

    /// Looks at every card that a cut now could leave, unless there are more
    /// than `most`: how many there are, or 0.
    pub(super) fn all_cuts(&mut self, most: u128) -> Outcome<u64> {
        let Some(mut track) = self.track.take() else {
            return Ok(0);
        };
        let mut count = 0;
        if track.choices.cards() <= most {
            self.tally.cuts += 1;
            let shown = &track.shown;
            let look = |card: &[u8]| self.look(card, &[shown]).map(|_| ());
            count = track.choices.each(look)?;
        }
        self.track = Some(track);
        Ok(count)
    }

    /// Looks at every card, of which there must be just so many, with just so
    /// many sectors left to chance.
    pub(super) fn exactly(&mut self, sectors: usize, cards: u64) -> Outcome {
        let choices = self.track.as_ref().map(|track| &track.choices);
        let unsettled = choices.map_or(0, Choices::unsettled);
        let count = self.all_cuts(u128::from(cards))?;
        if (unsettled, count) == (sectors, cards) {
            return Ok(());
        }
        Err(format!(
            "{unsettled} sectors unsettled, {count} cards tried"
        ))
    }

    /// Looks at every card that a cut inside a call could leave, before its
    /// first step and after each, unless there are more than `most`. What each
    /// place leaves must be what the steps up to there leave.
    pub(super) fn all_in(&mut self, call: Cuttable, most: u128) -> Outcome {
        for k in 0..self.before_barrier(call) + 5 {
            let (here, next) = (self.steps_of(call, k)?, self.steps_of(call, k + 1)?);
            if !next.starts_with(&here) || next.len() > here.len() + 1 {
                return Err(format!("steps: place {} of {call} is not one step", k + 1));
            }
        }
        let list = self.steps_of(call, u32::MAX)?;
        let Some(track) = self.track.take() else {
            return Ok(());
        };
        let mut choices = if self.ends_session(call) {
            Choices::settled(self.sides[0].card.bytes(), self.stores[0].driver())
        } else {
            track.choices.clone()
        };
        for done in 0..=list.len() {
            if let Some(last) = done.checked_sub(1) {
                choices.step(&list[last]);
            }
            if choices.cards() <= most {
                self.tally.cuts += 1;
                let allowed = track.allowed(&list[..done]);
                choices.each(|card| self.look(card, &allowed).map(|_| ()))?;
            }
        }
        self.track = Some(track);
        Ok(())
    }

    /// The power goes off now.
    pub(super) fn cut(&mut self, seed: u64) -> Outcome {
        self.cut_after(&[], seed)
    }

    /// Whether a call is a mount while a session is open, which counts as a
    /// cut at which the card stays as it is.
    fn ends_session(&self, call: Cuttable) -> bool {
        call == Cuttable::Mount && self.session() != Session::Closed
    }

    /// The power goes off inside a call, after some of its places.
    pub(super) fn cut_in(&mut self, call: Cuttable, places: usize, seed: u64) -> Outcome {
        let list = self.steps_of(call, u32::try_from(places).unwrap_or(u32::MAX))?;
        if self.ends_session(call) {
            let (card, driver) = (self.sides[0].card.bytes(), self.stores[0].driver());
            let track = self.track.take();
            self.track = track.map(|t| Track::settled(card, t.shown, driver));
        }
        self.cut_after(&list, seed)
    }

    fn cut_after(&mut self, done: &[Step], seed: u64) -> Outcome {
        let Some(mut track) = self.track.take() else {
            return Ok(());
        };
        self.tally.cuts += 1;
        done.iter().for_each(|step| track.choices.step(step));
        track.choices.settle(&mut Dice::new(seed));
        let card = track.choices.card();
        let allowed = track.allowed(done);
        let place = self.look(card, &allowed)?;
        let files = allowed[place].clone();
        for side in &mut self.sides {
            side.card.set(card);
            side.work.bytes_mut().fill(0xEE);
            side.session = Session::Closed.encode();
        }
        (track.shown, track.present) = (files.clone(), files);
        self.track = Some(track);
        Ok(())
    }
}

impl Track {
    /// The lists of files that a card may show after a cut that follows these
    /// steps of a call. The table sector of a sync comes after its first
    /// barrier and has landed with the second; a mount has no table sector.
    fn allowed(&self, done: &[Step]) -> Vec<&Files> {
        let mut parts = done.split(|step| *step == Step::Barrier);
        let (_, second, third) = (parts.next(), parts.next(), parts.next());
        match (second, third) {
            (_, Some(_)) => vec![&self.present],
            (Some([_, ..]), None) => vec![&self.shown, &self.present],
            _ => vec![&self.shown],
        }
    }
}

/// What a store leaves on the card after so many places of a call, and gives.
fn left_by(store: &dyn Store, call: Cuttable, side: &Side, k: u32) -> (Answer, Vec<u8>) {
    let (mut card, work) = (side.card.bytes().to_vec(), side.work.bytes());
    let answer = match call {
        Cuttable::Mount => Answer {
            number: store.mount_steps(&mut card, work, k),
            count: 0,
        },
        Cuttable::Sync => store.sync_steps(&side.session, &mut card, work, k),
        Cuttable::Unmount => store.unmount_steps(&side.session, &mut card, work, k),
    };
    (answer, card)
}

/// The sectors in which two cards differ, in rising order, as writes.
fn changes(before: &[u8], after: &[u8]) -> Vec<Step> {
    let sectors = before.chunks(SECTOR).zip(after.chunks(SECTOR));
    let differ = sectors.enumerate().filter(|(_, (old, new))| old != new);
    differ.map(|(i, _)| write(after, i as u32)).collect()
}

/// A write of what an image has in a sector.
fn write(image: &[u8], sector: u32) -> Step {
    let at = SECTOR * sector as usize;
    let mut content = Box::new([0; SECTOR]);
    content.copy_from_slice(&image[at..at + SECTOR]);
    Step::Write { sector, content }
}
