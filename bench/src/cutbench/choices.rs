//! The values that each sector of the card may hold after a cut.

use crate::dice::Dice;
use crate::plain::steps::Step;
use crate::plain::SECTOR;
use crate::store::Driver;
use std::collections::{BTreeMap, BTreeSet};

/// The values written to a sector since the latest moment, the newest last; no
/// value twice, and more than one.
type Values = Vec<Box<[u8]>>;

/// What each sector may hold. Most hold one value, which `card` has; the few
/// that may hold several are kept apart, and `card` has any one of theirs.
#[derive(Clone)]
pub struct Choices {
    card: Vec<u8>,
    unsettled: BTreeMap<usize, Values>,
    /// The sectors that steps have written since the latest barrier.
    own: BTreeSet<usize>,
    driver: Driver,
}

impl Choices {
    /// A card on which everything has landed.
    pub fn settled(card: &[u8], driver: Driver) -> Choices {
        Choices {
            card: card.to_vec(),
            unsettled: BTreeMap::new(),
            own: BTreeSet::new(),
            driver,
        }
    }

    /// The card, if everything has landed; otherwise one that a cut can leave.
    pub fn card(&self) -> &[u8] {
        &self.card
    }

    /// A value was written to a sector and may land from now on.
    fn written(&mut self, sector: usize, value: &[u8]) {
        match self.unsettled.get_mut(&sector) {
            Some(values) => {
                values.retain(|old| **old != *value);
                values.push(value.into());
            }
            None => {
                let only = sector_of(&self.card, sector);
                if only != value {
                    let values = vec![only.into(), value.into()];
                    self.unsettled.insert(sector, values);
                }
            }
        }
    }

    /// Every sector of the working image may land from now on.
    pub fn all_written(&mut self, work: &[u8]) {
        for (sector, value) in work.chunks(SECTOR).enumerate() {
            self.written(sector, value);
        }
    }

    /// Does a step of a call: a write may land, a barrier lands the newest of
    /// what the driver flushes.
    pub fn step(&mut self, step: &Step) {
        match step {
            Step::Write { sector, content } => {
                self.own.insert(*sector as usize);
                self.written(*sector as usize, &content[..]);
            }
            Step::Barrier => {
                let (all, own) = (self.driver == Driver::FlushesAll, &self.own);
                let card = &mut self.card;
                self.unsettled.retain(|sector, values| {
                    let flushed = all || own.contains(sector);
                    if flushed {
                        put(card, *sector, &values[values.len() - 1]);
                    }
                    !flushed
                });
                self.own.clear();
            }
        }
    }

    /// Some card that a cut can leave.
    pub fn pick(&mut self, dice: &mut Dice) -> &[u8] {
        let newest = dice.below(4);
        for (sector, values) in &self.unsettled {
            let i = match newest {
                0 if dice.below(4) > 0 => values.len() - 1,
                1 if dice.below(4) > 0 => 0,
                _ => dice.below(values.len()),
            };
            put(&mut self.card, *sector, &values[i]);
        }
        &self.card
    }

    /// The power goes off: some card that a cut can leave is all there is.
    pub fn settle(&mut self, dice: &mut Dice) {
        self.pick(dice);
        self.unsettled.clear();
        self.own.clear();
    }

    /// How many sectors have more than one value.
    pub fn unsettled(&self) -> usize {
        self.unsettled.len()
    }

    /// How many cards a cut can leave.
    pub fn cards(&self) -> u128 {
        let counts = self.unsettled.values().map(|values| values.len() as u128);
        counts.fold(1, u128::saturating_mul)
    }

    /// Calls `look` with every card that a cut can leave, and counts them.
    pub fn each<E>(&mut self, mut look: impl FnMut(&[u8]) -> Result<(), E>) -> Result<u64, E> {
        let list: Vec<(&usize, &Values)> = self.unsettled.iter().collect();
        let mut at = vec![0; list.len()];
        for (sector, values) in &list {
            put(&mut self.card, **sector, &values[0]);
        }
        let mut count = 0;
        loop {
            look(&self.card)?;
            count += 1;
            let Some(last) = (0..at.len()).find(|i| at[*i] + 1 < list[*i].1.len()) else {
                return Ok(count);
            };
            at[..last].fill(0);
            at[last] += 1;
            for i in 0..=last {
                let (sector, values) = list[i];
                put(&mut self.card, *sector, &values[at[i]]);
            }
        }
    }
}

fn sector_of(card: &[u8], sector: usize) -> &[u8] {
    &card[SECTOR * sector..SECTOR * (sector + 1)]
}

fn put(card: &mut [u8], sector: usize, value: &[u8]) {
    card[SECTOR * sector..SECTOR * (sector + 1)].copy_from_slice(value);
}
