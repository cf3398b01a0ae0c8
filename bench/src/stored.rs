//! The stored cards for the reading program's tests, each with the report
//! written down by hand. A bad card breaks one clause and no other, as far as
//! the clauses and the length of 65,536 bytes allow.

mod forge;
mod geometry;
mod good;
mod soundness;

use forge::Forge;

/// A stored card: an input of the reading program and what it must print.
#[derive(Clone, Debug, PartialEq, Eq)]
pub struct StoredCard {
    /// A short name of lower-case letters, digits and `_`.
    pub name: &'static str,
    /// The input.
    pub bytes: Vec<u8>,
    /// The output.
    pub expected: String,
}

/// Every stored card, in rising order of names.
pub fn all() -> Vec<StoredCard> {
    let mut cards = good::cards();
    cards.extend(geometry::cards());
    cards.extend(soundness::cards());
    cards.sort_by_key(|card| card.name);
    cards
}

/// A card that is read: its lines, each ended by a newline.
fn shows(name: &'static str, forge: Forge, lines: &[&str]) -> StoredCard {
    StoredCard {
        name,
        bytes: forge.bytes(),
        expected: lines.iter().map(|line| format!("{line}\n")).collect(),
    }
}

/// A card that is refused with this number.
fn refused(name: &'static str, forge: Forge, number: u32) -> StoredCard {
    StoredCard {
        name,
        bytes: forge.bytes(),
        expected: format!("refused {number}\n"),
    }
}
