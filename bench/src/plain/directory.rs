//! Stamps, versions and entries, as the directory stores them.

use super::image::{set_word, word, Geometry, PAGE_SECTORS, SECTOR};
use std::ops::Range;

/// Words of an entry.
const ENTRY_WORDS: usize = 32;
/// The first of the words of an entry that are zero.
const FIRST_ZERO_WORD: usize = 19;

/// A crash count and a transaction count.
#[derive(Clone, Copy, Debug, PartialEq, Eq)]
pub struct Stamp {
    pub cc: u32,
    pub txc: u32,
}

/// A version as stored: any four words.
#[derive(Clone, Copy, Debug, PartialEq, Eq)]
pub struct Version {
    pub state: u32,
    pub start: u32,
    pub sectors: u32,
    pub bytes: u32,
}

/// The absent version: four zeros.
pub const ABSENT: Version = Version {
    state: 0,
    start: 0,
    sectors: 0,
    bytes: 0,
};

impl Version {
    /// Whether the state says present.
    pub fn present(&self) -> bool {
        self.state == 1
    }

    /// Whether the four words agree with each other.
    pub fn well_formed(&self) -> bool {
        match self.state {
            0 => *self == ABSENT,
            1 => self.sectors == self.bytes.div_ceil(512) && (self.bytes > 0 || self.start == 0),
            _ => false,
        }
    }

    /// Whether the sectors lie inside the data; no sectors lie nowhere.
    pub fn inside_data(&self, geometry: &Geometry) -> bool {
        let end = u64::from(self.start) + u64::from(self.sectors);
        self.sectors == 0 || (self.start >= geometry.f() && end <= u64::from(geometry.s()))
    }

    /// Whether the sectors lie in one page; no sectors lie nowhere.
    pub fn inside_page(&self) -> bool {
        let end = u64::from(self.start % PAGE_SECTORS) + u64::from(self.sectors);
        self.sectors == 0 || end <= u64::from(PAGE_SECTORS)
    }

    /// The sectors of a present version inside the data; none if absent.
    pub fn run(&self) -> Range<u32> {
        if self.present() {
            self.start..self.start + self.sectors
        } else {
            0..0
        }
    }
}

/// A name as an entry stores it: any length word and 32 bytes.
#[derive(Clone, Copy, Debug, PartialEq, Eq, PartialOrd, Ord)]
pub struct StoredName {
    pub length: u32,
    pub bytes: [u8; 32],
}

impl StoredName {
    /// A given name as it is stored, if its length and bytes keep the rule.
    pub fn from_given(given: &[u8]) -> Option<StoredName> {
        let good = (1..=32).contains(&given.len()) && given.iter().all(|b| (33..=126).contains(b));
        good.then(|| {
            let mut bytes = [0; 32];
            bytes[..given.len()].copy_from_slice(given);
            StoredName {
                length: given.len() as u32,
                bytes,
            }
        })
    }

    /// Whether length, used bytes and unused bytes keep the rule.
    pub fn good(&self) -> bool {
        if !(1..=32).contains(&self.length) {
            return false;
        }
        let (used, unused) = self.bytes.split_at(self.length as usize);
        used.iter().all(|b| (33..=126).contains(b)) && unused.iter().all(|b| *b == 0)
    }
}

/// An entry as stored, without its zero words.
#[derive(Clone, Copy, Debug, PartialEq, Eq)]
pub struct Entry {
    pub stamp: Stamp,
    pub name: StoredName,
    pub new: Version,
    pub old: Version,
}

impl Entry {
    /// Entry `i` of the directory.
    pub fn load(image: &[u8], geometry: &Geometry, i: usize) -> Entry {
        let w = |k| word(image, geometry.directory(), ENTRY_WORDS * i + k);
        let version = |k| Version {
            state: w(k),
            start: w(k + 1),
            sectors: w(k + 2),
            bytes: w(k + 3),
        };
        let mut bytes = [0; 32];
        bytes.copy_from_slice(&image[name_bytes(geometry, i)]);
        Entry {
            stamp: Stamp {
                cc: w(0),
                txc: w(1),
            },
            name: StoredName {
                length: w(2),
                bytes,
            },
            new: version(11),
            old: version(15),
        }
    }

    /// Writes this as entry `i`; the zero words stay as they are.
    pub fn store(&self, image: &mut [u8], geometry: &Geometry, i: usize) {
        let v = |v: &Version| [v.state, v.start, v.sectors, v.bytes];
        let first = ENTRY_WORDS * i;
        let head = [self.stamp.cc, self.stamp.txc, self.name.length];
        for (k, value) in head.into_iter().enumerate() {
            set_word(image, geometry.directory(), first + k, value);
        }
        image[name_bytes(geometry, i)].copy_from_slice(&self.name.bytes);
        let versions = v(&self.new).into_iter().chain(v(&self.old));
        for (k, value) in versions.enumerate() {
            set_word(image, geometry.directory(), first + 11 + k, value);
        }
    }
}

/// Whether the last 13 words of entry `i` are zero.
pub fn last_words_zero(image: &[u8], geometry: &Geometry, i: usize) -> bool {
    (FIRST_ZERO_WORD..ENTRY_WORDS)
        .all(|k| word(image, geometry.directory(), ENTRY_WORDS * i + k) == 0)
}

/// The places of the name bytes of entry `i`.
fn name_bytes(geometry: &Geometry, i: usize) -> Range<usize> {
    let at = geometry.directory() as usize * SECTOR + 4 * (ENTRY_WORDS * i + 3);
    at..at + 32
}
