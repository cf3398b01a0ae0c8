//! Builds cards word by word, with no rule asked, so that bad ones come out
//! as easily as good ones.

use crate::plain::{set_word, SECTOR};
use std::ops::Range;

/// Four words of an absent version.
pub const NONE: [u32; 4] = [0; 4];

/// Four words of a present version.
pub fn run(start: u32, sectors: u32, bytes: u32) -> [u32; 4] {
    [1, start, sectors, bytes]
}

/// A card being built. `t` and `d` say where its parts lie.
#[derive(Clone, Debug)]
pub struct Forge {
    t: u32,
    d: u32,
    card: Vec<u8>,
}

impl Forge {
    /// A fresh card of S, T, D with one pair of apages, inside the limits or
    /// not: no input of the reading program has more.
    pub fn fresh(s: u32, t: u32, d: u32) -> Forge {
        let card = vec![0; s as usize * SECTOR];
        let f = t + 4 + d;
        Forge { t, d, card }
            .word(0, 1, s)
            .word(0, 2, t)
            .word(0, 3, d)
            .index(2, t + 2)
            .index(3, t + 3)
            .bits_of_both(0..f, true)
            .bits_of_both(s..4_096, true)
    }

    /// The bench sheet's card: S = 10, T = 1, D = 1, data 6 to 9.
    pub fn small() -> Forge {
        Forge::fresh(10, 1, 1)
    }

    /// Goes on from a card that calls have written.
    pub fn from_card(t: u32, d: u32, card: Vec<u8>) -> Forge {
        Forge { t, d, card }
    }

    /// Sets word `i` of a sector.
    pub fn word(mut self, sector: u32, i: usize, value: u32) -> Forge {
        set_word(&mut self.card, sector, i, value);
        self
    }

    /// Sets the crash count C.
    pub fn count(self, c: u32) -> Forge {
        self.word(0, 0, c)
    }

    /// Sets table word `i`.
    pub fn table(self, i: usize, value: u32) -> Forge {
        self.word(1, i, value)
    }

    /// Sets word `i` of the apage index.
    pub fn index(self, i: usize, value: u32) -> Forge {
        let sector = self.t + 1;
        self.word(sector, i, value)
    }

    /// Sets word `i` of entry `e`.
    pub fn entry_word(self, e: usize, i: usize, value: u32) -> Forge {
        let sector = self.t + 4;
        self.word(sector, 32 * e + i, value)
    }

    /// Writes entry `e`: a stamp, a name of at most 32 bytes and two versions.
    pub fn entry(
        mut self,
        e: usize,
        stamp: (u32, u32),
        name: &str,
        new: [u32; 4],
        old: [u32; 4],
    ) -> Forge {
        let at = (self.t as usize + 4) * SECTOR + 128 * e + 12;
        self.card[at..at + name.len()].copy_from_slice(name.as_bytes());
        let head = [stamp.0, stamp.1, name.len() as u32];
        let versions = new.into_iter().chain(old);
        let words = (0..3).zip(head).chain((11..19).zip(versions));
        words.fold(self, |forge, (i, value)| forge.entry_word(e, i, value))
    }

    /// A file with stamp (0, 0), which is alive, and its bits in both apages.
    pub fn file(self, e: usize, name: &str, version: [u32; 4]) -> Forge {
        let [_, start, sectors, _] = version;
        self.entry(e, (0, 0), name, version, NONE)
            .bits_of_both(start..start + sectors, true)
    }

    /// Sets byte `i` of the name of entry `e`.
    pub fn name_byte(mut self, e: usize, i: usize, value: u8) -> Forge {
        self.card[(self.t as usize + 4) * SECTOR + 128 * e + 12 + i] = value;
        self
    }

    /// Sets or clears bits in the apage at T+2 (page 0) or T+3 (page 1).
    pub fn bits(mut self, page: u32, sectors: Range<u32>, on: bool) -> Forge {
        let at = (self.t + 2 + page) as usize * SECTOR;
        for sector in sectors {
            let mask = 1 << (sector % 8);
            let byte = &mut self.card[at + sector as usize / 8];
            *byte = if on { *byte | mask } else { *byte & !mask };
        }
        self
    }

    /// The same in both apages.
    pub fn bits_of_both(self, sectors: Range<u32>, on: bool) -> Forge {
        self.bits(0, sectors.clone(), on).bits(1, sectors, on)
    }

    /// Fills a sector with one byte.
    pub fn fill(mut self, sector: u32, value: u8) -> Forge {
        let at = sector as usize * SECTOR;
        self.card[at..at + SECTOR].fill(value);
        self
    }

    /// Cuts the card off, or lengthens it with zeros.
    pub fn length(mut self, bytes: usize) -> Forge {
        self.card.resize(bytes, 0);
        self
    }

    /// The first data sector.
    pub fn f(&self) -> u32 {
        self.t + 4 + self.d
    }

    /// The finished card.
    pub fn bytes(self) -> Vec<u8> {
        self.card
    }
}
