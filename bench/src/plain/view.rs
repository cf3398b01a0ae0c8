//! A view: what an image shows when one table word is taken as given.

use super::directory::{last_words_zero, Entry, Stamp, StoredName, Version};
use super::image::{bit, table_word, Geometry, PAGE_SECTORS};
use super::index::{words_past_groups_zero, Group};
use super::TOP;
use std::ops::Range;

/// One line of a list: a file's name, start, sectors and bytes, laid out as it
/// crosses to C.
#[repr(C)]
#[derive(Clone, Copy, Debug, Default, PartialEq, Eq)]
pub struct Line {
    /// The length of the name.
    pub length: u32,
    /// The name's bytes; the unused ones are 0.
    pub name: [u8; 32],
    /// The file's first sector, 0 for a file of 0 bytes.
    pub start: u32,
    /// Its sectors.
    pub sectors: u32,
    /// Its bytes.
    pub bytes: u32,
}

impl Line {
    /// The used bytes of the name.
    pub fn used_name(&self) -> &[u8] {
        &self.name[..(self.length as usize).min(32)]
    }
}

/// An image of a geometry, with at most one table word taken otherwise.
#[derive(Clone, Copy)]
pub struct View<'a> {
    pub image: &'a [u8],
    pub geometry: Geometry,
    /// The number of a table word and the value it is taken as.
    pub taken: Option<(u32, u32)>,
}

impl View<'_> {
    /// Whether a stamp is alive. A crash count past the table is not.
    pub fn alive(&self, stamp: Stamp) -> bool {
        if stamp.cc >= self.geometry.n() {
            return false;
        }
        let word = match self.taken {
            Some((c, value)) if c == stamp.cc => value,
            _ => table_word(self.image, stamp.cc),
        };
        stamp.txc <= word
    }

    /// Entry `i` as stored.
    pub fn entry(&self, i: usize) -> Entry {
        Entry::load(self.image, &self.geometry, i)
    }

    /// The version that entry `i` shows.
    pub fn shown(&self, i: usize) -> Version {
        let entry = self.entry(i);
        if self.alive(entry.stamp) {
            entry.new
        } else {
            entry.old
        }
    }

    /// Group `p` of the index, as stored.
    pub fn group(&self, p: u32) -> Group {
        Group::load(self.image, &self.geometry, p)
    }

    /// The sector of the apage of pair `p` that is shown. A and B must pass.
    fn shown_page(&self, p: u32) -> u32 {
        let Group { stamp, a, b } = self.group(p);
        if self.alive(stamp) {
            a
        } else {
            b
        }
    }

    /// Whether the sector's bit is set in the shown apage that covers it. A and
    /// B must pass.
    pub fn in_use(&self, sector: u32) -> bool {
        bit(self.image, self.shown_page(sector / PAGE_SECTORS), sector)
    }

    /// The clear bits of the shown apages. A and B must pass.
    pub fn clear_bits(&self) -> u32 {
        let clear = |p| {
            let page = self.shown_page(p);
            covered(p).filter(|b| !bit(self.image, page, *b)).count() as u32
        };
        (0..self.geometry.pairs()).map(clear).sum()
    }

    /// The lines of the shown files, in entry order.
    pub fn lines(&self) -> Vec<Line> {
        let shown = (0..self.geometry.entries()).filter(|i| self.shown(*i).present());
        shown.map(|i| self.line(i)).collect()
    }

    /// The line of the file that entry `i` shows.
    fn line(&self, i: usize) -> Line {
        let StoredName { length, bytes } = self.entry(i).name;
        let version = self.shown(i);
        Line {
            length,
            name: bytes,
            bytes: version.bytes,
            start: version.start,
            sectors: version.sectors,
        }
    }

    /// The entry that shows a present file of this name.
    pub fn find(&self, name: &StoredName) -> Option<usize> {
        (0..self.geometry.entries())
            .find(|i| self.shown(*i).present() && self.entry(*i).name == *name)
    }

    /// Every stamp: each group's and each entry's.
    pub fn stamps(&self) -> Vec<Stamp> {
        let groups = (0..self.geometry.pairs()).map(|p| self.group(p).stamp);
        let entries = (0..self.geometry.entries()).map(|i| self.entry(i).stamp);
        groups.chain(entries).collect()
    }

    /// Whether every dead stamp has a crash count below `c`.
    pub fn dead_stamps_below(&self, c: u32) -> bool {
        let stamps = self.stamps();
        stamps
            .iter()
            .all(|stamp| self.alive(*stamp) || stamp.cc < c)
    }

    /// The entry, index and bitmap rules.
    pub fn passes(&self) -> bool {
        self.stamps_in_range()
            && self.index_passes()
            && (0..self.geometry.entries()).all(|i| self.entry_passes(i))
            && self.bitmap_passes()
    }

    fn stamps_in_range(&self) -> bool {
        let n = self.geometry.n();
        self.stamps().iter().all(|s| s.cc < n && s.txc <= TOP)
    }

    fn index_passes(&self) -> bool {
        let g = &self.geometry;
        (0..g.pairs()).all(|p| self.group(p).names_pair(g, p))
            && words_past_groups_zero(self.image, g)
    }

    fn entry_passes(&self, i: usize) -> bool {
        let version = self.shown(i);
        last_words_zero(self.image, &self.geometry, i)
            && version.well_formed()
            && version.inside_data(&self.geometry)
            && version.inside_page()
            && (!version.present() || self.entry(i).name.good())
    }

    /// Exactly the bits below F, from S up and of the shown files' sectors are
    /// set, and no sector is in two files. The entries must pass.
    fn bitmap_passes(&self) -> bool {
        let data = self.geometry.f()..self.geometry.s();
        let all = 0..PAGE_SECTORS * self.geometry.pairs();
        let mut expected: Vec<bool> = all.map(|b| !data.contains(&b)).collect();
        for i in 0..self.geometry.entries() {
            for sector in self.shown(i).run() {
                if std::mem::replace(&mut expected[sector as usize], true) {
                    return false;
                }
            }
        }
        (0..self.geometry.pairs()).all(|p| {
            let page = self.shown_page(p);
            covered(p).all(|b| bit(self.image, page, b) == expected[b as usize])
        })
    }
}

/// The sectors that pair `p` covers.
fn covered(p: u32) -> Range<u32> {
    PAGE_SECTORS * p..PAGE_SECTORS * (p + 1)
}
