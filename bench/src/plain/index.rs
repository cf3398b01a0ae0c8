//! The apage index: a group of four words for each pair of apages, then zeros.

use super::directory::Stamp;
use super::image::{set_word, word, Geometry, SECTOR_WORDS};

/// Words of a group.
const GROUP_WORDS: usize = 4;

/// A group as stored: any stamp, and any A and B.
#[derive(Clone, Copy, Debug, PartialEq, Eq)]
pub struct Group {
    pub stamp: Stamp,
    pub a: u32,
    pub b: u32,
}

impl Group {
    /// Group `p` of the index.
    #[inline]
    pub fn load(image: &[u8], geometry: &Geometry, p: u32) -> Group {
        let w = |k| word(image, geometry.index(), GROUP_WORDS * p as usize + k);
        Group {
            stamp: Stamp {
                cc: w(0),
                txc: w(1),
            },
            a: w(2),
            b: w(3),
        }
    }

    /// Writes this as group `p`.
    pub fn store(&self, image: &mut [u8], geometry: &Geometry, p: u32) {
        let words = [self.stamp.cc, self.stamp.txc, self.a, self.b];
        for (k, value) in words.into_iter().enumerate() {
            set_word(image, geometry.index(), GROUP_WORDS * p as usize + k, value);
        }
    }

    /// Whether A and B are the two apages of pair `p`, in either order.
    pub fn names_pair(&self, geometry: &Geometry, p: u32) -> bool {
        let (first, second) = geometry.pair(p);
        (self.a, self.b) == (first, second) || (self.a, self.b) == (second, first)
    }
}

/// Whether the words after the P groups are zero.
pub fn words_past_groups_zero(image: &[u8], geometry: &Geometry) -> bool {
    let groups = GROUP_WORDS * geometry.pairs() as usize;
    (groups..SECTOR_WORDS).all(|i| word(image, geometry.index(), i) == 0)
}
