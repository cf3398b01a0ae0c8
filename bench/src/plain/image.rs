//! An image: sectors of 512 bytes, words least byte first, and the places of
//! the card's parts for a geometry.

use std::ops::Range;

/// Bytes of a sector.
pub const SECTOR: usize = 512;
/// Words of a sector.
pub const SECTOR_WORDS: usize = 128;
/// The most sectors a card can have.
pub const MOST_SECTORS: u32 = 65_536;
/// The bits of an apage, which are the sectors that it covers.
pub const PAGE_SECTORS: u32 = 4_096;

/// Word `i` counted from the start of `sector`. The image must hold it.
#[inline]
pub fn word(image: &[u8], sector: u32, i: usize) -> u32 {
    let at = sector as usize * SECTOR + 4 * i;
    u32::from_le_bytes([image[at], image[at + 1], image[at + 2], image[at + 3]])
}

/// Writes word `i` counted from the start of `sector`. The image must hold it.
#[inline]
pub fn set_word(image: &mut [u8], sector: u32, i: usize, value: u32) {
    let at = sector as usize * SECTOR + 4 * i;
    image[at..at + 4].copy_from_slice(&value.to_le_bytes());
}

/// The places of a sector's bytes in an image.
#[inline]
pub fn bytes_of(sector: u32) -> Range<usize> {
    let at = sector as usize * SECTOR;
    at..at + SECTOR
}

/// The content of a sector, as a value of its own.
pub fn sector_of(image: &[u8], sector: u32) -> [u8; SECTOR] {
    let mut content = [0; SECTOR];
    content.copy_from_slice(&image[bytes_of(sector)]);
    content
}

/// Whether an image has 512·S bytes, for any S that a word holds.
pub fn has_sectors(image: &[u8], s: u32) -> bool {
    image.len() as u64 == u64::from(s) * SECTOR as u64
}

/// A geometry inside the limits; there is no other value of this type.
#[derive(Clone, Copy, Debug, PartialEq, Eq)]
pub struct Geometry {
    s: u32,
    t: u32,
    d: u32,
}

impl Geometry {
    /// The geometry S, T, D, if it is inside the limits.
    pub fn within_limits(s: u32, t: u32, d: u32) -> Option<Geometry> {
        let ranges_hold = s <= MOST_SECTORS && (1..=512).contains(&t) && (1..=64).contains(&d);
        let geometry = Geometry { s, t, d };
        (ranges_hold && s > geometry.f()).then_some(geometry)
    }

    /// The geometry stored in an image, if it is inside the limits and the
    /// image has the length it asks for.
    pub fn stored(image: &[u8]) -> Option<Geometry> {
        if image.len() < 16 {
            return None;
        }
        let found =
            Geometry::within_limits(word(image, 0, 1), word(image, 0, 2), word(image, 0, 3))?;
        has_sectors(image, found.s).then_some(found)
    }

    /// S, the card's sectors.
    pub fn s(&self) -> u32 {
        self.s
    }

    /// T, the table's sectors.
    pub fn t(&self) -> u32 {
        self.t
    }

    /// D, the directory's sectors.
    pub fn d(&self) -> u32 {
        self.d
    }

    /// N, the table's words.
    pub fn n(&self) -> u32 {
        128 * self.t
    }

    /// P, the pairs of apages: S/4,096 rounded up.
    pub fn pairs(&self) -> u32 {
        self.s.div_ceil(PAGE_SECTORS)
    }

    /// F, the first data sector.
    pub fn f(&self) -> u32 {
        self.directory() + self.d
    }

    /// The sector of the apage index.
    pub fn index(&self) -> u32 {
        self.t + 1
    }

    /// The sectors of the two apages of pair `p`, which cover the sectors
    /// 4,096p to 4,096p + 4,095.
    pub fn pair(&self, p: u32) -> (u32, u32) {
        (self.t + 2 + 2 * p, self.t + 3 + 2 * p)
    }

    /// The first sector of the directory.
    pub fn directory(&self) -> u32 {
        self.t + 2 + 2 * self.pairs()
    }

    /// How many entries the directory has.
    pub fn entries(&self) -> usize {
        4 * self.d as usize
    }

    /// The sector of the table that holds word `c`.
    pub fn table_sector(&self, c: u32) -> u32 {
        1 + c / SECTOR_WORDS as u32
    }
}

/// Table word `i`. The image must hold it.
#[inline]
pub fn table_word(image: &[u8], i: u32) -> u32 {
    word(image, 1, i as usize)
}

/// Whether the bit of `sector` is set in the apage at `page`, which covers it.
#[inline]
pub fn bit(image: &[u8], page: u32, sector: u32) -> bool {
    let byte = image[byte_of(page, sector)];
    byte & (1 << (sector % 8)) != 0
}

/// Sets or clears the bit of `sector` in the apage at `page`, which covers it.
#[inline]
pub fn set_bit(image: &mut [u8], page: u32, sector: u32, on: bool) {
    let byte = &mut image[byte_of(page, sector)];
    let mask = 1 << (sector % 8);
    if on {
        *byte |= mask;
    } else {
        *byte &= !mask;
    }
}

/// The place of the byte that has the bit of `sector` in the apage at `page`.
#[inline]
fn byte_of(page: u32, sector: u32) -> usize {
    page as usize * SECTOR + (sector % PAGE_SECTORS) as usize / 8
}
