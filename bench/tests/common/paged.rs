//! What the wrong stores do with the index and its pairs of apages.

use bench::host::SessionBytes;
use bench::plain::{set_word, word, Geometry, PAGE_SECTORS, SECTOR, TOP};
use std::ops::Range;

/// Group `p` of an image: cc, txc, A, B.
fn group(image: &[u8], g: &Geometry, p: u32) -> [u32; 4] {
    [0, 1, 2, 3].map(|k| word(image, g.index(), 4 * p as usize + k))
}

fn set_group(image: &mut [u8], g: &Geometry, p: u32, words: [u32; 4]) {
    for (k, value) in words.into_iter().enumerate() {
        set_word(image, g.index(), 4 * p as usize + k, value);
    }
}

/// The stamp (c, t) of a session.
fn now(session: &SessionBytes) -> [u32; 2] {
    [word(session, 0, 4), word(session, 0, 5)]
}

/// The apages that the present view and the cut view show for a page.
fn shown(session: &SessionBytes, work: &[u8], g: &Geometry, p: u32) -> [u32; 2] {
    let [cc, txc, a, b] = group(work, g, p);
    if [cc, txc] == now(session) {
        [a, b]
    } else if cc < g.n() && txc <= word(work, 1, cc as usize) {
        [a, a]
    } else {
        [b, b]
    }
}

/// The byte and the bit of a sector in an apage that covers it.
fn place(page: u32, sector: u32) -> (usize, u8) {
    let bit = (sector % PAGE_SECTORS) as usize;
    (SECTOR * page as usize + bit / 8, 1 << (bit % 8))
}

/// Whether both views of a working image have a sector free.
pub fn free_in_both(session: &SessionBytes, work: &[u8], g: &Geometry, sector: u32) -> bool {
    let pages = shown(session, work, g, sector / PAGE_SECTORS);
    let used = |page| {
        let (at, mask) = place(page, sector);
        work.get(at).is_none_or(|byte| byte & mask != 0)
    };
    !pages.into_iter().any(used)
}

/// The data sectors that the cut view of a working image has set.
pub fn used_in_cut(session: &SessionBytes, work: &[u8], g: &Geometry) -> u32 {
    let used = |sector: &u32| {
        let [_, cut] = shown(session, work, g, sector / PAGE_SECTORS);
        let (at, mask) = place(cut, *sector);
        work.get(at).is_some_and(|byte| byte & mask != 0)
    };
    (g.f()..g.s()).filter(used).count() as u32
}

/// Changes bits by the rule, the groups of all their pages with them.
pub fn change_bits(
    session: &SessionBytes,
    work: &mut [u8],
    g: &Geometry,
    run: Range<u32>,
    on: bool,
) {
    for sector in run {
        let page = page_to_change(session, work, g, sector / PAGE_SECTORS);
        set_bit(work, page, sector, on);
    }
}

fn set_bit(work: &mut [u8], page: u32, sector: u32, on: bool) {
    let (at, mask) = place(page, sector);
    work[at] = if on {
        work[at] | mask
    } else {
        work[at] & !mask
    };
}

fn page_to_change(session: &SessionBytes, work: &mut [u8], g: &Geometry, p: u32) -> u32 {
    let [cc, txc, a, b] = group(work, g, p);
    if [cc, txc] == now(session) {
        return a;
    }
    let [kept, _] = shown(session, work, g, p);
    let page = a + b - kept;
    let from = SECTOR * kept as usize;
    work.copy_within(from..from + SECTOR, SECTOR * page as usize);
    let [c, t] = now(session);
    set_group(work, g, p, [c, t, page, kept]);
    page
}

/// Brings a group and its pair back to what they were.
pub fn bring_back(work: &mut [u8], before: &[u8], g: &Geometry, p: u32) {
    set_group(work, g, p, group(before, g, p));
    let (first, second) = g.pair(p);
    for page in [first, second] {
        let bytes = SECTOR * page as usize..SECTOR * (page as usize + 1);
        work[bytes.clone()].copy_from_slice(&before[bytes]);
    }
}

/// Clears bits in the apage that is shown, with no look at its stamp.
pub fn clear_in_place(session: &SessionBytes, work: &mut [u8], g: &Geometry, run: Range<u32>) {
    for sector in run {
        let [page, _] = shown(session, work, g, sector / PAGE_SECTORS);
        set_bit(work, page, sector, false);
    }
}

/// A copy in which a file in two pages ends with the first of them, if there
/// are such files; their new versions are taken as shown.
pub fn without_crossing(image: &[u8]) -> Option<Vec<u8>> {
    let g = Geometry::stored(image)?;
    let mut mended = image.to_vec();
    for i in 0..g.entries() {
        let at = |k| 32 * i + k;
        let [start, sectors, bytes] = [12, 13, 14].map(|k| word(image, g.directory(), at(k)));
        let first = PAGE_SECTORS - start % PAGE_SECTORS;
        if sectors != bytes.div_ceil(512) || sectors <= first || sectors > g.s() {
            continue;
        }
        set_word(&mut mended, g.directory(), at(13), first);
        set_word(&mut mended, g.directory(), at(14), 512 * first);
        for sector in (start..start.checked_add(sectors)?).skip(first as usize) {
            let [_, _, a, _] = group(image, &g, sector / PAGE_SECTORS);
            flip_bit(&mut mended, a, sector);
        }
    }
    Some(mended)
}

/// A bit that was set is clear, and the other way round.
fn flip_bit(work: &mut [u8], page: u32, sector: u32) {
    let (at, mask) = place(page, sector);
    if let Some(byte) = work.get_mut(at) {
        *byte ^= mask;
    }
}

/// A copy in which each group that names the two apages of another pair names
/// its own, which hold what those held.
pub fn with_own_pairs(image: &[u8]) -> Option<Vec<u8>> {
    let g = Geometry::stored(image)?;
    let mut mended = image.to_vec();
    for p in 0..g.pairs() {
        let [cc, txc, a, b] = group(image, &g, p);
        let pair_of = |q: &u32| [g.pair(*q).0, g.pair(*q).1];
        let other = (0..g.pairs()).find(|q| pair_of(q).contains(&a) && pair_of(q).contains(&b));
        if other.is_none_or(|q| q == p || a == b) {
            continue;
        }
        let (own_a, own_b) = g.pair(p);
        for (own, named) in [(own_a, a), (own_b, b)] {
            let (to, from) = (SECTOR * own as usize, SECTOR * named as usize);
            mended[to..to + SECTOR].copy_from_slice(&image[from..from + SECTOR]);
        }
        set_group(&mut mended, &g, p, [cc, txc, own_a, own_b]);
    }
    Some(mended)
}

/// A copy with zeros after the last group.
pub fn with_zeros_past_groups(image: &[u8]) -> Option<Vec<u8>> {
    let g = Geometry::stored(image)?;
    let mut mended = image.to_vec();
    for i in 4 * g.pairs() as usize..128 {
        set_word(&mut mended, g.index(), i, 0);
    }
    Some(mended)
}

/// A copy in which the groups after the first whose stamp is out of range have
/// stamp (0, 0) and show what a dead stamp shows.
pub fn with_good_later_stamps(image: &[u8]) -> Option<Vec<u8>> {
    let g = Geometry::stored(image)?;
    let mut mended = image.to_vec();
    for p in 1..g.pairs() {
        let [cc, txc, a, b] = group(image, &g, p);
        if cc >= g.n() || txc > TOP {
            set_group(&mut mended, &g, p, [0, 0, b, a]);
        }
    }
    Some(mended)
}
