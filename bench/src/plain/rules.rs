//! When a card is sound and when a session fits a working image.

use super::image::{table_word, word, Geometry, SECTOR_WORDS};
use super::session::Open;
use super::view::View;
use super::TOP;
use std::collections::BTreeSet;

/// A card of a stored geometry, with the length it asks for, and sound:
/// otherwise refused 1 or 2.
pub fn sound_card(card: &[u8]) -> Result<View<'_>, u32> {
    let geometry = Geometry::stored(card).ok_or(super::BAD_GEOMETRY)?;
    let view = View {
        image: card,
        geometry,
        taken: None,
    };
    if sound(&view) {
        Ok(view)
    } else {
        Err(super::NOT_SOUND)
    }
}

/// Whether a card of this geometry and length is sound.
fn sound(view: &View) -> bool {
    let (card, n) = (view.image, view.geometry.n());
    let c = word(card, 0, 0);
    c <= n
        && table_in_range(card, n)
        && words_past_zero(card, n, c)
        && (c == n || table_word(card, c) < TOP)
        && rest_of_sector_0_zero(card)
        && view.passes()
        && view.dead_stamps_below(c)
        && no_name_twice(&[view])
}

/// Whether an open session fits a working image.
pub fn fits(open: &Open, work: &[u8]) -> bool {
    let (n, c, t) = (open.geometry.n(), open.c, open.tx);
    let (present, cut) = (open.present(work), open.cut(work));
    super::image::has_sectors(work, open.geometry.s())
        && c < n
        && (1..=TOP).contains(&t)
        && sector_0_agrees(open, work)
        && word_c_agrees(open, work)
        && table_in_range(work, n)
        && words_past_zero(work, n, c)
        && present.passes()
        && cut.passes()
        && present.dead_stamps_below(c)
        && present.stamps().iter().all(|s| s.cc != c || s.txc <= t)
        && no_name_twice(&[&present, &cut])
}

/// Sector 0 has count c + 1, the session's geometry, and zeros.
fn sector_0_agrees(open: &Open, work: &[u8]) -> bool {
    let g = &open.geometry;
    let words = [0, 1, 2, 3].map(|i| word(work, 0, i));
    words == [open.c + 1, g.s(), g.t(), g.d()] && rest_of_sector_0_zero(work)
}

/// Table word c is t - 1; in a worn session it and t are the largest.
fn word_c_agrees(open: &Open, work: &[u8]) -> bool {
    let word_c = table_word(work, open.c);
    if open.worn {
        open.tx == TOP && word_c == TOP
    } else {
        word_c == open.tx - 1
    }
}

fn table_in_range(image: &[u8], n: u32) -> bool {
    (0..n).all(|i| table_word(image, i) <= TOP)
}

fn words_past_zero(image: &[u8], n: u32, c: u32) -> bool {
    (0..n).all(|i| i <= c || table_word(image, i) == 0)
}

fn rest_of_sector_0_zero(image: &[u8]) -> bool {
    (4..SECTOR_WORDS).all(|i| word(image, 0, i) == 0)
}

/// No name is in two entries, counting the entries that show a present file
/// in any of the views of one image.
fn no_name_twice(views: &[&View]) -> bool {
    let Some(first) = views.first() else {
        return true;
    };
    let mut names = BTreeSet::new();
    (0..first.geometry.entries())
        .filter(|i| views.iter().any(|view| view.shown(*i).present()))
        .all(|i| names.insert(first.entry(i).name))
}
