//! The card writes of mount, sync and unmount, one sector each, in order.
//!
//! A list has a barrier wherever all that was written before must have landed
//! before what follows. The functions named `.._cut` do the first writes of a
//! call and stop there, as a cut inside the call would: they change the card
//! alone, for the cut loses the working image and ends the session.

use super::image::{bytes_of, sector_of, set_word, word, Geometry, SECTOR};
use super::rules::sound_card;
use super::session::{Open, Session};
use super::{number, BAD_GEOMETRY, NO_COUNT_LEFT, TOP, WORN};

/// One step of a call.
#[derive(Clone, Debug, PartialEq, Eq)]
pub enum Step {
    /// A sector of the card is written.
    Write {
        sector: u32,
        content: Box<[u8; SECTOR]>,
    },
    /// What was written so far, also by earlier calls, lands before the rest.
    Barrier,
}

/// The steps of a mount: sector 0 with count C + 1, which lands before
/// anything else of the session.
pub fn of_mount(card: &[u8], work: &[u8]) -> Result<Vec<Step>, u32> {
    let geometry = sound_and_of_one_length(card, work)?;
    let c = word(card, 0, 0);
    if c == geometry.n() {
        return Err(NO_COUNT_LEFT);
    }
    Ok(vec![sector_0_with(card, c + 1), Step::Barrier])
}

/// The steps of a sync: every sector outside the table that differs on the
/// card, in rising order, then the table sector that holds word c, which has
/// landed when the sync has ended. The barrier before it is for every sector,
/// also one that is not written here.
pub fn of_sync(session: &Session, card: &[u8], work: &[u8]) -> Result<Vec<Step>, u32> {
    let open = session.fitting_card(card, work)?;
    if open.worn {
        return Err(WORN);
    }
    Ok(sync_of(&open, card, work))
}

/// The steps of an unmount: sync's, then sector 0 with count c. A worn
/// session has none, and one that becomes worn has sync's alone.
pub fn of_unmount(session: &Session, card: &[u8], work: &[u8]) -> Result<Vec<Step>, u32> {
    let open = session.fitting_card(card, work)?;
    if open.worn {
        return Ok(Vec::new());
    }
    let mut steps = sync_of(&open, card, work);
    if open.tx < TOP {
        steps.push(sector_0_with(work, open.c));
    }
    Ok(steps)
}

/// How many writes a list has.
pub fn writes(steps: &[Step]) -> usize {
    steps.iter().filter(|s| **s != Step::Barrier).count()
}

/// How many sectors a sync or an unmount with this list says it wrote: those
/// before the last barrier. Sector 0 of an unmount comes after it.
pub fn counted(steps: &[Step]) -> u32 {
    let end = steps.iter().rposition(|s| *s == Step::Barrier);
    writes(&steps[..end.unwrap_or(0)]) as u32
}

/// Does the first `k` writes of a list, or all if it has fewer.
pub fn first_writes(card: &mut [u8], steps: &[Step], k: usize) {
    let writes = steps.iter().filter_map(|step| match step {
        Step::Write { sector, content } => Some((sector, content)),
        Step::Barrier => None,
    });
    for (sector, content) in writes.take(k) {
        card[bytes_of(*sector)].copy_from_slice(content.as_slice());
    }
}

/// A mount as far as place `k`: sector 0 is the first.
pub fn mount_first(card: &mut [u8], work: &[u8], k: u32) -> u32 {
    mount_cut(card, work, k as usize)
}

/// A sync as far as place `k`, and how many sectors it wrote by then. The
/// places are sector 0, every sector past the table, a barrier, the table
/// sector and a barrier.
pub fn sync_first(session: &Session, card: &mut [u8], work: &[u8], k: u32) -> Result<u32, u32> {
    let steps = of_sync(session, card, work)?;
    let geometry = session.fitting(work)?.geometry;
    Ok(first_places(&geometry, card, &steps, k))
}

/// An unmount as far as place `k`: sync's places, and then sector 0, which is
/// not counted.
pub fn unmount_first(session: &Session, card: &mut [u8], work: &[u8], k: u32) -> Result<u32, u32> {
    let steps = of_unmount(session, card, work)?;
    let geometry = session.fitting(work)?.geometry;
    Ok(first_places(&geometry, card, &steps, k))
}

/// Does the writes of a list that stand at the first `k` places, and counts
/// those before the last barrier.
fn first_places(geometry: &Geometry, card: &mut [u8], steps: &[Step], k: u32) -> u32 {
    let before_barrier = geometry.s() - geometry.t();
    let (mut barriers, mut count) = (0, 0);
    for step in steps {
        match step {
            Step::Barrier => barriers += 1,
            Step::Write { sector, content } => {
                let place = match (barriers, *sector) {
                    (0, 0) => 1,
                    (0, past_table) => past_table - geometry.t() + 1,
                    (1, _) => before_barrier + 2,
                    _ => before_barrier + 4,
                };
                if place <= k {
                    card[bytes_of(*sector)].copy_from_slice(content.as_slice());
                    count += u32::from(barriers < 2);
                }
            }
        }
    }
    count
}

/// A mount that is cut after its first `k` writes.
pub fn mount_cut(card: &mut [u8], work: &[u8], k: usize) -> u32 {
    let steps = of_mount(card, work);
    cut_after(card, steps, k)
}

/// A sync that is cut after its first `k` writes.
pub fn sync_cut(session: &Session, card: &mut [u8], work: &[u8], k: usize) -> u32 {
    let steps = of_sync(session, card, work);
    cut_after(card, steps, k)
}

/// An unmount that is cut after its first `k` writes.
pub fn unmount_cut(session: &Session, card: &mut [u8], work: &[u8], k: usize) -> u32 {
    let steps = of_unmount(session, card, work);
    cut_after(card, steps, k)
}

fn cut_after(card: &mut [u8], steps: Result<Vec<Step>, u32>, k: usize) -> u32 {
    number(steps.map(|steps| first_writes(card, &steps, k)))
}

/// The geometry of a sound card with a working image of its length: 1, 2.
fn sound_and_of_one_length(card: &[u8], work: &[u8]) -> Result<Geometry, u32> {
    if card.len() != work.len() {
        return Err(BAD_GEOMETRY);
    }
    Ok(sound_card(card)?.geometry)
}

fn sync_of(open: &Open, card: &[u8], work: &[u8]) -> Vec<Step> {
    let g = &open.geometry;
    let outside_table = (0..1).chain(g.index()..g.s());
    let differ = outside_table.filter(|s| card[bytes_of(*s)] != work[bytes_of(*s)]);
    let mut steps: Vec<Step> = differ.map(|sector| write_of(work, sector)).collect();
    steps.extend([Step::Barrier, table_step(open, work), Step::Barrier]);
    steps
}

/// The table sector that holds word c, with word c = t.
fn table_step(open: &Open, work: &[u8]) -> Step {
    let sector = open.geometry.table_sector(open.c);
    let mut content = sector_of(work, sector);
    set_word(&mut content, 0, (open.c % 128) as usize, open.tx);
    write(sector, content)
}

fn write_of(image: &[u8], sector: u32) -> Step {
    write(sector, sector_of(image, sector))
}

/// Sector 0 of an image with another crash count.
fn sector_0_with(image: &[u8], count: u32) -> Step {
    let mut content = sector_of(image, 0);
    set_word(&mut content, 0, 0, count);
    write(0, content)
}

fn write(sector: u32, content: [u8; SECTOR]) -> Step {
    Step::Write {
        sector,
        content: Box::new(content),
    }
}
