//! Put, remove, get, list and free: the calls on the working image.

use super::directory::{Stamp, StoredName, Version, ABSENT};
use super::image::{bytes_of, set_bit, PAGE_SECTORS, SECTOR};
use super::index::Group;
use super::session::{Open, Session};
use super::view::{Line, View};
use super::{number, BAD_NAME, NO_ENTRY, NO_FILE, NO_ROOM, NO_SECTOR, SHORT_OUTPUT, WORN};
use std::ops::Range;

/// Stores a whole file under a name.
pub fn put(session: &Session, work: &mut [u8], name: &[u8], content: &[u8]) -> u32 {
    put_at(session, work, name, content, 0)
}

/// The same with a goal sector: the first fitting run at or after it, else the
/// lowest.
pub fn put_at(session: &Session, work: &mut [u8], name: &[u8], content: &[u8], goal: u32) -> u32 {
    number(try_put(session, work, name, content, goal))
}

fn try_put(
    session: &Session,
    work: &mut [u8],
    name: &[u8],
    content: &[u8],
    goal: u32,
) -> Result<(), u32> {
    let (open, name) = ready_to_change(session, work, name)?;
    if goal >= open.geometry.s() {
        return Err(NO_SECTOR);
    }
    let (present, cut) = (open.present(work), open.cut(work));
    let i = entry_for(&present, &cut, &name).ok_or(NO_ENTRY)?;
    let run = room_for(&present, &cut, content.len(), goal).ok_or(NO_ROOM)?;
    let earlier = present.shown(i).run();
    let version = Version {
        state: 1,
        start: run.start,
        sectors: run.end - run.start,
        bytes: content.len() as u32,
    };
    write_content(work, &run, content);
    change_bitmap(&open, work, run, earlier);
    change_entry(&open, work, i, name, version);
    Ok(())
}

/// Removes a file of the present view.
pub fn remove(session: &Session, work: &mut [u8], name: &[u8]) -> u32 {
    number(try_remove(session, work, name))
}

fn try_remove(session: &Session, work: &mut [u8], name: &[u8]) -> Result<(), u32> {
    let (open, name) = ready_to_change(session, work, name)?;
    let present = open.present(work);
    let i = present.find(&name).ok_or(NO_FILE)?;
    let earlier = present.shown(i).run();
    change_bitmap(&open, work, 0..0, earlier);
    change_entry(&open, work, i, name, ABSENT);
    Ok(())
}

/// Fills the first bytes of the output with a file and counts them.
pub fn get(session: &Session, work: &[u8], name: &[u8], out: &mut [u8]) -> Result<u32, u32> {
    let open = session.fitting(work)?;
    get_shown(&open.present(work), name, out)
}

/// Fills the first lines with the present files and counts them.
pub fn list(session: &Session, work: &[u8], lines: &mut [Line]) -> Result<u32, u32> {
    let open = session.fitting(work)?;
    list_shown(&open.present(work), lines)
}

/// Bytes of what free gives as it crosses the C boundary: two words.
pub const ROOM_BYTES: usize = 8;

/// What free gives.
#[derive(Clone, Copy, Debug, Default, PartialEq, Eq)]
pub struct Room {
    /// The sectors that are clear in both views.
    pub free: u32,
    /// The sectors that the next sync releases: set in the cut view and clear
    /// in the present one.
    pub waiting: u32,
}

impl Room {
    /// The words free and waiting, least byte first.
    pub fn encode(&self) -> [u8; ROOM_BYTES] {
        let mut bytes = [0; ROOM_BYTES];
        bytes[..4].copy_from_slice(&self.free.to_le_bytes());
        bytes[4..].copy_from_slice(&self.waiting.to_le_bytes());
        bytes
    }
}

/// Counts the free sectors and those that wait for the next sync.
pub fn free(session: &Session, work: &[u8]) -> Result<Room, u32> {
    let open = session.fitting(work)?;
    let (present, cut) = (open.present(work), open.cut(work));
    let mut room = Room::default();
    for sector in 0..open.geometry.s() {
        match (present.in_use(sector), cut.in_use(sector)) {
            (false, false) => room.free += 1,
            (false, true) => room.waiting += 1,
            (true, _) => {}
        }
    }
    Ok(room)
}

/// Get over the files of a view: 5, 6, 10.
pub fn get_shown(view: &View, name: &[u8], out: &mut [u8]) -> Result<u32, u32> {
    let name = StoredName::from_given(name).ok_or(BAD_NAME)?;
    let i = view.find(&name).ok_or(NO_FILE)?;
    let Version { start, bytes, .. } = view.shown(i);
    let output = out.get_mut(..bytes as usize).ok_or(SHORT_OUTPUT)?;
    let at = start as usize * SECTOR;
    output.copy_from_slice(&view.image[at..at + bytes as usize]);
    Ok(bytes)
}

/// List over the files of a view: 10.
pub fn list_shown(view: &View, lines: &mut [Line]) -> Result<u32, u32> {
    let shown = view.lines();
    let output = lines.get_mut(..shown.len()).ok_or(SHORT_OUTPUT)?;
    output.copy_from_slice(&shown);
    Ok(shown.len() as u32)
}

/// A session that can change files, and a good name: 4, 2, 9, 5.
fn ready_to_change(session: &Session, work: &[u8], name: &[u8]) -> Result<(Open, StoredName), u32> {
    let open = session.fitting(work)?;
    if open.worn {
        return Err(WORN);
    }
    let name = StoredName::from_given(name).ok_or(BAD_NAME)?;
    Ok((open, name))
}

/// The entry of a name present in either view, or the lowest entry that is
/// absent in both.
fn entry_for(present: &View, cut: &View, name: &StoredName) -> Option<usize> {
    let in_either = |i: &usize| present.shown(*i).present() || cut.shown(*i).present();
    let mut entries = 0..present.geometry.entries();
    let of_name = entries
        .clone()
        .find(|i| in_either(i) && present.entry(*i).name == *name);
    of_name.or_else(|| entries.find(|i| !in_either(i)))
}

/// The run for so many bytes: the first that fits at or after the goal, else
/// the lowest; 0 bytes take none, from 0.
fn room_for(present: &View, cut: &View, bytes: usize, goal: u32) -> Option<Range<u32>> {
    let sectors = u32::try_from(bytes.div_ceil(SECTOR)).ok()?;
    if sectors == 0 {
        return Some(0..0);
    }
    let at_or_after = first_run(present, cut, sectors, goal);
    at_or_after.or_else(|| first_run(present, cut, sectors, 0))
}

/// The lowest run of so many data sectors that starts at or after a sector, is
/// free in both views and lies inside one page.
fn first_run(present: &View, cut: &View, sectors: u32, from: u32) -> Option<Range<u32>> {
    let free = |sector: u32| !present.in_use(sector) && !cut.in_use(sector);
    let mut run = 0..0;
    for sector in from.max(present.geometry.f())..present.geometry.s() {
        if run.end != sector || sector % PAGE_SECTORS == 0 {
            run = sector..sector;
        }
        if free(sector) {
            run.end += 1;
        }
        if run.end - run.start == sectors {
            return Some(run);
        }
    }
    None
}

/// Writes content to a run and fills the last sector with zeros.
fn write_content(work: &mut [u8], run: &Range<u32>, content: &[u8]) {
    for (sector, part) in run.clone().zip(content.chunks(SECTOR)) {
        let place = &mut work[bytes_of(sector)];
        place.fill(0);
        place[..part.len()].copy_from_slice(part);
    }
}

/// Sets the bits of the sectors taken and clears those given back. Each of the
/// two runs lies in one page.
fn change_bitmap(open: &Open, work: &mut [u8], taken: Range<u32>, given_back: Range<u32>) {
    change_run(open, work, taken, true);
    change_run(open, work, given_back, false);
}

/// Sets or clears the bits of a run inside one page, in the apage of this
/// transaction. A run of no sectors touches nothing.
fn change_run(open: &Open, work: &mut [u8], run: Range<u32>, on: bool) {
    if run.is_empty() {
        return;
    }
    let page = apage_to_change(open, work, run.start / PAGE_SECTORS);
    for sector in run {
        set_bit(work, page, sector, on);
    }
}

/// Stamps group `p` (c, t), with A a copy of the apage shown before, unless
/// that was done earlier in this transaction. Gives A.
fn apage_to_change(open: &Open, work: &mut [u8], p: u32) -> u32 {
    let view = open.present(work);
    let Group { stamp, a, b } = view.group(p);
    if stamp == now(open) {
        return a;
    }
    let (a, b) = if view.alive(stamp) { (b, a) } else { (a, b) };
    work.copy_within(bytes_of(b), bytes_of(a).start);
    let stamp = now(open);
    Group { stamp, a, b }.store(work, &open.geometry, p);
    a
}

/// Gives entry `i` a name and a new version, stamped (c, t). The first time
/// in a transaction the version shown before becomes or stays the old one.
fn change_entry(open: &Open, work: &mut [u8], i: usize, name: StoredName, version: Version) {
    let view = open.present(work);
    let mut entry = view.entry(i);
    if entry.stamp != now(open) && view.alive(entry.stamp) {
        entry.old = entry.new;
    }
    entry.name = name;
    entry.new = version;
    entry.stamp = now(open);
    entry.store(work, &open.geometry, i);
}

/// The stamp (c, t).
fn now(open: &Open) -> Stamp {
    Stamp {
        cc: open.c,
        txc: open.tx,
    }
}
