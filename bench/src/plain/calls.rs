//! Make, mount, land, sync and unmount: the calls that write to the card.

use super::directory::Stamp;
use super::image::{
    bytes_of, has_sectors, set_bit, set_word, table_word, word, Geometry, PAGE_SECTORS,
};
use super::index::Group;
use super::session::{Open, Session};
use super::steps::{counted, first_writes, of_mount, of_sync, of_unmount};
use super::{number, BAD_GEOMETRY, DONE, NO_SECTOR, TOP};

/// Makes a fresh card of S, T and D.
pub fn make(s: u32, t: u32, d: u32, card: &mut [u8]) -> u32 {
    let Some(geometry) = Geometry::within_limits(s, t, d).filter(|_| has_sectors(card, s)) else {
        return BAD_GEOMETRY;
    };
    card.fill(0);
    for (i, value) in [0, s, t, d].into_iter().enumerate() {
        set_word(card, 0, i, value);
    }
    let stamp = Stamp { cc: 0, txc: 0 };
    for p in 0..geometry.pairs() {
        let (a, b) = geometry.pair(p);
        Group { stamp, a, b }.store(card, &geometry, p);
    }
    for sector in (0..geometry.f()).chain(s..PAGE_SECTORS * geometry.pairs()) {
        let (a, b) = geometry.pair(sector / PAGE_SECTORS);
        set_bit(card, a, sector, true);
        set_bit(card, b, sector, true);
    }
    DONE
}

/// Mounts a card: a session, or a refusal and the closed session.
pub fn mount(card: &mut [u8], work: &mut [u8]) -> (u32, Session) {
    match try_mount(card, work) {
        Ok(open) => (DONE, open.into()),
        Err(refusal) => (refusal, Session::Closed),
    }
}

fn try_mount(card: &mut [u8], work: &mut [u8]) -> Result<Open, u32> {
    let steps = of_mount(card, work)?;
    let geometry = Geometry::stored(card).ok_or(BAD_GEOMETRY)?;
    let c = word(card, 0, 0);
    first_writes(card, &steps, steps.len());
    work.copy_from_slice(card);
    Ok(Open {
        geometry,
        c,
        tx: table_word(card, c) + 1,
        worn: false,
    })
}

/// Copies one sector of the working image to the card.
pub fn land(session: &Session, card: &mut [u8], work: &[u8], sector: u32) -> u32 {
    number(try_land(session, card, work, sector))
}

fn try_land(session: &Session, card: &mut [u8], work: &[u8], sector: u32) -> Result<(), u32> {
    let open = session.fitting_card(card, work)?;
    if sector >= open.geometry.s() {
        return Err(NO_SECTOR);
    }
    card[bytes_of(sector)].copy_from_slice(&work[bytes_of(sector)]);
    Ok(())
}

/// Brings the working image to the card and begins the next transaction.
pub fn sync(session: &mut Session, card: &mut [u8], work: &mut [u8]) -> u32 {
    number(sync_count(session, card, work).map(|_| ()))
}

/// The same, and gives how many sectors it wrote.
pub fn sync_count(session: &mut Session, card: &mut [u8], work: &mut [u8]) -> Result<u32, u32> {
    let steps = of_sync(session, card, work)?;
    let open = session.fitting(work)?;
    first_writes(card, &steps, steps.len());
    set_word(work, 1, open.c as usize, open.tx);
    *session = after_sync(open).into();
    Ok(counted(&steps))
}

/// The session after a sync: t grows by 1, or stays and the session is worn.
fn after_sync(open: Open) -> Open {
    if open.tx == TOP {
        Open { worn: true, ..open }
    } else {
        Open {
            tx: open.tx + 1,
            ..open
        }
    }
}

/// Syncs unless worn, gives the crash count back unless worn by then, and
/// closes the session.
pub fn unmount(session: &mut Session, card: &mut [u8], work: &mut [u8]) -> u32 {
    number(unmount_count(session, card, work).map(|_| ()))
}

/// The same, and gives how many sectors its sync wrote; sector 0 is not
/// counted.
pub fn unmount_count(session: &mut Session, card: &mut [u8], work: &mut [u8]) -> Result<u32, u32> {
    let steps = of_unmount(session, card, work)?;
    let open = session.fitting(work)?;
    first_writes(card, &steps, steps.len());
    if !open.worn {
        set_word(work, 1, open.c as usize, open.tx);
        if open.tx < TOP {
            set_word(work, 0, 0, open.c);
        }
    }
    *session = Session::Closed;
    Ok(counted(&steps))
}
