//! The store for a module's own Rust: the host functions with the table's numbers
//! as an enum, and a session that holds on to its two images.
//!
//! ```no_run
//! use bench::module::{make, read_get, Mounted};
//!
//! let (mut card, mut work) = (vec![0; 512 * 64], vec![0; 512 * 64]);
//! make(64, 1, 2, &mut card)?;
//! let mut session = Mounted::mount(&mut card, &mut work)?;
//! session.put(b"left_arm", b"steps 0 at 0")?;
//! session.unmount()?;
//! let mut out = [0; 12];
//! assert_eq!(read_get(&card, b"left_arm", &mut out), Ok(12));
//! # Ok::<(), bench::module::Refusal>(())
//! ```

use crate::host::{self, Answer, Goal, SessionBytes};
use crate::plain::{word, Line, Report, Room};

/// The numbers of the table but 0, which is `Ok`.
#[derive(Clone, Copy, Debug, PartialEq, Eq)]
#[repr(u32)]
pub enum Refusal {
    /// Geometry outside the limits, or an image of the wrong length.
    BadGeometry = 1,
    /// The card is not sound, or the session does not fit.
    NotSound = 2,
    /// Mount of a sound card whose crash counts are used up.
    NoCountLeft = 3,
    /// The session is closed.
    Closed = 4,
    /// Name length or byte outside the rule.
    BadName = 5,
    /// No such file.
    NoFile = 6,
    /// No entry for the name.
    NoEntry = 7,
    /// No run of sectors inside a page that is free in both views.
    NoRoom = 8,
    /// Change or sync in a worn session.
    Worn = 9,
    /// The lent output is too short.
    ShortOutput = 10,
    /// Sector number S or more.
    NoSector = 11,
}

impl Refusal {
    /// All of them, each at the place of its number less 1.
    pub const ALL: [Refusal; 11] = [
        Refusal::BadGeometry,
        Refusal::NotSound,
        Refusal::NoCountLeft,
        Refusal::Closed,
        Refusal::BadName,
        Refusal::NoFile,
        Refusal::NoEntry,
        Refusal::NoRoom,
        Refusal::Worn,
        Refusal::ShortOutput,
        Refusal::NoSector,
    ];

    /// Its number in the table.
    pub fn number(self) -> u32 {
        self as u32
    }
}

/// What a call gives: with number 0 its count or nothing, else the refusal.
pub type Given<T = ()> = Result<T, Refusal>;

/// A number of the table; no call gives another.
fn given(number: u32) -> Given {
    match number.checked_sub(1) {
        None => Ok(()),
        Some(place) => Err(Refusal::ALL[place as usize]),
    }
}

fn counted(answer: Answer) -> Given<u32> {
    given(answer.number).map(|()| answer.count)
}

/// Makes a fresh card of S, T and D.
pub fn make(s: u32, t: u32, d: u32, card: &mut [u8]) -> Given {
    given(host::make(s, t, d, card))
}

/// Reads a card, which needs no session.
pub fn read(card: &[u8]) -> Given<Report> {
    let mut out = [0; 16];
    given(host::read(card, &mut out))?;
    let [c, n, files, free] = [0, 1, 2, 3].map(|i| word(&out, 0, i));
    Ok(Report { c, n, files, free })
}

/// Fills the first bytes with a file that a card shows and counts them.
pub fn read_get(card: &[u8], name: &[u8], out: &mut [u8]) -> Given<u32> {
    counted(host::read_get(card, name, out))
}

/// Fills the first lines with the files that a card shows and counts them.
pub fn read_list(card: &[u8], lines: &mut [Line]) -> Given<u32> {
    counted(host::read_list(card, lines))
}

/// An open session with the card and the working image that it was mounted
/// with. As long as it lives nobody else can touch them, so it always fits. One
/// that is dropped and not unmounted ends as by a cut, and uses a crash count up.
pub struct Mounted<'a> {
    card: &'a mut [u8],
    work: &'a mut [u8],
    session: SessionBytes,
}

impl<'a> Mounted<'a> {
    /// Mounts a card with a working image of the same length.
    pub fn mount(card: &'a mut [u8], work: &'a mut [u8]) -> Given<Mounted<'a>> {
        let mut session = [0; 24];
        given(host::mount(card, work, &mut session))?;
        Ok(Mounted {
            card,
            work,
            session,
        })
    }

    /// The card as it is, for the driver.
    pub fn card(&self) -> &[u8] {
        self.card
    }

    /// Stores a whole file under a name.
    pub fn put(&mut self, name: &[u8], content: &[u8]) -> Given {
        given(host::put(&self.session, self.work, name, content))
    }

    /// The same, at or after a goal where it fits there.
    pub fn put_at(&mut self, name: &[u8], content: &[u8], goal: Goal) -> Given {
        given(host::put_at(&self.session, self.work, name, content, goal))
    }

    /// Removes a file.
    pub fn remove(&mut self, name: &[u8]) -> Given {
        given(host::remove(&self.session, self.work, name))
    }

    /// Fills the first bytes with a file and counts them.
    pub fn get(&self, name: &[u8], out: &mut [u8]) -> Given<u32> {
        counted(host::get(&self.session, self.work, name, out))
    }

    /// Fills the first lines with the files and counts them.
    pub fn list(&self, lines: &mut [Line]) -> Given<u32> {
        counted(host::list(&self.session, self.work, lines))
    }

    /// The free sectors, and those that the next sync releases.
    pub fn free(&self) -> Given<Room> {
        let mut out = [0; 8];
        given(host::free(&self.session, self.work, &mut out))?;
        let [free, waiting] = [0, 1].map(|i| word(&out, 0, i));
        Ok(Room { free, waiting })
    }

    /// Copies one sector of the working image to the card.
    pub fn land(&mut self, sector: u32) -> Given {
        given(host::land(&self.session, self.card, self.work, sector))
    }

    /// Brings the working image to the card and counts the sectors written.
    pub fn sync(&mut self) -> Given<u32> {
        counted(host::sync_count(&mut self.session, self.card, self.work))
    }

    /// Syncs unless worn, gives the crash count back unless worn by then, and
    /// ends the session; counts the sectors that its sync wrote.
    pub fn unmount(mut self) -> Given<u32> {
        counted(host::unmount(&mut self.session, self.card, self.work))
    }
}
