//! The calls of a store on numbers and byte buffers, and list over a lent
//! table of lines, so that two stores can be run beside each other.

use crate::host::{self, Answer, Goal, ReportBytes, RoomBytes, SessionBytes};
use crate::plain::{self, steps, Line, Session};

/// What a driver lands before what follows a barrier.
#[derive(Clone, Copy, Debug, PartialEq, Eq)]
pub enum Driver {
    /// Everything that was written, as it must.
    FlushesAll,
    /// What the call itself wrote, and nothing of earlier lands.
    FlushesOwn,
}

/// A store as a host sees it. The numbers are those of the paper's table, and
/// a session is its six words.
pub trait Store: Sync {
    /// Makes a fresh card of S, T and D.
    fn make(&self, s: u32, t: u32, d: u32, card: &mut [u8]) -> u32;
    /// Reads a card; `out` stays on a refusal.
    fn read(&self, card: &[u8], out: &mut ReportBytes) -> u32;
    /// Fills the first bytes with a file that a card shows and counts them.
    fn read_get(&self, card: &[u8], name: &[u8], out: &mut [u8]) -> Answer;
    /// Mounts a card; a refusal gives the closed session.
    fn mount(&self, card: &mut [u8], work: &mut [u8], session: &mut SessionBytes) -> u32;
    /// Stores a whole file.
    fn put(&self, session: &SessionBytes, work: &mut [u8], name: &[u8], content: &[u8]) -> u32;
    /// Stores a whole file, at or after a goal where it fits there.
    fn put_at(
        &self,
        session: &SessionBytes,
        work: &mut [u8],
        name: &[u8],
        content: &[u8],
        goal: Goal,
    ) -> u32;
    /// Removes a file.
    fn remove(&self, session: &SessionBytes, work: &mut [u8], name: &[u8]) -> u32;
    /// Fills the first bytes with a session's present file and counts them.
    fn get(&self, session: &SessionBytes, work: &[u8], name: &[u8], out: &mut [u8]) -> Answer;
    /// Counts the free sectors and the waiting ones; `out` stays on a refusal.
    fn free(&self, session: &SessionBytes, work: &[u8], out: &mut RoomBytes) -> u32;
    /// Brings the working image to the card.
    fn sync(&self, session: &mut SessionBytes, card: &mut [u8], work: &mut [u8]) -> u32;
    /// The same, with the number of sectors written: those of its steps.
    fn sync_count(&self, session: &mut SessionBytes, card: &mut [u8], work: &mut [u8]) -> Answer {
        let Answer { count, .. } = self.sync_steps(session, &mut card.to_vec(), work, u32::MAX);
        let number = self.sync(session, card, work);
        Answer { number, count }
    }
    /// Syncs, gives the crash count back and closes the session; counts the
    /// sectors that its sync wrote.
    fn unmount(&self, session: &mut SessionBytes, card: &mut [u8], work: &mut [u8]) -> Answer;
    /// Copies one sector to the card.
    fn land(&self, session: &SessionBytes, card: &mut [u8], work: &[u8], sector: u32) -> u32;

    /// Fills the first lines with the files that a card shows and counts them.
    fn read_list(&self, card: &[u8], lines: &mut [Line]) -> Answer;
    /// Fills the first lines with a session's present files and counts them.
    fn list(&self, session: &SessionBytes, work: &[u8], lines: &mut [Line]) -> Answer;

    /// What the driver between card and flash flushes at a barrier.
    fn driver(&self) -> Driver {
        Driver::FlushesAll
    }
    /// A mount as far as place k.
    fn mount_steps(&self, card: &mut [u8], work: &[u8], k: u32) -> u32;
    /// A sync as far as place k, with the sectors written by then.
    fn sync_steps(&self, session: &SessionBytes, card: &mut [u8], work: &[u8], k: u32) -> Answer;
    /// An unmount as far as place k, with the sectors its sync wrote by then.
    fn unmount_steps(&self, session: &SessionBytes, card: &mut [u8], work: &[u8], k: u32)
        -> Answer;
}

/// The proved store, through its host functions.
pub struct Proved;

impl Store for Proved {
    fn make(&self, s: u32, t: u32, d: u32, card: &mut [u8]) -> u32 {
        host::make(s, t, d, card)
    }

    fn read(&self, card: &[u8], out: &mut ReportBytes) -> u32 {
        host::read(card, out)
    }

    fn read_get(&self, card: &[u8], name: &[u8], out: &mut [u8]) -> Answer {
        host::read_get(card, name, out)
    }

    fn mount(&self, card: &mut [u8], work: &mut [u8], session: &mut SessionBytes) -> u32 {
        host::mount(card, work, session)
    }

    fn put(&self, session: &SessionBytes, work: &mut [u8], name: &[u8], content: &[u8]) -> u32 {
        host::put(session, work, name, content)
    }

    fn put_at(
        &self,
        session: &SessionBytes,
        work: &mut [u8],
        name: &[u8],
        content: &[u8],
        goal: Goal,
    ) -> u32 {
        host::put_at(session, work, name, content, goal)
    }

    fn remove(&self, session: &SessionBytes, work: &mut [u8], name: &[u8]) -> u32 {
        host::remove(session, work, name)
    }

    fn get(&self, session: &SessionBytes, work: &[u8], name: &[u8], out: &mut [u8]) -> Answer {
        host::get(session, work, name, out)
    }

    fn free(&self, session: &SessionBytes, work: &[u8], out: &mut RoomBytes) -> u32 {
        host::free(session, work, out)
    }

    fn sync(&self, session: &mut SessionBytes, card: &mut [u8], work: &mut [u8]) -> u32 {
        host::sync(session, card, work)
    }

    fn sync_count(&self, session: &mut SessionBytes, card: &mut [u8], work: &mut [u8]) -> Answer {
        host::sync_count(session, card, work)
    }

    fn unmount(&self, session: &mut SessionBytes, card: &mut [u8], work: &mut [u8]) -> Answer {
        host::unmount(session, card, work)
    }

    fn land(&self, session: &SessionBytes, card: &mut [u8], work: &[u8], sector: u32) -> u32 {
        host::land(session, card, work, sector)
    }

    fn read_list(&self, card: &[u8], lines: &mut [Line]) -> Answer {
        host::read_list(card, lines)
    }

    fn list(&self, session: &SessionBytes, work: &[u8], lines: &mut [Line]) -> Answer {
        host::list(session, work, lines)
    }

    fn mount_steps(&self, card: &mut [u8], work: &[u8], k: u32) -> u32 {
        host::mount_steps(card, work, k)
    }

    fn sync_steps(&self, session: &SessionBytes, card: &mut [u8], work: &[u8], k: u32) -> Answer {
        host::sync_steps(session, card, work, k)
    }

    fn unmount_steps(
        &self,
        session: &SessionBytes,
        card: &mut [u8],
        work: &[u8],
        k: u32,
    ) -> Answer {
        host::unmount_steps(session, card, work, k)
    }
}

/// The plain version.
pub struct Plain;

impl Store for Plain {
    fn make(&self, s: u32, t: u32, d: u32, card: &mut [u8]) -> u32 {
        plain::make(s, t, d, card)
    }

    fn read(&self, card: &[u8], out: &mut ReportBytes) -> u32 {
        match plain::read(card) {
            Ok(report) => {
                *out = report.encode();
                plain::DONE
            }
            Err(refusal) => refusal,
        }
    }

    fn read_get(&self, card: &[u8], name: &[u8], out: &mut [u8]) -> Answer {
        answer(plain::read_get(card, name, out))
    }

    fn mount(&self, card: &mut [u8], work: &mut [u8], session: &mut SessionBytes) -> u32 {
        let (number, mounted) = plain::mount(card, work);
        *session = mounted.encode();
        number
    }

    fn put(&self, session: &SessionBytes, work: &mut [u8], name: &[u8], content: &[u8]) -> u32 {
        plain::put(&Session::decode(session), work, name, content)
    }

    fn put_at(
        &self,
        session: &SessionBytes,
        work: &mut [u8],
        name: &[u8],
        content: &[u8],
        goal: Goal,
    ) -> u32 {
        plain::put_at(&Session::decode(session), work, name, content, goal.0)
    }

    fn remove(&self, session: &SessionBytes, work: &mut [u8], name: &[u8]) -> u32 {
        plain::remove(&Session::decode(session), work, name)
    }

    fn get(&self, session: &SessionBytes, work: &[u8], name: &[u8], out: &mut [u8]) -> Answer {
        answer(plain::get(&Session::decode(session), work, name, out))
    }

    fn free(&self, session: &SessionBytes, work: &[u8], out: &mut RoomBytes) -> u32 {
        match plain::free(&Session::decode(session), work) {
            Ok(room) => {
                *out = room.encode();
                plain::DONE
            }
            Err(refusal) => refusal,
        }
    }

    fn sync(&self, session: &mut SessionBytes, card: &mut [u8], work: &mut [u8]) -> u32 {
        let mut decoded = Session::decode(session);
        let number = plain::sync(&mut decoded, card, work);
        if number == plain::DONE {
            *session = decoded.encode();
        }
        number
    }

    fn unmount(&self, session: &mut SessionBytes, card: &mut [u8], work: &mut [u8]) -> Answer {
        let mut decoded = Session::decode(session);
        let counted = plain::unmount_count(&mut decoded, card, work);
        if counted.is_ok() {
            *session = decoded.encode();
        }
        answer(counted)
    }

    fn land(&self, session: &SessionBytes, card: &mut [u8], work: &[u8], sector: u32) -> u32 {
        plain::land(&Session::decode(session), card, work, sector)
    }

    fn read_list(&self, card: &[u8], lines: &mut [Line]) -> Answer {
        answer(plain::read_list(card, lines))
    }

    fn list(&self, session: &SessionBytes, work: &[u8], lines: &mut [Line]) -> Answer {
        answer(plain::list(&Session::decode(session), work, lines))
    }

    fn mount_steps(&self, card: &mut [u8], work: &[u8], k: u32) -> u32 {
        steps::mount_first(card, work, k)
    }

    fn sync_steps(&self, session: &SessionBytes, card: &mut [u8], work: &[u8], k: u32) -> Answer {
        answer(steps::sync_first(&Session::decode(session), card, work, k))
    }

    fn unmount_steps(
        &self,
        session: &SessionBytes,
        card: &mut [u8],
        work: &[u8],
        k: u32,
    ) -> Answer {
        answer(steps::unmount_first(
            &Session::decode(session),
            card,
            work,
            k,
        ))
    }
}

/// A count, or a refusal with count 0.
fn answer(counted: Result<u32, u32>) -> Answer {
    let number = counted.err().unwrap_or(plain::DONE);
    let count = counted.unwrap_or(0);
    Answer { number, count }
}
