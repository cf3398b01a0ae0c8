//! The functions of the proved store that leave the fit test out, as safe Rust:
//! one owner of card, working image and session.
//!
//! Each of these functions asks of its caller that an open session fits the
//! working image it is lent; what it does otherwise is not promised. A
//! [`Module`] holds both images and the session, and only its own calls change
//! them: every session starts with its mount, there is no session but the
//! newest, and a make, a cut and an unmount close it. That an open session
//! then fits is proved (`keeps-fit` and `always-fits` of crate promises, whose
//! statements have the calls that are here and no other), so safe Rust cannot
//! break what is asked.
//!
//! Numbers and counts are those of [`crate::host`], and 2 is none of a session
//! call's.

use crate::host::{self, Answer, Goal, RoomBytes, SessionBytes};
use crate::plain::{Line, SESSION_BYTES};

/// The symbols of the library `fitting`, with the arguments of the host's.
mod symbols {
    use super::{Answer, Line, RoomBytes, SessionBytes};

    extern "C" {
        pub fn fitting_put(
            session: *const SessionBytes,
            work: *mut u8,
            work_len: usize,
            name: *const u8,
            name_len: usize,
            content: *const u8,
            content_len: usize,
        ) -> u32;
        pub fn fitting_put_at(
            session: *const SessionBytes,
            work: *mut u8,
            work_len: usize,
            name: *const u8,
            name_len: usize,
            content: *const u8,
            content_len: usize,
            goal: u32,
        ) -> u32;
        pub fn fitting_remove(
            session: *const SessionBytes,
            work: *mut u8,
            work_len: usize,
            name: *const u8,
            name_len: usize,
        ) -> u32;
        pub fn fitting_get(
            session: *const SessionBytes,
            work: *const u8,
            work_len: usize,
            name: *const u8,
            name_len: usize,
            out: *mut u8,
            out_len: usize,
        ) -> Answer;
        pub fn fitting_list(
            session: *const SessionBytes,
            work: *const u8,
            work_len: usize,
            lines: *mut Line,
            lines_len: usize,
        ) -> Answer;
        pub fn fitting_free(
            session: *const SessionBytes,
            work: *const u8,
            work_len: usize,
            out: *mut RoomBytes,
        ) -> u32;
        pub fn fitting_land(
            session: *const SessionBytes,
            card: *mut u8,
            card_len: usize,
            work: *const u8,
            work_len: usize,
            sector: u32,
        ) -> u32;
        pub fn fitting_sync(
            session: *mut SessionBytes,
            card: *mut u8,
            card_len: usize,
            work: *mut u8,
            work_len: usize,
        ) -> u32;
        pub fn fitting_sync_count(
            session: *mut SessionBytes,
            card: *mut u8,
            card_len: usize,
            work: *mut u8,
            work_len: usize,
        ) -> Answer;
        pub fn fitting_unmount(
            session: *mut SessionBytes,
            card: *mut u8,
            card_len: usize,
            work: *mut u8,
            work_len: usize,
        ) -> Answer;
    }
}

/// A card, its working image and the one session.
#[derive(Clone)]
pub struct Module {
    card: Vec<u8>,
    work: Vec<u8>,
    session: SessionBytes,
}

// In each call below the pointers come from buffers of their own that are
// borrowed for the length of the call: they are valid and do not overlap, and
// the functions keep none. The session fits the working image, or is closed:
// see above.
impl Module {
    /// Any two images, and the closed session.
    pub fn new(card: Vec<u8>, work: Vec<u8>) -> Module {
        Module {
            card,
            work,
            session: [0; SESSION_BYTES],
        }
    }

    /// The card as the calls have left it.
    pub fn card(&self) -> &[u8] {
        &self.card
    }

    /// The working image.
    pub fn work(&self) -> &[u8] {
        &self.work
    }

    /// The session, as it crosses.
    pub fn session(&self) -> &SessionBytes {
        &self.session
    }

    /// Takes over images and session of another module.
    pub fn copy_from(&mut self, other: &Module) {
        self.card.clone_from(&other.card);
        self.work.clone_from(&other.work);
        self.session = other.session;
    }

    /// Makes a fresh card of S, T and D: 1. With 0 the session is closed.
    pub fn make(&mut self, s: u32, t: u32, d: u32) -> u32 {
        let number = host::make(s, t, d, &mut self.card);
        if number == 0 {
            self.session = [0; SESSION_BYTES];
        }
        number
    }

    /// A cut: the card is what it left, and the session is closed.
    pub fn cut(&mut self, card: Vec<u8>) {
        self.card = card;
        self.session = [0; SESSION_BYTES];
    }

    /// Mounts the card: 1, 2, 3. A session that is still open ends.
    pub fn mount(&mut self) -> u32 {
        host::mount(&mut self.card, &mut self.work, &mut self.session)
    }

    /// Stores a whole file under a name: 4, 9, 5, 7, 8.
    pub fn put(&mut self, name: &[u8], content: &[u8]) -> u32 {
        let (work, work_len) = (self.work.as_mut_ptr(), self.work.len());
        let (lent, lent_len) = (content.as_ptr(), content.len());
        let (name, name_len) = (name.as_ptr(), name.len());
        // SAFETY: see above.
        unsafe {
            symbols::fitting_put(
                &self.session,
                work,
                work_len,
                name,
                name_len,
                lent,
                lent_len,
            )
        }
    }

    /// The same with a goal sector: 4, 9, 5, 11, 7, 8.
    pub fn put_at(&mut self, name: &[u8], content: &[u8], goal: Goal) -> u32 {
        let (work, work_len) = (self.work.as_mut_ptr(), self.work.len());
        let (lent, lent_len) = (content.as_ptr(), content.len());
        let (name, name_len) = (name.as_ptr(), name.len());
        // SAFETY: see above.
        unsafe {
            symbols::fitting_put_at(
                &self.session,
                work,
                work_len,
                name,
                name_len,
                lent,
                lent_len,
                goal.0,
            )
        }
    }

    /// Removes a file: 4, 9, 5, 6.
    pub fn remove(&mut self, name: &[u8]) -> u32 {
        let (work, work_len) = (self.work.as_mut_ptr(), self.work.len());
        // SAFETY: see above.
        unsafe { symbols::fitting_remove(&self.session, work, work_len, name.as_ptr(), name.len()) }
    }

    /// Fills the first bytes of `out` with a file and counts them: 4, 5, 6, 10.
    pub fn get(&self, name: &[u8], out: &mut [u8]) -> Answer {
        let (work, work_len) = (self.work.as_ptr(), self.work.len());
        let (name, name_len) = (name.as_ptr(), name.len());
        let (out_len, out) = (out.len(), out.as_mut_ptr());
        // SAFETY: see above.
        unsafe { symbols::fitting_get(&self.session, work, work_len, name, name_len, out, out_len) }
    }

    /// Fills the first lines of a table, one a file, and counts them: 4, 10.
    pub fn list(&self, lines: &mut [Line]) -> Answer {
        let (work, work_len) = (self.work.as_ptr(), self.work.len());
        let (lines_len, lines) = (lines.len(), lines.as_mut_ptr());
        // SAFETY: see above; any bytes the function leaves are a line.
        unsafe { symbols::fitting_list(&self.session, work, work_len, lines, lines_len) }
    }

    /// Counts the sectors free in both views, and those that the next sync
    /// releases: 4.
    pub fn free(&self, out: &mut RoomBytes) -> u32 {
        let (work, work_len) = (self.work.as_ptr(), self.work.len());
        // SAFETY: see above.
        unsafe { symbols::fitting_free(&self.session, work, work_len, out) }
    }

    /// Copies one sector of the working image to the card: 4, 1, 11.
    pub fn land(&mut self, sector: u32) -> u32 {
        let (card, card_len) = (self.card.as_mut_ptr(), self.card.len());
        let (work, work_len) = (self.work.as_ptr(), self.work.len());
        // SAFETY: see above.
        unsafe { symbols::fitting_land(&self.session, card, card_len, work, work_len, sector) }
    }

    /// Brings the working image to the card: 4, 1, 9.
    pub fn sync(&mut self) -> u32 {
        let (card, card_len) = (self.card.as_mut_ptr(), self.card.len());
        let (work, work_len) = (self.work.as_mut_ptr(), self.work.len());
        // SAFETY: see above.
        unsafe { symbols::fitting_sync(&mut self.session, card, card_len, work, work_len) }
    }

    /// The same, with the number of sectors written.
    pub fn sync_count(&mut self) -> Answer {
        let (card, card_len) = (self.card.as_mut_ptr(), self.card.len());
        let (work, work_len) = (self.work.as_mut_ptr(), self.work.len());
        // SAFETY: see above.
        unsafe { symbols::fitting_sync_count(&mut self.session, card, card_len, work, work_len) }
    }

    /// Syncs unless worn, and closes the session: 4, 1. With the number of
    /// sectors that the sync wrote.
    pub fn unmount(&mut self) -> Answer {
        let (card, card_len) = (self.card.as_mut_ptr(), self.card.len());
        let (work, work_len) = (self.work.as_mut_ptr(), self.work.len());
        // SAFETY: see above.
        unsafe { symbols::fitting_unmount(&mut self.session, card, card_len, work, work_len) }
    }
}
