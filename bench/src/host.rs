//! The host functions of the proved store and list's two, as safe Rust.
//!
//! `include/sooqidhaal.h` declares the same for C. Each gives one of the
//! numbers of the paper's table. Every call takes any image of any length, any
//! 24 bytes as a session, any name and any content; a call that is refused
//! changes nothing, but that a refused mount gives the closed session. Rust's
//! borrows see to it that no two lent buffers overlap.
//!
//! A session crosses as six words, least byte first: state (0 closed, 1 open,
//! 2 open and worn), S, T, D, c, t. The closed session is 24 zero bytes.
//!
//! S is at most 65,536, so an image has at most 32 MiB and 512·S fits in 32
//! bits. That holds of an S inside the limits alone: any S that a word holds is
//! taken, and its product is compared in numbers that do not wrap. Lengths
//! cross as `usize`. A file lies inside one page of 4,096 sectors, and has at
//! most 2 MiB.

use crate::plain::{Line, REPORT_BYTES, ROOM_BYTES, SESSION_BYTES};
use std::mem::{align_of, offset_of, size_of};

/// The version of the header that declares the same functions.
pub const VERSION: (u32, u32) = (1, 1);

/// A session as it crosses to the host functions.
pub type SessionBytes = [u8; SESSION_BYTES];
/// What reading a card gives: words C, N, files shown, clear bits.
pub type ReportBytes = [u8; REPORT_BYTES];
/// What free gives: words free, waiting.
pub type RoomBytes = [u8; ROOM_BYTES];

/// The sector at or after which a put looks for room first: any number is
/// taken, and one that the card has not is refused.
#[derive(Clone, Copy, Debug, Default, PartialEq, Eq)]
pub struct Goal(pub u32);

/// What a call that counts gives.
#[repr(C)]
#[derive(Clone, Copy, Debug, PartialEq, Eq)]
pub struct Answer {
    pub number: u32,
    /// The bytes or lines filled or the sectors written, 0 on a refusal.
    pub count: u32,
}

// A line crosses as 48 bytes: a length, a name and a run of three words.
const _: () = {
    assert!(size_of::<Line>() == 48 && align_of::<Line>() == 4);
    assert!(offset_of!(Line, length) == 0 && offset_of!(Line, name) == 4);
    assert!(offset_of!(Line, start) == 36 && offset_of!(Line, sectors) == 40);
    assert!(offset_of!(Line, bytes) == 44);
};

/// The symbols of the two libraries: a lent slice crosses as a pointer and a
/// length, a lent array as a pointer.
mod symbols {
    use super::{Answer, Line, ReportBytes, RoomBytes, SessionBytes};

    extern "C" {
        pub fn store_make(s: u32, t: u32, d: u32, card: *mut u8, card_len: usize) -> u32;
        pub fn store_read(card: *const u8, card_len: usize, out: *mut ReportBytes) -> u32;
        pub fn store_read_get(
            card: *const u8,
            card_len: usize,
            name: *const u8,
            name_len: usize,
            out: *mut u8,
            out_len: usize,
        ) -> Answer;
        pub fn store_mount(
            card: *mut u8,
            card_len: usize,
            work: *mut u8,
            work_len: usize,
            session: *mut SessionBytes,
        ) -> u32;
        pub fn store_put(
            session: *const SessionBytes,
            work: *mut u8,
            work_len: usize,
            name: *const u8,
            name_len: usize,
            content: *const u8,
            content_len: usize,
        ) -> u32;
        pub fn store_put_at(
            session: *const SessionBytes,
            work: *mut u8,
            work_len: usize,
            name: *const u8,
            name_len: usize,
            content: *const u8,
            content_len: usize,
            goal: u32,
        ) -> u32;
        pub fn store_remove(
            session: *const SessionBytes,
            work: *mut u8,
            work_len: usize,
            name: *const u8,
            name_len: usize,
        ) -> u32;
        pub fn store_get(
            session: *const SessionBytes,
            work: *const u8,
            work_len: usize,
            name: *const u8,
            name_len: usize,
            out: *mut u8,
            out_len: usize,
        ) -> Answer;
        pub fn store_free(
            session: *const SessionBytes,
            work: *const u8,
            work_len: usize,
            out: *mut RoomBytes,
        ) -> u32;
        pub fn store_sync(
            session: *mut SessionBytes,
            card: *mut u8,
            card_len: usize,
            work: *mut u8,
            work_len: usize,
        ) -> u32;
        pub fn store_sync_count(
            session: *mut SessionBytes,
            card: *mut u8,
            card_len: usize,
            work: *mut u8,
            work_len: usize,
        ) -> Answer;
        pub fn store_unmount(
            session: *mut SessionBytes,
            card: *mut u8,
            card_len: usize,
            work: *mut u8,
            work_len: usize,
        ) -> Answer;
        pub fn store_land(
            session: *const SessionBytes,
            card: *mut u8,
            card_len: usize,
            work: *const u8,
            work_len: usize,
            sector: u32,
        ) -> u32;
        pub fn store_mount_steps(
            card: *mut u8,
            card_len: usize,
            work: *const u8,
            work_len: usize,
            k: u32,
        ) -> u32;
        pub fn store_sync_steps(
            session: *const SessionBytes,
            card: *mut u8,
            card_len: usize,
            work: *const u8,
            work_len: usize,
            k: u32,
        ) -> Answer;
        pub fn store_unmount_steps(
            session: *const SessionBytes,
            card: *mut u8,
            card_len: usize,
            work: *const u8,
            work_len: usize,
            k: u32,
        ) -> Answer;
        pub fn store_read_list(
            card: *const u8,
            card_len: usize,
            lines: *mut Line,
            lines_len: usize,
        ) -> Answer;
        pub fn store_list(
            session: *const SessionBytes,
            work: *const u8,
            work_len: usize,
            lines: *mut Line,
            lines_len: usize,
        ) -> Answer;
    }
}

// In each call below the pointers come from Rust slices and arrays that are
// borrowed for the length of the call: they are valid, also for a slice of
// length 0, and those that are written to overlap no other. The functions
// keep no pointer.

/// Makes a fresh card of S, T and D: 1, where it has not 512·S bytes too.
pub fn make(s: u32, t: u32, d: u32, card: &mut [u8]) -> u32 {
    // SAFETY: see above.
    unsafe { symbols::store_make(s, t, d, card.as_mut_ptr(), card.len()) }
}

/// Reads a card: 1, 2. `out` takes C, N, the files shown and the clear bits,
/// and stays as it is on a refusal.
pub fn read(card: &[u8], out: &mut ReportBytes) -> u32 {
    // SAFETY: see above.
    unsafe { symbols::store_read(card.as_ptr(), card.len(), out) }
}

/// Fills the first bytes of the output with a file that a card shows and counts
/// them: 1, 2, 5, 6, 10. The later bytes stay as they are, and all of them on a
/// refusal.
pub fn read_get(card: &[u8], name: &[u8], out: &mut [u8]) -> Answer {
    let (out_len, out) = (out.len(), out.as_mut_ptr());
    let (card_len, name_len) = (card.len(), name.len());
    // SAFETY: see above.
    unsafe {
        symbols::store_read_get(
            card.as_ptr(),
            card_len,
            name.as_ptr(),
            name_len,
            out,
            out_len,
        )
    }
}

/// Mounts a card: 1, 2, 3. `session` takes the new session, or the closed one
/// on a refusal, whatever it held before.
pub fn mount(card: &mut [u8], work: &mut [u8], session: &mut SessionBytes) -> u32 {
    let (card_len, work_len) = (card.len(), work.len());
    let (card, work) = (card.as_mut_ptr(), work.as_mut_ptr());
    // SAFETY: see above.
    unsafe { symbols::store_mount(card, card_len, work, work_len, session) }
}

/// Stores a whole file under a name: 4, 2, 9, 5, 7, 8. Content of any length is
/// taken; more than 2 MiB finds no run.
pub fn put(session: &SessionBytes, work: &mut [u8], name: &[u8], content: &[u8]) -> u32 {
    let work_len = work.len();
    // SAFETY: see above.
    unsafe {
        symbols::store_put(
            session,
            work.as_mut_ptr(),
            work_len,
            name.as_ptr(),
            name.len(),
            content.as_ptr(),
            content.len(),
        )
    }
}

/// The same with a goal: the first fitting run at or after it, else the lowest:
/// 4, 2, 9, 5, 11, 7, 8. Goal 0 is put.
pub fn put_at(
    session: &SessionBytes,
    work: &mut [u8],
    name: &[u8],
    content: &[u8],
    goal: Goal,
) -> u32 {
    let work_len = work.len();
    // SAFETY: see above.
    unsafe {
        symbols::store_put_at(
            session,
            work.as_mut_ptr(),
            work_len,
            name.as_ptr(),
            name.len(),
            content.as_ptr(),
            content.len(),
            goal.0,
        )
    }
}

/// Removes a file of the present view: 4, 2, 9, 5, 6.
pub fn remove(session: &SessionBytes, work: &mut [u8], name: &[u8]) -> u32 {
    let (work_len, work) = (work.len(), work.as_mut_ptr());
    // SAFETY: see above.
    unsafe { symbols::store_remove(session, work, work_len, name.as_ptr(), name.len()) }
}

/// Fills the first bytes of the output with a file of the present view and
/// counts them: 4, 2, 5, 6, 10. The later bytes stay as they are, and all of
/// them on a refusal.
pub fn get(session: &SessionBytes, work: &[u8], name: &[u8], out: &mut [u8]) -> Answer {
    let (out_len, out) = (out.len(), out.as_mut_ptr());
    let (work_len, name_len) = (work.len(), name.len());
    let (work, name) = (work.as_ptr(), name.as_ptr());
    // SAFETY: see above.
    unsafe { symbols::store_get(session, work, work_len, name, name_len, out, out_len) }
}

/// Counts the sectors free in both views, and those that the next sync
/// releases: 4, 2. `out` takes both, and stays as it is on a refusal.
pub fn free(session: &SessionBytes, work: &[u8], out: &mut RoomBytes) -> u32 {
    // SAFETY: see above.
    unsafe { symbols::store_free(session, work.as_ptr(), work.len(), out) }
}

/// Brings the working image to the card and begins the next transaction:
/// 4, 1, 2, 9.
pub fn sync(session: &mut SessionBytes, card: &mut [u8], work: &mut [u8]) -> u32 {
    let (card_len, work_len) = (card.len(), work.len());
    let (card, work) = (card.as_mut_ptr(), work.as_mut_ptr());
    // SAFETY: see above.
    unsafe { symbols::store_sync(session, card, card_len, work, work_len) }
}

/// The same, with the number of sectors written.
pub fn sync_count(session: &mut SessionBytes, card: &mut [u8], work: &mut [u8]) -> Answer {
    let (card_len, work_len) = (card.len(), work.len());
    let (card, work) = (card.as_mut_ptr(), work.as_mut_ptr());
    // SAFETY: see above.
    unsafe { symbols::store_sync_count(session, card, card_len, work, work_len) }
}

/// Syncs unless worn, gives the crash count back unless worn by then, closes the
/// session and counts the sectors that its sync wrote: 4, 1, 2.
pub fn unmount(session: &mut SessionBytes, card: &mut [u8], work: &mut [u8]) -> Answer {
    let (card_len, work_len) = (card.len(), work.len());
    let (card, work) = (card.as_mut_ptr(), work.as_mut_ptr());
    // SAFETY: see above.
    unsafe { symbols::store_unmount(session, card, card_len, work, work_len) }
}

/// Copies one sector of the working image to the card: 4, 1, 2, 11.
pub fn land(session: &SessionBytes, card: &mut [u8], work: &[u8], sector: u32) -> u32 {
    let (card_len, card) = (card.len(), card.as_mut_ptr());
    // SAFETY: see above.
    unsafe { symbols::store_land(session, card, card_len, work.as_ptr(), work.len(), sector) }
}

// A call's tests and then its writes as far as place k, for cuts inside it: no
// buffer but the card changes. Mount has two places: sector 0, and a barrier.
// Sync's are sector 0, the sectors past the table in rising order, a barrier,
// the table sector, a barrier; unmount's are these and then sector 0.

/// A mount as far as place k: 1, 2, 3.
pub fn mount_steps(card: &mut [u8], work: &[u8], k: u32) -> u32 {
    let (card_len, card) = (card.len(), card.as_mut_ptr());
    // SAFETY: see above.
    unsafe { symbols::store_mount_steps(card, card_len, work.as_ptr(), work.len(), k) }
}

/// A sync as far as place k, with the sectors written: 4, 1, 2, 9.
pub fn sync_steps(session: &SessionBytes, card: &mut [u8], work: &[u8], k: u32) -> Answer {
    let (card_len, card) = (card.len(), card.as_mut_ptr());
    // SAFETY: see above.
    unsafe { symbols::store_sync_steps(session, card, card_len, work.as_ptr(), work.len(), k) }
}

/// An unmount as far as place k, with the sectors its sync wrote: 4, 1, 2.
pub fn unmount_steps(session: &SessionBytes, card: &mut [u8], work: &[u8], k: u32) -> Answer {
    let (card_len, card) = (card.len(), card.as_mut_ptr());
    // SAFETY: see above.
    unsafe { symbols::store_unmount_steps(session, card, card_len, work.as_ptr(), work.len(), k) }
}

/// Fills the first lines with the files that a card shows, in entry order, and
/// counts them: 1, 2, 10. The later lines stay as they are, and all of them on
/// a refusal.
pub fn read_list(card: &[u8], lines: &mut [Line]) -> Answer {
    let (lines_len, lines) = (lines.len(), lines.as_mut_ptr());
    // SAFETY: see above; any bytes the function leaves are a line.
    unsafe { symbols::store_read_list(card.as_ptr(), card.len(), lines, lines_len) }
}

/// The same with the present files of a session: 4, 2, 10.
pub fn list(session: &SessionBytes, work: &[u8], lines: &mut [Line]) -> Answer {
    let (lines_len, lines) = (lines.len(), lines.as_mut_ptr());
    // SAFETY: see above; any bytes the function leaves are a line.
    unsafe { symbols::store_list(session, work.as_ptr(), work.len(), lines, lines_len) }
}
