//! A plain version of the store: every call on byte slices, without cleverness.
//!
//! Every call is total: it takes any image of any length, any session, any
//! name and any buffer, gives back one of the numbers below and never panics.
//! A call that is refused changes nothing.

mod calls;
mod directory;
mod files;
mod image;
mod index;
mod reading;
mod rules;
mod session;
pub mod steps;
mod view;

pub use calls::{land, make, mount, sync, sync_count, unmount, unmount_count};
pub use files::{free, get, list, put, put_at, remove, Room, ROOM_BYTES};
pub use image::{set_word, word, Geometry, MOST_SECTORS, PAGE_SECTORS, SECTOR};
pub use reading::{printed, read, read_get, read_list, Report, LONGEST_INPUT, REPORT_BYTES};
pub use session::{Session, SESSION_BYTES};
pub use view::Line;

/// The largest table word and the largest transaction count.
pub const TOP: u32 = 2_147_483_647;

/// Done.
pub const DONE: u32 = 0;
/// Geometry outside the limits, or an image of the wrong length.
pub const BAD_GEOMETRY: u32 = 1;
/// The card is not sound, or the session does not fit.
pub const NOT_SOUND: u32 = 2;
/// Mount of a sound card with C = N.
pub const NO_COUNT_LEFT: u32 = 3;
/// The session is closed.
pub const CLOSED: u32 = 4;
/// Name length or byte outside the rule.
pub const BAD_NAME: u32 = 5;
/// No such file in the present view.
pub const NO_FILE: u32 = 6;
/// Put finds no entry by its rule.
pub const NO_ENTRY: u32 = 7;
/// No run of sectors inside a page that is free in both views.
pub const NO_ROOM: u32 = 8;
/// Change or sync in a worn session.
pub const WORN: u32 = 9;
/// Lent output shorter than the answer.
pub const SHORT_OUTPUT: u32 = 10;
/// Sector number S or more.
pub const NO_SECTOR: u32 = 11;

/// The number of a call that counts nothing.
fn number(outcome: Result<(), u32>) -> u32 {
    match outcome {
        Ok(()) => DONE,
        Err(refusal) => refusal,
    }
}
