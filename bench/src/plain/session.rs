//! A session, its six words, and the checks that session calls begin with.

use super::image::{has_sectors, Geometry};
use super::rules::fits;
use super::view::View;
use super::{BAD_GEOMETRY, CLOSED, NOT_SOUND};

/// Bytes of a session as it crosses the C boundary: six words.
pub const SESSION_BYTES: usize = 24;

/// A session. An open one can hold any words, also ones that fit nothing.
#[derive(Clone, Copy, Debug, PartialEq, Eq)]
pub enum Session {
    /// All closed sessions are this one value.
    Closed,
    /// S, T and D of the card, c and t of the session (`tx` is t), and
    /// whether it is worn.
    Open {
        s: u32,
        t: u32,
        d: u32,
        c: u32,
        tx: u32,
        worn: bool,
    },
}

impl Session {
    /// The six words, least byte first: state (0 closed, 1 open, 2 open and
    /// worn), S, T, D, c, t. A closed session is 24 zero bytes.
    pub fn encode(&self) -> [u8; SESSION_BYTES] {
        let words = match *self {
            Session::Closed => [0; 6],
            Session::Open {
                s,
                t,
                d,
                c,
                tx,
                worn,
            } => [1 + u32::from(worn), s, t, d, c, tx],
        };
        let mut bytes = [0; SESSION_BYTES];
        for (place, word) in bytes.chunks_exact_mut(4).zip(words) {
            place.copy_from_slice(&word.to_le_bytes());
        }
        bytes
    }

    /// Takes any 24 bytes. State 0 is the closed session whatever follows. A
    /// state above 2 is an open session with the stored S, so that a card's
    /// length is still judged by it, and with T = 0, so that it never fits.
    /// Such bytes do not come back from `encode`; as a refused call changes
    /// nothing, a caller writes a session back only when a call gives 0 or
    /// when it is the result of a mount.
    pub fn decode(bytes: &[u8; SESSION_BYTES]) -> Session {
        let word = |i: usize| {
            let at = 4 * i;
            u32::from_le_bytes([bytes[at], bytes[at + 1], bytes[at + 2], bytes[at + 3]])
        };
        let state = word(0);
        match state {
            0 => Session::Closed,
            1 | 2 => Session::Open {
                s: word(1),
                t: word(2),
                d: word(3),
                c: word(4),
                tx: word(5),
                worn: state == 2,
            },
            _ => Session::Open {
                s: word(1),
                t: 0,
                d: 0,
                c: 0,
                tx: 0,
                worn: false,
            },
        }
    }

    /// The open session, if it fits the working image: otherwise 4 or 2.
    pub(super) fn fitting(&self, work: &[u8]) -> Result<Open, u32> {
        let Session::Open {
            s,
            t,
            d,
            c,
            tx,
            worn,
        } = *self
        else {
            return Err(CLOSED);
        };
        let geometry = Geometry::within_limits(s, t, d).ok_or(NOT_SOUND)?;
        let open = Open {
            geometry,
            c,
            tx,
            worn,
        };
        if fits(&open, work) {
            Ok(open)
        } else {
            Err(NOT_SOUND)
        }
    }

    /// The same for a call that is lent the card as well: 4, 1 or 2. Only the
    /// card's length is looked at.
    pub(super) fn fitting_card(&self, card: &[u8], work: &[u8]) -> Result<Open, u32> {
        if let Session::Open { s, .. } = self {
            if !has_sectors(card, *s) {
                return Err(BAD_GEOMETRY);
            }
        }
        self.fitting(work)
    }
}

/// An open session whose geometry is inside the limits.
#[derive(Clone, Copy, Debug)]
pub struct Open {
    pub geometry: Geometry,
    pub c: u32,
    pub tx: u32,
    pub worn: bool,
}

impl Open {
    /// The present view: word c is taken as t; when worn, as it is.
    pub fn present<'a>(&self, work: &'a [u8]) -> View<'a> {
        self.view(work, self.tx)
    }

    /// The cut view: word c is taken as t - 1; when worn, as it is.
    pub fn cut<'a>(&self, work: &'a [u8]) -> View<'a> {
        self.view(work, self.tx.saturating_sub(1))
    }

    fn view<'a>(&self, work: &'a [u8], word_c: u32) -> View<'a> {
        View {
            image: work,
            geometry: self.geometry,
            taken: (!self.worn).then_some((self.c, word_c)),
        }
    }
}

impl From<Open> for Session {
    fn from(open: Open) -> Session {
        Session::Open {
            s: open.geometry.s(),
            t: open.geometry.t(),
            d: open.geometry.d(),
            c: open.c,
            tx: open.tx,
            worn: open.worn,
        }
    }
}
