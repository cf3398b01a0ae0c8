//! A lent image between guard bytes, and the two images and the session that
//! one side of the bench lends to its store.

use super::op::Which;
use crate::host::SessionBytes;

const GUARD: u8 = 0x5C;
/// Guard bytes before an image; odd, so that an image is at no even place.
const BEFORE: usize = 61;
const AFTER: usize = 67;
/// Images are copied in parts of so many bytes.
const PART: usize = 1 << 14;

/// Bytes with guards on both sides, which no call may touch.
#[derive(Clone)]
pub struct Image(Vec<u8>);

impl Image {
    /// An image that is a copy of these bytes.
    pub fn of(bytes: &[u8]) -> Image {
        let mut all = vec![GUARD; BEFORE];
        all.extend_from_slice(bytes);
        all.extend([GUARD; AFTER]);
        Image(all)
    }

    /// An image of one byte repeated.
    pub fn filled(byte: u8, length: usize) -> Image {
        Image::of(&vec![byte; length])
    }

    pub fn bytes(&self) -> &[u8] {
        &self.0[BEFORE..self.0.len() - AFTER]
    }

    pub fn bytes_mut(&mut self) -> &mut [u8] {
        let end = self.0.len() - AFTER;
        &mut self.0[BEFORE..end]
    }

    /// Takes over these bytes.
    pub fn set(&mut self, bytes: &[u8]) {
        if bytes.len() == self.bytes().len() {
            self.bytes_mut().copy_from_slice(bytes);
        } else {
            *self = Image::of(bytes);
        }
    }

    /// Takes over the bytes of another image. Most parts of a large one are
    /// the same already, and are only looked at.
    pub fn copy_from(&mut self, other: &Image) {
        if self.0.len() != other.0.len() {
            self.0.clone_from(&other.0);
            return;
        }
        for (part, from) in self.0.chunks_mut(PART).zip(other.0.chunks(PART)) {
            if part != from {
                part.copy_from_slice(from);
            }
        }
    }

    fn guarded(&self) -> bool {
        let end = self.0.len() - AFTER;
        let guards = self.0[..BEFORE].iter().chain(&self.0[end..]);
        guards.into_iter().all(|byte| *byte == GUARD)
    }
}

/// An array that is lent, between guard bytes.
#[repr(C)]
#[derive(Clone, Debug, PartialEq)]
pub struct Lent<const N: usize> {
    before: [u8; BEFORE],
    pub bytes: [u8; N],
    after: [u8; AFTER],
}

impl<const N: usize> Lent<N> {
    pub fn of(bytes: [u8; N]) -> Lent<N> {
        Lent {
            before: [GUARD; BEFORE],
            bytes,
            after: [GUARD; AFTER],
        }
    }

    pub fn guarded(&self) -> bool {
        (self.before, self.after) == ([GUARD; BEFORE], [GUARD; AFTER])
    }
}

/// What a host lends to a store. The session lies between guard bytes too, in
/// the order of these fields.
#[repr(C)]
#[derive(Clone)]
pub struct Side {
    pub card: Image,
    pub work: Image,
    before: [u8; BEFORE],
    pub session: SessionBytes,
    after: [u8; AFTER],
}

impl Side {
    /// Two images of so many bytes of rubbish, and the closed session.
    pub fn rubbish(length: usize) -> Side {
        Side {
            card: Image::filled(0xEE, length),
            work: Image::filled(0xEE, length),
            before: [GUARD; BEFORE],
            session: [0; 24],
            after: [GUARD; AFTER],
        }
    }

    /// Takes over images and session.
    pub fn copy_from(&mut self, other: &Side) {
        self.card.copy_from(&other.card);
        self.work.copy_from(&other.work);
        self.session = other.session;
    }

    pub fn image_mut(&mut self, which: Which) -> &mut Image {
        match which {
            Which::Card => &mut self.card,
            Which::Work => &mut self.work,
        }
    }

    /// Where this differs from another side, if it does.
    pub fn differs(&self, other: &Side) -> Option<String> {
        if self.session != other.session {
            let sessions = (self.session, other.session);
            return Some(format!("sessions differ: {sessions:?}"));
        }
        if !self.card.guarded() || !self.work.guarded() {
            return Some("bytes outside an image were written".into());
        }
        if (self.before, self.after) != ([GUARD; BEFORE], [GUARD; AFTER]) {
            return Some("bytes outside the session were written".into());
        }
        first_difference("card", &self.card, &other.card)
            .or_else(|| first_difference("working image", &self.work, &other.work))
    }
}

fn first_difference(name: &str, one: &Image, other: &Image) -> Option<String> {
    let (one, other) = (one.bytes(), other.bytes());
    if one == other {
        return None;
    }
    let at = one.iter().zip(other).position(|(a, b)| a != b);
    let at = at.unwrap_or(one.len().min(other.len()));
    let pair = (one.get(at), other.get(at));
    Some(format!("{name} differs at byte {at}: {pair:?}"))
}

#[cfg(test)]
mod tests {
    use super::*;

    #[test]
    fn a_byte_beside_what_is_lent_is_seen() {
        let right = Side::rubbish(512);
        let mut wrong = right.clone();
        assert_eq!(wrong.differs(&right), None);
        wrong.after[0] ^= 1;
        assert!(wrong.differs(&right).is_some());
        let mut lent = Lent::of([0; 16]);
        assert!(lent.guarded());
        lent.before[BEFORE - 1] ^= 1;
        assert!(!lent.guarded());
    }

    #[test]
    fn the_guards_of_a_session_touch_it() {
        use std::mem::offset_of;
        let session = offset_of!(Side, session);
        assert_eq!(offset_of!(Side, before) + BEFORE, session);
        assert_eq!(offset_of!(Side, after), session + 24);
        assert_eq!(offset_of!(Lent<16>, bytes), BEFORE);
        assert_eq!(offset_of!(Lent<16>, after), BEFORE + 16);
    }
}
