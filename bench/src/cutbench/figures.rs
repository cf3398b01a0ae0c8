//! Free: both figures, asked after every call, over an output that holds
//! rubbish beforehand.

use super::files::sectors;
use super::summary::Call;
use super::world::{Outcome, World};
use crate::host::{RoomBytes, SessionBytes};
use crate::plain::{self, word, Geometry, Line, Session, DONE, ROOM_BYTES};
use crate::store::Store;

const RUBBISH: u8 = 0xEE;
/// Bytes on both sides that are not lent; odd, so that the output is at no
/// even place.
const BESIDE: usize = 7;

/// What free gave, and its output with the bytes beside it.
#[derive(Debug, PartialEq)]
struct Given {
    number: u32,
    bytes: [u8; ROOM_BYTES + 2 * BESIDE],
}

impl Given {
    fn by(store: &dyn Store, session: &SessionBytes, work: &[u8]) -> Given {
        let mut bytes = [RUBBISH; ROOM_BYTES + 2 * BESIDE];
        let lent = &mut bytes[BESIDE..BESIDE + ROOM_BYTES];
        let out: &mut RoomBytes = lent.try_into().expect("so many bytes are lent");
        let number = store.free(session, work, out);
        Given { number, bytes }
    }

    /// The figures, or nothing on a refusal; no other byte was touched.
    fn figures(&self) -> Outcome<Option<(u32, u32)>> {
        let (before, rest) = self.bytes.split_at(BESIDE);
        let (lent, after) = rest.split_at(ROOM_BYTES);
        let kept = |bytes: &[u8]| bytes.iter().all(|byte| *byte == RUBBISH);
        if !kept(before) || !kept(after) {
            return Err("free writes outside its output".into());
        }
        if self.number == DONE {
            return Ok(Some((word(lent, 0, 0), word(lent, 0, 1))));
        }
        if !kept(lent) {
            return Err(format!("free refuses with {}, but writes", self.number));
        }
        Ok(None)
    }
}

impl World<'_> {
    /// Asks both stores for free and waiting, which must be the same and add
    /// up with F and the sectors of the present files to S. Gives free.
    pub(super) fn free(&mut self) -> Outcome<Option<u32>> {
        let ask = |i: usize| {
            let side = &self.sides[i];
            Given::by(self.stores[i], &side.session, side.work.bytes())
        };
        let [one, other] = [0, 1].map(ask);
        self.tally.count(Call::Free, one.number);
        let figures = one.figures()?;
        if one != other {
            let others = (other.number, other.figures()?);
            let all = (one.number, figures);
            return Err(format!("free gives {all:?}, the plain version {others:?}"));
        }
        let Session::Open { s, t, d, worn, .. } = self.session() else {
            return Ok(None);
        };
        let Some((free, waiting)) = figures else {
            return match self.track {
                Some(_) => Err(format!("a session in order is refused with {}", one.number)),
                None => Ok(None),
            };
        };
        let f = Geometry::within_limits(s, t, d).map_or(0, |geometry| geometry.f());
        let used = self.present_sectors();
        let sum: u64 = [f, used, free, waiting].map(u64::from).iter().sum();
        if sum != u64::from(s) || (worn && waiting != 0) {
            return Err(format!(
                "free and waiting do not add up: {free} and {waiting} with {used} of files, \
                 F {f} and S {s}"
            ));
        }
        Ok(Some(free))
    }

    /// The sectors of the present files of a session that fits: as they are
    /// known from the history, else as the plain version lists them.
    fn present_sectors(&self) -> u32 {
        if let Some(track) = &self.track {
            return sectors(&track.present);
        }
        let mut lines = vec![Line::default(); 256];
        let listed = plain::list(&self.session(), self.sides[1].work.bytes(), &mut lines);
        let count = listed.unwrap_or(0) as usize;
        lines[..count].iter().map(|line| line.sectors).sum()
    }
}
