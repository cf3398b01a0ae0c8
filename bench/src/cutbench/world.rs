//! The two stores with their images, and how a line of a history is run.

use super::files::{sectors, told, Files};
use super::image::{Image, Lent, Side};
use super::op::{Op, Which};
use super::summary::{Call, Tally};
use super::track::Track;
use crate::dice::Dice;
use crate::host::Goal;
use crate::plain::{self, word, Geometry, Session, MOST_SECTORS, SECTOR};
use crate::store::Store;
use crate::stored::{self, StoredCard};
use std::mem;
use std::sync::OnceLock;

/// What a line of a history gives: nothing, or what is wrong.
pub type Outcome<T = ()> = Result<T, String>;

/// Two stores in the same state, the one under test first. After each call
/// their numbers, sessions and images must be the same.
pub struct World<'a> {
    pub(super) stores: [&'a dyn Store; 2],
    pub(super) sides: [Side; 2],
    before: Side,
    saved: Option<Side>,
    /// What a cut may leave and show; nothing is known of images that were
    /// meddled with, until a mount takes them.
    pub(super) track: Option<Track>,
    pub tally: Tally,
}

impl<'a> World<'a> {
    /// Empty images and the closed session.
    pub fn new(tested: &'a dyn Store, beside: &'a dyn Store) -> World<'a> {
        let side = Side::rubbish(0);
        World {
            stores: [tested, beside],
            sides: [side.clone(), side.clone()],
            before: side,
            saved: None,
            track: None,
            tally: Tally::default(),
        }
    }

    /// Runs one line, and asks for the free figures after it unless it
    /// meddles.
    pub fn run(&mut self, op: &Op) -> Outcome {
        if op.meddles() {
            self.meddle(op);
            return Ok(());
        }
        self.run_call(op)?;
        self.free().map(|_| ())
    }

    fn run_call(&mut self, op: &Op) -> Outcome {
        match op {
            Op::Fresh(s, t, d) => {
                let length = SECTOR * (*s).min(MOST_SECTORS + 1) as usize;
                self.sides = [Side::rubbish(length), Side::rubbish(length)];
                self.track = None;
                self.make(*s, *t, *d)
            }
            Op::Make(s, t, d) => self.make(*s, *t, *d),
            Op::Read => self.with_card(|world, card| world.read(card)).map(|_| ()),
            Op::Mount => self.mount(),
            Op::Put { name, bytes, seed } => self.put(name, &Dice::new(*seed).bytes(*bytes), None),
            Op::PutAt {
                name,
                bytes,
                seed,
                goal,
            } => {
                let content = Dice::new(*seed).bytes(*bytes);
                self.put(name, &content, Some(Goal(*goal)))
            }
            Op::Sync => self.sync(),
            Op::Land(sector) => self.land(*sector),
            Op::Free => Ok(()),
            Op::List(lines) => self.list(*lines),
            Op::ReadList(lines) => self.list_card(*lines),
            Op::Get(name) => self.get(name),
            Op::ReadGet(name) => self.get_card(name),
            Op::Remove(name) => self.remove(name),
            Op::Unmount => self.unmount(),
            Op::Try(seed) => self.try_cut(*seed),
            Op::All(most) => self.all_cuts(u128::from(*most)).map(|_| ()),
            Op::Exactly(sectors, cards) => self.exactly(*sectors, *cards),
            Op::AllIn(call, most) => self.all_in(*call, u128::from(*most)),
            Op::Cut(seed) => self.cut(*seed),
            Op::CutIn(call, steps, seed) => self.cut_in(*call, *steps, *seed),
            _ => Ok(()),
        }
    }

    /// Lines that change images and session behind the stores' backs, on both
    /// sides alike: from then on nothing is known of them.
    fn meddle(&mut self, op: &Op) {
        if *op == Op::Save {
            self.saved = Some(self.sides[0].clone());
        }
        for side in &mut self.sides {
            match op {
                Op::Stored(name) => {
                    let card = stored_cards().iter().find(|card| card.name == name);
                    let bytes = card.map_or(&[][..], |card| &card.bytes);
                    *side = Side::rubbish(bytes.len());
                    side.card.set(bytes);
                }
                Op::Noise(which, bytes, seed) => {
                    side.image_mut(*which).set(&Dice::new(*seed).bytes(*bytes));
                }
                Op::Poke(which, at, word) => poke(side.image_mut(*which).bytes_mut(), *at, *word),
                Op::Length(which, bytes) => resize(side, *which, *bytes),
                Op::Session(i, word) => poke(&mut side.session, 4 * i, *word),
                _ => self.saved.iter().for_each(|saved| side.copy_from(saved)),
            }
        }
        self.track = None;
    }

    /// Does something with the card, which is not there meanwhile.
    pub(super) fn with_card<T>(&mut self, f: impl FnOnce(&mut Self, &[u8]) -> T) -> T {
        let card = mem::replace(&mut self.sides[0].card, Image::of(&[]));
        let answer = f(self, card.bytes());
        self.sides[0].card = card;
        answer
    }

    /// The plain version's view of the session.
    pub(super) fn session(&self) -> Session {
        Session::decode(&self.sides[0].session)
    }

    /// Makes a call on both sides and compares everything. A refusal leaves
    /// all as it was, but that a refused mount gives the closed session.
    pub(super) fn call(
        &mut self,
        kind: Call,
        mut call: impl FnMut(&dyn Store, &mut Side) -> u32,
    ) -> Outcome<u32> {
        self.before.copy_from(&self.sides[0]);
        let [one, other] = [0, 1].map(|i| call(self.stores[i], &mut self.sides[i]));
        self.tally.count(kind, one);
        if one != other {
            return Err(format!("gives {one}, the plain version {other}"));
        }
        if let Some(difference) = self.sides[0].differs(&self.sides[1]) {
            return Err(difference);
        }
        if one == plain::DONE {
            return Ok(one);
        }
        if kind == Call::Mount {
            self.before.session = Session::Closed.encode();
        }
        match self.sides[0].differs(&self.before) {
            Some(difference) => Err(format!("refused with {one}, but {difference}")),
            None if self.track.is_some() && one <= plain::NOT_SOUND => {
                Err(format!("a session in order is refused with {one}"))
            }
            None => Ok(one),
        }
    }

    /// Reads a card by both stores: the number, and files and clear bits.
    pub(super) fn read(&mut self, card: &[u8]) -> Outcome<(u32, u32, u32)> {
        const RUBBISH: [u8; 16] = [0xEE; 16];
        let mut guarded = true;
        let [one, other] = self.stores.map(|store| {
            let mut out = Lent::of(RUBBISH);
            let number = store.read(card, &mut out.bytes);
            guarded &= out.guarded();
            (number, out.bytes)
        });
        self.tally.count(Call::Read, one.0);
        if !guarded {
            return Err("read writes outside its output".into());
        }
        if one != other {
            return Err(format!("read gives {one:?}, the plain version {other:?}"));
        }
        if one.0 != plain::DONE && one.1 != RUBBISH {
            return Err(format!("read refuses with {}, but writes", one.0));
        }
        Ok((one.0, word(&one.1, 0, 2), word(&one.1, 0, 3)))
    }

    /// Reads a card back, with a table of one line more than it has files. It
    /// must show one of the lists of files: which one.
    pub(super) fn look(&mut self, card: &[u8], allowed: &[&Files]) -> Outcome<usize> {
        self.tally.cards += 1;
        let (number, count, clear) = self.read(card)?;
        let (refusal, lines) = self.read_list(card, count.min(256) as usize + 1)?;
        let refused = |n| format!("a card after a cut is refused {n}");
        if refusal != plain::DONE {
            return Err(refused(refusal));
        }
        let files = self.contents(card, &lines)?;
        let [s, t, d] = [1, 2, 3].map(|i| word(card, 0, i));
        let f = Geometry::within_limits(s, t, d).map_or(0, |geometry| geometry.f());
        let sum = f + clear + sectors(&files);
        if number != 0 || count as usize != files.len() || sum != s {
            return Err(format!("read counts {count} files and {clear} clear bits"));
        }
        let place = allowed.iter().position(|list| **list == files);
        place.ok_or_else(|| format!("a card shows {}, not {}", told(&files), told(allowed[0])))
    }
}

fn stored_cards() -> &'static [StoredCard] {
    static CARDS: OnceLock<Vec<StoredCard>> = OnceLock::new();
    CARDS.get_or_init(stored::all)
}

fn poke(bytes: &mut [u8], at: usize, word: u32) {
    if let Some(place) = bytes.get_mut(at..at.saturating_add(4)) {
        place.copy_from_slice(&word.to_le_bytes());
    }
}

fn resize(side: &mut Side, which: Which, length: usize) {
    let image = side.image_mut(which);
    let mut bytes = image.bytes().to_vec();
    bytes.resize(length.min(SECTOR * (MOST_SECTORS as usize + 2)), 0);
    image.set(&bytes);
}
