//! Histories of a module, which leaves the fit test out, beside the tested
//! calls: numbers, counts, sessions, figures, contents, lines and all bytes
//! alike.

use super::op::{Cuttable, Op, Which};
use super::summary::Tally;
use super::world::Outcome;
use crate::dice::Dice;
use crate::fitting::Module;
use crate::host::{self, Answer, Goal, SessionBytes};
use crate::plain::steps::{self, Step};
use crate::plain::{self, Line, Session, MOST_SECTORS, SECTOR};

/// A module beside the tested calls. One that is wrong on purpose makes some of
/// these calls otherwise; all else is the proved module's.
pub trait Twin {
    /// The proved module that it has.
    fn module(&mut self) -> &mut Module;

    fn put(&mut self, name: &[u8], content: &[u8]) -> u32 {
        Module::put(self.module(), name, content)
    }

    fn list(&mut self, lines: &mut [Line]) -> Answer {
        Module::list(self.module(), lines)
    }

    fn cut(&mut self, card: Vec<u8>) {
        Module::cut(self.module(), card);
    }
}

impl Twin for Module {
    fn module(&mut self) -> &mut Module {
        self
    }
}

/// A twin of a proved module.
pub type Start<'a> = dyn Fn(Module) -> Box<dyn Twin> + Sync + 'a;

/// The tested calls with their images and session, and the module.
struct Twins<'a> {
    card: Vec<u8>,
    work: Vec<u8>,
    session: SessionBytes,
    start: &'a Start<'a>,
    module: Box<dyn Twin>,
    tally: Tally,
}

/// Runs a history through both: what was counted, and the first line with a
/// disagreement, counted from 0, with what is wrong.
pub fn twin_fault(history: &[Op]) -> (Tally, Option<(usize, String)>) {
    twin_fault_of(&|module| Box::new(module), history)
}

/// The same with another module.
pub fn twin_fault_of(start: &Start, history: &[Op]) -> (Tally, Option<(usize, String)>) {
    let mut twins = Twins::new(start, 0);
    twins.tally.histories = 1;
    for (i, op) in history.iter().enumerate() {
        let outcome = twins.run(op).and_then(|()| twins.alike());
        if let Err(what) = outcome {
            return (twins.tally, Some((i, what)));
        }
    }
    (twins.tally, None)
}

impl<'a> Twins<'a> {
    /// Two images of so many bytes of rubbish, and the closed session.
    fn new(start: &'a Start<'a>, length: usize) -> Twins<'a> {
        let image = vec![0xEE; length];
        Twins {
            card: image.clone(),
            work: image.clone(),
            session: Session::Closed.encode(),
            start,
            module: start(Module::new(image.clone(), image)),
            tally: Tally::default(),
        }
    }

    /// Runs one line. Lines that only look, and meddling with an open session,
    /// are left out.
    fn run(&mut self, op: &Op) -> Outcome {
        match op {
            Op::Fresh(s, t, d) => {
                let tally = self.tally;
                *self = Twins::new(self.start, SECTOR * (*s).min(MOST_SECTORS + 1) as usize);
                self.tally = tally;
                self.make(*s, *t, *d)
            }
            Op::Make(s, t, d) => self.make(*s, *t, *d),
            Op::Mount => {
                let number = host::mount(&mut self.card, &mut self.work, &mut self.session);
                let other = self.module.module().mount();
                self.same(number, other)
            }
            Op::Put { name, bytes, seed } => {
                let content = Dice::new(*seed).bytes(*bytes);
                let number = host::put(&self.session, &mut self.work, name, &content);
                let other = self.module.put(name, &content);
                self.same(number, other)?;
                self.get(name)
            }
            Op::PutAt {
                name,
                bytes,
                seed,
                goal,
            } => {
                let content = Dice::new(*seed).bytes(*bytes);
                let goal = Goal(*goal);
                let number = host::put_at(&self.session, &mut self.work, name, &content, goal);
                let other = self.module.module().put_at(name, &content, goal);
                self.same(number, other)?;
                self.get(name)
            }
            Op::Remove(name) => {
                let number = host::remove(&self.session, &mut self.work, name);
                let other = self.module.module().remove(name);
                self.same(number, other)?;
                self.get(name)
            }
            Op::Land(sector) => {
                let number = host::land(&self.session, &mut self.card, &self.work, *sector);
                let other = self.module.module().land(*sector);
                self.same(number, other)
            }
            Op::Sync => self.sync(),
            Op::Unmount => {
                let tested = host::unmount(&mut self.session, &mut self.card, &mut self.work);
                let other = self.module.module().unmount();
                self.same(tested.number, other.number)?;
                alike("counts", &tested.count, &other.count)
            }
            Op::Cut(seed) => {
                self.cut(&[], &mut Dice::new(*seed));
                Ok(())
            }
            Op::CutIn(call, done, seed) => {
                let list = self.steps_of(*call);
                self.cut(&list[..list.len().min(*done)], &mut Dice::new(*seed));
                Ok(())
            }
            Op::Poke(Which::Card, at, word) if self.session == Session::Closed.encode() => {
                if let Some(place) = self.card.get_mut(*at..at.saturating_add(4)) {
                    place.copy_from_slice(&word.to_le_bytes());
                }
                self.module.cut(self.card.clone());
                Ok(())
            }
            _ => Ok(()),
        }
    }

    fn make(&mut self, s: u32, t: u32, d: u32) -> Outcome {
        let number = host::make(s, t, d, &mut self.card);
        if number == plain::DONE {
            self.session = Session::Closed.encode();
        }
        let other = self.module.module().make(s, t, d);
        self.same(number, other)
    }

    /// Every other sync is asked for its count.
    fn sync(&mut self) -> Outcome {
        let (card, work) = (&mut self.card, &mut self.work);
        if card.first().is_some_and(|byte| byte % 2 == 0) {
            let tested = host::sync_count(&mut self.session, card, work);
            let other = self.module.module().sync_count();
            self.same(tested.number, other.number)?;
            return alike("counts", &tested.count, &other.count);
        }
        let number = host::sync(&mut self.session, card, work);
        let other = self.module.module().sync();
        self.same(number, other)
    }

    /// A file into a buffer that is long enough, and into one that is not.
    fn get(&mut self, name: &[u8]) -> Outcome {
        for length in [1, 12_000] {
            let [mut one, mut other] = [vec![0xEE; length], vec![0xEE; length]];
            let tested = host::get(&self.session, &self.work, name, &mut one);
            let answer = self.module.module().get(name, &mut other);
            self.same(tested.number, answer.number)?;
            alike("counts", &tested.count, &answer.count)?;
            alike("contents", &one, &other)?;
        }
        Ok(())
    }

    /// The files into a table that is long enough, and into one of a line.
    fn list(&mut self) -> Outcome {
        for length in [1, 256] {
            let rubbish = Line {
                length: 0xEE,
                ..Line::default()
            };
            let [mut one, mut other] = [vec![rubbish; length], vec![rubbish; length]];
            let tested = host::list(&self.session, &self.work, &mut one);
            let answer = self.module.list(&mut other);
            self.same(tested.number, answer.number)?;
            alike("counts", &tested.count, &answer.count)?;
            if one != other {
                return Err("the module's lines differ".into());
            }
        }
        Ok(())
    }

    /// The card writes of a call from here, barriers and all.
    fn steps_of(&self, call: Cuttable) -> Vec<Step> {
        let session = Session::decode(&self.session);
        let list = match call {
            Cuttable::Mount => steps::of_mount(&self.card, &self.work),
            Cuttable::Sync => steps::of_sync(&session, &self.card, &self.work),
            Cuttable::Unmount => steps::of_unmount(&session, &self.card, &self.work),
        };
        list.unwrap_or_default()
    }

    /// A cut after some steps of a call: before them any sector of an open
    /// session's working image may have landed.
    fn cut(&mut self, done: &[Step], dice: &mut Dice) {
        self.tally.cuts += 1;
        if self.session != Session::Closed.encode() {
            let sectors = self.card.chunks_mut(SECTOR).zip(self.work.chunks(SECTOR));
            for (sector, value) in sectors.filter(|_| dice.one_in(2)) {
                sector.copy_from_slice(value);
            }
        }
        for step in done {
            if let Step::Write { sector, content } = step {
                let at = SECTOR * *sector as usize;
                self.card[at..at + SECTOR].copy_from_slice(&content[..]);
            }
        }
        self.session = Session::Closed.encode();
        self.module.cut(self.card.clone());
    }

    /// Counts a call, and compares its two numbers; no call of a history gives
    /// 2.
    fn same(&mut self, tested: u32, other: u32) -> Outcome {
        self.tally.calls += 1;
        if tested == plain::NOT_SOUND {
            return Err("a call of a history gives 2".into());
        }
        alike("numbers", &tested, &other)
    }

    /// Session, both images, both figures and the list.
    fn alike(&mut self) -> Outcome {
        let module = self.module.module();
        alike("sessions", &&self.session, &module.session())?;
        let [mut one, mut other] = [[0xEE; 8]; 2];
        let number = host::free(&self.session, &self.work, &mut one);
        let answer = self.module.module().free(&mut other);
        self.same(number, answer)?;
        alike("figures", &one, &other)?;
        let module = self.module.module();
        if self.card != module.card() || self.work != module.work() {
            return Err("the module's images differ".into());
        }
        self.list()
    }
}

fn alike<T: PartialEq + std::fmt::Debug>(what: &str, tested: &T, other: &T) -> Outcome {
    if tested == other {
        return Ok(());
    }
    Err(format!("the module's {what} differ: {tested:?}, {other:?}"))
}
