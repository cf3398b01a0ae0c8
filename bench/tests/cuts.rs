//! Random histories with cuts: whatever sectors have landed, the card is
//! sound and shows the files of the last finished sync, or, when a sync was
//! cut after its table sector was written, those of its start.

mod common;

use bench::plain::steps::{self, Step};
use bench::plain::{self, Session};
use common::{fresh_card, shown, shown_content, Dice, Host};
use std::collections::BTreeMap;

type Files = BTreeMap<String, Vec<u8>>;

/// Each sector of a card as its only candidate.
fn sectors_of(card: &[u8]) -> Vec<Vec<Vec<u8>>> {
    card.chunks(512).map(|c| vec![c.to_vec()]).collect()
}

/// A host, all values that each sector of the card may hold after a cut, and
/// the files of the present view and of the last finished sync.
struct World {
    host: Host,
    candidates: Vec<Vec<Vec<u8>>>,
    present: Files,
    synced: Files,
}

impl World {
    /// A session whose mount has landed.
    fn begin(card: Vec<u8>, files: Files) -> World {
        let host = Host::mount(card);
        World {
            candidates: sectors_of(&host.card),
            host,
            present: files.clone(),
            synced: files,
        }
    }

    /// The newest values of the working image may land from now on. One that
    /// came back is the newest, also where a sync need not write it.
    fn written(&mut self) {
        for (values, sector) in self.candidates.iter_mut().zip(self.host.work.chunks(512)) {
            values.retain(|value| value != sector);
            values.push(sector.to_vec());
        }
    }

    /// A put, remove or land, with the files that follow from it.
    fn change(&mut self, dice: &mut Dice) {
        let name = ["a", "b", "c", "d", "e"][dice.below(5)];
        let bytes = dice.below(1_400);
        match dice.below(6) {
            0 => {
                let sectors = self.candidates.len();
                let sector = dice.below(sectors) as u32;
                assert_eq!(self.host.land(sector), 0);
            }
            1 | 2 => {
                if self.host.remove(name) == 0 {
                    assert!(self.present.remove(name).is_some());
                }
            }
            _ => {
                let text: Vec<u8> = (0..bytes).map(|_| dice.roll() as u8).collect();
                if self.host.put(name, &text) == 0 {
                    self.present.insert(name.to_string(), text);
                }
            }
        }
        self.written();
    }

    fn sync(&mut self) {
        assert_eq!(self.host.sync(), 0);
        self.candidates = sectors_of(&self.host.card);
        self.synced = self.present.clone();
    }

    /// Some card that a cut can leave.
    fn cut(&self, dice: &mut Dice) -> Vec<u8> {
        let pick = |values: &Vec<Vec<u8>>| values[dice.below(values.len())].clone();
        self.candidates.iter().flat_map(pick).collect()
    }

    /// Does the first steps of a sync or unmount, keeping what may land.
    fn steps(&mut self, list: &[Step]) {
        for step in list {
            match step {
                Step::Write { sector, content } => {
                    let at = *sector as usize;
                    self.host.card[512 * at..512 * (at + 1)].copy_from_slice(&content[..]);
                    self.candidates[at].push(content.to_vec());
                }
                Step::Barrier => self.all_newest(),
            }
        }
    }

    /// Each sector holds the value written last.
    fn all_newest(&mut self) {
        for values in &mut self.candidates {
            values.drain(..values.len() - 1);
        }
    }
}

fn files_of(card: &[u8]) -> Files {
    let name_of = |line: &String| line.split(' ').next().unwrap_or("").to_string();
    let content = |name: &String| shown_content(card, name).expect("a shown file");
    let names = shown(card).iter().map(name_of).collect::<Vec<_>>();
    names
        .iter()
        .map(|name| (name.clone(), content(name)))
        .collect()
}

#[test]
fn cuts_between_calls_show_the_last_sync() {
    for seed in 0..40 {
        let mut dice = Dice::new(seed);
        let mut world = World::begin(fresh_card(14, 1, 1), Files::new());
        for _ in 0..40 {
            match dice.below(8) {
                0 => world.sync(),
                1 => {
                    let card = world.cut(&mut dice);
                    assert_eq!(files_of(&card), world.synced, "seed {seed}");
                    world = World::begin(card, world.synced);
                }
                _ => world.change(&mut dice),
            }
            let card = world.cut(&mut dice);
            assert_eq!(files_of(&card), world.synced, "seed {seed}");
            assert_eq!(files_of(&world.host.card), world.synced, "seed {seed}");
        }
    }
}

fn first_barrier(list: &[Step]) -> usize {
    let place = list.iter().position(|step| *step == Step::Barrier);
    place.expect("a sync has a barrier")
}

#[test]
fn cuts_inside_calls_show_one_side_or_the_other() {
    let mut both = [0, 0];
    for seed in 100..140 {
        let mut dice = Dice::new(seed);
        let mut world = World::begin(fresh_card(14, 1, 1), Files::new());
        for _ in 0..12 {
            for _ in 0..dice.below(5) {
                world.change(&mut dice);
            }
            let Host {
                session,
                card,
                work,
            } = &world.host;
            let list = if dice.below(2) == 0 {
                steps::of_sync(session, card, work)
            } else {
                steps::of_unmount(session, card, work)
            };
            let list = list.expect("the call is taken");
            let done = match dice.below(3) {
                0 => list.len() - dice.below(4),
                _ => dice.below(list.len() + 1),
            };
            world.steps(&list[..done]);
            let card = world.cut(&mut dice);
            let files = files_of(&card);
            // Some sectors, a barrier, the table sector, a barrier.
            let table = 1 + first_barrier(&list);
            let allowed = match done {
                _ if done <= table => vec![&world.synced],
                _ if done == table + 1 => vec![&world.synced, &world.present],
                _ => vec![&world.present],
            };
            assert!(allowed.contains(&&files), "seed {seed}, {done} steps");
            both[usize::from(files != world.synced)] += 1;
            world = World::begin(card, files);
        }
    }
    assert!(both.iter().all(|count| *count > 50), "{both:?}");
}

#[test]
fn cuts_inside_mount_change_no_file() {
    let mut host = Host::small();
    host.store("a", 700);
    assert_eq!(host.unmount(), 0);
    for k in 0..=1 {
        let mut card = host.card.clone();
        assert_eq!(steps::mount_cut(&mut card, &host.work, k), 0);
        assert_eq!(shown(&card), ["a 700 6 2"]);
        assert_eq!(plain::word(&card, 0, 0), k as u32);
    }
    assert_eq!(host.session, Session::Closed);
}
