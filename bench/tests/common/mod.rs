//! What the tests share: a host with a card, a working image and a session. Every
//! call is made by the plain version and by the proved store, which must agree.
#![allow(dead_code)]

use bench::host::{Answer, Goal};
use bench::plain::{word, Line, Report, Session};
use bench::store::{Plain, Proved, Store};

/// A card, a working image of its length and a session.
#[derive(Clone, Debug, PartialEq, Eq)]
pub struct Host {
    pub card: Vec<u8>,
    pub work: Vec<u8>,
    pub session: Session,
}

/// Makes a call by the plain version and by the proved store, which must give
/// and leave the same.
fn both<T: PartialEq>(call: impl Fn(&dyn Store) -> T) -> T {
    let [plain, proved] = [&Plain as &dyn Store, &Proved].map(call);
    assert!(
        plain == proved,
        "the plain version and the proved store differ"
    );
    plain
}

/// A count, or a refusal, which counts 0.
fn counted(answer: Answer) -> Result<u32, u32> {
    match answer.number {
        0 => Ok(answer.count),
        refusal => {
            assert_eq!(answer.count, 0);
            Err(refusal)
        }
    }
}

/// Makes a card of S, T and D by both stores.
pub fn make(s: u32, t: u32, d: u32, card: &mut [u8]) -> u32 {
    let (number, made) = both(|store| {
        let mut made = card.to_vec();
        (store.make(s, t, d, &mut made), made)
    });
    card.copy_from_slice(&made);
    number
}

/// Reads a card by both stores.
pub fn read(card: &[u8]) -> Result<Report, u32> {
    let (number, out) = both(|store| {
        let mut out = [0; 16];
        (store.read(card, &mut out), out)
    });
    match number {
        0 => Ok(Report {
            c: word(&out, 0, 0),
            n: word(&out, 0, 1),
            files: word(&out, 0, 2),
            free: word(&out, 0, 3),
        }),
        refusal => Err(refusal),
    }
}

/// Gets a file that a card shows by both stores.
pub fn read_get(card: &[u8], name: &[u8], out: &mut [u8]) -> Result<u32, u32> {
    let (answer, got) = both(|store| {
        let mut got = out.to_vec();
        (store.read_get(card, name, &mut got), got)
    });
    out.copy_from_slice(&got);
    counted(answer)
}

/// A fresh card of S, T and D.
pub fn fresh_card(s: u32, t: u32, d: u32) -> Vec<u8> {
    let mut card = vec![0xEE; 512 * s as usize];
    assert_eq!(make(s, t, d, &mut card), 0);
    card
}

/// Content of so many bytes, different for each size, with no zero byte.
pub fn content(bytes: usize) -> Vec<u8> {
    let byte = |i: usize| 1 + ((i * 7 + i / 512 + bytes * 31) % 255) as u8;
    (0..bytes).map(byte).collect()
}

impl Host {
    /// Mounts the bench sheet's fresh card: S = 10, T = 1, D = 1.
    pub fn small() -> Host {
        Host::mount(fresh_card(10, 1, 1))
    }

    /// Mounts a card, which must be taken.
    pub fn mount(card: Vec<u8>) -> Host {
        let (number, host) = Host::try_mount(card);
        assert_eq!(number, 0);
        host
    }

    /// Mounts a card with a working image full of rubbish.
    pub fn try_mount(card: Vec<u8>) -> (u32, Host) {
        let (number, card, work, session) = both(|store| {
            let (mut card, mut work) = (card.clone(), vec![0xEE; card.len()]);
            let mut session = [0xEE; 24];
            let number = store.mount(&mut card, &mut work, &mut session);
            (number, card, work, session)
        });
        let session = Session::decode(&session);
        (
            number,
            Host {
                card,
                work,
                session,
            },
        )
    }

    /// A call that changes the working image alone.
    fn change(&mut self, call: impl Fn(&dyn Store, &[u8; 24], &mut [u8]) -> u32) -> u32 {
        let session = self.session.encode();
        let (number, work) = both(|store| {
            let mut work = self.work.clone();
            (call(store, &session, &mut work), work)
        });
        self.work = work;
        number
    }

    /// A call that changes session, card and working image.
    fn turn<T: PartialEq>(
        &mut self,
        call: impl Fn(&dyn Store, &mut [u8; 24], &mut [u8], &mut [u8]) -> T,
    ) -> T {
        let before = self.session.encode();
        let (answer, session, card, work) = both(|store| {
            let (mut session, mut card, mut work) = (before, self.card.clone(), self.work.clone());
            let answer = call(store, &mut session, &mut card, &mut work);
            (answer, session, card, work)
        });
        (self.card, self.work) = (card, work);
        self.session = Session::decode(&session);
        answer
    }

    pub fn put(&mut self, name: &str, content: &[u8]) -> u32 {
        self.change(|store, session, work| store.put(session, work, name.as_bytes(), content))
    }

    pub fn put_at(&mut self, name: &str, content: &[u8], goal: u32) -> u32 {
        let name = name.as_bytes();
        self.change(|store, session, work| store.put_at(session, work, name, content, Goal(goal)))
    }

    /// Puts so many bytes of some content, which must be taken.
    pub fn store(&mut self, name: &str, bytes: usize) {
        let number = self.put(name, &content(bytes));
        assert_eq!(number, 0, "put {name} of {bytes} bytes");
    }

    pub fn remove(&mut self, name: &str) -> u32 {
        self.change(|store, session, work| store.remove(session, work, name.as_bytes()))
    }

    pub fn sync(&mut self) -> u32 {
        self.turn(|store, session, card, work| store.sync(session, card, work))
    }

    /// The same, with the sectors written.
    pub fn sync_count(&mut self) -> Result<u32, u32> {
        counted(self.turn(|store, session, card, work| store.sync_count(session, card, work)))
    }

    pub fn unmount(&mut self) -> u32 {
        self.unmount_count().err().unwrap_or(0)
    }

    /// The same, with the sectors that its sync wrote.
    pub fn unmount_count(&mut self) -> Result<u32, u32> {
        counted(self.turn(|store, session, card, work| store.unmount(session, card, work)))
    }

    pub fn land(&mut self, sector: u32) -> u32 {
        self.turn(|store, session, card, work| store.land(session, card, work, sector))
    }

    /// The card after so many places of a sync, and the sectors written.
    pub fn sync_steps(&self, k: u32) -> Result<(u32, Vec<u8>), u32> {
        let session = self.session.encode();
        let (answer, card) = both(|store| {
            let mut card = self.card.clone();
            (store.sync_steps(&session, &mut card, &self.work, k), card)
        });
        counted(answer).map(|count| (count, card))
    }

    /// The free sectors; none may wait for a sync.
    pub fn free(&self) -> Result<u32, u32> {
        self.figures().map(|(free, waiting)| {
            assert_eq!(waiting, 0);
            free
        })
    }

    /// The free sectors and those that wait for a sync.
    pub fn figures(&self) -> Result<(u32, u32), u32> {
        let (number, out) = both(|store| {
            let mut out = [0; 8];
            let number = store.free(&self.session.encode(), &self.work, &mut out);
            (number, out)
        });
        match number {
            0 => Ok((word(&out, 0, 0), word(&out, 0, 1))),
            refusal => Err(refusal),
        }
    }

    pub fn get(&self, name: &str, room: usize) -> Result<Vec<u8>, u32> {
        let (answer, mut out) = both(|store| {
            let mut out = vec![0xEE; room];
            let session = self.session.encode();
            let answer = store.get(&session, &self.work, name.as_bytes(), &mut out);
            (answer, out)
        });
        let count = answer.count as usize;
        assert!(out[count..].iter().all(|b| *b == 0xEE));
        out.truncate(count);
        counted(answer).map(|_| out)
    }

    /// The present files as `name bytes start sectors`.
    pub fn files(&self) -> Vec<String> {
        let (answer, lines) = both(|store| {
            let mut lines = vec![Line::default(); 256];
            let answer = store.list(&self.session.encode(), &self.work, &mut lines);
            (answer, lines)
        });
        texts(&lines[..counted(answer).expect("list is taken") as usize])
    }

    /// A word of the working image.
    pub fn word(&self, sector: u32, i: usize) -> u32 {
        word(&self.work, sector, i)
    }

    /// What the card would show after a cut now.
    pub fn read(&self) -> Result<Report, u32> {
        read(&self.card)
    }
}

/// The files that a card shows, as `name bytes start sectors`.
pub fn shown(card: &[u8]) -> Vec<String> {
    let (answer, lines) = both(|store| {
        let mut lines = vec![Line::default(); 256];
        (store.read_list(card, &mut lines), lines)
    });
    texts(&lines[..counted(answer).expect("the card is sound") as usize])
}

/// The content of a file that a card shows.
pub fn shown_content(card: &[u8], name: &str) -> Result<Vec<u8>, u32> {
    let mut out = vec![0; card.len()];
    let count = read_get(card, name.as_bytes(), &mut out)?;
    out.truncate(count as usize);
    Ok(out)
}

fn texts(lines: &[Line]) -> Vec<String> {
    let text = |line: &Line| {
        let name = String::from_utf8_lossy(line.used_name()).into_owned();
        format!("{name} {} {} {}", line.bytes, line.start, line.sectors)
    };
    lines.iter().map(text).collect()
}

/// Numbers that look random and are the same in each run.
pub struct Dice(u64);

impl Dice {
    pub fn new(seed: u64) -> Dice {
        Dice(seed.wrapping_mul(0x9E37_79B9_7F4A_7C15) | 1)
    }

    pub fn roll(&mut self) -> u64 {
        self.0 ^= self.0 << 13;
        self.0 ^= self.0 >> 7;
        self.0 ^= self.0 << 17;
        self.0.wrapping_mul(0x2545_F491_4F6C_DD1D) >> 16
    }

    /// A number below `bound`, which is above 0.
    pub fn below(&mut self, bound: usize) -> usize {
        (self.roll() % bound as u64) as usize
    }
}
