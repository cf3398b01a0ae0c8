//! The cards that are measured, and the calls on them.

use crate::dice::Dice;
use crate::host::{Goal, SessionBytes};
use crate::plain::{self, Line, Session, MOST_SECTORS, PAGE_SECTORS, SECTOR};
use crate::store::Store;

/// S, T and D.
pub type Geometry = (u32, u32, u32);

/// A small card, the largest of one page, and the largest of all, with T = 8
/// and D = 8: each has sixteen times the sectors of the one before.
pub const SMALL: Geometry = (256, 8, 8);
pub const PAGE: Geometry = (PAGE_SECTORS, 8, 8);
pub const LARGEST: Geometry = (MOST_SECTORS, 8, 8);

/// The measured cards.
pub const CARDS: [Geometry; 6] = [
    (10, 1, 1),
    SMALL,
    PAGE,
    (PAGE_SECTORS, 512, 64),
    LARGEST,
    (MOST_SECTORS, 512, 64),
];

/// The cards that are measured with every directory: 256 files.
pub const MANY_FILES: [Geometry; 2] = [(PAGE_SECTORS, 8, 64), (PAGE_SECTORS, 512, 64)];

/// The first data sector of a card.
pub fn first_data((s, t, d): Geometry) -> u32 {
    plain::Geometry::within_limits(s, t, d).map_or(0, |geometry| geometry.f())
}

/// What the directory holds.
#[derive(Clone, Copy, Debug, PartialEq, Eq)]
pub enum Directory {
    Fresh,
    /// A file in every entry, their runs in the order of the entries, on about
    /// half of the data.
    Full,
    /// The same files, their entries in another order.
    Shuffled,
    /// As full, with names of 32 bytes that share their first 29.
    LongNames,
}

impl Directory {
    pub const ALL: [Directory; 4] = [
        Directory::Fresh,
        Directory::Full,
        Directory::Shuffled,
        Directory::LongNames,
    ];

    /// The name in the tables.
    pub fn name(self) -> &'static str {
        match self {
            Directory::Fresh => "fresh",
            Directory::Full => "full",
            Directory::Shuffled => "shuffled",
            Directory::LongNames => "long names",
        }
    }

    fn name_of(self, i: usize) -> Vec<u8> {
        match self {
            Directory::LongNames => format!("calibration-of-the-left-arm-t{i:03}"),
            _ => format!("arm_{i:03}"),
        }
        .into_bytes()
    }
}

/// The measured calls. A put has a number of sectors.
#[derive(Clone, Copy, Debug, PartialEq, Eq)]
pub enum Call {
    Make,
    Read,
    Mount,
    Put(usize),
    /// A put of one sector with the middle of the data as its goal.
    PutAt,
    /// A put of one sector with the last sector as its goal.
    PutAtEnd,
    Remove,
    Get,
    Free,
    /// A sync after a put of one sector.
    Sync,
    /// A sync with nothing changed since the mount.
    SyncNothing,
    /// A sync to a card of which every byte differs.
    SyncAll,
    Unmount,
    Land,
    /// A land of sector S, which is refused with 11 after the fit test.
    Fit,
    List,
    ReadList,
    ReadGet,
    /// Reading's list with no line lent, which a card with files refuses with
    /// 10 after the soundness test; no row of its own.
    Sound,
}

/// The calls of the long table, in its order.
pub const CALLS: [Call; 19] = [
    Call::Make,
    Call::Read,
    Call::Mount,
    Call::Put(0),
    Call::Put(1),
    Call::Put(16),
    Call::PutAt,
    Call::PutAtEnd,
    Call::Remove,
    Call::Get,
    Call::Free,
    Call::Sync,
    Call::SyncNothing,
    Call::Unmount,
    Call::Land,
    Call::Fit,
    Call::List,
    Call::ReadList,
    Call::ReadGet,
];

impl Call {
    /// The name in the table.
    pub fn name(self) -> String {
        match self {
            Call::Make => "make".into(),
            Call::Read => "read".into(),
            Call::Mount => "mount".into(),
            Call::Put(sectors) => format!("put {sectors}"),
            Call::PutAt => "put 1, goal in the middle".into(),
            Call::PutAtEnd => "put 1, goal at the end".into(),
            Call::Remove => "remove".into(),
            Call::Get => "get".into(),
            Call::Free => "free".into(),
            Call::Sync => "sync".into(),
            Call::SyncNothing => "sync, nothing changed".into(),
            Call::SyncAll => "sync, all changed".into(),
            Call::Unmount => "unmount".into(),
            Call::Land => "land".into(),
            Call::Fit => "land, no such sector".into(),
            Call::List => "list".into(),
            Call::ReadList => "reading's list".into(),
            Call::ReadGet => "reading's get".into(),
            Call::Sound => "reading's list, no line".into(),
        }
    }

    /// The bytes of a put of so many sectors; its last byte is missing.
    pub fn content_bytes(self) -> usize {
        match self {
            Call::Put(sectors) => (SECTOR * sectors).saturating_sub(1),
            Call::PutAt | Call::PutAtEnd => SECTOR - 1,
            _ => 0,
        }
    }

    /// Whether it starts with no session.
    fn on_a_card(self) -> bool {
        matches!(
            self,
            Call::Make | Call::Read | Call::Mount | Call::ReadList | Call::ReadGet | Call::Sound
        )
    }
}

/// Two images and a session, from which calls start.
#[derive(Clone)]
pub struct Bed {
    pub geometry: Geometry,
    pub card: Vec<u8>,
    pub work: Vec<u8>,
    pub session: SessionBytes,
    /// The name that puts use.
    pub name: Vec<u8>,
    /// The table that lists fill: a line for every entry.
    pub lines: Vec<Line>,
    /// The output that gets fill.
    pub out: Vec<u8>,
}

impl Bed {
    /// The state from which a call is measured.
    pub fn before(call: Call, geometry: Geometry, directory: Directory) -> Bed {
        Bed::filled(geometry, directory).ready(call)
    }

    /// A card with its directory, and no session.
    pub fn filled(geometry: Geometry, directory: Directory) -> Bed {
        let mut bed = Bed::fresh(geometry);
        if directory == Directory::Fresh {
            return bed;
        }
        bed.name = directory.name_of(bed.lines.len() - 1);
        bed.fill(directory);
        if directory == Directory::Shuffled {
            bed.shuffle();
        }
        bed
    }

    /// The same, ready for a call.
    pub fn ready(&self, call: Call) -> Bed {
        let mut bed = self.clone();
        if !call.on_a_card() {
            bed.mount();
        }
        let with_a_put = [
            Call::Remove,
            Call::Get,
            Call::Sync,
            Call::Unmount,
            Call::Land,
            Call::Fit,
        ];
        if with_a_put.contains(&call) {
            bed.put(&self.name, 1);
        }
        if call == Call::SyncAll {
            bed.card = bed.work.iter().map(|byte| !byte).collect();
        }
        bed
    }

    /// A fresh card and a closed session.
    pub fn fresh(geometry: Geometry) -> Bed {
        let (s, t, d) = geometry;
        let mut card = vec![0xEE; SECTOR * s as usize];
        assert_eq!(plain::make(s, t, d, &mut card), plain::DONE);
        Bed {
            geometry,
            work: card.clone(),
            card,
            session: Session::Closed.encode(),
            name: Directory::Fresh.name_of(0),
            lines: vec![Line::default(); 4 * d as usize],
            out: vec![0; SECTOR * PAGE_SECTORS as usize],
        }
    }

    /// By the plain version, as is all that goes before a measured call.
    pub fn mount(&mut self) {
        let (number, session) = plain::mount(&mut self.card, &mut self.work);
        assert_eq!(number, plain::DONE);
        self.session = session.encode();
    }

    /// Puts a file of so many sectors.
    pub fn put(&mut self, name: &[u8], sectors: usize) {
        let session = Session::decode(&self.session);
        let content = vec![1; SECTOR * sectors];
        let number = plain::put(&session, &mut self.work, name, &content);
        assert_eq!(number, plain::DONE);
    }

    pub fn unmount(&mut self) {
        let mut session = Session::decode(&self.session);
        let number = plain::unmount(&mut session, &mut self.card, &mut self.work);
        assert_eq!(number, plain::DONE);
        self.session = session.encode();
    }

    /// A session of its own fills the directory and is unmounted.
    fn fill(&mut self, directory: Directory) {
        self.mount();
        let entries = self.lines.len();
        let half = (self.geometry.0 - first_data(self.geometry)) as usize / 2;
        for i in 0..entries {
            let sectors = if i < half { (half / entries).max(1) } else { 0 };
            self.put(&directory.name_of(i), sectors);
        }
        self.unmount();
    }

    /// Puts the entries of the card into another order, always the same.
    fn shuffle(&mut self) {
        const ENTRY: usize = 128;
        let end = SECTOR * first_data(self.geometry) as usize;
        let begin = end - ENTRY * self.lines.len();
        let mut dice = Dice::new(1);
        for last in (1..self.lines.len()).rev() {
            let other = dice.below(last + 1);
            let [one, other] = [last, other].map(|i| begin + ENTRY * i);
            let kept = self.card[one..one + ENTRY].to_vec();
            self.card.copy_within(other..other + ENTRY, one);
            self.card[other..other + ENTRY].copy_from_slice(&kept);
        }
        assert!(plain::read(&self.card).is_ok());
        self.work.copy_from_slice(&self.card);
    }

    /// Makes a call and gives its number.
    pub fn call(&mut self, store: &dyn Store, call: Call, content: &[u8]) -> u32 {
        let (s, t, d) = self.geometry;
        match call {
            Call::Make => store.make(s, t, d, &mut self.card),
            Call::Read => store.read(&self.card, &mut [0; 16]),
            Call::Mount => store.mount(&mut self.card, &mut self.work, &mut self.session),
            Call::Put(_) => store.put(&self.session, &mut self.work, &self.name, content),
            Call::PutAt | Call::PutAtEnd => {
                let f = first_data(self.geometry);
                let middle = f + (s - f) / 2;
                let goal = Goal(if call == Call::PutAt { middle } else { s - 1 });
                let (name, work) = (&self.name, &mut self.work);
                store.put_at(&self.session, work, name, content, goal)
            }
            Call::Remove => store.remove(&self.session, &mut self.work, &self.name),
            Call::Get => {
                let (name, out) = (&self.name, &mut self.out);
                store.get(&self.session, &self.work, name, out).number
            }
            Call::Free => store.free(&self.session, &self.work, &mut [0; 8]),
            Call::Sync | Call::SyncNothing | Call::SyncAll => {
                store.sync(&mut self.session, &mut self.card, &mut self.work)
            }
            Call::Unmount => {
                let (card, work) = (&mut self.card, &mut self.work);
                store.unmount(&mut self.session, card, work).number
            }
            Call::Land => {
                let sector = first_data(self.geometry);
                store.land(&self.session, &mut self.card, &self.work, sector)
            }
            Call::Fit => store.land(&self.session, &mut self.card, &self.work, s),
            Call::List => {
                let lines = &mut self.lines;
                store.list(&self.session, &self.work, lines).number
            }
            Call::ReadList => store.read_list(&self.card, &mut self.lines).number,
            Call::ReadGet => store.read_get(&self.card, &self.name, &mut self.out).number,
            Call::Sound => store.read_list(&self.card, &mut []).number,
        }
    }
}
