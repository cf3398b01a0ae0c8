//! One line of a history, as a value and as text.

use std::fmt;

/// One of the two images.
#[derive(Clone, Copy, Debug, PartialEq, Eq)]
pub enum Which {
    Card,
    Work,
}

/// The calls that can be cut between their writes.
#[derive(Clone, Copy, Debug, PartialEq, Eq)]
pub enum Cuttable {
    Mount,
    Sync,
    Unmount,
}

/// One line of a history. Every line can be run in every state.
#[derive(Clone, Debug, PartialEq, Eq)]
pub enum Op {
    /// New images of 512·S bytes of rubbish, a closed session, and a make.
    Fresh(u32, u32, u32),
    /// A make on the card as it is.
    Make(u32, u32, u32),
    Read,
    Mount,
    Put {
        name: Vec<u8>,
        bytes: usize,
        seed: u64,
    },
    /// A put with a goal sector.
    PutAt {
        name: Vec<u8>,
        bytes: usize,
        seed: u64,
        goal: u32,
    },
    Sync,
    Land(u32),
    /// Both figures of free, which are asked after every other call as well.
    Free,
    /// A list into a table of so many lines.
    List(usize),
    /// Reading's list into a table of so many lines.
    ReadList(usize),
    /// A get into outputs that are too short, just long enough and longer.
    Get(Vec<u8>),
    /// Reading's get in the same way.
    ReadGet(Vec<u8>),
    Remove(Vec<u8>),
    Unmount,
    /// Looks at some card that a cut would leave; the history goes on.
    Try(u64),
    /// Looks at every card that a cut could leave, if there are not more.
    All(u64),
    /// Just so many sectors are unsettled, and every card that a cut could
    /// leave is looked at and counted: just so many.
    Exactly(usize, u64),
    /// Looks at every card that a cut inside a call could leave, after each
    /// number of its steps, where there are not more; the history goes on.
    AllIn(Cuttable, u64),
    /// A cut: the session ends with some card that it can leave.
    Cut(u64),
    /// A cut inside a call, after so many of its places.
    CutIn(Cuttable, usize, u64),
    /// The images are those of a stored card.
    Stored(String),
    /// An image of random bytes.
    Noise(Which, usize, u64),
    /// A word is written into an image, if it is that long.
    Poke(Which, usize, u32),
    /// An image is cut off or filled up with zeros.
    Length(Which, usize),
    /// A word of the session is written.
    Session(usize, u32),
    /// Keeps images and session.
    Save,
    /// Brings back what was kept.
    Back,
}

impl Op {
    /// Whether a line changes images and session behind the stores' backs.
    pub fn meddles(&self) -> bool {
        matches!(
            self,
            Op::Stored(_)
                | Op::Noise(..)
                | Op::Poke(..)
                | Op::Length(..)
                | Op::Session(..)
                | Op::Save
                | Op::Back
        )
    }
}

impl fmt::Display for Which {
    fn fmt(&self, f: &mut fmt::Formatter) -> fmt::Result {
        f.write_str(match self {
            Which::Card => "card",
            Which::Work => "work",
        })
    }
}

impl fmt::Display for Cuttable {
    fn fmt(&self, f: &mut fmt::Formatter) -> fmt::Result {
        f.write_str(match self {
            Cuttable::Mount => "mount",
            Cuttable::Sync => "sync",
            Cuttable::Unmount => "unmount",
        })
    }
}

impl fmt::Display for Op {
    fn fmt(&self, f: &mut fmt::Formatter) -> fmt::Result {
        match self {
            Op::Fresh(s, t, d) => write!(f, "fresh {s} {t} {d}"),
            Op::Make(s, t, d) => write!(f, "make {s} {t} {d}"),
            Op::Read => write!(f, "read"),
            Op::Mount => write!(f, "mount"),
            Op::Put { name, bytes, seed } => write!(f, "put {} {bytes} {seed}", escaped(name)),
            Op::PutAt {
                name,
                bytes,
                seed,
                goal,
            } => write!(f, "put-at {} {bytes} {seed} {goal}", escaped(name)),
            Op::Sync => write!(f, "sync"),
            Op::Land(sector) => write!(f, "land {sector}"),
            Op::Free => write!(f, "free"),
            Op::List(lines) => write!(f, "list {lines}"),
            Op::ReadList(lines) => write!(f, "read-list {lines}"),
            Op::Get(name) => write!(f, "get {}", escaped(name)),
            Op::ReadGet(name) => write!(f, "read-get {}", escaped(name)),
            Op::Remove(name) => write!(f, "remove {}", escaped(name)),
            Op::Unmount => write!(f, "unmount"),
            Op::Try(seed) => write!(f, "try {seed}"),
            Op::All(most) => write!(f, "all {most}"),
            Op::Exactly(sectors, cards) => write!(f, "exactly {sectors} {cards}"),
            Op::AllIn(call, most) => write!(f, "all-in {call} {most}"),
            Op::Cut(seed) => write!(f, "cut {seed}"),
            Op::CutIn(call, steps, seed) => write!(f, "cut-in {call} {steps} {seed}"),
            Op::Stored(name) => write!(f, "stored {name}"),
            Op::Noise(image, bytes, seed) => write!(f, "noise {image} {bytes} {seed}"),
            Op::Poke(image, at, word) => write!(f, "poke {image} {at} {word}"),
            Op::Length(image, bytes) => write!(f, "length {image} {bytes}"),
            Op::Session(i, word) => write!(f, "session {i} {word}"),
            Op::Save => write!(f, "save"),
            Op::Back => write!(f, "back"),
        }
    }
}

/// A name as one word: a byte that is no plain letter is `%` and two digits,
/// and the empty name is `%` alone.
fn escaped(name: &[u8]) -> String {
    if name.is_empty() {
        return "%".into();
    }
    let letter = |byte: &u8| match byte {
        33 | 34 | 36 | 38..=58 | 60..=126 => char::from(*byte).to_string(),
        _ => format!("%{byte:02x}"),
    };
    name.iter().map(letter).collect()
}
