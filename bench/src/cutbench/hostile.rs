//! Histories of hostile input: random and mutated images, sessions, names and
//! lengths to every call.

use super::histories::at_goal;
use super::op::{Op, Which};
use crate::dice::Dice;
use crate::plain::{self, PAGE_SECTORS, SECTOR, TOP};
use crate::stored;

/// Words that sit at some bound.
const BOUNDS: [u32; 23] = [
    0,
    1,
    2,
    3,
    4,
    5,
    6,
    9,
    10,
    127,
    128,
    512,
    4_095,
    4_096,
    4_097,
    8_192,
    65_536,
    65_537,
    TOP - 1,
    TOP,
    TOP + 1,
    u32::MAX - 1,
    u32::MAX,
];

/// The stored cards of few sectors, by name.
pub struct Cards {
    all: Vec<&'static str>,
    /// Those that are sound.
    good: Vec<&'static str>,
}

impl Cards {
    pub fn small() -> Cards {
        let mut small = stored::all();
        small.retain(|card| card.bytes.len() <= 6_144);
        let good = small.iter().filter(|card| plain::read(&card.bytes).is_ok());
        Cards {
            good: good.map(|card| card.name).collect(),
            all: small.iter().map(|card| card.name).collect(),
        }
    }
}

/// A history: some state, then again and again from there a few mutations and
/// a few calls.
pub fn random(dice: &mut Dice, cards: &Cards) -> Vec<Op> {
    let paged = dice.one_in(250);
    let mut list = if paged {
        two_pages(dice)
    } else {
        beginning(dice, cards)
    };
    list.push(Op::Save);
    for _ in 0..46 {
        list.push(Op::Back);
        for _ in 0..dice.below(4) {
            list.push(mutation(dice, paged));
        }
        for _ in 0..1 + dice.below(3) {
            list.push(call(dice));
        }
    }
    list
}

fn beginning(dice: &mut Dice, cards: &Cards) -> Vec<Op> {
    let mut list = match dice.below(16) {
        0 => vec![Op::Noise(Which::Card, dice.below(6_000), dice.roll())],
        1..=3 => vec![Op::Fresh(7 + dice.below(6) as u32, 1, 1)],
        4 => vec![Op::Fresh(70 + dice.below(9) as u32, 1, 64)],
        5..=6 => vec![Op::Stored(dice.one_of(&cards.all).to_string())],
        _ => vec![Op::Stored(dice.one_of(&cards.good).to_string())],
    };
    list.push(Op::Mount);
    for _ in 0..dice.below(5) {
        list.push(match dice.below(6) {
            0 => Op::Sync,
            1 => Op::Remove(vec![b'a'; 1]),
            _ => put(dice),
        });
    }
    list
}

/// A card of two pages, with T = 1 and D = 1, and a session with files at both
/// sides of the first page's end.
fn two_pages(dice: &mut Dice) -> Vec<Op> {
    let file = |name: u8, bytes| Op::Put {
        name: vec![name],
        bytes,
        seed: 1,
    };
    let s = *dice.one_of(&[4_097, 4_097, 8_192]);
    let left = dice.below(4);
    vec![
        Op::Fresh(s, 1, 1),
        Op::Mount,
        file(b'b', SECTOR * (PAGE_SECTORS as usize - 8 - left)),
        file(b'a', 600),
        file(b'c', 512),
        Op::Sync,
        put(dice),
        put(dice),
    ]
}

fn word(dice: &mut Dice) -> u32 {
    match dice.below(4) {
        0 => dice.roll() as u32,
        1 => dice.below(12) as u32,
        _ => *dice.one_of(&BOUNDS),
    }
}

fn which(dice: &mut Dice) -> Which {
    *dice.one_of(&[Which::Card, Which::Work, Which::Work])
}

/// Most mutations go to the first six sectors, where the words are, and eight
/// of a card of two pages; some words of an entry and of the index are met on
/// purpose.
fn mutation(dice: &mut Dice, paged: bool) -> Op {
    let image = which(dice);
    let (groups, directory) = if paged { (2, 3_584) } else { (1, 2_560) };
    match dice.below(16) {
        0..=3 => Op::Session(dice.below(6), word(dice)),
        4 => Op::Length(image, length(dice)),
        5..=6 => Op::Poke(image, 4 * dice.below(5), word(dice)),
        7..=8 => Op::Poke(image, 1_024 + 4 * dice.below(4 * groups + 1), word(dice)),
        9..=12 => {
            let entry = directory + 128 * dice.below(4);
            Op::Poke(image, entry + 4 * dice.below(20), word(dice))
        }
        13 => Op::Poke(
            image,
            1_536 + dice.below(1_024 * groups),
            dice.roll() as u32,
        ),
        14 => Op::Poke(image, dice.below(6_000), word(dice)),
        _ => Op::Poke(image, 512 + 4 * dice.below(6), word(dice)),
    }
}

fn length(dice: &mut Dice) -> usize {
    match dice.below(3) {
        0 => 512 * dice.below(13),
        1 => 512 * dice.below(13) + 1,
        _ => dice.below(6_000),
    }
}

fn call(dice: &mut Dice) -> Op {
    match dice.below(25) {
        0 => Op::Make(word(dice), word(dice), word(dice)),
        1 => Op::Make(10, 1 + dice.below(2) as u32, 1),
        2..=3 => Op::Read,
        4..=5 => Op::Mount,
        6..=7 => put(dice),
        8..=9 => {
            let goal = word(dice);
            at_goal(put(dice), goal)
        }
        10..=12 => Op::Sync,
        13 => Op::Land(word(dice)),
        14..=15 => Op::Land(dice.below(11) as u32),
        16..=17 => Op::List(lines(dice)),
        18 => Op::ReadList(lines(dice)),
        19..=20 => Op::Get(name(dice)),
        21 => Op::ReadGet(name(dice)),
        22..=23 => Op::Remove(name(dice)),
        _ => Op::Unmount,
    }
}

/// Most cards have none to four files.
fn lines(dice: &mut Dice) -> usize {
    *dice.one_of(&[0, 0, 1, 1, 2, 2, 3, 3, 4, 4, 5, 6, 7, 255, 256, 257])
}

fn name(dice: &mut Dice) -> Vec<u8> {
    let length = *dice.one_of(&[0, 1, 1, 1, 1, 1, 2, 4, 31, 32, 33, 100]);
    let byte = *dice.one_of(&[b'a', b'a', b'a', b'b', b'c', b'!', b'~', 32, 127, 0, 255]);
    vec![byte; length]
}

fn put(dice: &mut Dice) -> Op {
    let name = name(dice);
    let bytes = *dice.one_of(&[0, 1, 511, 512, 513, 1_024, 1_025, 2_048, 5_000]);
    Op::Put {
        name,
        bytes,
        seed: dice.roll() % 1_000,
    }
}
