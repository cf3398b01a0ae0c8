//! Random histories of calls and cuts.

use super::op::{Cuttable, Op, Which};
use crate::dice::Dice;
use crate::plain::{Geometry, MOST_SECTORS, PAGE_SECTORS, SECTOR, TOP};

/// The names: few, so that they meet; the last ones are refused.
const NAMES: [&[u8]; 14] = [
    b"a",
    b"b",
    b"c",
    b"d",
    b"e",
    b"f",
    b"a!",
    b"~",
    b"thirty-two_bytes_are_a_full_name",
    b"thirty-two_bytes_are_a_full_nam",
    b"",
    b"thirty-three_bytes_are_one_too_ma",
    b"a b",
    b"\x7f",
];
const GOOD_NAMES: usize = 10;

/// A history of about `length` lines.
pub fn random(dice: &mut Dice, length: usize) -> Vec<Op> {
    let (s, t, d) = geometry(dice);
    let length = if s > 100 { length.min(25) } else { length };
    let mut list = vec![Op::Fresh(s, t, d)];
    if dice.one_in(4) {
        last_counts(dice, t, &mut list);
    }
    list.push(Op::Mount);
    let geometry = Geometry::within_limits(s, t, d).expect("inside the limits");
    if geometry.pairs() > 1 {
        fill(dice, &geometry, &mut list);
    }
    while list.len() < length {
        some(dice, &geometry, &mut list);
        if dice.one_in(5) {
            list.push(lines(dice));
        }
        if dice.one_in(8) {
            list.push(get(dice));
        }
    }
    list
}

/// A list into a table that is too short, just long enough, or longer.
fn lines(dice: &mut Dice) -> Op {
    let length = dice.below(9);
    if dice.one_in(3) {
        Op::ReadList(length)
    } else {
        Op::List(length)
    }
}

fn get(dice: &mut Dice) -> Op {
    let name = name(dice);
    if dice.one_in(3) {
        Op::ReadGet(name)
    } else {
        Op::Get(name)
    }
}

fn geometry(dice: &mut Dice) -> (u32, u32, u32) {
    let (t, d) = match dice.below(100) {
        0 => (512, 64),
        1..=2 => (8, 8),
        _ => (1 + dice.below(2) as u32, 1 + dice.below(2) as u32),
    };
    let f = t + 4 + d;
    let s = match dice.below(1_000) {
        0..=9 => PAGE_SECTORS,
        10..=19 => f + 1 + dice.below((PAGE_SECTORS - f) as usize) as u32,
        20..=27 => *dice.one_of(&[4_097, 4_097, 8_192, 8_193]),
        28 => MOST_SECTORS,
        _ => f + 1 + dice.below(24) as u32,
    };
    (s, t, d)
}

/// Two files take the first two pages but for a few sectors, so that what
/// follows lies on both sides of a page's end.
fn fill(dice: &mut Dice, geometry: &Geometry, list: &mut Vec<Op>) {
    let data = [
        PAGE_SECTORS - geometry.f(),
        (geometry.s() - PAGE_SECTORS).min(PAGE_SECTORS),
    ];
    for (name, sectors) in [b"d", b"e"].into_iter().zip(data) {
        let left = dice.below(6) as u32;
        list.push(Op::Put {
            name: name.to_vec(),
            bytes: SECTOR * sectors.saturating_sub(left) as usize,
            seed: dice.roll() % 1_000_000,
        });
    }
}

/// A card whose crash counts or transaction counts are nearly used up.
fn last_counts(dice: &mut Dice, t: u32, list: &mut Vec<Op>) {
    let c = match dice.below(3) {
        0 => 128 * t - 1 - dice.below(3) as u32,
        _ => dice.below(128 * t as usize) as u32,
    };
    list.push(Op::Poke(Which::Card, 0, c));
    let word = TOP - 1 - dice.below(4) as u32;
    list.push(Op::Poke(Which::Card, 512 + 4 * c as usize, word));
}

/// A few lines more.
fn some(dice: &mut Dice, geometry: &Geometry, list: &mut Vec<Op>) {
    let s = geometry.s();
    let seed = dice.roll() % 1_000_000;
    match dice.below(100) {
        0..=24 => list.push(put(dice, s)),
        25..=37 => {
            let goal = goal(dice, geometry);
            list.push(at_goal(put(dice, s), goal));
        }
        38..=49 => list.push(Op::Remove(name(dice))),
        50..=61 => lands(dice, s, list),
        62..=75 => list.push(Op::Try(seed)),
        76..=77 => list.push(Op::All(64)),
        78..=86 => list.push(Op::Sync),
        87..=88 => list.push(Op::Read),
        89..=90 => list.extend([Op::Unmount, Op::Try(seed), Op::Mount]),
        91 => list.push(Op::Mount),
        92..=94 => list.extend([Op::Cut(seed), Op::Mount]),
        _ => {
            let call = *dice.one_of(&[Cuttable::Sync, Cuttable::Sync, Cuttable::Unmount]);
            list.extend([cut_in(dice, s, call), Op::Mount]);
            if dice.one_in(8) {
                list.extend([cut_in(dice, s, Cuttable::Mount), Op::Mount]);
            }
        }
    }
}

/// Some puts on a card of more than one page are of a page, or of more.
fn put(dice: &mut Dice, s: u32) -> Op {
    let bytes = match dice.below(8) {
        0 if s > PAGE_SECTORS => SECTOR * PAGE_SECTORS as usize + dice.below(2),
        0 => 0,
        1 => 512 * (1 + dice.below(4)),
        2 => dice.below(12_000),
        _ => dice.below(1_700),
    };
    Op::Put {
        name: name(dice),
        bytes,
        seed: dice.roll() % 1_000_000,
    }
}

/// The same put with a goal.
pub fn at_goal(put: Op, goal: u32) -> Op {
    match put {
        Op::Put { name, bytes, seed } => Op::PutAt {
            name,
            bytes,
            seed,
            goal,
        },
        other => other,
    }
}

/// A goal in the data, often near a page's end, or at the edges of the card.
fn goal(dice: &mut Dice, geometry: &Geometry) -> u32 {
    let (f, s) = (geometry.f(), geometry.s());
    match dice.below(16) {
        0 => *dice.one_of(&[0, f - 1, f, s - 1]),
        1 => *dice.one_of(&[s, s + 1, u32::MAX]),
        2..=6 if s > PAGE_SECTORS => PAGE_SECTORS - 8 + dice.below(16) as u32,
        _ => f + dice.below((s - f) as usize) as u32,
    }
}

fn name(dice: &mut Dice) -> Vec<u8> {
    let names = if dice.one_in(16) {
        NAMES.len()
    } else if dice.one_in(4) {
        GOOD_NAMES
    } else {
        5
    };
    NAMES[dice.below(names)].to_vec()
}

/// Lands a random set of sectors, of a large card often those that have words
/// or lie at the end of its first page; a number past the end is refused.
fn lands(dice: &mut Dice, s: u32, list: &mut Vec<Op>) {
    for _ in 0..1 + dice.below(6) {
        let past = u32::from(dice.one_in(30)) * 3;
        let sector = match dice.below(3) {
            0 if s > PAGE_SECTORS => dice.below(48),
            1 if s > PAGE_SECTORS => PAGE_SECTORS as usize - 8 + dice.below(16),
            _ => dice.below(s as usize),
        };
        list.push(Op::Land(sector as u32 + past));
    }
}

/// Cuts fall anywhere, and often near the table sector.
fn cut_in(dice: &mut Dice, s: u32, call: Cuttable) -> Op {
    let steps = match dice.below(2) {
        0 => dice.below(s as usize + 3),
        _ => (s as usize + 3).saturating_sub(dice.below(6)),
    };
    Op::CutIn(call, steps, dice.roll() % 1_000_000)
}
