//! Histories at the edges of the card: the last counts, full cards, full
//! directories, and the largest parts.

use super::op::Op;
use super::parse::history;
use crate::plain::{Geometry, TOP};

/// All of them.
pub fn all() -> Vec<Vec<Op>> {
    let mut texts = limits();
    texts.extend(transaction_counts());
    texts.extend(crash_counts());
    texts.extend(full_cards());
    texts.extend(full_directories());
    texts.extend(goals());
    let parsed = |text: &String| history(text).expect("a history of this file");
    texts.iter().map(parsed).collect()
}

/// A session of some calls and cuts that ends in an unmount.
const SESSION: &str = "read; list 0; read-list 0; mount; list 0; put a 600 1; list 0; list 1;
    get a; get b; read-get a; try 1; land 1; sync; try 2; put b 0 2; land 0; try 3; sync; put a 700 3; list 2; try 4;
    cut-in sync 1000 4; mount; remove a; list 1; put c 1 5; list 2; try 5; sync; sync; put d 5 6;
    list 3; get b; unmount; get b; read-get b; read-get c; list 3; read-list 2; read-list 3; read-list 4; try 6; read; mount;
    put e 513 7; cut 7; read; mount; unmount; read";

/// Geometries just inside and just outside the limits.
fn limits() -> Vec<String> {
    let geometries = [
        (6, 1, 1),
        (7, 1, 1),
        (581, 512, 64),
        (580, 512, 64),
        (600, 513, 64),
        (600, 512, 65),
        (600, 0, 64),
        (600, 512, 0),
        (4_096, 512, 64),
        (4_097, 512, 64),
        (4_096, 1, 64),
        (4_096, 512, 1),
        (4_097, 1, 1),
        (8_192, 1, 1),
        (0, 0, 0),
    ];
    let one = |(s, t, d)| format!("fresh {s} {t} {d}; {SESSION}");
    geometries.map(one).to_vec()
}

/// Table words up to the largest and one more, at C = 0 and at a later C.
fn transaction_counts() -> Vec<String> {
    let mut texts = Vec::new();
    for word in TOP - 3..=TOP + 1 {
        for c in [0, 1, 126, 127] {
            let at = 512 + 4 * c;
            texts.push(format!(
                "fresh 14 1 1; poke card 0 {c}; poke card {at} {word}; {SESSION}; {SESSION}"
            ));
            let unmounts = "mount; put a 600 1; unmount; try 1; ".repeat(4);
            texts.push(format!(
                "fresh 14 1 1; poke card 0 {c}; poke card {at} {word}; {unmounts} read"
            ));
        }
    }
    texts
}

/// C from N - 3 to N + 1, with a small and the largest table.
fn crash_counts() -> Vec<String> {
    let mut texts = Vec::new();
    for t in [1, 2, 512] {
        for c in 128 * t - 3..=128 * t + 1 {
            let s = t + 12;
            texts.push(format!(
                "fresh {s} {t} 1; poke card 0 {c}; {SESSION}; {SESSION}"
            ));
        }
    }
    texts
}

/// One file takes all data; then there is room for none but those of 0 bytes.
fn full_cards() -> Vec<String> {
    let mut texts = Vec::new();
    for (s, t, d) in [
        (7, 1, 1),
        (10, 1, 1),
        (256, 8, 8),
        (4_096, 8, 8),
        (4_096, 512, 64),
    ] {
        let data = 512 * (s - t - 4 - d);
        let (more, less) = (data + 1, data - 511);
        texts.push(format!(
            "fresh {s} {t} {d}; mount; put a {more} 1; put a {data} 2; put b 1 3; put b 0 4;
             try 1; land {t}; try 2; sync; try 3; put a {data} 5; put b 1 6; remove a;
             put c 1 7; sync; put c {less} 8; try 4; cut-in sync 5000 9; mount; unmount; read"
        ));
    }
    texts
}

/// As many files as entries; one more finds none until a removed one's cut
/// view is gone.
fn full_directories() -> Vec<String> {
    let mut texts = Vec::new();
    for (s, t, d) in [(10, 1, 1), (20, 1, 3), (200, 1, 64), (4_096, 512, 64)] {
        let puts: String = (0..4 * d)
            .map(|i| format!("put f{i} {} {i};", i % 3 / 2))
            .collect();
        let all = 4 * d;
        let (less, more) = (all - 1, all + 1);
        texts.push(format!(
            "fresh {s} {t} {d}; mount; {puts} put more 0 1; try 1; read-list 0; sync; put more 0 1;
             try 2; list {less}; list {all}; list {more}; list 0; read-list {less};
             read-list {all}; read-list {more}; read-list 0; remove f3; list {less}; put more 0 1; put f3 0 2; remove f3; try 3; sync; put more 1 3; read;
             try 4; cut-in unmount 5000 5; mount; put f3 1 1; put f2 1 1; sync; unmount; read"
        ));
    }
    texts
}

/// Puts with goals before the data, in it, at both sides of its end and far
/// past it: with room at the goal, with room before it alone, with none, over
/// sectors that wait for a sync, and with no entry left.
fn goals() -> Vec<String> {
    let mut texts = Vec::new();
    for (s, t, d) in [(7, 1, 1), (10, 1, 1), (20, 1, 3), (256, 8, 8)] {
        let f = Geometry::within_limits(s, t, d).map_or(0, |geometry| geometry.f());
        let data = 512 * (s - f);
        for goal in [
            0,
            1,
            f - 1,
            f,
            f + 1,
            f + 2,
            s - 2,
            s - 1,
            s,
            s + 1,
            u32::MAX,
        ] {
            texts.push(format!(
                "fresh {s} {t} {d}; put-at a 1 1 {goal}; mount; put-at a 1 1 {goal};
                 put-at b 513 2 {goal}; put-at c 0 3 {goal}; put-at % 1 4 {goal}; list 4; try 1;
                 land {f}; put-at a 2 5 {goal}; put-at b 514 6 {goal}; list 4; sync; remove a;
                 put-at d 1 7 {goal}; put-at e 600 8 {goal}; put-at g 1 9 {goal}; try 2;
                 put-at b 700 10 {goal}; list 5; try 3; cut-in sync 1000 11; mount; remove b;
                 put-at a 1 12 {goal}; sync; put-at a {data} 13 {goal}; put a 1 14; list 5;
                 try 4; unmount; put-at a 1 15 {goal}; read"
            ));
        }
    }
    texts
}
