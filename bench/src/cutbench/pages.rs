//! Histories on cards of more than one page: runs on both sides of each page's
//! end, changes of two groups, and damage that only such a card can have.

use super::op::Op;
use super::parse::history;
use crate::plain::{Geometry, MOST_SECTORS, PAGE_SECTORS, SECTOR, TOP};

/// All of them, those on small cards first.
pub fn all() -> Vec<Vec<Op>> {
    let mut texts = vec![across(8_193, 1, 1), exchanged(12_288, 1, 1)];
    texts.extend([(4_097, 1, 1), (8_193, 2, 1)].map(two_groups));
    texts.extend([(4_097, 1, 1), (8_192, 1, 2), (8_193, 2, 1)].map(ends));
    texts.extend([(8_192, 1, 2), (12_288, 1, 2)].map(packed));
    texts.extend([(4_097, 1, 1), (8_193, 2, 1), (12_288, 1, 2)].map(damaged));
    texts.extend([(4_097, 1, 1), (8_193, 2, 1), (12_288, 1, 2)].map(goals));
    texts.extend(limits());
    let largest = (MOST_SECTORS, 1, 9);
    texts.extend([packed(largest), two_groups(largest), ends_of_largest()]);
    texts.push(goals(largest));
    texts.extend([across(MOST_SECTORS, 1, 8), exchanged(MOST_SECTORS, 1, 8)]);
    let parsed = |text: &String| history(text).expect("a history of this file");
    texts.iter().map(parsed).collect()
}

/// S, T and D.
type Words = (u32, u32, u32);

fn geometry((s, t, d): Words) -> Geometry {
    Geometry::within_limits(s, t, d).expect("a geometry inside the limits")
}

/// The bytes of so many sectors.
fn bytes(sectors: u32) -> usize {
    SECTOR * sectors as usize
}

/// The most sectors that a run in the first page has.
fn first_page(g: &Geometry) -> u32 {
    PAGE_SECTORS - g.f()
}

/// S on both sides of its limit, given and stored.
fn limits() -> Vec<String> {
    let (most, more) = (MOST_SECTORS, MOST_SECTORS + 1);
    let length = bytes(more);
    vec![
        format!(
            "fresh {more} 1 1; read; mount; make {most} 1 1; length card {}; make {most} 1 1; read;
             make {more} 1 1; poke card 4 {more}; read; mount; length card {length}; read; mount;
             length work {length}; mount; read-list 0",
            bytes(most)
        ),
        format!(
            "fresh 4097 1 1; mount; list 0; session 1 4096; list 0; land 0; session 1 4098; list 0;
             session 1 {most}; sync; land 4096; session 1 {more}; sync; put a 1 1; session 1 4097;
             list 0; land 4097; land 4096; session 1 4096; poke work 4 4096; list 0; put a 1 1"
        ),
        "fresh 4096 1 1; mount; put a 600 1; sync; poke card 4 4097; read; mount; length card 2097664;
         read; mount; poke card 4 4096; read; length card 2097152; read; mount; list 1"
            .into(),
    ]
}

/// Runs that end with a page and that begin one; a run of a page, and of one
/// sector more; a file that moves to the other side and back.
fn ends(card: Words) -> String {
    let (s, t, d) = card;
    let n = first_page(&geometry(card));
    let (page, fill, whole) = (bytes(PAGE_SECTORS), bytes(n - 1), bytes(n));
    format!(
        "fresh {s} {t} {d}; mount; put a {} 1; put a {} 1; put a {page} 2; list 1; remove a;
         put f {fill} 3; put two 1024 4; put one 1 5; put last 512 6; put more 512 7; list 4; try 1;
         land {}; land {}; land {}; land 4095; try 2; sync; try 3; put one 513 8; try 4;
         put one 1 9; remove last; try 5; sync; put last 2 10; remove f; try 6; cut 1; mount;
         remove f; sync; put f {whole} 11; put two 1 12; try 7; cut-in sync {} 13; mount; read;
         put one 1 1; remove two; unmount; read-list 4",
        page + SECTOR,
        page + 1,
        t + 1,
        t + 2,
        t + 5,
        s - t + 1
    )
}

/// Every page is filled by a run from its start and one to its end, and both
/// could have been put closer to those before. Then the last file of the
/// first page trades places with room in the last page.
fn packed(card: Words) -> String {
    let (s, t, d) = card;
    let g = geometry(card);
    let (long, rest) = (3_000, PAGE_SECTORS - 3_000);
    let left = first_page(&g) - long;
    let puts = |name: char, from: u32, sectors: u32| -> String {
        let put = |p| format!("put {name}{p} {} {p}; ", bytes(sectors));
        (from..g.pairs()).map(put).collect()
    };
    let last = g.pairs() - 1;
    format!(
        "fresh {s} {t} {d}; mount; {} {} put l {} 1; put l {} 2; put more 1 3; list {}; try 1;
         land {}; sync; try 2; remove r{last}; put l 9 4; sync; put l 9 5; try 3; put r{last} {} 6;
         cut-in sync {} 7; mount; read",
        puts('l', 0, long),
        puts('r', 1, rest),
        bytes(left + 1),
        bytes(left),
        2 * g.pairs(),
        t + 1,
        bytes(rest - 1),
        s - t + 1
    )
}

/// A put that takes from one page and gives back in another: the data sector,
/// the entry, the index and an apage of each pair are all that is unsettled.
fn two_groups(card: Words) -> String {
    let (s, t, d) = card;
    let fill = bytes(first_page(&geometry(card)) - 1);
    format!(
        "fresh {s} {t} {d}; mount; put f {fill} 1; put a 512 2; sync; list 2; put a 500 3;
         exactly 5 32; put b 0 4; exactly 5 48; land {}; land {}; try 1; cut 2; mount; put a 1 5;
         land {}; try 3; cut-in sync {} 6; mount; put a 2 7; sync; try 4; unmount; read",
        t + 1,
        t + 3,
        t + 5,
        s - t
    )
}

/// Goals on both sides of each page's end and of the card's: a run that would
/// cross goes to the next page, and one that fits nowhere later to the lowest.
fn goals(card: Words) -> String {
    let (s, t, d) = card;
    let g = geometry(card);
    let last = s - s % PAGE_SECTORS;
    let mut text = format!("fresh {s} {t} {d}; mount; ");
    let ends = [PAGE_SECTORS, last.min(s - 1), s];
    for (i, end) in ends.into_iter().enumerate() {
        for goal in end - 3..=end {
            let put = |k: u32| format!("put-at g{k} {} {i} {goal}; ", bytes(k));
            text += &(put(1) + &put(3) + &put(2) + "list 3; try 1; ");
        }
        text += "sync; ";
    }
    let first = PAGE_SECTORS - g.f();
    text + &format!(
        "put-at w {} 4 {}; put-at w {} 5 {}; list 4; try 2; put-at g3 1537 6 {PAGE_SECTORS};
         cut-in sync {} 7; mount; put-at w {} 8 {s}; list 4; remove g2; put-at g1 1 9 {};
         unmount; read",
        bytes(first),
        PAGE_SECTORS - 1,
        bytes(PAGE_SECTORS),
        g.f(),
        s - t + 1,
        bytes(first + 1),
        s - 1
    )
}

/// The longest runs on the largest card, and its last sector.
fn ends_of_largest() -> String {
    let (page, last) = (bytes(PAGE_SECTORS), MOST_SECTORS - 1);
    let puts: String = (1..16).map(|p| format!("put p{p} {page} {p}; ")).collect();
    format!(
        "fresh {MOST_SECTORS} 512 64; mount; {puts} put p16 {page} 1; list 15; land {last};
         land {MOST_SECTORS}; try 1; sync; remove p7; sync; put p16 {} 1; put p16 {page} 2; try 2;
         cut-in unmount {} 3; mount; read",
        page + 1,
        MOST_SECTORS - 512
    )
}

/// Words of the index, entries and pages that are wrong, each by itself, on
/// the card and in the working image.
fn damaged(card: Words) -> String {
    let (s, t, d) = card;
    let g = geometry(card);
    let fill = bytes(first_page(&g) - 1);
    let mut text = format!(
        "fresh {s} {t} {d}; mount; put f {fill} 1; put a 512 2; put b 512 3; sync; put a 100 4;
         sync; put b 1 5; save;"
    );
    for words in index_damage(&g).into_iter().chain(page_damage(&g)) {
        text += &on_both(&words);
    }
    text
}

/// A few words poked together: places in bytes, and values.
type Pokes = Vec<(usize, u32)>;

/// The words go to the card, which is read and mounted, then to the working
/// image, with which the session's calls are made.
fn on_both(words: &Pokes) -> String {
    let pokes = |image: &str| -> String {
        let one = |(at, value): &(usize, u32)| format!("poke {image} {at} {value}; ");
        words.iter().map(one).collect()
    };
    format!(
        "back; {} read; read-list 3; mount; back; {} list 3; put c 600 1; land 2; sync; list 3;",
        pokes("card"),
        pokes("work")
    )
}

/// Where word `i` of the index is.
fn index_at(g: &Geometry, i: u32) -> usize {
    bytes(g.index()) + 4 * i as usize
}

/// Stamps, A and B of each group, and the words after the last.
fn index_damage(g: &Geometry) -> Vec<Pokes> {
    let (past, (next_a, next_b)) = (4 * g.pairs(), g.pair(g.pairs()));
    let mut list = vec![
        vec![(index_at(g, past), 1)],
        vec![
            (index_at(g, past + 2), next_a),
            (index_at(g, past + 3), next_b),
        ],
        vec![(index_at(g, 127), 1 << 24)],
    ];
    for p in 0..g.pairs() {
        let at = |k| index_at(g, 4 * p + k);
        let (a, b) = g.pair(p);
        let (other_a, other_b) = g.pair((p + 1) % g.pairs());
        list.extend([
            vec![(at(0), g.n())],
            vec![(at(1), TOP + 1)],
            vec![(at(0), 1), (at(1), 1)],
            vec![(at(0), 0), (at(1), 3)],
            vec![(at(0), 0), (at(1), 4)],
            vec![(at(2), other_a)],
            vec![(at(3), other_b)],
            vec![(at(2), other_a), (at(3), other_b)],
            vec![(at(2), a), (at(3), a)],
            vec![(at(2), b), (at(3), a)],
        ]);
    }
    list
}

/// First and last word of every apage, and of both of a pair.
fn page_damage(g: &Geometry) -> Vec<Pokes> {
    let mut list = Vec::new();
    for p in 0..g.pairs() {
        let (a, b) = g.pair(p);
        for (word, value) in [(0, 0), (0, 1), (127, 0), (127, 1 << 31)] {
            let at = |page| bytes(page) + 4 * word;
            list.extend([
                vec![(at(a), value)],
                vec![(at(b), value)],
                vec![(at(a), value), (at(b), value)],
            ]);
        }
    }
    list
}

/// A file of two sectors, one in each of two pages, which is wrong in nothing
/// else; the same with one sector on either side; and the largest run.
fn across(s: u32, t: u32, d: u32) -> String {
    let g = geometry((s, t, d));
    let entry = bytes(g.directory());
    let file = |image: &str, start: u32, sectors: u32| {
        let words = [
            (2, 1),
            (3, u32::from(b'a')),
            (11, 1),
            (12, start),
            (13, sectors),
            (14, 512 * sectors),
        ];
        let poke = |(i, value): (usize, u32)| format!("poke {image} {} {value}; ", entry + 4 * i);
        words.map(poke).concat()
    };
    let bits = |image: &str, last: u32, first: u32| -> String {
        let (before, after) = (bytes(g.pair(0).0) + 508, bytes(g.pair(1).0));
        format!("poke {image} {before} {last}; poke {image} {after} {first}; ")
    };
    let (top, end) = (1_u32 << 31, PAGE_SECTORS - 1);
    let mut text = format!("fresh {s} {t} {d}; ");
    for (start, sectors, last, first) in [
        (end, 2, top, 1),
        (end, 1, top, 0),
        (end + 1, 1, 0, 1),
        (end - 1, 3, 3 << 30, 1),
        (end, u32::MAX / 512, top, 1),
    ] {
        text +=
            &(file("card", start, sectors) + &bits("card", last, first) + "read; read-list 1; ");
    }
    text += &format!("fresh {s} {t} {d}; mount; ");
    for (start, last, first) in [(end, top, 1), (end - 1, 3 << 30, 0)] {
        let pokes = file("work", start, 2) + &bits("work", last, first);
        text += &(pokes + "list 1; put b 600 1; sync; read-list 2; ");
    }
    text
}

/// Two groups name each other's pairs, whose pages are alike, so that all else
/// is right.
fn exchanged(s: u32, t: u32, d: u32) -> String {
    let g = geometry((s, t, d));
    let name = |image: &str, p: u32, q: u32| {
        let (a, b) = g.pair(q);
        let at = |k| index_at(&g, 4 * p + k);
        format!("poke {image} {} {a}; poke {image} {} {b}; ", at(2), at(3))
    };
    let last = g.pairs() - 1;
    format!(
        "fresh {s} {t} {d}; {} {} read; read-list 0; mount; {} read; {} read; mount; list 0; {} {}
         list 0; put a 1 1; sync; land 0; {} list 0; {} list 0; put a 1 1",
        name("card", 1, last),
        name("card", last, 1),
        name("card", 1, 1),
        name("card", last, last),
        name("work", 1, last),
        name("work", last, 1),
        name("work", last, last),
        name("work", 1, 1)
    )
}
