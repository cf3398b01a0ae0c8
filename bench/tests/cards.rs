//! The stored cards: their names, number and size, and that the plain
//! version prints for each what was written down by hand.

mod common;

use bench::plain::{self, printed};
use bench::stored::{all, StoredCard};
use std::collections::BTreeSet;
use std::fs;
use std::path::Path;

#[test]
fn each_card_is_printed_as_expected() {
    for StoredCard {
        name,
        bytes,
        expected,
    } in all()
    {
        assert_eq!(printed(&bytes), expected, "{name}");
    }
}

#[test]
fn names_are_short_different_and_in_order() {
    let cards = all();
    assert!(cards.len() >= 45);
    assert!(cards.windows(2).all(|pair| pair[0].name < pair[1].name));
    for card in cards {
        let plain = |b: u8| b.is_ascii_lowercase() || b.is_ascii_digit() || b == b'_';
        assert!(card.name.len() <= 16 && card.name.bytes().all(plain));
    }
}

#[test]
fn the_cards_are_small_and_no_two_alike() {
    let cards = all();
    let bytes: usize = cards.iter().map(|card| card.bytes.len()).sum();
    assert!(bytes < 1_000_000, "{bytes} bytes");
    let different: BTreeSet<_> = cards.iter().map(|card| &card.bytes).collect();
    assert_eq!(different.len(), cards.len());
}

#[test]
fn the_stored_fresh_card_is_the_one_that_make_gives() {
    let cards = all();
    let fresh = cards.iter().find(|card| card.name == "fresh");
    assert_eq!(
        fresh.map(|card| &card.bytes),
        Some(&common::fresh_card(10, 1, 1))
    );
}

#[test]
fn a_card_that_is_read_can_be_mounted_unless_its_counts_are_used_up() {
    for card in all() {
        let Ok(report) = plain::read(&card.bytes) else {
            continue;
        };
        let (number, host) = common::Host::try_mount(card.bytes.clone());
        assert_eq!(number == 3, report.c == report.n, "{}", card.name);
        if number == 0 {
            assert_eq!(host.files(), common::shown(&card.bytes), "{}", card.name);
            assert_eq!(host.free(), Ok(report.free), "{}", card.name);
        }
    }
}

#[test]
fn the_reading_program_is_run_on_just_these_cards() {
    let folder = Path::new(env!("CARGO_MANIFEST_DIR")).join("../crates/reader_cases");
    let read = |name: &str| fs::read_to_string(folder.join(name)).expect(name);
    let cards = all();
    let mut names = String::new();
    let mut reports = String::new();
    for card in &cards {
        let stored = fs::read(folder.join("data").join(card.name)).expect(card.name);
        assert!(stored == card.bytes, "{}", card.name);
        names += &format!("{}\n", card.name);
        reports += &format!("== {}\n{}", card.name, card.expected);
    }
    assert_eq!(read("args"), names);
    assert_eq!(read("stdout"), reports);
    let files = fs::read_dir(folder.join("data")).expect("data").count();
    assert_eq!(files, cards.len());
}
