//! The largest cards, the last counts, and full cards and directories.

mod common;

use bench::plain::{self, set_word, word, Session, TOP};
use common::{content, fresh_card, shown, Host};

#[test]
fn limits_of_make() {
    for (s, t, d, number) in [
        (4_096, 512, 64, 0),
        (4_097, 512, 64, 0),
        (65_536, 512, 64, 0),
        (65_537, 512, 64, 1),
        (4_096, 513, 64, 1),
        (4_096, 512, 65, 1),
        (4_096, 0, 64, 1),
        (4_096, 512, 0, 1),
        (581, 512, 64, 0),
        (580, 512, 64, 1),
        (0, 1, 1, 1),
    ] {
        let mut card = vec![0xEE; 512 * s as usize];
        assert_eq!(plain::make(s, t, d, &mut card), number, "{s} {t} {d}");
        let touched = card.iter().any(|b| *b != 0xEE);
        assert_eq!(touched, number == 0, "{s} {t} {d}");
    }
    assert_eq!(plain::make(10, 1, 1, &mut [0; 5_121]), 1);
    assert_eq!(plain::make(8_388_618, 1, 1, &mut [0; 5_120]), 1);
    assert_eq!(plain::make(u32::MAX, u32::MAX, u32::MAX, &mut []), 1);
}

#[test]
fn the_largest_card_of_one_page_is_filled_by_one_file() {
    let mut host = Host::mount(fresh_card(4_096, 512, 64));
    assert_eq!(host.free(), Ok(3_516));
    let all = content(3_516 * 512);
    assert_eq!(host.put("all", &vec![1; all.len() + 1]), 8);
    assert_eq!(host.put("all", &all), 0);
    assert_eq!(host.free(), Ok(0));
    assert_eq!(host.put("more", b"x"), 8);
    assert_eq!(host.unmount(), 0);
    assert_eq!(shown(&host.card), ["all 1800192 580 3516"]);
    let report = plain::read(&host.card).expect("the card is sound");
    assert_eq!(
        (report.c, report.n, report.files, report.free),
        (0, 65_536, 1, 0)
    );
    assert_eq!(common::shown_content(&host.card, "all"), Ok(all));
}

#[test]
fn the_largest_directory_takes_256_files() {
    let mut host = Host::mount(fresh_card(70, 1, 64));
    for i in 0..256 {
        host.store(&format!("f{i}"), 0);
    }
    assert_eq!(host.put("one_more", b""), 7);
    assert_eq!(host.sync(), 0);
    assert_eq!(host.remove("f200"), 0);
    assert_eq!(host.put("one_more", b""), 7);
    assert_eq!(host.sync(), 0);
    host.store("one_more", 1);
    assert_eq!(host.files()[200], "one_more 1 69 1");
    assert_eq!(host.files().len(), 256);
}

#[test]
fn crash_counts_up_to_n() {
    for (t, c) in [(1, 126), (1, 127), (1, 128), (512, 65_535), (512, 65_536)] {
        let mut card = fresh_card(t + 10, t, 1);
        let n = 128 * t;
        set_word(&mut card, 0, 0, c);
        let (number, mut host) = Host::try_mount(card);
        assert_eq!(number, if c == n { 3 } else { 0 });
        if number == 3 {
            assert_eq!(word(&host.card, 0, 0), n);
            continue;
        }
        assert_eq!(word(&host.card, 0, 0), c + 1);
        host.store("a", 1);
        assert_eq!(host.sync(), 0);
        assert_eq!(word(&host.card, 1, c as usize), 1);
        assert_eq!(host.unmount(), 0);
        assert_eq!(word(&host.card, 0, 0), c);
        assert_eq!(shown(&host.card).len(), 1);
    }
    let mut card = fresh_card(10, 1, 1);
    set_word(&mut card, 0, 0, 129);
    assert_eq!(Host::try_mount(card).0, 2);
}

#[test]
fn transaction_counts_up_to_the_largest() {
    for (word_c, syncs) in [(TOP - 2, 2), (TOP - 1, 1)] {
        let mut card = fresh_card(10, 1, 1);
        set_word(&mut card, 1, 0, word_c);
        let mut host = Host::mount(card);
        for i in 0..syncs {
            host.store(&format!("f{i}"), 1);
            assert_eq!(host.sync(), 0);
        }
        let is_worn = matches!(
            host.session,
            Session::Open {
                tx: TOP,
                worn: true,
                ..
            }
        );
        assert!(is_worn);
        assert_eq!(word(&host.card, 1, 0), TOP);
        assert_eq!((host.sync(), host.put("z", b"")), (9, 9));
        assert_eq!(host.files().len(), syncs);
        assert_eq!(host.unmount(), 0);
        assert_eq!(word(&host.card, 0, 0), 1);
        // The next session has a count of its own.
        let mut host = Host::mount(host.card);
        assert_eq!(host.files().len(), syncs);
        host.store("next", 1);
        assert_eq!(host.unmount(), 0);
        assert_eq!(word(&host.card, 0, 0), 1);
        assert_eq!(shown(&host.card).len(), syncs + 1);
    }
}

#[test]
fn a_clean_unmount_keeps_the_count_and_a_cut_takes_one() {
    let mut host = Host::small();
    for i in 0..5 {
        assert_eq!(host.unmount(), 0);
        assert_eq!((word(&host.card, 0, 0), word(&host.card, 1, 0)), (0, i + 1));
        host = Host::mount(host.card);
    }
    for i in 1..5 {
        host = Host::mount(host.card);
        assert_eq!(word(&host.card, 0, 0), i + 1);
    }
}

#[test]
fn the_lowest_run_that_is_long_enough() {
    let mut host = Host::mount(fresh_card(17, 1, 2));
    for name in ["a", "b", "c", "d"] {
        host.store(name, 1_024);
    }
    assert_eq!((host.remove("a"), host.remove("c")), (0, 0));
    host.store("one", 512);
    host.store("two", 1_024);
    host.store("rest", 1);
    let files = [
        "one 512 7 1",
        "b 1024 9 2",
        "two 1024 11 2",
        "d 1024 13 2",
        "rest 1 8 1",
    ];
    assert_eq!(host.files(), files);
}
