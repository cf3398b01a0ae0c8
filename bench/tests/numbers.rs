//! The order of the numbers in each call, the clauses of the fit, and the
//! six words of a session.

mod common;

use bench::plain::{self, set_word, Line, Session, TOP};
use common::{content, fresh_card, Host};

const CLOSED: Session = Session::Closed;

/// A session of a geometry that no image has.
fn unfit(s: u32) -> Session {
    Session::Open {
        s,
        t: 1,
        d: 1,
        c: 9,
        tx: 9,
        worn: false,
    }
}

/// A session in its second transaction with files in three of four entries.
fn busy() -> Host {
    let mut host = Host::small();
    host.store("a", 513);
    host.store("b", 0);
    assert_eq!(host.sync(), 0);
    host.store("c", 1);
    host
}

#[test]
fn closed_comes_first() {
    let (mut card, mut work) = (vec![1; 3], vec![2; 5]);
    let mut session = CLOSED;
    assert_eq!(plain::put(&session, &mut work, b"", b""), 4);
    assert_eq!(plain::remove(&session, &mut work, b""), 4);
    assert_eq!(plain::get(&session, &work, b"", &mut []), Err(4));
    assert_eq!(plain::list(&session, &work, &mut []), Err(4));
    assert_eq!(plain::free(&session, &work), Err(4));
    assert_eq!(plain::land(&session, &mut card, &work, 99), 4);
    assert_eq!(plain::sync(&mut session, &mut card, &mut work), 4);
    assert_eq!(plain::unmount(&mut session, &mut card, &mut work), 4);
}

#[test]
fn the_cards_length_comes_before_the_fit() {
    let mut host = busy();
    for (s, length, number) in [(10, 5_119, 1), (10, 5_120, 2), (0, 0, 2), (u32::MAX, 0, 1)] {
        host.session = unfit(s);
        host.card.resize(length, 0);
        assert_eq!(host.land(99), number);
        assert_eq!(host.sync(), number);
        assert_eq!(host.unmount(), number);
        assert_eq!(host.free(), Err(2));
    }
}

#[test]
fn a_working_image_of_another_length_does_not_fit() {
    let mut host = busy();
    host.work.truncate(9 * 512);
    assert_eq!(host.land(6), 2);
    assert_eq!(host.sync(), 2);
    assert_eq!(host.free(), Err(2));
}

#[test]
fn land_takes_every_sector_of_the_card() {
    let mut host = busy();
    host.card.fill(0);
    for sector in 0..10 {
        assert_eq!(host.land(sector), 0);
    }
    assert_eq!(host.card, host.work);
    assert_eq!((host.land(10), host.land(u32::MAX)), (11, 11));
    host.session = unfit(10);
    assert_eq!(host.land(10), 2);
}

#[test]
fn no_entry_comes_before_no_room() {
    let mut host = busy();
    host.store("d", 1);
    let before = host.clone();
    assert_eq!(host.put("e", &content(512 * 4)), 7);
    assert_eq!(host.put("a", &content(512 * 4)), 8);
    assert_eq!(host.put("a", &vec![7; 512 * 5_000]), 8);
    assert_eq!(host, before);
}

/// 4, 2, 9, 5, 11, 7, 8.
#[test]
fn a_goal_past_the_card_comes_after_the_name_and_before_the_entry() {
    let mut host = busy();
    host.store("d", 1);
    let before = host.clone();
    let page = content(512 * 4);
    for goal in [10, 11, u32::MAX] {
        assert_eq!(host.put_at("", &page, goal), 5);
        assert_eq!(host.put_at("e", &page, goal), 11);
        assert_eq!(host.put_at("a", &page, goal), 11);
        assert_eq!(host.put_at("a", b"", goal), 11);
    }
    for goal in [0, 5, 6, 9] {
        assert_eq!(host.put_at("", &page, goal), 5);
        assert_eq!(host.put_at("e", &page, goal), 7);
        assert_eq!(host.put_at("a", &page, goal), 8);
    }
    assert_eq!(host, before);
    host.session = unfit(10);
    assert_eq!(host.put_at("", b"", 10), 2);
    host.session = CLOSED;
    assert_eq!(host.put_at("", b"", 10), 4);
    let mut card = fresh_card(10, 1, 1);
    set_word(&mut card, 1, 0, TOP - 1);
    let mut worn = Host::mount(card);
    assert_eq!(worn.sync(), 0);
    assert_eq!(worn.put_at("", b"", 10), 9);
}

#[test]
fn a_bad_name_comes_before_a_full_directory() {
    let mut host = busy();
    host.store("d", 1);
    assert_eq!((host.put("", b""), host.put("e", b"")), (5, 7));
}

#[test]
fn refusals_of_names_and_outputs_in_order() {
    let mut host = busy();
    assert_eq!(host.remove("x y"), 5);
    assert_eq!(host.remove("x"), 6);
    assert_eq!(host.get("\u{7f}", 0), Err(5));
    assert_eq!(host.get("x", 0), Err(6));
    assert_eq!(host.get("a", 512), Err(10));
    let mut lines = [Line::default(); 4];
    let list = |lines: &mut [Line]| plain::list(&host.session, &host.work, lines);
    assert_eq!(list(&mut lines[..2]), Err(10));
    assert_eq!(lines, [Line::default(); 4]);
    assert_eq!(list(&mut lines), Ok(3));
    assert_eq!((lines[0].bytes, lines[3]), (513, Line::default()));
    assert_eq!(plain::read_get(&host.card, b"", &mut []), Err(5));
    assert_eq!(plain::read_get(&host.card, b"c", &mut []), Err(6));
    assert_eq!(plain::read_list(&host.card, &mut []), Err(10));
}

#[test]
fn mount_asks_lengths_then_soundness_then_the_count() {
    let mut card = fresh_card(10, 1, 1);
    set_word(&mut card, 0, 0, 128);
    set_word(&mut card, 0, 4, 1);
    let before = card.clone();
    for (length, number) in [(5_632, 1), (5_120, 2)] {
        let mut work = vec![3; length];
        assert_eq!(plain::mount(&mut card, &mut work), (number, CLOSED));
        assert!(work.iter().all(|b| *b == 3));
    }
    assert_eq!(card, before);
    set_word(&mut card, 0, 4, 0);
    assert_eq!(Host::try_mount(card).0, 3);
}

#[test]
fn free_sectors_files_and_f_add_up() {
    let host = busy();
    assert_eq!(host.files(), ["a 513 6 2", "b 0 0 0", "c 1 8 1"]);
    assert_eq!(host.free(), Ok(10 - 6 - 3));
}

/// Words of the working image whose change ends the fit, as sector, word and
/// value.
const UNFIT_WORDS: [(u32, usize, u32); 24] = [
    (0, 0, 0),
    (0, 0, 2),
    (0, 1, 11),
    (0, 2, 2),
    (0, 3, 2),
    (0, 4, 1),
    (0, 127, 1),
    (1, 0, 0),
    (1, 0, 2),
    (1, 1, 1),
    (1, 127, 1),
    (2, 0, 128),
    (2, 1, 3),
    (2, 1, TOP + 1),
    (2, 2, 4),
    (2, 127, 1),
    (3, 0, 0xFFFF_FCBF),
    (4, 0, 0xFFFF_FFFF),
    (5, 2, 0),
    (5, 64 + 1, 3),
    (5, 64 + 3, 0x61),
    (5, 96, 128),
    (5, 96 + 1, 3),
    (5, 96 + 19, 1),
];

#[test]
fn each_clause_of_the_fit_on_words() {
    assert!(busy().free().is_ok());
    for (sector, i, value) in UNFIT_WORDS {
        let mut host = busy();
        set_word(&mut host.work, sector, i, value);
        let before = host.clone();
        assert_eq!(host.put("z", b"z"), 2, "{sector} {i} {value}");
        assert_eq!(host.sync(), 2, "{sector} {i} {value}");
        assert_eq!(host, before);
    }
}

#[test]
fn table_words_below_c_keep_their_range_in_a_fit() {
    let mut card = fresh_card(10, 1, 1);
    set_word(&mut card, 0, 0, 3);
    let mut host = Host::mount(card);
    set_word(&mut host.work, 1, 2, TOP);
    assert_eq!(host.free(), Ok(4));
    set_word(&mut host.work, 1, 2, TOP + 1);
    assert_eq!(host.free(), Err(2));
}

#[test]
fn a_stamp_of_this_session_may_not_be_of_a_later_transaction() {
    let mut host = busy();
    for (txc, answer) in [(1, Ok(1)), (2, Ok(1)), (3, Err(2))] {
        set_word(&mut host.work, 5, 97, txc);
        assert_eq!(host.free(), answer);
    }
}

#[test]
fn a_report_as_four_words() {
    let mut host = busy();
    assert_eq!(host.sync(), 0);
    let report = host.read().expect("the card is sound");
    let expected = [1, 0, 0, 0, 128, 0, 0, 0, 3, 0, 0, 0, 1, 0, 0, 0];
    assert_eq!(report.encode(), expected);
}

#[test]
fn each_clause_of_the_fit_on_sessions() {
    let host = busy();
    let session = |[s, t, d, c, tx]: [u32; 5], worn| Session::Open {
        s,
        t,
        d,
        c,
        tx,
        worn,
    };
    assert_eq!(host.session, session([10, 1, 1, 0, 2], false));
    let others = [
        [11, 1, 1, 0, 2],
        [4_097, 1, 1, 0, 2],
        [10, 0, 1, 0, 2],
        [10, 2, 1, 0, 2],
        [10, 1, 0, 0, 2],
        [10, 1, u32::MAX, 0, 2],
        [10, u32::MAX, 1, 0, 2],
        [10, 1, 1, 1, 2],
        [10, 1, 1, 128, 2],
        [10, 1, 1, u32::MAX, 2],
        [10, 1, 1, 0, 0],
        [10, 1, 1, 0, 1],
        [10, 1, 1, 0, 3],
        [10, 1, 1, 0, u32::MAX],
    ];
    for other in others {
        let answer = plain::free(&session(other, false), &host.work);
        assert_eq!(answer, Err(2), "{other:?}");
    }
    let worn = session([10, 1, 1, 0, 2], true);
    assert_eq!(plain::free(&worn, &host.work), Err(2));
}

#[test]
fn a_session_at_n_does_not_fit_an_image_that_counts_one_more() {
    // The word after the table is the index's cc, 0, as word c would be.
    for (c, answer) in [(127, Ok((4, 0))), (128, Err(2))] {
        let mut work = fresh_card(10, 1, 1);
        set_word(&mut work, 0, 0, c + 1);
        let session = Session::Open {
            s: 10,
            t: 1,
            d: 1,
            c,
            tx: 1,
            worn: false,
        };
        let given = plain::free(&session, &work);
        assert_eq!(given.map(|room| (room.free, room.waiting)), answer);
    }
}

#[test]
fn a_name_in_the_cut_view_of_one_entry_clashes_with_another() {
    let mut host = Host::small();
    host.store("a", 0);
    assert_eq!(host.sync(), 0);
    assert_eq!(host.remove("a"), 0);
    host.store("b", 0);
    assert_eq!(host.files(), ["b 0 0 0"]);
    set_word(&mut host.work, 5, 32 + 3, 0x61);
    assert_eq!(host.free(), Err(2));
}

#[test]
fn a_stamp_past_c_with_no_transaction_is_alive() {
    let mut host = busy();
    set_word(&mut host.work, 5, 96, 127);
    assert_eq!(host.free(), Ok(1));
    set_word(&mut host.work, 5, 97, 1);
    assert_eq!(host.free(), Err(2));
}

#[test]
fn sessions_as_six_words() {
    let open = Session::Open {
        s: 10,
        t: 1,
        d: 0x0102_0304,
        c: 7,
        tx: u32::MAX,
        worn: false,
    };
    let bytes = open.encode();
    let expected = [
        1, 0, 0, 0, 10, 0, 0, 0, 1, 0, 0, 0, 4, 3, 2, 1, 7, 0, 0, 0, 255, 255, 255, 255,
    ];
    assert_eq!(bytes, expected);
    assert_eq!(Session::decode(&bytes), open);
    let mut worn = bytes;
    worn[0] = 2;
    assert_eq!(Session::decode(&worn).encode(), worn);
    assert_eq!(CLOSED.encode(), [0; 24]);
    let mut closed = bytes;
    closed[0] = 0;
    assert_eq!(Session::decode(&closed), CLOSED);
}

#[test]
fn a_session_of_another_state_never_fits() {
    let mut host = busy();
    for (byte, value) in [(0, 3), (1, 1), (3, 0x80)] {
        let mut bytes = host.session.encode();
        bytes[byte] = value;
        let session = Session::decode(&bytes);
        assert_eq!(plain::free(&session, &host.work), Err(2));
        let number = plain::land(&session, &mut host.card[..5_119], &host.work, 99);
        assert_eq!(number, 1);
        assert_eq!(plain::land(&session, &mut host.card, &host.work, 99), 2);
    }
}
