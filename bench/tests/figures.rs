//! Free's two figures, in the plain version and in the proved store: S = 10,
//! T = 1, D = 1, data 6 to 9.

mod common;

use bench::plain::{set_word, Room, TOP};
use bench::store::{Plain, Proved, Store};
use common::{fresh_card, Host};

/// Both stores must give these figures.
fn must_give(host: &Host, free: u32, waiting: u32) {
    let (session, words) = (host.session.encode(), Room { free, waiting }.encode());
    for store in [&Plain as &dyn Store, &Proved] {
        let mut out = [0xEE; 8];
        assert_eq!(store.free(&session, &host.work, &mut out), 0);
        assert_eq!(out, words);
    }
}

/// Both stores must refuse and leave the output as it was.
fn must_refuse(host: &Host, number: u32) {
    for store in [&Plain as &dyn Store, &Proved] {
        let mut out = [0xEE; 8];
        let session = host.session.encode();
        assert_eq!(store.free(&session, &host.work, &mut out), number);
        assert_eq!(out, [0xEE; 8]);
    }
}

#[test]
fn removed_sectors_wait_for_a_sync() {
    let mut host = Host::small();
    must_give(&host, 4, 0);
    host.store("a", 1_024);
    must_give(&host, 2, 0);
    assert_eq!(host.sync(), 0);
    must_give(&host, 2, 0);
    assert_eq!(host.remove("a"), 0);
    must_give(&host, 2, 2);
    assert_eq!(host.sync(), 0);
    must_give(&host, 4, 0);
}

#[test]
fn the_sectors_of_one_transaction_do_not_wait() {
    let mut host = Host::small();
    host.store("a", 1_024);
    assert_eq!(host.remove("a"), 0);
    must_give(&host, 4, 0);
}

/// What is free in the present view alone has no room for a put.
#[test]
fn with_free_0_a_put_of_one_byte_finds_no_room() {
    let mut host = Host::small();
    host.store("a", 2_048);
    assert_eq!(host.sync(), 0);
    assert_eq!(host.remove("a"), 0);
    must_give(&host, 0, 4);
    assert_eq!(host.put("b", b"x"), 8);
    assert_eq!(host.sync(), 0);
    must_give(&host, 4, 0);
    host.store("b", 1);
    must_give(&host, 3, 0);
}

#[test]
fn a_replaced_file_waits_in_its_earlier_sectors() {
    let mut host = Host::small();
    host.store("a", 513);
    assert_eq!(host.sync(), 0);
    host.store("a", 1);
    must_give(&host, 1, 2);
    host.store("a", 2);
    must_give(&host, 1, 2);
    assert_eq!(host.unmount(), 0);
    must_refuse(&host, 4);
    must_give(&Host::mount(host.card), 3, 0);
}

/// The sync that wears a session still releases what waits.
#[test]
fn nothing_waits_in_a_worn_session() {
    let mut card = fresh_card(10, 1, 1);
    set_word(&mut card, 1, 0, TOP - 2);
    let mut host = Host::mount(card);
    host.store("a", 1_024);
    assert_eq!(host.sync(), 0);
    assert_eq!(host.remove("a"), 0);
    must_give(&host, 2, 2);
    assert_eq!(host.sync(), 0);
    assert_eq!(host.session.encode()[0], 2);
    must_give(&host, 4, 0);
}

#[test]
fn a_refusal_leaves_the_output() {
    let mut host = Host::small();
    host.store("a", 1);
    set_word(&mut host.work, 0, 1, 11);
    must_refuse(&host, 2);
    host.work.truncate(5_119);
    must_refuse(&host, 2);
}
