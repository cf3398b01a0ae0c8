//! The bench sheet, line by line: numbers, counts, and the bytes and places
//! named. S = 10, T = 1, D = 1 (data 6 to 9) unless said. Each line is run on the
//! plain version and on the proved store.

mod common;

use bench::plain::{self, set_word, word, Session, TOP};
use common::{content, fresh_card, make, read, read_get, shown, shown_content, Host};

#[test]
fn six_sectors_are_refused_and_seven_made() {
    let mut card = vec![0xEE; 6 * 512];
    assert_eq!(make(6, 1, 1, &mut card), 1);
    assert!(card.iter().all(|b| *b == 0xEE));
    let mut card = vec![0xEE; 7 * 512];
    assert_eq!(make(7, 1, 1, &mut card), 0);
    assert_eq!(read(&card).map(|r| r.free), Ok(1));
}

#[test]
fn a_fresh_card_byte_by_byte() {
    let mut expected = vec![0; 10 * 512];
    set_word(&mut expected, 0, 1, 10);
    set_word(&mut expected, 0, 2, 1);
    set_word(&mut expected, 0, 3, 1);
    set_word(&mut expected, 2, 2, 3);
    set_word(&mut expected, 2, 3, 4);
    for page in [3, 4] {
        expected[page * 512..(page + 1) * 512].fill(0xFF);
        expected[page * 512] = 0b0011_1111;
        expected[page * 512 + 1] = 0b1111_1100;
    }
    assert_eq!(fresh_card(10, 1, 1), expected);
}

#[test]
fn names_of_32_bytes_are_taken_0_and_33_refused() {
    let mut host = Host::small();
    let name = "n".repeat(32);
    host.store(&name, 1);
    assert_eq!(host.files(), [format!("{name} 1 6 1")]);
    for bad in ["", &"n".repeat(33)] {
        let before = host.clone();
        assert_eq!(host.put(bad, b"x"), 5);
        assert_eq!(host.remove(bad), 5);
        assert_eq!(host.get(bad, 9), Err(5));
        assert_eq!(host, before);
    }
}

#[test]
fn files_of_513_bytes_take_sectors_6_and_7() {
    let mut host = Host::small();
    host.work[7 * 512..8 * 512].fill(0xDD);
    let text = content(513);
    assert_eq!(host.put("a", &text), 0);
    assert_eq!(host.files(), ["a 513 6 2"]);
    assert_eq!(host.free(), Ok(2));
    assert_eq!(host.work[6 * 512..6 * 512 + 513], text[..]);
    assert!(host.work[6 * 512 + 513..8 * 512].iter().all(|b| *b == 0));
    // Bits 6 and 7 are set in the apage that the index now shows.
    assert_eq!([0, 1, 2, 3].map(|i| host.word(2, i)), [0, 1, 4, 3]);
    assert_eq!(host.work[4 * 512], 0xFF);
    assert_eq!(host.work[3 * 512], 0x3F);
    // The entry: stamp, name, new version, old version.
    assert_eq!([0, 1, 2, 3].map(|i| host.word(5, i)), [0, 1, 1, 0x61]);
    let versions: Vec<u32> = (11..19).map(|i| host.word(5, i)).collect();
    assert_eq!(versions, [1, 6, 2, 513, 0, 0, 0, 0]);
}

#[test]
fn a_replaced_file_goes_to_8_and_b_follows_its_sectors() {
    let mut host = Host::small();
    host.store("a", 1_024);
    assert_eq!(host.files(), ["a 1024 6 2"]);
    assert_eq!(host.sync(), 0);
    host.store("a", 1_000);
    assert_eq!(host.files(), ["a 1000 8 2"]);
    assert_eq!(host.put("b", b"x"), 8);
    assert_eq!(host.figures(), Ok((0, 2)));
    assert_eq!(host.sync(), 0);
    assert_eq!(host.figures(), Ok((2, 0)));
    host.store("b", 1);
    assert_eq!(host.files(), ["a 1000 8 2", "b 1 6 1"]);
}

#[test]
fn a_sector_put_and_removed_in_one_transaction_is_free() {
    let mut host = Host::small();
    host.store("a", 512);
    assert_eq!(host.remove("a"), 0);
    assert_eq!(host.files(), [""; 0]);
    host.store("b", 512);
    assert_eq!(host.files(), ["b 512 6 1"]);
}

#[test]
fn no_bytes_are_stored_with_no_room_left() {
    let mut host = Host::small();
    host.store("full", 2_048);
    assert_eq!(host.free(), Ok(0));
    assert_eq!(host.put("one", b"x"), 8);
    host.store("none", 0);
    assert_eq!(host.files(), ["full 2048 6 4", "none 0 0 0"]);
    assert_eq!(host.get("none", 0), Ok(vec![]));
}

#[test]
fn a_removed_entry_is_kept_for_its_name_until_a_sync() {
    let mut host = Host::small();
    for name in ["a", "b", "c", "d"] {
        host.store(name, 0);
    }
    assert_eq!(host.sync(), 0);
    assert_eq!(host.remove("c"), 0);
    let mut removed_name = host.clone();
    assert_eq!(host.put("e", b""), 7);
    assert_eq!(host.sync(), 0);
    host.store("e", 0);
    assert_eq!(host.files(), ["a 0 0 0", "b 0 0 0", "e 0 0 0", "d 0 0 0"]);
    removed_name.store("c", 0);
    let files = ["a 0 0 0", "b 0 0 0", "c 0 0 0", "d 0 0 0"];
    assert_eq!(removed_name.files(), files);
}

#[test]
fn the_last_crash_count_is_used_once() {
    let mut host = Host::small();
    host.store("a", 700);
    assert_eq!(host.unmount(), 0);
    set_word(&mut host.card, 0, 0, 127);
    set_word(&mut host.card, 1, 127, 4);
    let mut host = Host::mount(host.card);
    assert_eq!(word(&host.card, 0, 0), 128);
    assert_eq!(host.word(0, 0), 128);
    host.store("b", 1);
    let (number, after) = Host::try_mount(host.card.clone());
    assert_eq!((number, after.session), (3, Session::Closed));
    assert_eq!(after.card, host.card);
    assert!(after.work.iter().all(|b| *b == 0xEE));
    assert_eq!(shown(&host.card), ["a 700 6 2"]);
    assert_eq!(host.read().map(|r| (r.c, r.n)), Ok((128, 128)));
}

#[test]
fn the_last_transaction_count_is_used_once() {
    let mut card = fresh_card(10, 1, 1);
    set_word(&mut card, 1, 0, TOP - 1);
    let mut host = Host::mount(card.clone());
    host.store("a", 513);
    assert_eq!(host.sync(), 0);
    assert_eq!(host.word(1, 0), TOP);
    assert_eq!(host.put("b", b"x"), 9);
    assert_eq!(host.remove("a"), 9);
    assert_eq!(host.sync(), 9);
    assert_eq!(host.files(), ["a 513 6 2"]);
    let landed = host.card.clone();
    assert_eq!(host.unmount(), 0);
    assert_eq!((host.session, &host.card), (Session::Closed, &landed));
    assert_eq!(word(&host.card, 0, 0), 1);
    assert_eq!(host.word(0, 0), 1);
    assert_eq!(shown(&host.card), ["a 513 6 2"]);

    // It becomes worn in the sync of unmount.
    let mut host = Host::mount(card.clone());
    host.store("a", 513);
    assert_eq!(host.unmount(), 0);
    assert_eq!((word(&host.card, 0, 0), host.word(0, 0)), (1, 1));
    assert_eq!(shown(&host.card), ["a 513 6 2"]);
    let host = Host::mount(host.card);
    assert_eq!(host.files(), ["a 513 6 2"]);

    set_word(&mut card, 1, 0, TOP);
    assert_eq!(read(&card), Err(2));
    assert_eq!(Host::try_mount(card).0, 2);
}

#[test]
fn a_stamp_just_past_word_c_is_refused_at_c_and_dead_below() {
    let mut host = Host::small();
    host.store("a", 513);
    assert_eq!(host.sync(), 0);
    host.store("a", 100);
    assert_eq!(host.unmount(), 0);
    // Stamp (0, 2), word 0 = 2; now C = 3.
    let mut card = host.card;
    set_word(&mut card, 0, 0, 3);
    set_word(&mut card, 1, 2, 7);
    set_word(&mut card, 1, 3, 7);
    for (cc, expected) in [(3, Err(2)), (2, Ok(1))] {
        let mut card = card.clone();
        set_word(&mut card, 5, 0, cc);
        set_word(&mut card, 5, 1, 8);
        set_word(&mut card, 2, 0, cc);
        set_word(&mut card, 2, 1, 8);
        assert_eq!(read(&card).map(|r| r.files), expected);
        if expected.is_ok() {
            assert_eq!(shown(&card), ["a 513 6 2"]);
            assert_eq!(shown_content(&card, "a"), Ok(content(513)));
        }
    }
}

#[test]
fn a_cut_in_sync_shows_the_earlier_files_until_the_table_sector() {
    let mut host = Host::small();
    host.store("a", 600);
    host.store("gone", 0);
    assert_eq!(host.sync(), 0);
    host.store("a", 700);
    assert_eq!(host.remove("gone"), 0);
    host.store("b", 0);
    // Nine places come before the barrier: sector 0 and sectors 2 to 9. Sector 0
    // and three of the data do not differ.
    for (k, writes) in [
        (0, 0),
        (1, 0),
        (2, 1),
        (4, 2),
        (5, 3),
        (7, 3),
        (8, 4),
        (9, 5),
        (10, 5),
    ] {
        let (count, card) = host.sync_steps(k).expect("sync is taken");
        assert_eq!(count, writes, "at place {k}");
        earlier_or_new(&card, false);
    }
    for k in [11, 12, 13, 99] {
        let (count, card) = host.sync_steps(k).expect("sync is taken");
        assert_eq!(count, 6);
        earlier_or_new(&card, true);
    }
}

/// The files of before, or the new ones, and a mount takes them.
fn earlier_or_new(card: &[u8], new: bool) {
    let (files, text) = if new {
        (["a 700 8 2", "b 0 0 0"], content(700))
    } else {
        (["a 600 6 2", "gone 0 0 0"], content(600))
    };
    assert_eq!(shown(card), files);
    assert_eq!(shown_content(card, "a"), Ok(text));
    assert_eq!(Host::mount(card.to_vec()).files(), files);
}

#[test]
fn get_needs_a_buffer_of_the_files_size() {
    let mut host = Host::small();
    let text = content(777);
    assert_eq!(host.put("a", &text), 0);
    assert_eq!(host.get("a", 777), Ok(text.clone()));
    assert_eq!(host.get("a", 800), Ok(text.clone()));
    assert_eq!(host.get("a", 776), Err(10));
    assert_eq!(host.unmount(), 0);
    let mut short = vec![0xEE; 776];
    let mut exact = vec![0; 777];
    assert_eq!(read_get(&host.card, b"a", &mut exact), Ok(777));
    assert_eq!(exact, text);
    assert_eq!(read_get(&host.card, b"a", &mut short), Err(10));
    assert!(short.iter().all(|b| *b == 0xEE));
}

#[test]
fn the_reading_programs_example() {
    let mut host = Host::small();
    host.store("left", 513);
    assert_eq!(host.unmount(), 0);
    let expected = "counts 0 of 128\nfiles 1\nleft 513 6 2\nfree 2\n";
    assert_eq!(plain::printed(&host.card), expected);
}

/// The counts of syncs and unmounts: the sectors outside the table that differ,
/// and the table sector.
#[test]
fn sync_and_unmount_count_the_sectors_they_write() {
    let mut host = Host::small();
    assert_eq!(host.sync_count(), Ok(1));
    host.store("a", 1_024);
    assert_eq!(host.sync_count(), Ok(6));
    host.store("a", 1_000);
    assert_eq!(host.sync_count(), Ok(6));
    assert_eq!(host.sync_count(), Ok(1));
    host.store("b", 0);
    assert_eq!(host.sync_count(), Ok(2));
    assert_eq!(host.remove("a"), 0);
    let mut landed = host.clone();
    assert_eq!(host.unmount_count(), Ok(4));
    assert_eq!(host.unmount_count(), Err(4));
    // What was landed before is not written again.
    assert!([2, 5].iter().all(|sector| landed.land(*sector) == 0));
    assert_eq!(landed.unmount_count(), Ok(2));
    assert_eq!(landed.card, host.card);

    // It becomes worn, and then writes nothing.
    let mut card = fresh_card(10, 1, 1);
    set_word(&mut card, 1, 0, TOP - 1);
    let mut host = Host::mount(card);
    host.store("a", 513);
    assert_eq!(host.sync_count(), Ok(6));
    assert_eq!(host.sync_count(), Err(9));
    assert_eq!(host.unmount_count(), Ok(0));
}
