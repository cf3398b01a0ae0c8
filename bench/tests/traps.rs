//! Wrong builds that look right, and the byte rules that the bench sheet
//! alone does not see.

mod common;

use bench::plain::{self, set_word, steps, word, Session, TOP};
use common::{content, fresh_card, shown, shown_content, Host};

/// Lands every sector but the table.
fn land_all_but_table(host: &mut Host) {
    for sector in [0, 2, 3, 4, 5, 6, 7, 8, 9] {
        assert_eq!(host.land(sector), 0);
    }
}

/// The index and both apages.
fn bitmap_sectors(host: &Host) -> Vec<u8> {
    host.work[2 * 512..5 * 512].to_vec()
}

#[test]
fn a_freed_sector_is_not_reused_while_the_cut_view_holds_it() {
    let mut host = Host::small();
    host.store("a", 1_024);
    assert_eq!(host.sync(), 0);
    assert_eq!(host.remove("a"), 0);
    assert_eq!(host.figures(), Ok((2, 2)));
    assert_eq!(host.put("big", &content(1_025)), 8);
    host.store("b", 1_000);
    assert_eq!(host.files(), ["b 1000 8 2"]);
    land_all_but_table(&mut host);
    assert_eq!(shown(&host.card), ["a 1024 6 2"]);
    assert_eq!(shown_content(&host.card, "a"), Ok(content(1_024)));
}

#[test]
fn an_entry_keeps_its_name_while_its_cut_view_is_present() {
    let mut host = Host::small();
    host.store("a", 10);
    assert_eq!(host.sync(), 0);
    assert_eq!(host.remove("a"), 0);
    host.store("b", 10);
    let name_of = |host: &Host, entry: usize| host.word(5, 32 * entry + 3);
    assert_eq!((name_of(&host, 0), name_of(&host, 1)), (0x61, 0x62));
    land_all_but_table(&mut host);
    assert_eq!(shown(&host.card), ["a 10 6 1"]);
}

#[test]
fn a_count_past_the_largest_is_not_below_one() {
    let mut card = fresh_card(10, 1, 1);
    set_word(&mut card, 0, 0, 1);
    set_word(&mut card, 5, 1, TOP);
    assert_eq!(plain::read(&card).map(|r| r.files), Ok(0));
    set_word(&mut card, 5, 1, TOP + 1);
    assert_eq!(plain::read(&card), Err(2));
    set_word(&mut card, 5, 1, 0);
    set_word(&mut card, 1, 0, TOP + 1);
    assert_eq!(plain::read(&card), Err(2));
}

#[test]
fn table_word_c_stays_until_the_other_sectors_have_landed() {
    let mut host = Host::small();
    host.store("a", 10);
    assert_eq!(host.word(1, 0), 0);
    assert_eq!(host.land(1), 0);
    land_all_but_table(&mut host);
    assert_eq!(shown(&host.card), [""; 0]);
    assert_eq!(host.sync(), 0);
    assert_eq!((host.word(1, 0), word(&host.card, 1, 0)), (1, 1));
    assert_eq!(shown(&host.card), ["a 10 6 1"]);
}

#[test]
fn a_dead_stamp_at_c_is_refused() {
    let mut host = Host::small();
    host.store("a", 10);
    land_all_but_table(&mut host);
    // After the cut the stamp (0, 1) is dead and C is 1: a good card.
    assert_eq!(shown(&host.card), [""; 0]);
    set_word(&mut host.card, 0, 0, 0);
    assert_eq!(plain::read(&host.card), Err(2));
    assert_eq!(Host::try_mount(host.card).0, 2);
}

#[test]
fn a_and_b_trade_places_only_when_the_index_is_alive() {
    let mut host = Host::small();
    let index = |host: &Host| [0, 1, 2, 3].map(|i| host.word(2, i));
    host.store("a", 1);
    assert_eq!(index(&host), [0, 1, 4, 3]);
    host.store("b", 1);
    assert_eq!(index(&host), [0, 1, 4, 3]);
    assert_eq!(host.sync(), 0);
    assert_eq!(host.remove("b"), 0);
    assert_eq!(index(&host), [0, 2, 3, 4]);
    land_all_but_table(&mut host);
    // After the cut the index stamp (0, 2) is dead: B is shown, A is not.
    let mut host = Host::mount(host.card);
    host.work[3 * 512..4 * 512].fill(0xA5);
    host.store("c", 1);
    assert_eq!(index(&host), [1, 1, 3, 4]);
    assert_eq!((host.work[3 * 512], host.work[3 * 512 + 1]), (0xFF, 0xFD));
    assert_eq!((host.work[4 * 512], host.work[4 * 512 + 1]), (0xFF, 0xFC));
}

#[test]
fn the_new_version_becomes_old_only_when_alive_and_of_another_stamp() {
    let versions = |host: &Host| -> Vec<u32> { (11..19).map(|i| host.word(5, i)).collect() };
    let mut host = Host::small();
    host.store("a", 1);
    host.store("a", 2);
    assert_eq!(versions(&host), [1, 7, 1, 2, 0, 0, 0, 0]);
    assert_eq!(host.sync(), 0);
    host.store("a", 3);
    assert_eq!(versions(&host), [1, 6, 1, 3, 1, 7, 1, 2]);
    host.store("a", 4);
    assert_eq!(versions(&host), [1, 8, 1, 4, 1, 7, 1, 2]);
    land_all_but_table(&mut host);
    let mut host = Host::mount(host.card);
    host.store("a", 5);
    assert_eq!(versions(&host), [1, 6, 1, 5, 1, 7, 1, 2]);
}

#[test]
fn where_no_bit_changes_index_and_apages_stay() {
    let mut host = Host::small();
    let before = bitmap_sectors(&host);
    host.store("a", 0);
    host.store("a", 0);
    assert_eq!(host.remove("a"), 0);
    assert_eq!(bitmap_sectors(&host), before);
}

#[test]
fn a_removed_entry_keeps_its_name_and_clears_its_bits() {
    let mut host = Host::small();
    host.store("a", 513);
    assert_eq!(host.sync(), 0);
    assert_eq!(host.remove("a"), 0);
    assert_eq!(host.figures(), Ok((2, 2)));
    let words: Vec<u32> = (0..19).map(|i| host.word(5, i)).collect();
    let name = [1, 0x61, 0, 0, 0, 0, 0, 0, 0];
    let expected = [&[0, 2], &name[..], &[0; 4], &[1, 6, 2, 513]].concat();
    assert_eq!(words, expected);
}

#[test]
fn the_earlier_sectors_are_those_of_the_present_view() {
    // The cut view has `a` at 6, the present view has `b` there.
    let mut host = Host::small();
    host.store("b", 1);
    let a = [0, 1, 1, 0x61];
    for (i, value) in a.into_iter().enumerate() {
        set_word(&mut host.work, 5, 32 + i, value);
    }
    for (i, value) in [1, 6, 1, 1].into_iter().enumerate() {
        set_word(&mut host.work, 5, 32 + 15 + i, value);
    }
    host.work[3 * 512] |= 0x40;
    assert_eq!(host.files(), ["b 1 6 1"]);
    host.store("a", 2);
    assert_eq!(host.files(), ["b 1 6 1", "a 2 7 1"]);
    assert_eq!(host.free(), Ok(2));
}

#[test]
fn a_worn_session_takes_the_table_as_it_is_in_both_views() {
    let mut card = fresh_card(10, 1, 1);
    set_word(&mut card, 1, 0, TOP - 1);
    let mut host = Host::mount(card);
    host.store("a", 513);
    assert_eq!(host.sync(), 0);
    let worn = host.session;
    assert_eq!(worn.encode()[..4], [2, 0, 0, 0]);
    assert_eq!(host.get("a", 513), Ok(content(513)));
    assert_eq!(host.free(), Ok(2));
    assert_eq!(host.land(6), 0);
    assert_eq!(host.put("", b""), 9);
    // Its stamps (0, 2,147,483,647) are alive in both views, so that neither
    // the apage at B nor the old version is shown, or judged.
    host.work[3 * 512..4 * 512].fill(0x5A);
    set_word(&mut host.work, 5, 15, 77);
    assert_eq!(host.free(), Ok(2));
    assert_eq!(host.files(), ["a 513 6 2"]);
    assert_eq!(host.unmount(), 0);
}

#[test]
fn a_worn_session_has_the_flag_and_the_largest_count() {
    let mut card = fresh_card(10, 1, 1);
    set_word(&mut card, 1, 0, TOP - 1);
    let mut host = Host::mount(card);
    assert_eq!(host.sync(), 0);
    let worn = host.session;
    assert_eq!(host.free(), Ok(4));
    for (tx, flag) in [(TOP, false), (TOP - 1, true), (TOP - 1, false)] {
        host.session = with_count(worn, tx, flag);
        assert_eq!(host.free(), Err(2));
        assert_eq!((host.put("a", b""), host.sync()), (2, 2));
    }
}

fn with_count(session: Session, tx: u32, worn: bool) -> Session {
    match session {
        Session::Closed => Session::Closed,
        Session::Open { s, t, d, c, .. } => Session::Open {
            s,
            t,
            d,
            c,
            tx,
            worn,
        },
    }
}

#[test]
fn sync_writes_what_differs_outside_the_table_and_then_its_table_sector() {
    let mut card = fresh_card(12, 2, 1);
    set_word(&mut card, 0, 0, 130);
    let mut host = Host::mount(card);
    let places = |host: &Host| -> Vec<Option<u32>> {
        let list = steps::of_sync(&host.session, &host.card, &host.work).expect("sync is taken");
        let place = |step: &steps::Step| match step {
            steps::Step::Write { sector, .. } => Some(*sector),
            steps::Step::Barrier => None,
        };
        list.iter().map(place).collect()
    };
    assert_eq!(places(&host), [None, Some(2), None]);
    host.store("a", 513);
    let table = [None, Some(2), None];
    let rising = [3, 5, 6, 7, 8].map(Some);
    assert_eq!(places(&host), [&rising[..], &table].concat());
    // What has landed is not written again; a damaged table sector of the card
    // is not looked at, a damaged data sector is written.
    assert_eq!((host.land(3), host.land(8)), (0, 0));
    host.card[512] ^= 1;
    host.card[11 * 512 + 9] ^= 1;
    let rising = [5, 6, 7, 11].map(Some);
    assert_eq!(places(&host), [&rising[..], &table].concat());
    let list = steps::of_unmount(&host.session, &host.card, &host.work).expect("it is taken");
    assert_eq!((steps::writes(&list), steps::counted(&list)), (6, 5));
    let Some(steps::Step::Write { sector, content }) = list.last() else {
        panic!("unmount ends with a write");
    };
    assert_eq!((*sector, word(&content[..], 0, 0)), (0, 130));
}

#[test]
fn the_steps_of_a_call_add_up_to_the_call() {
    let mut host = Host::small();
    host.store("a", 513);
    let mut stepped = host.card.clone();
    assert_eq!(
        steps::sync_cut(&host.session, &mut stepped, &host.work, usize::MAX),
        0
    );
    let mut unmounted = host.card.clone();
    assert_eq!(
        steps::unmount_cut(&host.session, &mut unmounted, &host.work, 7),
        0
    );
    let mut other = host.clone();
    assert_eq!((host.sync(), other.unmount()), (0, 0));
    assert_eq!(stepped, host.card);
    assert_eq!(unmounted, other.card);
    assert_eq!((other.work, other.session), (other.card, Session::Closed));
    let mut mounted = unmounted.clone();
    assert_eq!(steps::mount_cut(&mut mounted, &host.work, 0), 0);
    assert_eq!(mounted, unmounted);
    assert_eq!(steps::mount_cut(&mut mounted, &host.work, 1), 0);
    assert_eq!(mounted, Host::mount(unmounted).card);
}
