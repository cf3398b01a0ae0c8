//! Cards of more than one page: P pairs of apages, P groups in the index, and
//! no run across a page's end.

mod common;

use bench::plain::{self, set_word, steps, word, Geometry, Session, TOP};
use common::{content, fresh_card, shown, shown_content, Host};

const PAGE: u32 = 4_096;

fn geometry(s: u32, t: u32, d: u32) -> Geometry {
    Geometry::within_limits(s, t, d).expect("inside the limits")
}

/// The bytes of so many sectors.
fn sectors(count: u32) -> usize {
    512 * count as usize
}

/// Content of a whole number of sectors, which is quick to make.
fn filler(count: u32) -> Vec<u8> {
    vec![0x77; sectors(count)]
}

/// Group `p` of the working image's index: cc, txc, A, B.
fn group(host: &Host, t: u32, p: usize) -> [u32; 4] {
    [0, 1, 2, 3].map(|k| host.word(t + 1, 4 * p + k))
}

/// The bytes of a sector.
fn sector(image: &[u8], i: u32) -> &[u8] {
    &image[sectors(i)..sectors(i + 1)]
}

/// T = 1 and D = 1, the first page full but for its last sector, and what
/// follows put behind it.
fn at_the_end(s: u32) -> Host {
    let mut host = Host::mount(fresh_card(s, 1, 1));
    let f = geometry(s, 1, 1).f();
    assert_eq!(host.put("fill", &filler(PAGE - f - 1)), 0);
    host
}

#[test]
fn pairs_and_first_data_sector() {
    for (s, p) in [
        (7, 1),
        (4_095, 1),
        (4_096, 1),
        (4_097, 2),
        (8_192, 2),
        (8_193, 3),
        (61_440, 15),
        (61_441, 16),
        (65_536, 16),
    ] {
        let g = geometry(s, 1, 1);
        assert_eq!((g.pairs(), g.f()), (p, 4 + 2 * p), "{s}");
        assert_eq!(g.pair(p - 1), (1 + 2 * p, 2 + 2 * p));
        assert_eq!(g.directory(), 3 + 2 * p);
    }
    assert_eq!(geometry(65_536, 512, 64).f(), 610);
    assert_eq!(Geometry::within_limits(65_537, 1, 1), None);
    assert_eq!(plain::make(65_537, 1, 1, &mut vec![0; sectors(65_537)]), 1);
}

#[test]
fn a_stored_geometry_past_the_limit_is_refused() {
    let mut card = fresh_card(65_536, 1, 1);
    assert_eq!(plain::read(&card).map(|r| r.free), Ok(65_536 - 36));
    set_word(&mut card, 0, 1, 65_537);
    assert_eq!(plain::read(&card), Err(1));
    card.resize(sectors(65_537), 0);
    assert_eq!(plain::read(&card), Err(1));
    assert_eq!(Host::try_mount(card).0, 1);
}

#[test]
fn a_fresh_card_of_4097_sectors_byte_by_byte() {
    let mut expected = vec![0; sectors(4_097)];
    for (i, value) in [0, 4_097, 1, 1].into_iter().enumerate() {
        set_word(&mut expected, 0, i, value);
    }
    for (i, value) in [0, 0, 3, 4, 0, 0, 5, 6].into_iter().enumerate() {
        set_word(&mut expected, 2, i, value);
    }
    // F is 8. The second page has sector 4,096 and no other.
    for page in [3, 4] {
        expected[sectors(page)] = 0xFF;
    }
    for page in [5, 6] {
        expected[sectors(page)..sectors(page + 1)].fill(0xFF);
        expected[sectors(page)] = 0xFE;
    }
    assert_eq!(fresh_card(4_097, 1, 1), expected);
}

#[test]
fn a_fresh_card_of_65536_sectors() {
    let card = fresh_card(65_536, 2, 3);
    let g = geometry(65_536, 2, 3);
    assert_eq!(g.f(), 39);
    for p in 0..16 {
        let words = [0, 1, 2, 3].map(|k| word(&card, 3, 4 * p + k));
        assert_eq!(words, [0, 0, 4 + 2 * p as u32, 5 + 2 * p as u32]);
    }
    assert!((64..128).all(|i| word(&card, 3, i) == 0));
    for page in 4..36 {
        let bits = sector(&card, page);
        let used: u32 = bits.iter().map(|byte| byte.count_ones()).sum();
        assert_eq!(used, if page < 6 { 39 } else { 0 }, "sector {page}");
    }
    assert_eq!(sector(&card, 4)[..6], [0xFF, 0xFF, 0xFF, 0xFF, 0x7F, 0]);
    assert!(card[sectors(36)..].iter().all(|byte| *byte == 0));
}

#[test]
fn a_put_changes_the_groups_of_both_pages_and_no_other() {
    for s in [4_097, 12_289, 65_536] {
        let g = geometry(s, 1, 1);
        let mut host = at_the_end(s);
        host.store("a", 512);
        assert_eq!(host.files()[1], "a 512 4095 1");
        assert_eq!(group(&host, 1, 0), [0, 1, 4, 3]);
        assert_eq!(group(&host, 1, 1), [0, 0, 5, 6]);
        assert_eq!(host.sync(), 0);
        let before = host.work.clone();
        host.store("a", 10);
        assert_eq!(host.files()[1], "a 10 4096 1");
        assert_eq!(group(&host, 1, 0), [0, 2, 3, 4]);
        assert_eq!(group(&host, 1, 1), [0, 2, 6, 5]);
        // Sector 4,095 is given back in the copy at 3, and 4,096 taken in the
        // copy at 6; what the cut view shows stays.
        assert_eq!(sector(&host.work, 4), sector(&before, 4));
        assert_eq!(sector(&host.work, 5), sector(&before, 5));
        assert_eq!(host.work[sectors(4) - 1], 0x7F);
        assert_eq!(host.work[sectors(5) - 1], 0xFF);
        let first = if s == 4_097 { 0xFF } else { 0x01 };
        assert_eq!(host.work[sectors(6)], first);
        for p in 2..g.pairs() {
            let (a, b) = g.pair(p);
            assert_eq!(group(&host, 1, p as usize), [0, 0, a, b]);
            assert_eq!(sector(&host.work, a), sector(&before, a));
            assert_eq!(sector(&host.work, b), sector(&before, b));
        }
    }
}

#[test]
fn where_no_bit_changes_every_group_stays() {
    let mut host = at_the_end(8_193);
    assert_eq!(host.sync(), 0);
    let before = host.work[sectors(2)..sectors(9)].to_vec();
    host.store("none", 0);
    assert_eq!(host.remove("none"), 0);
    assert_eq!(host.work[sectors(2)..sectors(9)], before[..]);
    // A file in the second page alone leaves the first group as it is.
    host.store("two", 1_024);
    assert_eq!(host.files()[1], "two 1024 4096 2");
    assert_eq!(group(&host, 1, 0), [0, 1, 4, 3]);
    assert_eq!(group(&host, 1, 1), [0, 2, 6, 5]);
    assert_eq!(group(&host, 1, 2), [0, 0, 7, 8]);
}

#[test]
fn no_run_crosses_a_pages_end() {
    // One sector is left in each of two pages, side by side.
    let mut host = at_the_end(4_097);
    assert_eq!(host.free(), Ok(2));
    assert_eq!(host.put("two", &filler(2)), 8);
    host.store("one", 512);
    host.store("last", 512);
    let files = host.files();
    assert_eq!(files[1..], ["one 512 4095 1", "last 512 4096 1"]);
    assert_eq!((host.free(), host.put("more", b"x")), (Ok(0), 8));
}

#[test]
fn the_longest_run_is_a_page() {
    let mut host = Host::mount(fresh_card(8_192, 1, 1));
    assert_eq!(host.put("a", &filler(4_097)), 8);
    assert_eq!(host.put("a", &vec![1; sectors(4_096) + 1]), 8);
    assert_eq!(host.put("a", &filler(4_096)), 0);
    assert_eq!(host.files(), ["a 2097152 4096 4096"]);
    assert_eq!(host.put("b", &filler(4_089)), 8);
    assert_eq!(host.put("b", &filler(4_088)), 0);
    assert_eq!(host.files()[1], "b 2093056 8 4088");
    assert_eq!(host.free(), Ok(0));
    let mut host = Host::mount(fresh_card(8_191, 1, 1));
    assert_eq!(host.put("a", &filler(4_096)), 8);
    assert_eq!(host.put("a", &filler(4_095)), 0);
    assert_eq!(host.files(), ["a 2096640 4096 4095"]);
}

#[test]
fn runs_begin_and_end_with_every_page() {
    let mut host = Host::mount(fresh_card(65_536, 1, 9));
    let f = geometry(65_536, 1, 9).f();
    for p in 0..16 {
        assert_eq!(host.put(&format!("l{p}"), &filler(3_000)), 0);
    }
    for p in 1..16 {
        assert_eq!(host.put(&format!("r{p}"), &filler(1_096)), 0);
    }
    let left = PAGE - f - 3_000;
    assert_eq!(host.put("rest", &filler(left + 1)), 8);
    assert_eq!(host.put("rest", &filler(left)), 0);
    let mut expected = vec![format!("l0 1536000 {f} 3000")];
    expected.extend((1..16).map(|p| format!("l{p} 1536000 {} 3000", PAGE * p)));
    let right = |p| format!("r{p} 561152 {} 1096", PAGE * p + 3_000);
    expected.extend((1..16).map(right));
    expected.push(format!("rest {} {} {left}", sectors(left), f + 3_000));
    assert_eq!(host.files(), expected);
    assert_eq!((host.free(), host.put("more", b"x")), (Ok(0), 8));
    assert_eq!(host.unmount(), 0);
    assert_eq!(shown(&host.card), expected);
    assert!((0..16).all(|p| word(&host.card, 2, 4 * p + 1) == 1));
}

#[test]
fn a_cut_shows_both_pages_of_one_side() {
    let mut host = at_the_end(4_097);
    host.store("a", 500);
    assert_eq!(host.sync(), 0);
    host.store("a", 400);
    let list = steps::of_sync(&host.session, &host.card, &host.work).expect("sync is taken");
    // The index, an apage of each pair, the directory, a data sector, and the
    // table.
    assert_eq!(steps::writes(&list), 6);
    for k in 0..=6 {
        let mut card = host.card.clone();
        assert_eq!(steps::sync_cut(&host.session, &mut card, &host.work, k), 0);
        let (line, text) = if k < 6 {
            ("a 500 4095 1", content(500))
        } else {
            ("a 400 4096 1", content(400))
        };
        assert_eq!(shown(&card)[1], line, "after {k} writes");
        assert_eq!(shown_content(&card, "a"), Ok(text), "after {k} writes");
        assert_eq!(plain::read(&card).map(|r| r.free), Ok(1));
    }
}

/// Words of a card of 8,193 sectors that are wrong by themselves, as sector,
/// word and value: the index is sector 2, the pairs 3 to 8, C is 0.
const BAD_WORDS: [(u32, usize, u32); 22] = [
    (2, 4, 128),
    (2, 8, u32::MAX),
    (2, 5, 1),
    (2, 9, TOP + 1),
    (2, 6, 3),
    (2, 7, 4),
    (2, 6, 6),
    (2, 7, 5),
    (2, 10, 5),
    (2, 11, 9),
    (2, 12, 1),
    (2, 13, 1),
    (2, 14, 9),
    (2, 127, 1),
    (3, 0, 0),
    (3, 127, 1 << 31),
    (5, 0, 1),
    (5, 127, 1 << 31),
    (7, 0, u32::MAX),
    (7, 0, u32::MAX - 3),
    (7, 1, 0),
    (7, 127, u32::MAX >> 1),
];

#[test]
fn each_group_and_each_page_is_judged() {
    let card = fresh_card(8_193, 1, 1);
    let host = Host::mount(card.clone());
    assert_eq!(host.free(), Ok(8_183));
    for (sector, i, value) in BAD_WORDS {
        let mut bad = card.clone();
        set_word(&mut bad, sector, i, value);
        assert_eq!(plain::read(&bad), Err(2), "{sector} {i} {value}");
        // In the session (0, 1) is the stamp of this transaction.
        if (sector, i, value) == (2, 5, 1) {
            continue;
        }
        let mut work = host.work.clone();
        set_word(&mut work, sector, i, value);
        let answer = plain::free(&host.session, &work);
        assert_eq!(answer, Err(2), "{sector} {i} {value}");
    }
}

#[test]
fn a_and_b_of_another_pair_are_refused_with_all_else_right() {
    let mut card = fresh_card(12_288, 1, 1);
    for (i, value) in [(6, 7), (7, 8), (10, 5), (11, 6)] {
        set_word(&mut card, 2, i, value);
    }
    assert_eq!(plain::read(&card), Err(2));
    for (i, value) in [(6, 6), (7, 5), (10, 8), (11, 7)] {
        set_word(&mut card, 2, i, value);
    }
    assert_eq!(plain::read(&card).map(|r| r.free), Ok(12_278));
}

#[test]
fn a_stamp_of_a_later_group_may_not_be_of_a_later_transaction() {
    let mut host = at_the_end(8_193);
    assert_eq!(host.sync(), 0);
    for (txc, fits) in [(1, true), (2, true), (3, false)] {
        set_word(&mut host.work, 2, 5, txc);
        assert_eq!(host.free().is_ok(), fits, "{txc}");
    }
    let Session::Open { c: 0, tx: 2, .. } = host.session else {
        panic!("the session is in its second transaction");
    };
}

/// A file of so many sectors from a start in the first entry, with its bits.
fn with_file(mut card: Vec<u8>, start: u32, count: u32) -> Vec<u8> {
    let g = Geometry::stored(&card).expect("a card");
    let words = [(2, 1), (3, 0x61), (11, 1), (12, start)];
    let sizes = [(13, count), (14, 512 * count)];
    for (i, value) in words.into_iter().chain(sizes) {
        set_word(&mut card, g.directory(), i, value);
    }
    for at in start..start + count {
        let (page, bit) = (g.pair(at / PAGE).0, (at % PAGE) as usize);
        card[sectors(page) + bit / 8] |= 1 << (bit % 8);
    }
    card
}

#[test]
fn a_run_across_a_pages_end_is_not_sound() {
    for (start, count, expected) in [
        (4_095, 1, Ok(1)),
        (4_095, 2, Err(2)),
        (4_096, 2, Ok(1)),
        (4_090, 6, Ok(1)),
        (4_090, 7, Err(2)),
        (4_096, 4_096, Ok(1)),
        (4_096, 4_097, Err(2)),
        (8_191, 2, Err(2)),
        (8_192, 1, Ok(1)),
    ] {
        let card = with_file(fresh_card(8_193, 1, 1), start, count);
        let files = plain::read(&card).map(|r| r.files);
        assert_eq!(files, expected, "{count} from {start}");
        let mut host = Host::mount(fresh_card(8_193, 1, 1));
        host.work = with_file(host.work, start, count);
        assert_eq!(host.free().is_ok(), expected.is_ok());
    }
}

#[test]
fn a_hidden_run_across_a_pages_end_is_not_judged() {
    let mut card = with_file(fresh_card(8_193, 1, 1), 4_096, 1);
    let g = geometry(8_193, 1, 1);
    for (i, value) in [(15, 1), (16, 4_095), (17, 2), (18, 1_024)] {
        set_word(&mut card, g.directory(), i, value);
    }
    assert_eq!(shown(&card), ["a 512 4096 1"]);
}

#[test]
fn free_sectors_files_and_f_add_up_over_all_pages() {
    let mut host = Host::mount(fresh_card(65_536, 512, 64));
    assert_eq!(host.free(), Ok(65_536 - 610));
    assert_eq!(host.put("page", &filler(4_096)), 0);
    assert_eq!(host.put("most", &filler(3_486)), 0);
    host.store("one", 1);
    let files = host.files();
    assert_eq!(files[0], "page 2097152 4096 4096");
    assert_eq!(files[1], "most 1784832 610 3486");
    assert_eq!(files[2], "one 1 8192 1");
    let free = 65_536 - 610 - 4_096 - 3_486 - 1;
    assert_eq!(host.free(), Ok(free));
    assert_eq!(host.unmount(), 0);
    assert_eq!(plain::read(&host.card).map(|r| r.free), Ok(free));
}
