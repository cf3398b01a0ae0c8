//! Cards that are refused 2, one or more for each clause of soundness.

use super::forge::{run, Forge, NONE};
use super::{refused, StoredCard};

/// The cards of this file.
pub fn cards() -> Vec<StoredCard> {
    let groups = [
        table(),
        stamps(),
        pages(),
        zero_words(),
        versions(),
        runs(),
        names(),
        bits(),
    ];
    groups
        .into_iter()
        .flatten()
        .map(|(name, forge)| refused(name, forge, 2))
        .collect()
}

type Bad = (&'static str, Forge);

/// C and the table.
fn table() -> Vec<Bad> {
    vec![
        ("count_n_plus_1", Forge::small().count(129)),
        ("count_huge", Forge::small().count(u32::MAX)),
        ("word_648", Forge::small().count(3).table(2, 2_147_483_648)),
        ("word_huge", Forge::small().count(128).table(127, u32::MAX)),
        ("word_past_c", Forge::small().count(3).table(4, 1)),
        ("word_past_last", Forge::small().table(127, 1)),
        (
            "word_c_647",
            Forge::small().count(3).table(3, 2_147_483_647),
        ),
        (
            "word_second",
            Forge::fresh(10, 2, 1).count(200).table(201, 1),
        ),
    ]
}

/// Stamps out of range, and dead stamps not below C.
fn stamps() -> Vec<Bad> {
    let counted = || Forge::small().count(3).table(3, 5);
    let entry = |stamp| counted().entry(1, stamp, "", NONE, NONE);
    let index = |cc, txc| counted().index(0, cc).index(1, txc);
    vec![
        ("entry_cc_n", entry((128, 0))),
        ("entry_cc_huge", entry((u32::MAX, 0))),
        ("entry_txc_648", entry((2, 2_147_483_648))),
        ("entry_dead_c", entry((3, 6))),
        ("entry_dead_past", entry((4, 1))),
        ("index_cc_n", index(128, 0)),
        ("index_txc_648", index(2, 2_147_483_648)),
        ("index_dead_c", index(3, 6)),
        ("index_dead_past", index(4, 1)),
        (
            "entry_dead_n",
            Forge::small().count(128).entry(3, (128, 1), "", NONE, NONE),
        ),
    ]
}

/// A and B.
fn pages() -> Vec<Bad> {
    vec![
        ("pages_both_a", Forge::small().index(3, 3)),
        ("pages_both_b", Forge::small().index(2, 4)),
        ("page_a_wrong", Forge::small().index(2, 5)),
        ("page_b_wrong", Forge::small().index(3, 2)),
        ("page_b_huge", Forge::small().index(3, u32::MAX)),
    ]
}

/// The words that the paper names as zero: first and last of each stretch.
fn zero_words() -> Vec<Bad> {
    let file = || Forge::small().file(0, "a", run(6, 1, 1));
    vec![
        ("zero_block_4", file().word(0, 4, 1)),
        ("zero_block_127", file().word(0, 127, 1 << 24)),
        ("zero_index_4", file().index(4, 1)),
        ("zero_index_127", file().index(127, 1 << 24)),
        ("zero_file_19", file().entry_word(0, 19, 1)),
        ("zero_file_31", file().entry_word(0, 31, 1 << 24)),
        ("zero_absent_19", file().entry_word(3, 19, 1)),
        ("zero_absent_31", file().entry_word(3, 31, 1 << 24)),
    ]
}

/// Shown versions that are not well formed.
fn versions() -> Vec<Bad> {
    let one = |version: [u32; 4]| Forge::small().entry(0, (0, 0), "a", version, NONE);
    let used =
        |version, first: u32, count: u32| one(version).bits_of_both(first..first + count, true);
    vec![
        ("state_2", one([2, 0, 0, 0])),
        ("state_huge", one([0x0100_0001, 0, 0, 0])),
        ("absent_start", one([0, 6, 0, 0])),
        ("absent_sectors", one([0, 0, 1, 0])),
        ("absent_bytes", one([0, 0, 0, 1])),
        ("sectors_more", used(run(6, 2, 512), 6, 2)),
        ("sectors_less", used(run(6, 1, 513), 6, 1)),
        ("sectors_none", one(run(0, 0, 511))),
        ("sectors_for_0", used(run(6, 1, 0), 6, 1)),
        ("start_for_0", one(run(6, 0, 0))),
        ("bytes_wrap", one(run(0, 0, u32::MAX))),
        (
            "old_state_2",
            Forge::small()
                .count(1)
                .entry(0, (0, 1), "a", NONE, [2, 0, 0, 0]),
        ),
    ]
}

/// Shown files that do not lie inside the data.
fn runs() -> Vec<Bad> {
    let one = |version: [u32; 4]| Forge::small().entry(0, (0, 0), "a", version, NONE);
    let f = Forge::small().f();
    vec![
        ("run_below_f", one(run(f - 1, 1, 512))),
        ("run_from_0", one(run(0, 1, 512))),
        (
            "run_over_f",
            one(run(f - 1, 2, 1_024)).bits_of_both(f..f + 1, true),
        ),
        (
            "run_past_s",
            one(run(9, 2, 1_024)).bits_of_both(9..10, true),
        ),
        ("run_at_s", one(run(10, 1, 512))),
        ("run_huge", one(run(u32::MAX, 1, 512))),
        ("run_wraps", one(run(4_286_578_696, 8_388_608, u32::MAX))),
    ]
}

/// Names of shown files outside the rule, and two alike.
fn names() -> Vec<Bad> {
    let named = |name| Forge::small().file(0, name, run(6, 1, 1));
    let long = "abcdefghijklmnopqrstuvwxyz012345";
    vec![
        ("name_0", named("")),
        ("name_33", named(long).entry_word(0, 2, 33)),
        ("name_huge", named(long).entry_word(0, 2, u32::MAX)),
        ("name_byte_32", named("a b")),
        ("name_byte_127", named("ab\u{7f}")),
        ("name_byte_0", named("abc").name_byte(0, 1, 0)),
        ("name_byte_161", named("abc").name_byte(0, 0, 161)),
        ("name_unused", named("abc").name_byte(0, 3, b'd')),
        ("name_unused_31", named("abc").name_byte(0, 31, 1)),
        ("names_alike", named("same").file(3, "same", run(0, 0, 0))),
        (
            "names_alike_old",
            named("same")
                .count(1)
                .entry(2, (0, 1), "same", NONE, run(7, 1, 1))
                .bits_of_both(7..8, true),
        ),
    ]
}

/// The shown apage.
fn bits() -> Vec<Bad> {
    let file = || Forge::small().file(0, "a", run(7, 2, 600));
    vec![
        ("bit_missing", file().bits(0, 8..9, false)),
        ("bit_extra", file().bits(0, 9..10, true)),
        ("bit_extra_first", file().bits(0, 6..7, true)),
        ("bit_below_0", file().bits(0, 0..1, false)),
        ("bit_below_f", file().bits(0, 5..6, false)),
        ("bit_from_s", file().bits(0, 10..11, false)),
        ("bit_4095", file().bits(0, 4_095..4_096, false)),
        ("bit_in_b", file().count(1).index(1, 1).bits(1, 8..9, false)),
        (
            "sector_in_two",
            file().entry(1, (0, 0), "b", run(8, 1, 1), NONE),
        ),
        (
            "sectors_in_two",
            file().entry(1, (0, 0), "b", run(7, 2, 1_000), NONE),
        ),
    ]
}
