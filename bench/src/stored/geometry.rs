//! Cards with a geometry or a length that is refused 1, and their neighbours
//! just inside the limits.

use super::forge::{run, Forge};
use super::{refused, shows, StoredCard};

/// The cards of this file.
pub fn cards() -> Vec<StoredCard> {
    let mut cards = limits();
    cards.extend(wraps());
    cards.extend(lengths());
    cards.extend(input_lengths());
    cards
}

/// One at each side of the limits, as far as 65,536 bytes reach.
fn limits() -> Vec<StoredCard> {
    vec![
        refused("s_4097", Forge::small().word(0, 1, 4_097), 1),
        refused("s_is_f", Forge::fresh(6, 1, 1), 1),
        shows(
            "s_is_f_plus_1",
            Forge::fresh(7, 1, 1),
            &["counts 0 of 128", "files 0", "free 1"],
        ),
        refused("t_0", Forge::fresh(10, 0, 1), 1),
        refused("t_513", Forge::small().word(0, 2, 513), 1),
        refused("d_0", Forge::fresh(10, 1, 0), 1),
        shows(
            "d_64",
            Forge::fresh(70, 1, 64).file(255, "last", run(69, 1, 1)),
            &["counts 0 of 128", "files 1", "last 1 69 1", "free 0"],
        ),
        refused("d_65", Forge::fresh(71, 1, 65), 1),
    ]
}

/// Stored words that look right once a sum or a product has wrapped.
fn wraps() -> Vec<StoredCard> {
    vec![
        refused("s_wraps", Forge::small().word(0, 1, 8_388_618), 1),
        refused("t_wraps", Forge::small().word(0, 2, u32::MAX), 1),
        refused("d_wraps", Forge::small().word(0, 3, u32::MAX), 1),
    ]
}

/// Lengths that are not 512·S, or too short to store S, T and D.
fn lengths() -> Vec<StoredCard> {
    vec![
        refused("empty", Forge::small().length(0), 1),
        refused("length_7", Forge::small().length(7), 1),
        refused("length_15", Forge::small().length(15), 1),
        refused("length_16", Forge::small().length(16), 1),
        refused("length_512", Forge::small().length(512), 1),
        refused("sector_less", Forge::small().length(9 * 512), 1),
        refused("sector_more", Forge::small().length(11 * 512), 1),
        refused("byte_less", Forge::small().length(5_119), 1),
        refused("byte_more", Forge::small().length(5_121), 1),
    ]
}

/// The longest input the reading program takes, and its neighbours.
fn input_lengths() -> Vec<StoredCard> {
    let longest = || Forge::fresh(128, 1, 1).file(0, "far", run(120, 8, 4_096));
    let report = ["counts 0 of 128", "files 1", "far 4096 120 8", "free 114"];
    vec![
        refused("input_65535", longest().length(65_535), 1),
        shows("input_65536", longest(), &report),
        refused("input_65537", longest().length(65_537), 1),
        refused("input_66048", Forge::fresh(129, 1, 1), 1),
        shows(
            "table_122",
            Forge::fresh(128, 122, 1).count(15_615).table(15_615, 9),
            &["counts 15615 of 15616", "files 0", "free 1"],
        ),
    ]
}
