//! Good cards, most of them with something that a hasty check would refuse
//! or show wrongly.

use super::forge::{run, Forge, NONE};
use super::{shows, StoredCard};
use crate::plain::{self, Session, TOP};

/// The cards of this file.
pub fn cards() -> Vec<StoredCard> {
    let mut cards = by_calls();
    cards.extend(sizes());
    cards.extend(names());
    cards.extend(places());
    cards.extend(counts());
    cards.extend(stamps());
    cards.extend(unjudged());
    cards
}

/// A session of the plain version on a card of S = 10, T = 1, D = 1.
struct Running {
    card: Vec<u8>,
    work: Vec<u8>,
    session: Session,
}

impl Running {
    fn begin() -> Running {
        let mut card = Forge::small().bytes();
        let mut work = vec![0; card.len()];
        let (_, session) = plain::mount(&mut card, &mut work);
        Running {
            card,
            work,
            session,
        }
    }

    fn put(mut self, name: &str, content: &[u8]) -> Running {
        plain::put(&self.session, &mut self.work, name.as_bytes(), content);
        self
    }

    fn sync(mut self) -> Running {
        plain::sync(&mut self.session, &mut self.card, &mut self.work);
        self
    }

    fn unmount(mut self) -> Forge {
        plain::unmount(&mut self.session, &mut self.card, &mut self.work);
        self.cut()
    }

    /// A sync that is cut after so many writes: here the index, an apage, the
    /// directory, two data sectors and the table.
    fn sync_cut(mut self, writes: usize) -> Forge {
        plain::steps::sync_cut(&self.session, &mut self.card, &self.work, writes);
        self.cut()
    }

    fn cut(self) -> Forge {
        Forge::from_card(1, 1, self.card)
    }
}

/// Cards that calls have written, among them the paper's example.
fn by_calls() -> Vec<StoredCard> {
    let two_versions = || {
        let begun = Running::begin().put("a", &[1; 600]).sync();
        begun.put("a", &[2; 700])
    };
    vec![
        shows(
            "left",
            Running::begin().put("left", &[7; 513]).unmount(),
            &["counts 0 of 128", "files 1", "left 513 6 2", "free 2"],
        ),
        shows(
            "mounted",
            Running::begin().put("gone", &[7; 513]).cut(),
            &["counts 1 of 128", "files 0", "free 4"],
        ),
        shows(
            "cut_at_9",
            two_versions().sync_cut(5),
            &["counts 1 of 128", "files 1", "a 600 6 2", "free 2"],
        ),
        shows(
            "cut_at_10",
            two_versions().sync_cut(6),
            &["counts 1 of 128", "files 1", "a 700 8 2", "free 2"],
        ),
    ]
}

/// No file, files of 0 bytes, a full card, and sizes round a sector.
fn sizes() -> Vec<StoredCard> {
    let one = |version| Forge::small().file(0, "a", version);
    vec![
        shows(
            "fresh",
            Forge::small(),
            &["counts 0 of 128", "files 0", "free 4"],
        ),
        shows(
            "empty_files",
            (0..4).fold(Forge::small(), |forge, e| {
                forge.file(e, ["w", "x", "y", "z"][e], run(0, 0, 0))
            }),
            &[
                "counts 0 of 128",
                "files 4",
                "w 0 0 0",
                "x 0 0 0",
                "y 0 0 0",
                "z 0 0 0",
                "free 4",
            ],
        ),
        shows(
            "full",
            Forge::small()
                .file(0, "b", run(7, 3, 1_536))
                .file(1, "none", run(0, 0, 0))
                .file(2, "a", run(6, 1, 1)),
            &[
                "counts 0 of 128",
                "files 3",
                "b 1536 7 3",
                "none 0 0 0",
                "a 1 6 1",
                "free 0",
            ],
        ),
        shows(
            "bytes_511",
            one(run(6, 1, 511)),
            &["counts 0 of 128", "files 1", "a 511 6 1", "free 3"],
        ),
        shows(
            "bytes_512",
            one(run(6, 1, 512)),
            &["counts 0 of 128", "files 1", "a 512 6 1", "free 3"],
        ),
        shows(
            "bytes_513",
            one(run(8, 2, 513)),
            &["counts 0 of 128", "files 1", "a 513 8 2", "free 2"],
        ),
        shows(
            "all_data",
            one(run(6, 4, 2_048)),
            &["counts 0 of 128", "files 1", "a 2048 6 4", "free 0"],
        ),
    ]
}

/// Names at the edges of the rule.
fn names() -> Vec<StoredCard> {
    vec![
        shows(
            "name_32",
            Forge::small()
                .file(0, "abcdefghijklmnopqrstuvwxyz012345", run(6, 1, 1))
                .file(1, "abcdefghijklmnopqrstuvwxyz01234", run(7, 1, 2)),
            &[
                "counts 0 of 128",
                "files 2",
                "abcdefghijklmnopqrstuvwxyz012345 1 6 1",
                "abcdefghijklmnopqrstuvwxyz01234 2 7 1",
                "free 2",
            ],
        ),
        shows(
            "name_bytes",
            Forge::small()
                .file(0, "!", run(0, 0, 0))
                .file(3, "~!~", run(9, 1, 7)),
            &[
                "counts 0 of 128",
                "files 2",
                "! 0 0 0",
                "~!~ 7 9 1",
                "free 3",
            ],
        ),
    ]
}

/// Other geometries, and A and B the other way round.
fn places() -> Vec<StoredCard> {
    vec![
        shows(
            "t_2",
            Forge::fresh(10, 2, 1)
                .count(200)
                .table(128, 4)
                .table(200, 3)
                .entry(0, (128, 4), "a", run(8, 1, 9), NONE)
                .entry(1, (128, 5), "b", run(7, 1, 9), NONE)
                .bits_of_both(8..9, true),
            &["counts 200 of 256", "files 1", "a 9 8 1", "free 2"],
        ),
        shows(
            "d_2",
            Forge::fresh(10, 1, 2)
                .file(7, "seven", run(9, 1, 100))
                .file(4, "four", run(7, 2, 1_024)),
            &[
                "counts 0 of 128",
                "files 2",
                "four 1024 7 2",
                "seven 100 9 1",
                "free 0",
            ],
        ),
        shows(
            "pages_traded",
            Forge::small()
                .index(2, 4)
                .index(3, 3)
                .entry(0, (0, 0), "a", run(6, 1, 1), NONE)
                .bits(1, 6..7, true),
            &["counts 0 of 128", "files 1", "a 1 6 1", "free 3"],
        ),
    ]
}

/// Crash counts and table words at the edges.
fn counts() -> Vec<StoredCard> {
    vec![
        shows(
            "count_n",
            Forge::small()
                .count(128)
                .table(127, TOP)
                .entry(0, (127, TOP), "a", run(6, 1, 1), NONE)
                .bits_of_both(6..7, true),
            &["counts 128 of 128", "files 1", "a 1 6 1", "free 3"],
        ),
        shows(
            "count_n_less_1",
            Forge::small().count(127).table(127, 5),
            &["counts 127 of 128", "files 0", "free 4"],
        ),
        shows(
            "word_c_646",
            Forge::small().count(3).table(3, 2_147_483_646),
            &["counts 3 of 128", "files 0", "free 4"],
        ),
        shows(
            "word_647",
            Forge::small().count(3).table(2, 2_147_483_647),
            &["counts 3 of 128", "files 0", "free 4"],
        ),
    ]
}

/// Stamps that are just alive, just dead, or past C.
fn stamps() -> Vec<StoredCard> {
    let two = |stamp| {
        Forge::small().count(3).table(2, 5).table(3, 5).entry(
            0,
            stamp,
            "a",
            run(6, 1, 1),
            run(8, 2, 513),
        )
    };
    vec![
        shows(
            "stamp_alive",
            two((2, 5)).bits_of_both(6..7, true),
            &["counts 3 of 128", "files 1", "a 1 6 1", "free 3"],
        ),
        shows(
            "stamp_dead",
            two((2, 6)).bits_of_both(8..10, true),
            &["counts 3 of 128", "files 1", "a 513 8 2", "free 2"],
        ),
        shows(
            "stamp_c_alive",
            two((3, 5)).bits_of_both(6..7, true),
            &["counts 3 of 128", "files 1", "a 1 6 1", "free 3"],
        ),
        shows(
            "stamp_647",
            two((2, TOP)).bits_of_both(8..10, true),
            &["counts 3 of 128", "files 1", "a 513 8 2", "free 2"],
        ),
        shows(
            "stamp_past_c",
            two((127, 0)).bits_of_both(6..7, true),
            &["counts 3 of 128", "files 1", "a 1 6 1", "free 3"],
        ),
        shows(
            "index_dead",
            two((2, 5))
                .index(0, 2)
                .index(1, 6)
                .bits(1, 6..7, true)
                .fill(3, 0),
            &["counts 3 of 128", "files 1", "a 1 6 1", "free 3"],
        ),
        shows(
            "index_alive",
            two((2, 5))
                .index(0, 2)
                .index(1, 5)
                .bits(0, 6..7, true)
                .fill(4, 0),
            &["counts 3 of 128", "files 1", "a 1 6 1", "free 3"],
        ),
    ]
}

/// Hidden versions, names of absent entries, the hidden apage and data hold
/// anything.
fn unjudged() -> Vec<StoredCard> {
    let junk = [u32::MAX; 4];
    vec![
        shows(
            "hidden_junk",
            Forge::small()
                .count(1)
                .entry(0, (0, 0), "a", run(6, 1, 1), junk)
                .entry(1, (0, 1), "b", junk, run(7, 1, 2))
                .bits(0, 6..8, true)
                .fill(4, 0xAA)
                .fill(6, 0xFF)
                .fill(9, 0xFF),
            &["counts 1 of 128", "files 2", "a 1 6 1", "b 2 7 1", "free 2"],
        ),
        shows(
            "absent_names",
            Forge::small()
                .count(1)
                .file(0, "a", run(6, 1, 1))
                .entry(1, (0, 0), "a", NONE, run(7, 1, 1))
                .entry(2, (0, 1), "a", run(7, 1, 1), NONE)
                .entry_word(3, 2, u32::MAX)
                .name_byte(3, 31, 200),
            &["counts 1 of 128", "files 1", "a 1 6 1", "free 3"],
        ),
    ]
}
