//! Sync beside one compare and one copy of the images, and mount beside a copy.

use super::bed::{Bed, Call, Directory, Geometry, CARDS};
use super::markdown::{card, grouped, marked, nanoseconds, ratio, table};
use super::timing::{race, Lane};
use crate::store::{Proved, Store};
use std::time::Duration;

const SPENT: Duration = Duration::from_millis(800);
/// Most compares of a sync after a small put, and most copies of a mount
/// without its test.
const SMALL_SYNC: f64 = 1.3;
const MOUNT: f64 = 1.3;

/// The columns of the table of syncs.
const SYNCS: [&str; 11] = [
    "S, T, D",
    "changed",
    "sync",
    "compare",
    "copy",
    "fit",
    "sync / compare",
    "(sync - fit) / compare",
    "sync / copy",
    "sectors written",
    "of a full copy",
];

/// Sync with nothing changed, after a put of one sector, and to a card of which
/// all bytes differ.
pub fn syncs() -> String {
    let mut rows = Vec::new();
    for geometry in CARDS {
        let filled = Bed::filled(geometry, Directory::Full);
        for call in [Call::SyncNothing, Call::Sync, Call::SyncAll] {
            rows.push(sync_row(geometry, call, filled.ready(call)));
        }
    }
    "### Sync\n\n\
     The directory is full. Compare and copy are one plain compare and one plain copy of the two\n\
     images. A full copy writes every sector outside the table and one of it.\n\n"
        .to_string()
        + &table(2, &SYNCS, &rows)
}

fn sync_row(geometry: Geometry, call: Call, bed: Bed) -> Vec<String> {
    let mut once = bed.clone();
    let Bed {
        session,
        card: image,
        work,
        ..
    } = &mut once;
    let written = Proved.sync_count(session, image, work).count;
    let lanes = [
        Lane::proved(0, call),
        Lane::compare(0),
        Lane::copy(0),
        Lane::proved(0, Call::Fit),
    ];
    let times = race(&[bed], lanes, SPENT).map(|timed| timed.time);
    let [sync, compare, copy, fit] = times;
    let (s, t, _) = geometry;
    let small = if call == Call::Sync {
        SMALL_SYNC
    } else {
        f64::INFINITY
    };
    vec![
        card(geometry),
        changed_before(call).into(),
        nanoseconds(sync),
        nanoseconds(compare),
        nanoseconds(copy),
        nanoseconds(fit),
        marked(sync / compare, small),
        ratio((sync - fit) / compare),
        ratio(sync / copy),
        grouped(written),
        grouped(s - t + 1),
    ]
}

fn changed_before(call: Call) -> &'static str {
    match call {
        Call::SyncNothing => "nothing",
        Call::Sync => "one put",
        _ => "all bytes",
    }
}

/// The columns of the table of mounts.
const MOUNTS: [&str; 8] = [
    "S, T, D",
    "directory",
    "mount",
    "copy",
    "sound",
    "mount / copy",
    "(mount - sound) / copy",
    "mount / plain",
];

/// Mount beside one plain copy of the card.
pub fn mounts() -> String {
    let mut rows = Vec::new();
    for geometry in CARDS {
        for directory in [Directory::Fresh, Directory::Full] {
            let bed = [Bed::before(Call::Mount, geometry, directory)];
            let lanes = [
                Lane::proved(0, Call::Mount),
                Lane::plain(0, Call::Mount),
                Lane::copy(0),
                Lane::proved(0, Call::Sound),
            ];
            let times = race(&bed, lanes, SPENT).map(|timed| timed.time);
            let [mount, plain, copy, sound] = times;
            rows.push(vec![
                card(geometry),
                directory.name().into(),
                nanoseconds(mount),
                nanoseconds(copy),
                nanoseconds(sound),
                ratio(mount / copy),
                marked((mount - sound) / copy, MOUNT),
                marked(mount / plain, 1.0),
            ]);
        }
    }
    "### Mount\n\n\
     Beside one plain copy of the card. The soundness test alone is reading's list with no line\n\
     lent.\n\n"
        .to_string()
        + &table(2, &MOUNTS, &rows)
}
