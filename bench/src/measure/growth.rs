//! How calls grow with the card.

use super::bed::{first_data, Bed, Call, Directory, LARGEST, PAGE, SMALL};
use super::markdown::{grouped, nanoseconds, ratio, table};
use super::timing::{race, Lane, Timed};
use std::time::Duration;

const SPENT: Duration = Duration::from_millis(800);

/// The calls shown; a sync that compares all and a mount that copies all stand
/// beside those that need not.
const CALLS: [Call; 10] = [
    Call::Fit,
    Call::Put(0),
    Call::Put(1),
    Call::Put(16),
    Call::Free,
    Call::List,
    Call::Read,
    Call::Make,
    Call::Mount,
    Call::Sync,
];

/// The times of one call on cards of 256, 4,096 and 65,536 sectors.
pub struct Grown {
    pub directory: Directory,
    pub what: String,
    pub times: [f64; 3],
}

/// Measures the growth of every call; the three cards take turns.
pub fn growths() -> Vec<Grown> {
    let mut all = Vec::new();
    for directory in [Directory::Fresh, Directory::Full] {
        let filled = [SMALL, PAGE, LARGEST].map(|geometry| Bed::filled(geometry, directory));
        let mounted = filled.each_ref().map(|bed| bed.ready(Call::SyncNothing));
        let mut add = |what: String, timed: [Timed; 3]| {
            let times = timed.map(|timed| timed.time);
            all.push(Grown {
                directory,
                what,
                times,
            });
        };
        add(
            "one pass".into(),
            race(&mounted, [0, 1, 2].map(Lane::pass), SPENT),
        );
        add(
            "one compare".into(),
            race(&mounted, [0, 1, 2].map(Lane::compare), SPENT),
        );
        for call in CALLS {
            let beds = filled.each_ref().map(|bed| bed.ready(call));
            let lanes = [0, 1, 2].map(|bed| Lane::proved(bed, call));
            let name = match call {
                Call::Fit => "fit".into(),
                _ => call.name(),
            };
            add(name, race(&beds, lanes, SPENT));
        }
    }
    all
}

/// The growth as a table.
pub fn growth_table(all: &[Grown]) -> String {
    let cells = |one: &Grown| {
        let [small, page, largest] = one.times;
        vec![
            one.directory.name().into(),
            one.what.clone(),
            nanoseconds(small),
            nanoseconds(page),
            nanoseconds(largest),
            ratio(page / small),
            ratio(largest / page),
        ]
    };
    let rows: Vec<Vec<String>> = all.iter().map(cells).collect();
    let head = [
        "directory",
        "call",
        "S = 256",
        "S = 4,096",
        "S = 65,536",
        "256 to 4,096",
        "4,096 to 65,536",
    ];
    let f = [SMALL, PAGE, LARGEST].map(|geometry| grouped(first_data(geometry)));
    format!(
        "### Growth\n\n\
         T = 8 and D = 8; each card has 16 times the sectors of the one before, and the three take\n\
         turns in one run. F, the sectors before the data, is {}, {} and {}. One pass is over these,\n\
         one compare over both images.\n\n{}",
        f[0],
        f[1],
        f[2],
        table(2, &head, &rows)
    )
}
