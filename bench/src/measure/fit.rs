//! The fit test beside one pass over what it must look at, and calls beside
//! it; free beside both.

use super::bed::{Bed, Call, Directory, Geometry, LARGEST, PAGE};
use super::markdown::{card, marked, nanoseconds, range, ratio, table};
use super::timing::{race, Lane};
use crate::plain::{MOST_SECTORS, PAGE_SECTORS};
use std::time::Duration;

const SPENT: Duration = Duration::from_millis(800);

/// The cards: those of one page, with short and long tables and directories,
/// and one smaller and one larger.
const CARDS: [Geometry; 6] = [
    (10, 1, 1),
    (PAGE_SECTORS, 8, 8),
    (PAGE_SECTORS, 8, 64),
    (PAGE_SECTORS, 512, 8),
    (PAGE_SECTORS, 512, 64),
    (MOST_SECTORS, 512, 64),
];

/// Most passes of a fit test, most fit tests of a list and of a put of 0 bytes,
/// and of a sync the most compares of the two images after a fit test.
const FIT: f64 = 10.0;
const LIST: f64 = 1.3;
const PUT: f64 = 1.2;
const SYNC: f64 = 1.0;

/// The times of one card, from just after a mount.
struct Fit {
    pass: f64,
    fit: f64,
    list: f64,
    put: f64,
    sync: f64,
    compare: f64,
    read: f64,
}

impl Fit {
    fn take(geometry: Geometry, directory: Directory) -> Fit {
        let bed = [Bed::before(Call::SyncNothing, geometry, directory)];
        let calls = [
            Call::Fit,
            Call::List,
            Call::Put(0),
            Call::SyncNothing,
            Call::Read,
        ];
        let [fit, list, put, sync, read] = calls.map(|call| Lane::proved(0, call));
        let lanes = [Lane::pass(0), fit, list, put, sync, Lane::compare(0), read];
        let times = race(&bed, lanes, SPENT).map(|timed| timed.time);
        let [pass, fit, list, put, sync, compare, read] = times;
        Fit {
            pass,
            fit,
            list,
            put,
            sync,
            compare,
            read,
        }
    }

    /// What is shown: fit in passes, list and put of 0 bytes in fits, sync in
    /// one compare and one fit.
    fn ratios(&self) -> [f64; 4] {
        [
            self.fit / self.pass,
            self.list / self.fit,
            self.put / self.fit,
            self.sync / (self.compare + self.fit),
        ]
    }

    fn cells(&self, geometry: Geometry, directory: Directory) -> Vec<String> {
        let [fit, list, put, sync] = self.ratios();
        vec![
            card(geometry),
            directory.name().into(),
            nanoseconds(self.pass),
            nanoseconds(self.fit),
            marked(fit, FIT),
            marked(list, LIST),
            marked(put, PUT),
            nanoseconds(self.sync),
            nanoseconds(self.compare),
            marked(sync, SYNC),
            ratio(self.read / self.pass),
        ]
    }
}

/// The fit test in passes, and what follows it in fits.
pub fn fits() -> String {
    let mut all = Vec::new();
    for geometry in CARDS {
        for directory in Directory::ALL {
            all.push((geometry, directory, Fit::take(geometry, directory)));
        }
    }
    let rows: Vec<Vec<String>> = all.iter().map(|(g, d, fit)| fit.cells(*g, *d)).collect();
    let head = [
        "S, T, D",
        "directory",
        "pass",
        "fit",
        "fit / pass",
        "list / fit",
        "put 0 / fit",
        "sync, nothing changed",
        "compare",
        "sync / (compare + fit)",
        "read / pass",
    ];
    format!(
        "### The fit test\n\n\
         One pass is the sum of the 64-bit words over the F sectors before the data. The fit test is\n\
         a land of a sector that is not there. Compare is one plain compare of the two images, sector\n\
         by sector. All calls are the proved store's, from just after a mount.\n\n\
         {}\nAt S = 4,096:\n\n{}\n{}",
        table(2, &head, &rows),
        in_short(&all),
        spent(&all)
    )
}

type Fits = [(Geometry, Directory, Fit)];

/// The ratios on the cards of one page, least and most.
fn in_short(all: &Fits) -> String {
    let page = all
        .iter()
        .filter(|(geometry, ..)| geometry.0 == PAGE_SECTORS);
    let page: Vec<[f64; 4]> = page.map(|(.., fit)| fit.ratios()).collect();
    let of = |i: usize| -> Vec<f64> { page.iter().map(|ratios| ratios[i]).collect() };
    let last = "sync of an unchanged card in one compare and one fit";
    [
        range("- fit in passes", &of(0), FIT),
        range("- list in fits", &of(1), LIST),
        range("- put of 0 bytes in fits", &of(2), PUT),
        range(&format!("- {last}"), &of(3), SYNC),
    ]
    .concat()
}

/// Where a fit test's time goes: what one card has and another has not.
fn spent(all: &Fits) -> String {
    let of = |t: u32, d: u32, directory: Directory| {
        let same =
            |one: &&(Geometry, Directory, Fit)| (one.0, one.1) == ((PAGE_SECTORS, t, d), directory);
        all.iter().find(same).map_or(0.0, |(.., fit)| fit.fit)
    };
    let (fresh, full) = (of(8, 8, Directory::Fresh), of(8, 64, Directory::Full));
    let parts = [
        ("T = 8, D = 8, no file", fresh),
        (
            "504 more sectors of table",
            of(512, 8, Directory::Fresh) - fresh,
        ),
        (
            "224 more entries, no file",
            of(8, 64, Directory::Fresh) - fresh,
        ),
        (
            "256 files in them, in order",
            full - of(8, 64, Directory::Fresh),
        ),
        (
            "the same in another order, on top",
            of(8, 64, Directory::Shuffled) - full,
        ),
        (
            "with long names, on top",
            of(8, 64, Directory::LongNames) - full,
        ),
    ];
    let rows = parts.map(|(what, time)| vec![what.to_string(), nanoseconds(time)]);
    "Where a fit test's time goes at S = 4,096, by differences:\n\n".to_string()
        + &table(1, &["what", "ns"], &rows)
}

/// What free takes beyond the fit test, in passes over the pages; nothing where
/// the difference is too small beside the fit test to be seen.
fn beyond(free: f64, fit: f64, pages: f64) -> String {
    if free < 1.001 * fit {
        return "-".into();
    }
    ratio((free - fit) / pages)
}

/// The columns of the table of frees.
const FREES: [&str; 11] = [
    "S, T, D",
    "directory",
    "free",
    "plain",
    "free / plain",
    "fit",
    "free / fit",
    "pass",
    "free / pass",
    "pages",
    "(free - fit) / pages",
];

/// Free beside the plain version, one pass and the bitmap's pages.
pub fn frees() -> String {
    let mut rows = Vec::new();
    for geometry in [(10, 1, 1), PAGE, (PAGE_SECTORS, 512, 64), LARGEST] {
        for directory in [Directory::Fresh, Directory::Full] {
            let bed = [Bed::before(Call::Free, geometry, directory)];
            let lanes = [
                Lane::proved(0, Call::Free),
                Lane::plain(0, Call::Free),
                Lane::proved(0, Call::Fit),
                Lane::pass(0),
                Lane::pages(0),
            ];
            let times = race(&bed, lanes, SPENT).map(|timed| timed.time);
            let [free, plain, fit, pass, pages] = times;
            rows.push(vec![
                card(geometry),
                directory.name().into(),
                nanoseconds(free),
                nanoseconds(plain),
                marked(free / plain, 1.0),
                nanoseconds(fit),
                ratio(free / fit),
                nanoseconds(pass),
                ratio(free / pass),
                nanoseconds(pages),
                beyond(free, fit, pages),
            ]);
        }
    }
    "### Free\n\n\
     Pages is one pass over the bitmap's pages alone, two for each 4,096 sectors.\n\n"
        .to_string()
        + &table(2, &FREES, &rows)
}
