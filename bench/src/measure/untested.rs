//! Calls without the fit test beside the tested ones, and beside what is left of
//! them: finding an entry and copying its file, copying a sector.

use super::bed::{first_data, Bed, Call, Directory, Geometry, LARGEST, PAGE};
use super::markdown::{card, marked, nanoseconds, range, ratio, table};
use super::timing::{clock, low, timed};
use crate::fitting::Module;
use crate::host::{self, SessionBytes};
use crate::plain::{self, PAGE_SECTORS, SECTOR};
use std::hint::black_box;
use std::ops::Range;
use std::time::{Duration, Instant};

const SPENT: Duration = Duration::from_millis(300);
const MOST_RUNS: usize = 2_001;
const LEAST_RUNS: usize = 15;

/// Most of a get in finding its entry and copying the file, and of a land in
/// copying a sector.
const GET: f64 = 3.0;
const LAND: f64 = 1.5;

/// The calls that a module makes most.
const CALLS: [Call; 5] = [
    Call::Put(1),
    Call::Get,
    Call::Remove,
    Call::Free,
    Call::Land,
];

/// A module before a call, and what the call is lent besides.
struct Before {
    module: Module,
    name: Vec<u8>,
    content: Vec<u8>,
    sector: u32,
    /// Where the directory's bytes are.
    entries: Range<usize>,
}

impl Before {
    /// A mounted card; all but a put of it and free start after a put.
    fn of(geometry: Geometry, directory: Directory, call: Call) -> Before {
        let Bed {
            card, work, name, ..
        } = Bed::filled(geometry, directory);
        let mut module = Module::new(card, work);
        assert_eq!(module.mount(), plain::DONE);
        if !matches!(call, Call::Put(_) | Call::Free) {
            assert_eq!(module.put(&name, &[1; SECTOR]), plain::DONE);
        }
        Before {
            module,
            name,
            content: vec![7; call.content_bytes()],
            sector: first_data(geometry),
            entries: directory_of(geometry),
        }
    }

    /// The call by the module.
    fn untested(&self, call: Call, module: &mut Module, out: &mut [u8]) -> u32 {
        match call {
            Call::Put(_) => module.put(&self.name, &self.content),
            Call::Get => module.get(&self.name, out).number,
            Call::Remove => module.remove(&self.name),
            Call::Land => module.land(self.sector),
            _ => module.free(&mut [0; 8]),
        }
    }

    /// The same by the tested function, on images of its own.
    fn tested(&self, call: Call, lent: &mut Lent, out: &mut [u8]) -> u32 {
        let Lent {
            card,
            work,
            session,
        } = lent;
        match call {
            Call::Put(_) => host::put(session, work, &self.name, &self.content),
            Call::Get => host::get(session, work, &self.name, out).number,
            Call::Remove => host::remove(session, work, &self.name),
            Call::Land => host::land(session, card, work, self.sector),
            _ => host::free(session, work, &mut [0; 8]),
        }
    }

    /// What is left of a call without any test, where it has a plain name: of a
    /// get, of a land.
    fn bare(&self, call: Call, lent: &mut Lent, out: &mut [u8]) -> u32 {
        match call {
            Call::Get => found_and_copied(&lent.work, self.entries.clone(), &self.name, out),
            Call::Land => {
                let sector = SECTOR * self.sector as usize;
                let range = sector..sector + SECTOR;
                lent.card[range.clone()].copy_from_slice(black_box(&lent.work[range]));
                plain::DONE
            }
            _ => plain::DONE,
        }
    }

    /// The time of each, taking turns; before each run its images are copied
    /// afresh.
    fn race(&self, call: Call) -> [f64; 3] {
        let mut module = self.module.clone();
        let mut lent = Lent::of(&self.module);
        let mut out = vec![0; SECTOR];
        let mut times = [Vec::new(), Vec::new(), Vec::new()];
        let begun = Instant::now();
        for run in 0..MOST_RUNS {
            if run >= LEAST_RUNS && begun.elapsed() > SPENT {
                break;
            }
            for turn in [run % 3, (run + 1) % 3, (run + 2) % 3] {
                let (time, number) = if turn == 0 {
                    module.copy_from(&self.module);
                    timed(|| self.untested(call, &mut module, &mut out))
                } else {
                    lent.copy_from(&self.module);
                    match turn {
                        1 => timed(|| self.tested(call, &mut lent, &mut out)),
                        _ => timed(|| self.bare(call, &mut lent, &mut out)),
                    }
                };
                times[turn].push(time);
                assert_eq!(number, plain::DONE);
            }
        }
        let idle = clock();
        times.map(|mut list| (low(&mut list) - idle).max(0.1))
    }
}

/// The bytes of the directory: the D sectors before the data.
fn directory_of(geometry: Geometry) -> Range<usize> {
    let end = first_data(geometry);
    SECTOR * (end - geometry.2) as usize..SECTOR * end as usize
}

/// The first entry of the name is looked for, and the file of its new version,
/// if present, copied: no view, no test of what the card says.
#[inline(never)]
fn found_and_copied(work: &[u8], entries: Range<usize>, name: &[u8], out: &mut [u8]) -> u32 {
    let word = |entry: &[u8], at: usize| {
        let bytes = entry[at..at + 4].try_into().expect("four bytes");
        u32::from_le_bytes(bytes) as usize
    };
    let named = |entry: &&[u8]| word(entry, 8) == name.len() && &entry[12..12 + name.len()] == name;
    let found = black_box(work)[entries].chunks_exact(128).find(named);
    let Some(entry) = found.filter(|entry| word(entry, 44) == 1) else {
        return plain::NO_FILE;
    };
    let (start, bytes) = (SECTOR * word(entry, 48), word(entry, 56));
    out[..bytes].copy_from_slice(&work[start..start + bytes]);
    plain::DONE
}

/// What the tested calls are lent.
struct Lent {
    card: Vec<u8>,
    work: Vec<u8>,
    session: SessionBytes,
}

impl Lent {
    fn of(module: &Module) -> Lent {
        Lent {
            card: module.card().to_vec(),
            work: module.work().to_vec(),
            session: *module.session(),
        }
    }

    fn copy_from(&mut self, module: &Module) {
        self.card.copy_from_slice(module.card());
        self.work.copy_from_slice(module.work());
        self.session = *module.session();
    }
}

/// Put, get, remove, free and land without the test and with it, and get and
/// land beside what is left of them.
pub fn untested() -> String {
    let (mut rows, mut ratios) = (Vec::new(), Vec::new());
    for geometry in [(10, 1, 1), PAGE, (PAGE_SECTORS, 512, 64), LARGEST] {
        for directory in [Directory::Fresh, Directory::Full] {
            for call in CALLS {
                let [without, with, bare] = Before::of(geometry, directory, call).race(call);
                ratios.push(without / with);
                let [left, more] = match call {
                    Call::Get => [nanoseconds(bare), marked(without / bare, GET)],
                    Call::Land => [nanoseconds(bare), marked(without / bare, LAND)],
                    _ => [String::new(), String::new()],
                };
                rows.push(vec![
                    card(geometry),
                    directory.name().into(),
                    call.name(),
                    nanoseconds(without),
                    nanoseconds(with),
                    ratio(without / with),
                    left,
                    more,
                ]);
            }
        }
    }
    let head = [
        "S, T, D",
        "directory",
        "call",
        "without",
        "with",
        "without / with",
        "bare",
        "without / bare",
    ];
    format!(
        "### Without the fit test\n\n\
         The functions of crate fitting beside those of crate host, from the same state. Bare is, of a\n\
         get, finding the entry of the name and copying its file, with no view and no test; of a land,\n\
         copying 512 bytes. What is left of a put is its search for an entry and a run, the content, the\n\
         entry and the pages; of a remove, its search, the entry and the pages; of free, its pass over\n\
         the pages of both views.\n\n{}\n{}",
        table(3, &head, &rows),
        range("Without / with", &ratios, 1.0)
    )
}
