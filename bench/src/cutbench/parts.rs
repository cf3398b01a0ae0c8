//! The parts of a run, each a row of histories shared out to the cores.

use super::module::{twin_fault, twin_fault_of, Start};
use super::op::Op;
use super::shrink::{fault, shrink};
use super::summary::{Row, Tally};
use super::{edges, exhaustive, histories, hostile, pages};
use crate::dice::Dice;
use crate::store::Store;
use std::sync::atomic::{AtomicBool, AtomicU64, Ordering};
use std::sync::Mutex;
use std::thread;
use std::time::{Duration, Instant};

/// When a part ends: after so many histories, or after a time.
#[derive(Clone, Copy)]
pub enum Limit {
    Histories(u64),
    Time(Duration),
}

/// How much of everything a run does.
pub struct Plan {
    pub seed: u64,
    pub random: Limit,
    pub hostile: Limit,
    /// Histories of a module beside the tested calls.
    pub module: Limit,
    /// Products of cards up to 2 to this are tried whole.
    pub most: u32,
}

/// A disagreement: the whole history, and what was wrong.
pub struct Failure {
    pub history: Vec<Op>,
    pub what: String,
}

/// The store under test and the one beside it.
#[derive(Clone, Copy)]
pub struct Pair<'a>(pub &'a dyn Store, pub &'a dyn Store);

impl Pair<'_> {
    /// The shortest form of a failing history that fails in the same way, as
    /// far as the words of the message tell.
    pub fn smallest(&self, failure: Failure) -> Failure {
        let fails = |list: &[Op]| {
            let (_, wrong) = fault(self.0, self.1, list);
            let same = wrong.filter(|(_, what)| same_kind(what, &failure.what));
            same.map(|(at, _)| at)
        };
        let history = shrink(failure.history.clone(), fails);
        let what = fault(self.0, self.1, &history).1;
        let what = what.map_or(failure.what, |(_, what)| what);
        Failure { history, what }
    }
}

/// Whether two messages begin with the same three words, numbers aside.
fn same_kind(one: &str, other: &str) -> bool {
    let words = |text: &str| -> Vec<String> {
        let words = text.split_whitespace().take(3);
        let no_digits = |word: &str| word.replace(|c: char| c.is_ascii_digit(), "");
        words.map(no_digits).collect()
    };
    words(one) == words(other)
}

/// The parts in order.
pub const PARTS: [&str; 6] = [
    "random",
    "exhaustive",
    "edges",
    "pages",
    "hostile",
    "module",
];

/// Runs some of the parts in order, and none after one with a disagreement;
/// `progress` is told of each part while it runs.
pub fn run(
    names: &[&str],
    pair: Pair,
    plan: &Plan,
    progress: &(dyn Fn(&str, Tally) + Sync),
) -> (Vec<Row>, Vec<Failure>) {
    let cards = hostile::Cards::small();
    let (fixed, scripts, paged) = (exhaustive::all(plan.most), edges::all(), pages::all());
    let dice = |part, i| Dice::new(Dice::seed_of(plan.seed, part, i));
    let every = Limit::Histories(u64::MAX);
    let tested = |history: &[Op]| fault(pair.0, pair.1, history);
    let parts: [(&'static str, &Runner, Limit, &Source); 6] = [
        (PARTS[0], &tested, plan.random, &|i| {
            Some(histories::random(&mut dice(1, i), 66))
        }),
        (PARTS[1], &tested, every, &|i| {
            fixed.get(i as usize).cloned()
        }),
        (PARTS[2], &tested, every, &|i| {
            scripts.get(i as usize).cloned()
        }),
        (PARTS[3], &tested, every, &|i| {
            paged.get(i as usize).cloned()
        }),
        (PARTS[4], &tested, plan.hostile, &|i| {
            Some(hostile::random(&mut dice(2, i), &cards))
        }),
        (PARTS[5], &twin_fault, plan.module, &|i| {
            Some(twin_history(plan, i))
        }),
    ];
    let mut rows = Vec::new();
    let mut failures = Vec::new();
    for (part, runner, limit, source) in parts {
        if !names.contains(&part) {
            continue;
        }
        let (row, failed) = run_part(part, runner, limit, source, &|tally| progress(part, tally));
        rows.push(row);
        failures = failed;
        if !failures.is_empty() {
            break;
        }
    }
    (rows, failures)
}

/// Runs the part "module" with another module beside the tested calls.
pub fn run_twin(start: &Start, plan: &Plan) -> (Row, Vec<Failure>) {
    let runner = |history: &[Op]| twin_fault_of(start, history);
    let source = |i| Some(twin_history(plan, i));
    run_part(PARTS[5], &runner, plan.module, &source, &|_| ())
}

/// The history of a number in that part.
fn twin_history(plan: &Plan, i: u64) -> Vec<Op> {
    histories::random(&mut Dice::new(Dice::seed_of(plan.seed, 3, i)), 66)
}

/// The history of a number, if there is one.
type Source<'a> = dyn Fn(u64) -> Option<Vec<Op>> + Sync + 'a;

/// Runs a history: what was counted, and the first line with a disagreement.
type Runner<'a> = dyn Fn(&[Op]) -> (Tally, Option<(usize, String)>) + Sync + 'a;

/// What the cores share while a part runs.
struct Shared {
    next: AtomicU64,
    stop: AtomicBool,
    done: Mutex<(Tally, Vec<Failure>)>,
}

fn run_part(
    part: &'static str,
    runner: &Runner,
    limit: Limit,
    source: &Source,
    progress: &(dyn Fn(Tally) + Sync),
) -> (Row, Vec<Failure>) {
    let begun = Instant::now();
    let shared = Shared {
        next: AtomicU64::new(0),
        stop: AtomicBool::new(false),
        done: Mutex::new((Tally::default(), Vec::new())),
    };
    let cores = thread::available_parallelism().map_or(1, |n| n.get().min(16));
    thread::scope(|scope| {
        for _ in 0..cores {
            scope.spawn(|| work(runner, limit, source, begun, &shared, progress));
        }
    });
    let (tally, failures) = shared.done.into_inner().expect("no core panicked");
    let row = Row {
        part,
        tally,
        disagreements: failures.len() as u64,
        seconds: begun.elapsed().as_secs_f64(),
    };
    (row, failures)
}

/// Takes histories until there are no more, the limit is met, or one fails.
fn work(
    runner: &Runner,
    limit: Limit,
    source: &Source,
    begun: Instant,
    shared: &Shared,
    progress: &(dyn Fn(Tally) + Sync),
) {
    while !shared.stop.load(Ordering::Relaxed) {
        let i = shared.next.fetch_add(1, Ordering::Relaxed);
        let over = match limit {
            Limit::Histories(most) => i >= most,
            Limit::Time(time) => begun.elapsed() >= time,
        };
        let Some(history) = source(i).filter(|_| !over) else {
            return;
        };
        let (tally, wrong) = runner(&history);
        let mut done = shared.done.lock().expect("no core panicked");
        done.0 += tally;
        progress(done.0);
        if let Some((_, what)) = wrong {
            done.1.push(Failure { history, what });
            shared.stop.store(true, Ordering::Relaxed);
        }
    }
}
