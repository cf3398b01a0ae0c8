//! The cut bench: see `cutbench --help`. Ends with 1 on any disagreement.

use bench::cutbench::parts::{run, Failure, Limit, Pair, Plan, PARTS};
use bench::cutbench::{history, replay, table, text, total, Tally};
use bench::store::{Plain, Proved};
use std::env;
use std::fs;
use std::io::{stderr, ErrorKind, IsTerminal, Write};
use std::process::ExitCode;
use std::sync::Mutex;
use std::time::{Duration, Instant, SystemTime, UNIX_EPOCH};

const PAIR: Pair = Pair(&Proved, &Plain);
const HELP: &str = "\
cutbench                   runs for 120 seconds and more, with a seed from the
                           clock, which is printed
cutbench --seconds N       the parts that have no end of their own take N seconds
                           together; from 60 on larger products of cards are tried
cutbench --seed N          with this seed
cutbench --short           the gate's run: always the same histories
cutbench --replay HISTORY  one history from a file, or given as text, its lines
                           ended by newlines or `;`: tells of each line what it
                           gave: number, count, free and waiting, and the files
cutbench --help            this

Ends with 0 if all agreed, 1 after a disagreement, 2 if it was not understood.";
/// The gate's run.
const SHORT_SEED: u64 = 1;
const DEFAULT_SECONDS: u64 = 120;

fn main() -> ExitCode {
    let arguments: Vec<String> = env::args().skip(1).collect();
    let outcome = match arguments.as_slice() {
        [flag] if flag == "--help" => {
            println!("{HELP}");
            Ok(true)
        }
        [flag, what] if flag == "--replay" => replay_of(what),
        _ => plan(&arguments).map(|plan| bench(&plan)),
    };
    match outcome {
        Ok(true) => ExitCode::SUCCESS,
        Ok(false) => ExitCode::FAILURE,
        Err(fault) => {
            eprintln!("{fault}");
            ExitCode::from(2)
        }
    }
}

fn plan(arguments: &[String]) -> Result<Plan, String> {
    let (mut seed, mut seconds, mut short) = (None, DEFAULT_SECONDS, false);
    let mut rest = arguments.iter();
    while let Some(flag) = rest.next() {
        let mut number = || {
            let text = rest
                .next()
                .ok_or(format!("{flag} wants a number\n{HELP}"))?;
            let parsed = text.parse::<u64>();
            parsed.map_err(|_| format!("{flag} wants a number, not {text}"))
        };
        match flag.as_str() {
            "--short" => short = true,
            "--seed" => seed = Some(number()?),
            "--seconds" => seconds = number()?,
            _ => return Err(format!("{flag} is not understood\n{HELP}")),
        }
    }
    Ok(if short {
        Plan {
            seed: seed.unwrap_or(SHORT_SEED),
            random: Limit::Histories(1_000),
            hostile: Limit::Histories(2_000),
            module: Limit::Histories(500),
            most: 14,
        }
    } else {
        let half = Limit::Time(Duration::from_secs(seconds) / 2);
        Plan {
            seed: seed.unwrap_or_else(from_the_clock),
            random: half,
            hostile: half,
            module: Limit::Time(Duration::from_secs(seconds) / 10),
            most: if seconds < 60 { 14 } else { 20 },
        }
    })
}

fn from_the_clock() -> u64 {
    let now = SystemTime::now().duration_since(UNIX_EPOCH);
    now.map_or(SHORT_SEED, |time| time.as_millis() as u64)
}

/// Runs the plan and prints what came out: whether all agreed.
fn bench(plan: &Plan) -> bool {
    println!("seed {}", plan.seed);
    let shown = stderr().is_terminal();
    let last = Mutex::new(Instant::now());
    let progress = |part: &str, tally: Tally| {
        let mut last = last.lock().expect("no core panicked");
        if shown && last.elapsed() > Duration::from_millis(200) {
            *last = Instant::now();
            let Tally { calls, cards, .. } = tally;
            eprint!("\r{part}: {calls} calls, {cards} cards   ");
            stderr().flush().ok();
        }
    };
    let (rows, failures) = run(&PARTS, PAIR, plan, &progress);
    if shown {
        eprint!("\r{:60}\r", "");
    }
    print!("{}", table(&rows));
    let agreed = failures.is_empty();
    let complete = total(&rows).tally.gave_all();
    if agreed && !complete {
        println!("\na call did not give all of its numbers, or gave another");
    }
    for failure in failures {
        let Failure { history, what } = PAIR.smallest(failure);
        println!("\ndisagreement: {what}\nreplay:\n{}", text(&history));
    }
    agreed && complete
}

/// Runs one history, from a file or as given, and tells what happens.
fn replay_of(what: &str) -> Result<bool, String> {
    let list = match fs::read_to_string(what) {
        Ok(text) => history(&text).map_err(|fault| format!("{what}: {fault}"))?,
        Err(fault) if fault.kind() == ErrorKind::NotFound => {
            let none = |why| format!("{what}: no such file, and no history either: {why}");
            history(what).map_err(none)?
        }
        Err(fault) => return Err(format!("{what}: {fault}")),
    };
    Ok(replay(PAIR, &list, &mut |line| println!("{line}")))
}
