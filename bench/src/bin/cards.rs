//! Writes the stored cards into a folder and their expected reports into one
//! text: `cards [FOLDER [REPORTS]]`. The text has, for each card in rising
//! order of names, a line `== NAME` and then what the reading program prints.
//! Without REPORTS it goes to standard output.

use bench::plain::printed;
use bench::stored::{all, StoredCard};
use std::path::{Path, PathBuf};
use std::process::ExitCode;
use std::{env, fs, io};

const DEFAULT_FOLDER: &str = "../crates/reader_cases/data";
const HELP: &str = "\
cards [FOLDER [REPORTS]]  writes the stored cards into a folder, without one into
                          ../crates/reader_cases/data, and what the reading
                          program must print for each into a file, or prints it
cards --help              this";

fn main() -> ExitCode {
    if env::args().nth(1).as_deref() == Some("--help") {
        println!("{HELP}");
        return ExitCode::SUCCESS;
    }
    let mut arguments = env::args_os().skip(1).map(PathBuf::from);
    let folder = arguments.next().unwrap_or_else(|| DEFAULT_FOLDER.into());
    let reports = arguments.next();
    let cards = all();
    if let Some(card) = cards.iter().find(|c| printed(&c.bytes) != c.expected) {
        eprintln!(
            "{}: the plain version does not print what is expected",
            card.name
        );
        return ExitCode::FAILURE;
    }
    match write_all(&folder, reports.as_deref(), &cards) {
        Ok(()) => ExitCode::SUCCESS,
        Err(fault) => {
            eprintln!("cards: {fault}");
            ExitCode::FAILURE
        }
    }
}

fn write_all(folder: &Path, reports: Option<&Path>, cards: &[StoredCard]) -> io::Result<()> {
    fs::create_dir_all(folder)?;
    for card in cards {
        fs::write(folder.join(card.name), &card.bytes)?;
    }
    let text = report_text(cards);
    match reports {
        Some(path) => fs::write(path, text),
        None => {
            print!("{text}");
            Ok(())
        }
    }
}

fn report_text(cards: &[StoredCard]) -> String {
    let part = |card: &StoredCard| format!("== {}\n{}", card.name, card.expected);
    cards.iter().map(part).collect()
}
