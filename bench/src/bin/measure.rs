//! Measures the functions for a host: see `measure --help`.

use bench::measure::{self, Marks, Progress, Row, PARTS, STACK, TABLES};
use std::io::{stderr, IsTerminal, Write};
use std::path::{Path, PathBuf};
use std::process::ExitCode;
use std::{env, fs};

const HELP: &str = "\
measure                 prints all tables
measure PAGE            puts them into a page, between its marks, and writes
                        bench.svg beside it
measure --only PART ..  prints some parts: fit free sync mount goal untested
                        growth calls
measure --rows          prints the rows of the long table as lines of text, cells
                        ended by tabs: S,T,D; directory; call; number; proved,
                        plain and one pass in ns. The first line is the processor
measure --beside FILE   measures the rows and prints them beside those of FILE,
                        which `measure --rows` of another tree wrote
measure --stack         prints the stack alone
measure --stack PAGE    puts it into a page; x86-64 code only
measure --help          this

The tables stand beside the rows of an earlier tree in before.rows, in the
package's folder, where that file is and is of this processor.";

/// The rows of an earlier tree.
const BEFORE: &str = concat!(env!("CARGO_MANIFEST_DIR"), "/before.rows");

fn main() -> ExitCode {
    let arguments: Vec<String> = env::args().skip(1).collect();
    let words: Vec<&str> = arguments.iter().map(String::as_str).collect();
    let outcome = run(&words);
    if stderr().is_terminal() {
        eprint!("\r{:60}\r", "");
    }
    match outcome {
        Ok(()) => ExitCode::SUCCESS,
        Err(fault) => {
            eprintln!("measure: {fault}");
            ExitCode::FAILURE
        }
    }
}

fn run(words: &[&str]) -> Result<(), String> {
    match words {
        ["--help"] => println!("{HELP}"),
        ["--rows"] => print!("{}", measure::rows_text(&measure::rows(progress()))),
        ["--beside", file] => {
            let before = rows_of(Path::new(file))?;
            let rows = measure::rows(progress());
            print!("{}", measure::beside(&rows, &before));
        }
        ["--stack"] => print!("{}", measure::stacks()),
        ["--stack", page] => return stack_into(Path::new(page)),
        ["--only", parts @ ..] if !parts.is_empty() && parts.iter().all(|p| PARTS.contains(p)) => {
            print!("{}", measure::take(parts, &before(), progress()).tables);
        }
        [] => print!("{}", measure::take(&PARTS, &before(), progress()).tables),
        [page] if !page.starts_with('-') => return tables_into(Path::new(page)),
        _ => return Err(format!("not understood\n{HELP}")),
    }
    Ok(())
}

fn tables_into(page: &Path) -> Result<(), String> {
    checked(page, &TABLES)?;
    let taken = measure::take(&PARTS, &before(), progress());
    put(page, &TABLES, &taken.tables)?;
    let picture: PathBuf = page.with_file_name("bench.svg");
    write(&picture, &taken.picture.unwrap_or_default())
}

fn stack_into(page: &Path) -> Result<(), String> {
    if !measure::OWN {
        return Err("the page's stack is that of the x86-64 code; source .ci/x86-64 first".into());
    }
    checked(page, &STACK)?;
    put(page, &STACK, &measure::stacks())
}

/// The page has the marks, so that nothing is measured in vain.
fn checked(page: &Path, marks: &Marks) -> Result<(), String> {
    let none = || format!("{} has no marks for this", page.display());
    marks.put(&read(page)?, "").map(|_| ()).ok_or_else(none)
}

fn put(page: &Path, marks: &Marks, text: &str) -> Result<(), String> {
    let new = marks.put(&read(page)?, text).unwrap_or_default();
    write(page, &new)
}

fn rows_of(file: &Path) -> Result<Vec<Row>, String> {
    let rows = measure::rows_before(&read(file)?);
    rows.map_err(|fault| format!("{}: {fault}", file.display()))
}

/// The rows of the earlier tree, or a word on why there are none.
fn before() -> Vec<Row> {
    rows_of(Path::new(BEFORE)).unwrap_or_else(|fault| {
        eprintln!("measure: no rows before: {fault}");
        Vec::new()
    })
}

fn read(file: &Path) -> Result<String, String> {
    fs::read_to_string(file).map_err(|fault| format!("{}: {fault}", file.display()))
}

fn write(file: &Path, text: &str) -> Result<(), String> {
    fs::write(file, text).map_err(|fault| format!("{}: {fault}", file.display()))
}

/// Tells on standard error what is being measured: a line a part, and of a long
/// one how many rows are done.
fn progress() -> Progress<'static> {
    &|part, done, all| {
        let rows = match all {
            1 => String::new(),
            _ => format!(", row {} of {all}", done + 1),
        };
        if stderr().is_terminal() {
            eprint!("\rmeasuring {part}{rows}{:20}", "");
            stderr().flush().ok();
        } else if done % 50 == 0 {
            eprintln!("measuring {part}{rows}");
        }
    }
}
