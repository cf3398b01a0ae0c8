//! Every name on every page stands where the page says: `CRATE/FILE` is a file
//! of definitions, laws or an edit, a name before `(CRATE/FILE)` is declared in
//! that file, and `crate::function` is a function of that crate.

use std::collections::BTreeSet;
use std::fs;
use std::path::{Path, PathBuf};

fn root() -> PathBuf {
    Path::new(env!("CARGO_MANIFEST_DIR")).join("..")
}

/// The pages: the README and all of docs/, by name with their text.
fn pages() -> Vec<(String, String)> {
    let mut files = vec![root().join("README.md")];
    let docs = fs::read_dir(root().join("docs")).expect("docs");
    files.extend(docs.map(|entry| entry.expect("a page").path()));
    files.sort();
    let pages = files
        .into_iter()
        .filter(|file| file.extension().is_some_and(|e| e == "md"));
    pages
        .map(|file| {
            let text = fs::read_to_string(&file).expect("a page");
            (
                file.file_name().unwrap().to_string_lossy().into_owned(),
                text,
            )
        })
        .collect()
}

fn crates() -> BTreeSet<String> {
    let entries = fs::read_dir(root().join("crates")).expect("crates");
    entries
        .map(|entry| {
            entry
                .expect("a crate")
                .file_name()
                .to_string_lossy()
                .into_owned()
        })
        .collect()
}

fn part_of_name(c: char) -> bool {
    c.is_alphanumeric() || c == '_' || c == '-' || c == '\''
}

/// The text of crate/file, wherever it stands in the crate; of all that have the
/// name, if a folder has it too.
fn antt(krate: &str, file: &str) -> Option<String> {
    let home = root().join("crates").join(krate);
    let mut folders = vec![home.join("specs"), home.join("proofs")];
    let mut found = Vec::new();
    while let Some(folder) = folders.pop() {
        found.extend(fs::read_to_string(folder.join(format!("{file}.antt"))));
        let Ok(entries) = fs::read_dir(&folder) else {
            continue;
        };
        folders.extend(entries.flatten().map(|e| e.path()).filter(|p| p.is_dir()));
    }
    (!found.is_empty()).then(|| found.join("\n"))
}

fn edit(krate: &str, file: &str) -> bool {
    let folder = root().join("crates").join(krate).join("must-fail");
    folder.join(format!("{file}.edit")).exists()
}

/// Whether a file declares a name: at the start of a line or behind words such
/// as `pub`, as a field, a record, an operator or a name passed on.
fn declares(text: &str, name: &str) -> bool {
    text.lines().any(|line| {
        let words: Vec<&str> = line
            .split(|c: char| !part_of_name(c))
            .filter(|word| !word.is_empty())
            .collect();
        let lead = ["pub", "unfoldable", "abbrev", "record", "data", "ghost"];
        let first = words.iter().find(|word| !lead.contains(word));
        let passed = line.contains("pub use") && words.contains(&name);
        passed || first == Some(&name)
    })
}

/// The places of a page: each `CRATE/FILE` with where it begins and ends.
fn places<'a>(text: &'a str, crates: &BTreeSet<String>) -> Vec<(usize, usize, &'a str, &'a str)> {
    let mut found = Vec::new();
    for (at, _) in text.match_indices('/') {
        let begin = text[..at]
            .char_indices()
            .rev()
            .take_while(|(_, c)| part_of_name(*c))
            .last()
            .map_or(at, |(i, _)| i);
        let length = text[at + 1..].find(|c| !part_of_name(c));
        let end = length.map_or(text.len(), |length| at + 1 + length);
        let (krate, file) = (&text[begin..at], &text[at + 1..end]);
        let path = text[..begin].ends_with('/')
            || text[end..].starts_with(['/', '.']) && !text[end..].starts_with(". ");
        let sentence = text[end..].starts_with(".\n") || text[end..].starts_with(". ");
        if crates.contains(krate) && !file.is_empty() && (!path || sentence) {
            found.push((begin, end, krate, file));
        }
    }
    found
}

/// The names in backquotes that stand, joined by commas, before an opening
/// bracket at `at`.
fn names_before(text: &str, at: usize) -> Vec<&str> {
    let mut names = Vec::new();
    let mut rest = text[..at].trim_end();
    while let Some(inner) = rest.strip_suffix('`') {
        let Some(open) = inner.rfind('`') else { break };
        names.push(&inner[open + 1..]);
        rest = inner[..open].trim_end();
        let joined = [",", " and", " over"]
            .iter()
            .find_map(|word| rest.strip_suffix(word));
        let Some(before) = joined else { break };
        rest = before.trim_end();
    }
    names.retain(|name| name.chars().all(part_of_name));
    names
}

#[test]
fn files_and_their_names() {
    let crates = crates();
    let mut wrong = Vec::new();
    let mut tried = 0;
    for (page, text) in pages() {
        for (begin, _, krate, file) in places(&text, &crates) {
            let lower = file.starts_with(|c: char| c.is_lowercase());
            if ["src", "specs", "proofs", "stdin", "stdout"].contains(&file) {
                continue;
            }
            tried += 1;
            if lower {
                if !edit(krate, file) {
                    wrong.push(format!("{page}: no edit {krate}/{file}"));
                }
                continue;
            }
            let Some(source) = antt(krate, file) else {
                wrong.push(format!("{page}: no file {krate}/{file}"));
                continue;
            };
            if !text[..begin].ends_with('(') {
                continue;
            }
            // A bracket with several files: a name may stand in any of them.
            let bracket = &text[begin..begin + text[begin..].find(')').unwrap_or(0)];
            let others: Vec<String> = bracket
                .split([',', ';'])
                .filter_map(|word| antt(krate, word.trim()))
                .collect();
            for name in names_before(&text, begin - 1) {
                tried += 1;
                if !declares(&source, name) && !others.iter().any(|other| declares(other, name)) {
                    wrong.push(format!("{page}: {name} is not declared in {krate}/{file}"));
                }
            }
        }
    }
    assert!(wrong.is_empty(), "{}", wrong.join("\n"));
    assert!(tried > 300, "only {tried} names were found on the pages");
}

#[test]
fn functions() {
    let crates = crates();
    let mut wrong = Vec::new();
    for (page, text) in pages() {
        for (at, _) in text.match_indices("::") {
            let begin = text[..at]
                .char_indices()
                .rev()
                .take_while(|(_, c)| part_of_name(*c))
                .last()
                .map_or(at, |(i, _)| i);
            let krate = &text[begin..at];
            let end = text[at + 2..]
                .find(|c| !part_of_name(c))
                .map_or(text.len(), |n| at + 2 + n);
            let function = &text[at + 2..end];
            if !crates.contains(krate) || !function.starts_with(|c: char| c.is_lowercase()) {
                continue;
            }
            let file = root().join("crates").join(krate).join("src/lib.rt");
            let source = fs::read_to_string(file).unwrap_or_default();
            let stands = |open: char| source.contains(&format!("fn {function}{open}"));
            if !stands('(') && !stands('<') {
                wrong.push(format!("{page}: no function {krate}::{function}"));
            }
        }
    }
    assert!(wrong.is_empty(), "{}", wrong.join("\n"));
}

/// The lines of a file with text, imports aside.
fn lines_of(file: &Path) -> usize {
    let text = fs::read_to_string(file).expect("a file of definitions");
    let told = |line: &&str| !line.is_empty() && !line.starts_with("use ");
    text.lines().filter(told).count()
}

/// Every file of a crate's specs but the one that names the others.
fn specs_of(krate: &str) -> Vec<PathBuf> {
    let mut folders = vec![root().join("crates").join(krate).join("specs")];
    let mut files = Vec::new();
    while let Some(folder) = folders.pop() {
        let Ok(entries) = fs::read_dir(folder) else {
            continue;
        };
        for path in entries.flatten().map(|entry| entry.path()) {
            if path.is_dir() {
                folders.push(path);
            } else if !path.ends_with("Lib.antt") {
                files.push(path);
            }
        }
    }
    files
}

#[test]
fn what_must_be_believed() {
    let page = fs::read_to_string(root().join("docs/BELIEVE.md")).expect("the page");
    let rows: BTreeSet<(String, usize)> = page
        .lines()
        .filter_map(|line| {
            let mut cells = line.split('|').skip(1).map(str::trim);
            let (file, lines) = (cells.next()?, cells.next()?);
            Some((file.to_string(), lines.parse().ok()?))
        })
        .collect();
    let mut files = BTreeSet::new();
    for krate in crates() {
        for path in specs_of(&krate) {
            let name = path.file_stem().unwrap().to_string_lossy().into_owned();
            files.insert((format!("{krate}/{name}"), lines_of(&path)));
        }
    }
    let wrong: Vec<_> = rows.symmetric_difference(&files).collect();
    assert!(wrong.is_empty(), "{wrong:?}");
    let sum: usize = files.iter().map(|(_, lines)| lines).sum();
    let told = page.lines().last().unwrap_or("").replace(',', "");
    assert_eq!(told, format!("{} files {sum} lines.", files.len()));
}
