//! What no contract can say is read off the source here: which buffers the theorem on tight contracts must list, that mount, sync and
//! unmount hand the card on in one line, and that what C links is the functions themselves.

use std::collections::BTreeMap;
use std::fs;
use std::path::{Path, PathBuf};

/// A function of a crate: its parameters, the lines from its result to its body, whether it asks something of its caller, and the lines
/// of its body.
struct Function {
    params: Vec<(String, String)>,
    clauses: Vec<String>,
    public: bool,
    requires: bool,
    body: Vec<String>,
}

impl Function {
    /// The places of the parameters that are lent to be written.
    fn written(&self) -> Vec<usize> {
        let lent = |(_, kind): &(String, String)| kind.starts_with("&mut ");
        (0..self.params.len())
            .filter(|&i| lent(&self.params[i]))
            .collect()
    }
}

fn crates() -> PathBuf {
    Path::new(env!("CARGO_MANIFEST_DIR")).join("../crates")
}

/// The text between the parenthesis that `text` begins with and the one that closes it, and what follows.
fn bracketed(text: &str) -> (&str, &str) {
    let mut depth = 0;
    for (i, c) in text.char_indices() {
        depth += i32::from(c == '(') - i32::from(c == ')');
        if depth == 0 {
            return (&text[1..i], &text[i + 1..]);
        }
    }
    panic!("a parenthesis is not closed: {text}");
}

/// The functions of a crate by name, in the layout that `rt fmt` holds: a body begins and ends with a brace alone on its line, or begins
/// at the end of the signature.
fn functions(name: &str) -> BTreeMap<String, Function> {
    let source = fs::read_to_string(crates().join(name).join("src/lib.rt"))
        .expect("the crate has a library");
    let mut found = BTreeMap::new();
    let mut rest = source.as_str();
    while let Some(at) = rest.find("fn ") {
        let line = rest[..at].rfind('\n').map_or(0, |i| i + 1);
        let before = rest[line..at].to_string();
        rest = &rest[at + 3..];
        if !["", "pub ", "pub extern \"C\" "].contains(&before.as_str()) {
            continue;
        }
        let open = rest.find('(').expect("a function has parameters");
        let function = rest[..open].to_string();
        let (params, after) = bracketed(&rest[open..]);
        let end = after.find("\n}").expect("a body ends");
        let lines: Vec<&str> = after[..end].lines().collect();
        let start = lines
            .iter()
            .position(|l| *l == "{" || (!l.starts_with(' ') && l.ends_with('{')))
            .expect("a body begins");
        let params = params
            .split(',')
            .filter_map(|p| p.trim().split_once(": "))
            .map(|(n, t)| (n.to_string(), t.to_string()))
            .collect();
        let requires = lines[..start]
            .iter()
            .any(|l| l.trim_start().starts_with("requires"));
        let owned = |part: &[&str]| part.iter().map(|l| (*l).to_string()).collect();
        let (clauses, body) = (owned(&lines[..start]), owned(&lines[start + 1..]));
        found.insert(
            function,
            Function {
                params,
                clauses,
                public: !before.is_empty(),
                requires,
                body,
            },
        );
    }
    found
}

/// The place of the parameter that a path such as `s.1.1.0.now` leads to.
fn place(path: &str) -> usize {
    let steps = path
        .strip_prefix("s.")
        .and_then(|p| p.strip_suffix("0.now"));
    let steps = steps.unwrap_or_else(|| panic!("no path of a parameter: {path}"));
    let count = steps.len() / 2;
    assert_eq!(steps, "1.".repeat(count), "{path}");
    count
}

/// The buffers that a line of tight/ lists as seen at the end: the paths behind the last `λ κs s.`.
fn listed(line: &str) -> Vec<usize> {
    let seen = line.rsplit("λ κs s.").next().expect("what is seen");
    let mut places: Vec<usize> = seen
        .split('∷')
        .map(|p| p.trim().trim_end_matches(')'))
        .filter(|p| *p != "[]")
        .map(place)
        .collect();
    places.sort_unstable();
    places
}

#[test]
fn tight_lists_every_buffer_of_every_public_function() {
    let specs = crates().join("promises_tight/specs");
    let mut tight = BTreeMap::new();
    for file in ["Tight.antt", "TightLists.antt"] {
        let text = fs::read_to_string(specs.join(file)).expect("tight states it");
        for line in text
            .lines()
            .filter(|l| l.trim_start().starts_with("pub ") && l.contains(" : Tight "))
        {
            let function = line
                .split("_is.")
                .next()
                .and_then(|l| l.split(' ').last())
                .expect("a function");
            let twice = tight.insert(function.to_string(), listed(line));
            assert!(twice.is_none(), "{function} stands twice");
        }
    }
    let mut public = 0;
    for name in [
        "card_fresh",
        "store_card",
        "store_edit",
        "store_look",
        "store_listing",
        "card_read",
        "host",
        "lists",
    ] {
        for (function, f) in functions(name) {
            if f.public && !f.requires {
                public += 1;
                assert_eq!(
                    tight.get(&function),
                    Some(&f.written()),
                    "{name}::{function}"
                );
            }
        }
    }
    assert_eq!(
        tight.len(),
        public,
        "a function of tight/ is none of a public crate's"
    );
}

#[test]
fn what_c_links_is_the_functions_themselves() {
    for name in ["host", "lists", "fitting"] {
        let mut inside = functions(name);
        inside.retain(|_, f| f.public);
        let exports = functions(&format!("{name}_c"));
        assert!(inside.keys().eq(exports.keys()), "{name}");
        for (function, f) in &exports {
            let named: Vec<&str> = f.params.iter().map(|(n, _)| n.as_str()).collect();
            let call = format!("    {name}::{function}({})", named.join(", "));
            assert_eq!(f.body, [call], "{name}_c::{function}");
            assert_eq!(f.params, inside[function].params, "{name}_c::{function}");
            assert_eq!(f.clauses, inside[function].clauses, "{name}_c::{function}");
        }
    }
}

#[test]
fn tight_compares_every_inner_call_with_its_public_one() {
    let file = crates().join("promises_tight/specs/Inner.antt");
    let text = fs::read_to_string(file).expect("tight states it");
    let mut inner = 0;
    for name in [
        "store_card",
        "store_edit",
        "store_look",
        "store_listing",
        "fitting",
    ] {
        for (function, f) in functions(name) {
            if f.public && f.requires {
                inner += 1;
                let plain = format!(" {function}.Pre {function}.Post ");
                let lines = format!(".ended (λ M 𝓤 𝓛. {function}.clauses 𝓛) ");
                let stands = text.contains(&plain) || text.contains(&lines);
                assert!(stands, "{name}::{function}");
            }
        }
    }
    let stated = text.matches(" : Inner ").count() + text.matches(" : InnerLines ").count();
    assert_eq!(inner, stated);
}

/// The arguments of a call: the text between its parentheses, at the commas that stand in no other bracket.
fn arguments(text: &str) -> Vec<&str> {
    let mut depth = 0;
    let between = |c: char| {
        depth += i32::from("([{".contains(c)) - i32::from(")]}".contains(c));
        c == ',' && depth == 0
    };
    text.split(between).map(str::trim).collect()
}

/// The lines of a body that hand a buffer on to be written, or write to it themselves.
fn writes(f: &Function, buffer: &str, all: &BTreeMap<String, Function>) -> Vec<String> {
    let hands_on = |line: &str, open: usize| {
        let callee = line[..open]
            .rsplit([' ', ':', '(', '!'])
            .next()
            .unwrap_or("");
        let (inside, _) = bracketed(&line[open..]);
        let at = arguments(inside)
            .iter()
            .position(|a| a.trim_start_matches("&mut ").starts_with(buffer));
        match (at, all.get(callee)) {
            (Some(at), Some(g)) => g.written().contains(&at),
            (Some(_), None) => callee != "len",
            (None, _) => false,
        }
    };
    let writes_here = |line: &str| {
        if line.contains(&format!("{buffer}[")) && !line.contains(&format!("&{buffer}[")) {
            return true;
        }
        line.match_indices('(')
            .any(|(open, _)| hands_on(line, open))
    };
    f.body
        .iter()
        .filter(|l| writes_here(l))
        .map(|l| l.trim().to_string())
        .collect()
}

/// Every function that one of the three calls reaches, by name.
fn reached() -> BTreeMap<String, Function> {
    let mut all = BTreeMap::new();
    for name in [
        "words",
        "sectors",
        "counts",
        "card_sound",
        "session_unfit",
        "store_mounting",
        "store_syncing",
        "store_card",
    ] {
        all.extend(functions(name));
    }
    all
}

#[test]
fn a_call_hands_the_card_on_in_one_line() {
    let all = reached();
    for call in ["mount", "sync", "unmount"] {
        // mount has no session to fit, and so no inner call
        let inners = ["_fitting", "_in", "_steps", "_step"];
        let skipped = usize::from(call == "mount");
        let names = inners[skipped..].iter().map(|end| format!("{call}{end}"));
        let chain: Vec<String> = [call.to_string()].into_iter().chain(names).collect();
        for (from, to) in chain.iter().zip(&chain[1..]) {
            let lines = writes(&all[from], "card", &all);
            assert_eq!(lines.len(), 1, "{from}: {lines:?}");
            assert!(
                lines[0].contains(&format!("{to}(")),
                "{from} hands the card to {to}: {}",
                lines[0]
            );
        }
    }
}

/// Whether a body ends with a line, or with it and the number of writes alone.
fn ends_with(body: &[String], line: &str) -> bool {
    let mut last = body.iter().rev().map(|l| l.trim());
    let first = last.next();
    first == Some(line)
        || (first.is_some_and(|l| l.parse::<u32>().is_ok()) && last.next() == Some(line))
}

/// Whether a loop begins on a line.
fn begins_loop(line: &str) -> bool {
    let words = ["for ", "while ", "loop "];
    words.iter().any(|word| line.trim().starts_with(word))
}

#[test]
fn a_step_writes_at_most_one_sector_on_each_path() {
    let all = reached();
    for step in [
        "mount_step",
        "sync_step",
        "unmount_step",
        "copy_changed",
        "copy_sector",
    ] {
        let f = &all[step];
        let lines = writes(f, "card", &all);
        let Some(last) = lines.len().checked_sub(1) else {
            panic!("{step} writes");
        };
        assert!(!f.body.iter().any(|l| begins_loop(l)), "{step} loops");
        for (i, line) in lines.iter().enumerate() {
            let ends = line.starts_with("return ") || (i == last && ends_with(&f.body, line));
            assert!(ends, "{step} goes on after it wrote: {line}");
            assert!(!line.contains('|'), "{step} writes in a closure: {line}");
            let by = [
                "write_sector(",
                "copy_changed(",
                "copy_sector(",
                "sync_step(",
            ];
            assert!(
                by.iter().any(|b| line.contains(b)),
                "{step} writes a sector by {line}"
            );
        }
    }
    assert_eq!(writes(&all["write_sector"], "card", &all).len(), 1);
}
