//! The dumps of `docs/FORMAT.md` are those of the plain version, to the byte.
//! With `--nocapture` this prints them.

mod common;

use bench::plain::{self, steps, Session};
use bench::stored;
use common::{fresh_card, shown, Host};
use std::fs;
use std::path::Path;

/// A line of `od -A d -t x1`: a place, and sixteen bytes.
fn line(i: usize, part: &[u8]) -> String {
    let bytes: String = part.iter().map(|byte| format!(" {byte:02x}")).collect();
    format!("{:07}{bytes}", 16 * i)
}

/// All such lines, with no length at the end.
fn lines(bytes: &[u8]) -> Vec<String> {
    let parts = bytes.chunks(16).enumerate();
    parts.map(|(i, part)| line(i, part)).collect()
}

/// What `od -A d -t x1` prints: lines with the bytes of the one before are one
/// star, and the length comes last.
fn od(bytes: &[u8]) -> Vec<String> {
    let mut list: Vec<String> = Vec::new();
    let mut before: &[u8] = &[];
    for (i, part) in bytes.chunks(16).enumerate() {
        if part != before {
            list.push(line(i, part));
        } else if list.last().is_some_and(|last| last != "*") {
            list.push("*".into());
        }
        before = part;
    }
    list.push(format!("{:07}", bytes.len()));
    list
}

/// The block of the page that follows a mark, line by line.
fn block(mark: &str) -> Vec<String> {
    let path = Path::new(env!("CARGO_MANIFEST_DIR")).join("../docs/FORMAT.md");
    let page = fs::read_to_string(path).expect("the page");
    let (_, rest) = page
        .split_once(&format!("<!-- {mark} -->\n"))
        .expect("the mark");
    let block = rest.lines().skip_while(|line| line.is_empty());
    let inside = block.take_while(|line| line.starts_with("    "));
    inside.map(|line| line.trim().to_string()).collect()
}

fn must_be(mark: &str, dump: &[String]) {
    println!("{mark}\n{}\n", dump.join("\n"));
    assert_eq!(block(mark), dump, "{mark}");
}

/// The reading program's example: a session that has put one file.
fn left() -> Host {
    let mut host = Host::small();
    assert_eq!(host.put("left", &[7; 513]), 0);
    host
}

#[test]
fn the_worked_card() {
    let mut host = left();
    assert_eq!(host.unmount(), 0);
    must_be("worked", &od(&host.card));
    let cards = stored::all();
    let stored = cards.iter().find(|card| card.name == "left");
    assert_eq!(stored.map(|card| &card.bytes), Some(&host.card));
    let report: Vec<String> = plain::printed(&host.card)
        .lines()
        .map(String::from)
        .collect();
    must_be("report", &report);
}

#[test]
fn the_worked_card_cut_before_its_table_sector() {
    let mut host = left();
    let mut cut = host.card.clone();
    let before_table = steps::sync_cut(&host.session, &mut cut, &host.work, 5);
    assert_eq!((before_table, host.unmount()), (0, 0));
    let (cut_lines, whole) = (lines(&cut), lines(&host.card));
    let differ = cut_lines.into_iter().zip(whole).filter(|(a, b)| a != b);
    let differ: Vec<String> = differ.map(|(a, _)| a).collect();
    must_be("cut", &differ);
    assert_eq!(plain::read(&cut).map(|r| (r.files, r.free)), Ok((0, 4)));
    assert_eq!(host.session, Session::Closed);
}

#[test]
fn a_fresh_card_of_two_pages() {
    must_be("two pages", &od(&fresh_card(4_097, 1, 1)));
}

#[test]
fn a_put_that_changes_two_groups() {
    let mut host = Host::mount(fresh_card(4_097, 1, 1));
    host.store("mask", 512 * 4_087);
    host.store("a", 512);
    assert_eq!(host.sync(), 0);
    let index = |host: &Host| lines(&host.work[..1_056])[64..].to_vec();
    must_be("index before", &index(&host));
    assert_eq!(host.files(), ["mask 2092544 8 4087", "a 512 4095 1"]);
    host.store("a", 100);
    must_be("index after", &index(&host));
    assert_eq!(host.files(), ["mask 2092544 8 4087", "a 100 4096 1"]);
    assert_eq!(shown(&host.card)[1], "a 512 4095 1");
}
