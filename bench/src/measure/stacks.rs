//! The stack that calls use.

use super::bed::{Bed, Call, Directory, Geometry, CALLS, CARDS};
use super::markdown::{grouped, table};
use crate::stack;
use crate::store::{Plain, Proved, Store};

/// Whether the code that runs is the archives' own.
pub const OWN: bool = cfg!(target_arch = "x86_64");

/// The most stack of each call on any of the cards: bytes of the compiled code,
/// the same on any machine that runs it.
pub fn stacks() -> String {
    let beds: Vec<Bed> = CARDS.iter().flat_map(|card| filled(*card)).collect();
    let mut rows = Vec::new();
    for call in CALLS {
        let most = [&Proved as &dyn Store, &Plain].map(|store| most_of(store, call, &beds));
        let [proved, plain] = most.map(|bytes| grouped(bytes as u32));
        rows.push(vec![call.name(), proved, plain]);
    }
    let of = if OWN {
        "the x86-64 code, that of the archives".to_string()
    } else {
        format!(
            "code for {}, not that of the archives for x86-64",
            std::env::consts::ARCH
        )
    };
    format!(
        "Bytes of {of}, from the caller's frame down: the most over all cards, fresh and full. A\n\
         call that does nothing reads {}.\n\n{}",
        stack::floor(),
        table(1, &["call", "proved", "plain"], &rows)
    )
}

fn filled(geometry: Geometry) -> [Bed; 2] {
    [Directory::Fresh, Directory::Full].map(|directory| Bed::filled(geometry, directory))
}

fn most_of(store: &dyn Store, call: Call, beds: &[Bed]) -> usize {
    let content = vec![7; call.content_bytes()];
    let used = beds.iter().map(|filled| {
        let mut bed = filled.ready(call);
        stack::used_by(&mut || {
            bed.call(store, call, &content);
        })
    });
    used.max().unwrap_or(0)
}
