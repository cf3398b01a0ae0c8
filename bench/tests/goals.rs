//! Put with a goal, in the plain version and in the proved store: S = 10,
//! T = 1, D = 1, data 6 to 9.

mod common;

use bench::host::Goal;
use bench::store::{Proved, Store};
use common::{content, Host};

/// Puts in both stores, which must agree, and gives the number.
fn put(host: &mut Host, name: &str, bytes: usize, goal: u32) -> u32 {
    let (session, mut work) = (host.session.encode(), host.work.clone());
    let text = content(bytes);
    let number = Proved.put_at(&session, &mut work, name.as_bytes(), &text, Goal(goal));
    assert_eq!(host.put_at(name, &text, goal), number);
    assert_eq!(host.work, work);
    number
}

/// A goal in the midst of free sectors is itself the start, and one before the
/// data is as goal 0.
#[test]
fn the_first_run_at_or_after_the_goal() {
    for (goal, start) in [(0, 6), (1, 6), (5, 6), (6, 6), (7, 7), (8, 8), (9, 6)] {
        let mut host = Host::small();
        assert_eq!(put(&mut host, "a", 600, goal), 0);
        assert_eq!(host.files(), [format!("a 600 {start} 2")]);
    }
}

/// Where none fits at or after the goal it is the lowest, not the nearest.
#[test]
fn else_the_lowest() {
    let mut host = Host::small();
    assert_eq!(put(&mut host, "a", 1, 9), 0);
    assert_eq!(put(&mut host, "b", 1, 9), 0);
    assert_eq!(put(&mut host, "c", 513, 8), 0);
    assert_eq!(host.files(), ["a 1 9 1", "b 1 6 1", "c 513 7 2"]);
    assert_eq!(put(&mut host, "d", 1, 8), 8);
}

/// A file's own sectors are not free for it, also at its goal.
#[test]
fn the_earlier_sectors_are_not_free() {
    let mut host = Host::small();
    assert_eq!(put(&mut host, "a", 1, 7), 0);
    assert_eq!(put(&mut host, "a", 2, 7), 0);
    assert_eq!(host.files(), ["a 2 8 1"]);
    assert_eq!(host.sync(), 0);
    assert_eq!(put(&mut host, "a", 3, 8), 0);
    assert_eq!(host.files(), ["a 3 9 1"]);
    // 8 is clear in the present view, and still set in the cut view.
    assert_eq!(put(&mut host, "b", 1, 8), 0);
    assert_eq!(host.files(), ["a 3 9 1", "b 1 6 1"]);
}

#[test]
fn no_bytes_start_at_0_whatever_the_goal() {
    let mut host = Host::small();
    for goal in [0, 5, 9] {
        assert_eq!(put(&mut host, "a", 0, goal), 0);
        assert_eq!(host.files(), ["a 0 0 0"]);
    }
    assert_eq!(put(&mut host, "a", 0, 10), 11);
}
