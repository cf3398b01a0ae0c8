//! Runs a history, and makes one that shows a disagreement shorter.

use super::op::Op;
use super::summary::Tally;
use super::world::World;
use crate::store::Store;

/// Runs a history: what was counted, and the first line with a disagreement,
/// counted from 0, with what is wrong.
pub fn fault(
    tested: &dyn Store,
    beside: &dyn Store,
    history: &[Op],
) -> (Tally, Option<(usize, String)>) {
    let mut world = World::new(tested, beside);
    world.tally.histories = 1;
    for (i, op) in history.iter().enumerate() {
        if let Err(what) = world.run(op) {
            return (world.tally, Some((i, what)));
        }
    }
    (world.tally, None)
}

/// A history that still fails and from which no line can be dropped, with
/// contents as short as can be: parts of falling length are dropped as long
/// as what is left fails.
pub fn shrink(mut history: Vec<Op>, fails: impl Fn(&[Op]) -> Option<usize>) -> Vec<Op> {
    loop {
        let length = history.len();
        if let Some(at) = fails(&history) {
            history.truncate(at + 1);
        }
        let mut part = history.len() / 2;
        while part > 0 {
            drop_parts(&mut history, part, &fails);
            part /= 2;
        }
        if history.len() == length {
            break;
        }
    }
    for i in 0..history.len() {
        shorten(&mut history, i, &fails);
    }
    history
}

fn drop_parts(history: &mut Vec<Op>, part: usize, fails: &impl Fn(&[Op]) -> Option<usize>) {
    let mut at = history.len().saturating_sub(part);
    loop {
        let mut shorter = history.clone();
        shorter.drain(at..(at + part).min(history.len()));
        if fails(&shorter).is_some() {
            *history = shorter;
        }
        if at == 0 {
            return;
        }
        at = at.saturating_sub(part).min(history.len());
    }
}

/// Makes the content of a put shorter.
fn shorten(history: &mut Vec<Op>, i: usize, fails: &impl Fn(&[Op]) -> Option<usize>) {
    for fewer in [0, 1, 512, 513, 1_024] {
        let mut shorter = history.clone();
        match &mut shorter[i] {
            Op::Put { bytes, .. } | Op::PutAt { bytes, .. } if *bytes > fewer => *bytes = fewer,
            _ => return,
        }
        if fails(&shorter).is_some() {
            *history = shorter;
            return;
        }
    }
}
