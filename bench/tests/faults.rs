//! The cut bench finds stores that are wrong on purpose, and gives a short
//! history that shows it.

#[path = "common/paged.rs"]
mod paged;
#[path = "common/twins.rs"]
mod twins;
#[path = "common/wrong.rs"]
mod wrong;

use bench::cutbench::parts::{run, run_twin, Failure, Limit, Pair, Plan, PARTS};
use bench::cutbench::{fault, history, shrink, text, twin_fault, twin_fault_of, Op};
use bench::fitting::Module;
use bench::store::{Plain, Proved};
use twins::{Fault, WrongModule};
use wrong::Wrong;

fn first_failure(parts: &[&str], pair: Pair, histories: u64) -> Option<Failure> {
    let plan = Plan {
        seed: 1,
        random: Limit::Histories(histories),
        hostile: Limit::Histories(histories),
        module: Limit::Histories(0),
        most: 0,
    };
    run(parts, pair, &plan, &|_, _| ()).1.into_iter().next()
}

fn found(pair: Pair) -> Failure {
    found_by(&PARTS, pair)
}

/// The failure in its shortest form, which is looked at.
fn found_by(parts: &[&str], pair: Pair) -> Failure {
    let failure = first_failure(parts, pair, 300).expect("the fault is found");
    let whole = failure.history.len();
    let small = pair.smallest(failure);
    assert!(small.history.len() <= whole);
    println!("{}\n{}", small.what, text(&small.history));
    assert!(small.history.len() <= 12, "{}", text(&small.history));
    for i in 0..small.history.len() {
        let mut shorter = small.history.clone();
        shorter.remove(i);
        let wrong = fault(pair.0, pair.1, &shorter).1;
        assert!(wrong.is_none_or(|(_, what)| what != small.what));
    }
    let again = history(&text(&small.history)).expect("its own text is read");
    assert_eq!(again, small.history);
    let (_, wrong) = fault(pair.0, pair.1, &again);
    assert_eq!(wrong, Some((again.len() - 1, small.what.clone())));
    assert_eq!(fault(&Plain, &Plain, &again).1, None);
    assert_eq!(fault(&Proved, &Plain, &again).1, None);
    small
}

fn has_cut(list: &[Op]) -> bool {
    let cut = |op: &Op| {
        matches!(
            op,
            Op::Try(_) | Op::All(_) | Op::Exactly(..) | Op::AllIn(..) | Op::Cut(_) | Op::CutIn(..)
        )
    };
    list.iter().any(cut)
}

/// A store beside itself agrees in every byte: the cuts alone must tell.
#[test]
fn cuts_alone_find_what_a_cut_shows() {
    for wrong in [Wrong::TableFirst, Wrong::Reuses, Wrong::InPlace] {
        let small = found(Pair(&wrong, &wrong));
        assert!(has_cut(&small.history), "{wrong:?}");
        assert!(small.what.starts_with("a card"), "{}", small.what);
    }
}

#[test]
fn reading_back_finds_syncs_that_only_say_so_and_made_up_counts() {
    for wrong in [Wrong::FirstSyncOnly, Wrong::MakesUpFree] {
        found(Pair(&wrong, &wrong));
    }
}

/// Beside themselves: a table holds rubbish, and a session's files are known.
#[test]
fn lists_that_touch_or_leave_out_a_line_are_found() {
    for wrong in [Wrong::ListsPast, Wrong::ListsShort] {
        let small = found(Pair(&wrong, &wrong));
        assert!(small.what.starts_with("list "), "{}", small.what);
    }
}

/// Beside themselves: the figures add up, a put of one sector finds room just
/// where free is not 0, and a refusal leaves the output.
#[test]
fn wrong_free_figures_are_found() {
    for (wrong, what) in [
        (Wrong::OldFree, "put of one sector gives 8 with free"),
        (Wrong::WaitsForAll, "free and waiting do not add up"),
        (Wrong::FreeWrites, "free refuses with"),
    ] {
        let small = found(Pair(&wrong, &wrong));
        assert!(small.what.starts_with(what), "{}", small.what);
    }
    for wrong in [Wrong::OldFree, Wrong::WaitsForAll, Wrong::FreeWrites] {
        let small = found(Pair(&wrong, &Plain));
        assert!(small.what.starts_with("free "), "{}", small.what);
    }
}

#[test]
fn comparing_finds_every_wrong_byte_and_number() {
    for wrong in [
        Wrong::Reuses,
        Wrong::InPlace,
        Wrong::FirstSyncOnly,
        Wrong::LandsBeside,
        Wrong::MarksRefusals,
        Wrong::MakesUpFree,
        Wrong::Says2As0,
        Wrong::ListsPast,
        Wrong::ListsShort,
    ] {
        found(Pair(&wrong, &Plain));
    }
}

/// The store writes what it should and every byte agrees: a sector that a land
/// brought to the card before is not flushed, and the cuts tell (docs/DRIVER.md,
/// point 5).
#[test]
fn a_driver_that_flushes_only_the_syncs_own_writes_is_found() {
    let wrong = Wrong::FlushesOwn;
    let small = found(Pair(&wrong, &wrong));
    assert!(small.what.starts_with("a card "), "{}", small.what);
    assert!(has_cut(&small.history));
    let lands = |op: &Op| matches!(op, Op::Land(_));
    assert!(small.history.iter().any(lands));
}

/// Beside themselves: the cuts, the free figures, the outputs full of rubbish and
/// the bound on the sectors written tell.
#[test]
fn wrong_removes_gets_and_unmounts_are_found() {
    for (wrong, what) in [
        (Wrong::RemovesOld, "a session in order is refused with 2"),
        (
            Wrong::RemoveKeepsBits,
            "a session in order is refused with 2",
        ),
        (Wrong::GetsPast, "get touches another byte"),
        (Wrong::GetsShort, "get into"),
        (Wrong::ReadGetsPast, "get touches another byte"),
        (Wrong::UnmountsOnly, "a card "),
        (Wrong::CountsSector0, "writes "),
        (Wrong::StaysOpen, "unmount leaves the session open"),
    ] {
        let small = found(Pair(&wrong, &wrong));
        assert!(small.what.starts_with(what), "{wrong:?}: {}", small.what);
        found(Pair(&wrong, &Plain));
    }
}

/// Beside themselves where the number tells, which no goal that is taken may
/// change, or a cut; and all of them beside the plain version.
#[test]
fn wrong_goals_are_found() {
    for (wrong, what) in [
        (Wrong::OnlyPastGoal, "goals: put gives 8, and 0"),
        (Wrong::ReusesAtGoal, "a card shows"),
    ] {
        let small = found_by(&["edges"], Pair(&wrong, &wrong));
        assert!(small.what.starts_with(what), "{}", small.what);
    }
    for wrong in [
        Wrong::IgnoresGoal,
        Wrong::PastGoal,
        Wrong::OnlyPastGoal,
        Wrong::GoalBelowF,
        Wrong::GoalOfS,
        Wrong::GoalAfterEntry,
        Wrong::ReusesAtGoal,
    ] {
        let small = found(Pair(&wrong, &Plain));
        let goal = |op: &Op| matches!(op, Op::PutAt { .. });
        assert!(small.history.iter().any(goal), "{wrong:?}");
    }
}

/// On cards of more than one page; beside itself a store that takes a run it
/// should not take then meets a session that does not fit.
#[test]
fn what_is_wrong_with_pages_is_found() {
    for wrong in [
        Wrong::CrossesPages,
        Wrong::OneGroup,
        Wrong::TakesCrossing,
        Wrong::AnyPair,
        Wrong::PastGroups,
        Wrong::LaterStamps,
    ] {
        let small = found_by(&["pages"], Pair(&wrong, &Plain));
        assert!(!small.what.is_empty(), "{wrong:?}");
    }
    for wrong in [Wrong::CrossesPages, Wrong::OneGroup] {
        let small = found_by(&["pages"], Pair(&wrong, &wrong));
        assert!(small.what.contains("refused"), "{}", small.what);
    }
}

/// Modules without the fit test that are wrong otherwise, beside the tested
/// calls; the proved module is alike in the same short history.
#[test]
fn wrong_modules_are_found_by_the_part_module() {
    for (wrong, what) in [
        (Fault::AnyName, "the module's numbers differ: 5"),
        (Fault::ListsLess, "the module's counts differ"),
        (Fault::UsesOldSession, "the module's sessions differ"),
    ] {
        let start = move |module: Module| -> Box<dyn bench::cutbench::Twin> {
            Box::new(WrongModule(wrong, module))
        };
        let plan = Plan {
            seed: 1,
            random: Limit::Histories(0),
            hostile: Limit::Histories(0),
            module: Limit::Histories(300),
            most: 0,
        };
        let failure = run_twin(&start, &plan).1.into_iter().next();
        let failure = failure.expect("the fault is found");
        assert!(
            failure.what.starts_with(what),
            "{wrong:?}: {}",
            failure.what
        );
        let fails = |list: &[Op]| {
            let (_, wrong) = twin_fault_of(&start, list);
            wrong.filter(|(_, w)| w.starts_with(what)).map(|(at, _)| at)
        };
        let small = shrink(failure.history, fails);
        println!("{wrong:?}\n{}", text(&small));
        assert!(small.len() <= 6, "{}", text(&small));
        assert_eq!(fails(&small), Some(small.len() - 1));
        assert_eq!(twin_fault(&small).1, None);
    }
}

#[test]
fn twelve_unsettled_sectors_make_4096_cards() {
    let nine = "fresh 30 1 1; mount; put b 4608 2; sync; put b 4608 3; exactly 12 4096";
    let (tally, wrong) = fault(&Proved, &Plain, &history(nine).expect("a history"));
    assert_eq!(wrong, None);
    assert!(tally.cards >= 4_096);
    let ten = nine.replace("4608 3", "4609 3");
    let (_, wrong) = fault(&Proved, &Plain, &history(&ten).expect("a history"));
    assert_eq!(wrong.map(|(at, _)| at), Some(5));
}

#[test]
fn text_that_is_no_history_is_refused() {
    for bad in [
        "put a",
        "put-at a 1 2",
        "land",
        "list",
        "read-list x",
        "put a 1 2 3",
        "fresh 1 2 x",
        "poke disk 1 2",
        "?",
    ] {
        assert!(history(bad).is_err(), "{bad}");
    }
    let names = "put % 0 1; put %25%3b%23 3 1 # a remark\nremove %00%ff";
    let list = history(names).expect("a history");
    assert_eq!(list.len(), 3);
    assert_eq!(list[2], Op::Remove(vec![0, 255]));
    assert_eq!(history(&text(&list)), Ok(list));
}
