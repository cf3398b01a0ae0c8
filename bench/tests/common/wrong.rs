//! Stores that are wrong on purpose. Most look right until a cut.

use crate::paged;
use bench::host::{Answer, Goal, ReportBytes, RoomBytes, SessionBytes};
use bench::plain::{self, set_word, word, Geometry, Line, Room, Session, PAGE_SECTORS, SECTOR};
use bench::store::{Driver, Plain, Store};
use std::borrow::Cow;
use std::ops::Range;

/// What is wrong with a store; all else is the plain version's.
#[derive(Clone, Copy, Debug, PartialEq, Eq)]
pub enum Wrong {
    /// Sync writes the table sector first.
    TableFirst,
    /// Put uses sectors freed since the last sync.
    Reuses,
    /// Put writes over a file of the same length in place.
    InPlace,
    /// Only the first sync of a crash count lands, later ones only say so.
    FirstSyncOnly,
    /// Land takes the next sector.
    LandsBeside,
    /// A put that is refused leaves a mark.
    MarksRefusals,
    /// Reading counts one clear bit too many.
    MakesUpFree,
    /// Mount says 0 where it should say 2.
    Says2As0,
    /// The store is right, and its driver flushes only what a sync itself wrote.
    FlushesOwn,
    /// Remove leaves no old version, so that a cut shows the file no more.
    RemovesOld,
    /// Remove leaves the bits of the sectors set.
    RemoveKeepsBits,
    /// Get fills the rest of its output with zeros.
    GetsPast,
    /// Get says 0 where the output is too short, and fills it.
    GetsShort,
    /// Reading's get fills the rest of its output with zeros.
    ReadGetsPast,
    /// Unmount writes sector 0 and leaves out the sync.
    UnmountsOnly,
    /// Unmount counts sector 0.
    CountsSector0,
    /// Unmount leaves the session open.
    StaysOpen,
    /// List clears the line after the last that it counts.
    ListsPast,
    /// A list with one file more than lines leaves it out and says 0.
    ListsShort,
    /// Free counts the clear bits of the present view, and none that wait.
    OldFree,
    /// Every sector that the cut view has set counts as waiting.
    WaitsForAll,
    /// Free writes its output also where it refuses.
    FreeWrites,
    /// Put takes the lowest run whatever its goal is.
    IgnoresGoal,
    /// Put looks from the sector after its goal.
    PastGoal,
    /// Put finds no room where none is at or after its goal.
    OnlyPastGoal,
    /// Put refuses a goal before the data.
    GoalBelowF,
    /// Put takes a goal of S.
    GoalOfS,
    /// Put looks for an entry before it looks at its goal.
    GoalAfterEntry,
    /// Put with a goal uses sectors that were freed since the last sync.
    ReusesAtGoal,
    /// Put takes a run across a page's end.
    CrossesPages,
    /// A put changes one group where it should change two.
    OneGroup,
    /// Reading and lists take a run across a page's end.
    TakesCrossing,
    /// Reading and lists take A and B of another pair.
    AnyPair,
    /// Reading and lists do not judge the words after the last group.
    PastGroups,
    /// Reading and lists do not ask the range of a later group's stamp.
    LaterStamps,
}

impl Store for Wrong {
    fn make(&self, s: u32, t: u32, d: u32, card: &mut [u8]) -> u32 {
        Plain.make(s, t, d, card)
    }

    fn read(&self, card: &[u8], out: &mut ReportBytes) -> u32 {
        let number = Plain.read(&self.judged(card), out);
        if *self == Wrong::MakesUpFree && number == 0 {
            out[12] = out[12].wrapping_add(1);
        }
        number
    }

    fn read_get(&self, card: &[u8], name: &[u8], out: &mut [u8]) -> Answer {
        let answer = Plain.read_get(card, name, out);
        if *self == Wrong::ReadGetsPast && answer.number == 0 {
            out[answer.count as usize..].fill(0);
        }
        answer
    }

    fn mount(&self, card: &mut [u8], work: &mut [u8], session: &mut SessionBytes) -> u32 {
        match Plain.mount(card, work, session) {
            2 if *self == Wrong::Says2As0 => 0,
            number => number,
        }
    }

    fn put(&self, session: &SessionBytes, work: &mut [u8], name: &[u8], content: &[u8]) -> u32 {
        match self {
            Wrong::Reuses => put_reusing(session, work, name, content),
            Wrong::InPlace => put_in_place(session, work, name, content),
            Wrong::CrossesPages => put_crossing(session, work, name, content),
            Wrong::OneGroup => put_in_one_group(session, work, name, content),
            Wrong::MarksRefusals => {
                let number = Plain.put(session, work, name, content);
                if number != 0 && !work.is_empty() {
                    work[0] ^= 1;
                }
                number
            }
            _ => Plain.put(session, work, name, content),
        }
    }

    fn put_at(
        &self,
        session: &SessionBytes,
        work: &mut [u8],
        name: &[u8],
        content: &[u8],
        goal: Goal,
    ) -> u32 {
        let plain = |work: &mut [u8], goal| Plain.put_at(session, work, name, content, goal);
        let (f, s) = geometry(session).map_or((0, 0), |g| (g.f(), g.s()));
        match self {
            _ if goal == Goal(0) => self.put(session, work, name, content),
            Wrong::Reuses
            | Wrong::InPlace
            | Wrong::CrossesPages
            | Wrong::OneGroup
            | Wrong::MarksRefusals
                if goal.0 < s =>
            {
                self.put(session, work, name, content)
            }
            Wrong::IgnoresGoal if goal.0 < s => plain(work, Goal(0)),
            Wrong::PastGoal if goal.0 + 1 < s => plain(work, Goal(goal.0 + 1)),
            Wrong::OnlyPastGoal => put_only_past(session, work, name, content, goal),
            Wrong::GoalBelowF if goal.0 < f => plain(work, Goal(s)),
            Wrong::GoalOfS if goal.0 == s => plain(work, Goal(0)),
            Wrong::GoalAfterEntry => match Plain.put(session, &mut work.to_vec(), name, content) {
                7 => 7,
                _ => plain(work, goal),
            },
            Wrong::ReusesAtGoal => put_reusing_at(session, work, name, content, goal),
            _ => plain(work, goal),
        }
    }

    fn remove(&self, session: &SessionBytes, work: &mut [u8], name: &[u8]) -> u32 {
        let files = lines(session, work);
        let number = Plain.remove(session, work, name);
        let line = files.iter().find(|line| line.used_name() == name);
        if let (0, Some(line), Some(g)) = (number, line, geometry(session)) {
            match self {
                Wrong::RemovesOld => forget_old(work, &g, line),
                Wrong::RemoveKeepsBits if line.sectors > 0 => {
                    let run = line.start..line.start + line.sectors;
                    paged::change_bits(session, work, &g, run, true);
                }
                _ => {}
            }
        }
        number
    }

    fn get(&self, session: &SessionBytes, work: &[u8], name: &[u8], out: &mut [u8]) -> Answer {
        let answer = Plain.get(session, work, name, out);
        match (self, answer.number) {
            (Wrong::GetsPast, 0) => out[answer.count as usize..].fill(0),
            (Wrong::GetsShort, 10) => {
                let mut all = vec![0; work.len()];
                Plain.get(session, work, name, &mut all);
                out.copy_from_slice(&all[..out.len()]);
                let count = out.len() as u32;
                return Answer { number: 0, count };
            }
            _ => {}
        }
        answer
    }

    fn free(&self, session: &SessionBytes, work: &[u8], out: &mut RoomBytes) -> u32 {
        let number = Plain.free(session, work, out);
        let (free, waiting) = (word(out, 0, 0), word(out, 0, 1));
        let (free, waiting) = match self {
            Wrong::FreeWrites if number != 0 => (0, 0),
            Wrong::OldFree if number == 0 => (free + waiting, 0),
            Wrong::WaitsForAll if number == 0 => {
                let used = |g| paged::used_in_cut(session, work, &g);
                (free, geometry(session).map_or(waiting, used))
            }
            _ => return number,
        };
        *out = Room { free, waiting }.encode();
        number
    }

    fn sync(&self, session: &mut SessionBytes, card: &mut [u8], work: &mut [u8]) -> u32 {
        let before = card.to_vec();
        let number = Plain.sync(session, card, work);
        if *self == Wrong::FirstSyncOnly && number == 0 && word(session, 0, 5) > 2 {
            card.copy_from_slice(&before);
        }
        number
    }

    fn unmount(&self, session: &mut SessionBytes, card: &mut [u8], work: &mut [u8]) -> Answer {
        let (open, before) = (*session, card.to_vec());
        let mut answer = Plain.unmount(session, card, work);
        match self {
            _ if answer.number != 0 => {}
            Wrong::CountsSector0 => answer.count += 1,
            Wrong::StaysOpen => *session = open,
            Wrong::UnmountsOnly => {
                let sector_0: [u8; SECTOR] = card[..SECTOR].try_into().expect("a sector");
                card.copy_from_slice(&before);
                card[..SECTOR].copy_from_slice(&sector_0);
            }
            _ => {}
        }
        answer
    }

    fn land(&self, session: &SessionBytes, card: &mut [u8], work: &[u8], sector: u32) -> u32 {
        let beside = sector ^ u32::from(*self == Wrong::LandsBeside);
        Plain.land(session, card, work, beside)
    }

    fn read_list(&self, card: &[u8], lines: &mut [Line]) -> Answer {
        self.wrong_list(lines, |lines| Plain.read_list(&self.judged(card), lines))
    }

    fn list(&self, session: &SessionBytes, work: &[u8], lines: &mut [Line]) -> Answer {
        self.wrong_list(lines, |lines| {
            Plain.list(session, &self.judged(work), lines)
        })
    }

    fn driver(&self) -> Driver {
        match self {
            Wrong::FlushesOwn => Driver::FlushesOwn,
            _ => Driver::FlushesAll,
        }
    }

    fn mount_steps(&self, card: &mut [u8], work: &[u8], k: u32) -> u32 {
        Plain.mount_steps(card, work, k)
    }

    fn sync_steps(&self, session: &SessionBytes, card: &mut [u8], work: &[u8], k: u32) -> Answer {
        if *self == Wrong::TableFirst && k > 0 {
            return table_first(session, card, work, k);
        }
        Plain.sync_steps(session, card, work, k)
    }

    fn unmount_steps(
        &self,
        session: &SessionBytes,
        card: &mut [u8],
        work: &[u8],
        k: u32,
    ) -> Answer {
        let mut answer = Plain.unmount_steps(session, card, work, k);
        if *self == Wrong::CountsSector0 && answer.number == 0 {
            answer.count += 1;
        }
        answer
    }
}

impl Wrong {
    /// An image in which that is right which the store does not judge.
    fn judged<'a>(&self, image: &'a [u8]) -> Cow<'a, [u8]> {
        let mended = match self {
            Wrong::TakesCrossing => paged::without_crossing(image),
            Wrong::AnyPair => paged::with_own_pairs(image),
            Wrong::PastGroups => paged::with_zeros_past_groups(image),
            Wrong::LaterStamps => paged::with_good_later_stamps(image),
            _ => None,
        };
        mended.map_or(Cow::Borrowed(image), Cow::Owned)
    }

    /// A list, wrong for two of the stores.
    fn wrong_list(&self, lines: &mut [Line], list: impl Fn(&mut [Line]) -> Answer) -> Answer {
        let mut answer = list(lines);
        if *self == Wrong::ListsPast && answer.number == 0 {
            if let Some(line) = lines.get_mut(answer.count as usize) {
                *line = Line::default();
            }
        }
        if *self == Wrong::ListsShort && answer.number == 10 {
            let mut longer = vec![Line::default(); lines.len() + 1];
            if list(&mut longer).number == 0 {
                lines.copy_from_slice(&longer[..lines.len()]);
                answer = Answer {
                    number: 0,
                    count: lines.len() as u32,
                };
            }
        }
        answer
    }
}

/// A sync with the table sector at its first place: then sector 0 and the
/// sectors past the table.
fn table_first(session: &SessionBytes, card: &mut [u8], work: &[u8], k: u32) -> Answer {
    let mut done = card.to_vec();
    let all = Plain.sync_steps(session, &mut done, work, u32::MAX);
    let answer = Plain.sync_steps(session, card, work, k - 1);
    if answer.number == 0 {
        let sector = 1 + word(session, 0, 4) / 128;
        let bytes = SECTOR * sector as usize..SECTOR * (sector as usize + 1);
        card[bytes.clone()].copy_from_slice(&done[bytes]);
    }
    let count = (answer.count + u32::from(answer.number == 0)).min(all.count);
    Answer { count, ..answer }
}

/// The entry of a file that was just removed forgets its old version.
fn forget_old(work: &mut [u8], g: &Geometry, line: &Line) {
    let entry = (0..g.entries()).find(|i| {
        let at = SECTOR * g.directory() as usize + 128 * i + 12;
        let old = word(work, g.directory(), 32 * i + 15);
        work[at..at + 32] == line.name && old == 1
    });
    if let Some(i) = entry {
        (15..19).for_each(|k| set_word(work, g.directory(), 32 * i + k, 0));
    }
}

/// The present files of a session.
fn lines(session: &SessionBytes, work: &[u8]) -> Vec<Line> {
    let mut lines = vec![Line::default(); 256];
    let count = plain::list(&Session::decode(session), work, &mut lines);
    lines.truncate(count.unwrap_or(0) as usize);
    lines
}

fn put_in_place(session: &SessionBytes, work: &mut [u8], name: &[u8], content: &[u8]) -> u32 {
    let list = lines(session, work);
    let same = |line: &&Line| line.used_name() == name && line.bytes as usize == content.len();
    match list.iter().find(same) {
        Some(line) if word(session, 0, 0) == 1 => {
            let at = SECTOR * line.start as usize;
            work[at..at + content.len()].copy_from_slice(content);
            0
        }
        _ => Plain.put(session, work, name, content),
    }
}

/// A put that takes the lowest run free in the present view alone: done where
/// the rule says and then moved.
fn put_reusing(session: &SessionBytes, work: &mut [u8], name: &[u8], content: &[u8]) -> u32 {
    let place = reused(session, work, content, 0);
    let before = work.to_vec();
    let number = Plain.put(session, work, name, content);
    moved(session, work, &before, name, number, place)
}

/// The same with a goal.
fn put_reusing_at(
    session: &SessionBytes,
    work: &mut [u8],
    name: &[u8],
    content: &[u8],
    goal: Goal,
) -> u32 {
    let at_goal = reused(session, work, content, goal.0);
    let place = at_goal.or_else(|| reused(session, work, content, 0));
    let before = work.to_vec();
    let number = Plain.put_at(session, work, name, content, goal);
    moved(session, work, &before, name, number, place)
}

/// The first run for some content that is free in the present view alone.
fn reused(session: &SessionBytes, work: &[u8], content: &[u8], from: u32) -> Option<u32> {
    let before = lines(session, work);
    let free = |at: u32| {
        let mut runs = before
            .iter()
            .map(|line| line.start..line.start + line.sectors);
        !runs.any(|run| run.contains(&at))
    };
    let sectors = content.len().div_ceil(SECTOR) as u32;
    let inside = |at: u32| at % PAGE_SECTORS + sectors <= PAGE_SECTORS;
    lowest(session, sectors, |at, run| {
        at >= from && inside(at) && run.all(free)
    })
}

/// A put that gives 8 where the run that it finds starts before its goal.
fn put_only_past(
    session: &SessionBytes,
    work: &mut [u8],
    name: &[u8],
    content: &[u8],
    goal: Goal,
) -> u32 {
    let before = work.to_vec();
    let number = Plain.put_at(session, work, name, content, goal);
    let after = lines(session, work);
    let put = after.iter().find(|line| line.used_name() == name);
    match put {
        Some(line) if number == 0 && line.sectors > 0 && line.start < goal.0 => {
            work.copy_from_slice(&before);
            8
        }
        _ => number,
    }
}

/// A put that takes the lowest run free in both views, whatever page's end lies
/// in it.
fn put_crossing(session: &SessionBytes, work: &mut [u8], name: &[u8], content: &[u8]) -> u32 {
    let sectors = content.len().div_ceil(SECTOR) as u32;
    let place = match geometry(session) {
        Some(g) if work.len() == SECTOR * g.s() as usize => {
            let free = |at: u32| paged::free_in_both(session, work, &g, at);
            lowest(session, sectors, |_, run| run.all(free))
        }
        _ => None,
    };
    let before = work.to_vec();
    let number = Plain.put(session, work, name, content);
    moved(session, work, &before, name, number, place)
}

/// The geometry that a session speaks of.
fn geometry(session: &SessionBytes) -> Option<Geometry> {
    let [s, t, d] = [1, 2, 3].map(|i| word(session, 0, i));
    Geometry::within_limits(s, t, d)
}

/// The lowest start of so many data sectors that is good.
fn lowest(
    session: &SessionBytes,
    sectors: u32,
    good: impl Fn(u32, &mut Range<u32>) -> bool,
) -> Option<u32> {
    let g = geometry(session)?;
    let last = g.s().checked_sub(sectors)?;
    (g.f()..=last).find(|at| good(*at, &mut (*at..at + sectors)))
}

/// A put that was done where the rule says is moved to another place, and the
/// sectors there are as before.
fn moved(
    session: &SessionBytes,
    work: &mut [u8],
    before: &[u8],
    name: &[u8],
    number: u32,
    place: Option<u32>,
) -> u32 {
    if number != 0 {
        return number;
    }
    let after = lines(session, work);
    let put = after.iter().find(|line| line.used_name() == name);
    if let (Some(to), Some(line), Some(g)) = (place, put, geometry(session)) {
        if line.sectors > 0 {
            move_file(session, work, &g, line, to);
            let left = |at: &u32| !(to..to + line.sectors).contains(at);
            for at in (line.start..line.start + line.sectors).filter(left) {
                let bytes = SECTOR * at as usize..SECTOR * (at as usize + 1);
                work[bytes.clone()].copy_from_slice(&before[bytes]);
            }
        }
    }
    0
}

/// Moves a file that was just put: content, bits and entry.
fn move_file(session: &SessionBytes, work: &mut [u8], g: &Geometry, line: &Line, to: u32) {
    let from = SECTOR * line.start as usize;
    let length = SECTOR * line.sectors as usize;
    work.copy_within(from..from + length, SECTOR * to as usize);
    let run = |start: u32| start..start + line.sectors;
    paged::change_bits(session, work, g, run(line.start), false);
    paged::change_bits(session, work, g, run(to), true);
    let entry = (0..g.entries()).find(|i| {
        let at = SECTOR * g.directory() as usize + 128 * i + 12;
        work[at..at + 32] == line.name && word(work, g.directory(), 32 * i + 12) == line.start
    });
    if let Some(i) = entry {
        set_word(work, g.directory(), 32 * i + 12, to);
    }
}

/// A put that changes the group of the new run alone: where the sectors given
/// back lie in another page, their bits are cleared in the apage that is shown.
fn put_in_one_group(session: &SessionBytes, work: &mut [u8], name: &[u8], content: &[u8]) -> u32 {
    let before = work.to_vec();
    let number = Plain.put(session, work, name, content);
    let file_in = |image: &[u8]| {
        let list = lines(session, image);
        list.into_iter().find(|line| line.used_name() == name)
    };
    let files = (file_in(&before), file_in(work), geometry(session));
    let (Some(old), Some(new), Some(g)) = files else {
        return number;
    };
    let (from, to) = (old.start / PAGE_SECTORS, new.start / PAGE_SECTORS);
    if number == 0 && old.sectors > 0 && new.sectors > 0 && from != to {
        paged::bring_back(work, &before, &g, from);
        let run = old.start..old.start + old.sectors;
        paged::clear_in_place(session, work, &g, run);
    }
    number
}
