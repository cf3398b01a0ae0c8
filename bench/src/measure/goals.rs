//! Put with a goal: the search from the goal beside the search from 0.

use super::bed::{first_data, Bed, Call, Geometry, LARGEST, PAGE};
use super::markdown::{card, grouped, marked, nanoseconds, ratio, table};
use super::timing::{race, Lane};
use crate::host::{self, Goal};
use crate::plain::{self, Session, PAGE_SECTORS, SECTOR};
use std::time::Duration;

const SPENT: Duration = Duration::from_millis(800);
/// The sectors of the file that is put, and of the only room.
const FILE: usize = 16;
const ROOM: u32 = 64;
const FILLER: &[u8] = b"filler";
/// The slowest put from a goal may take so many times the slowest from 0.
const AIM: f64 = 1.0;

/// Where there is room.
#[derive(Clone, Copy, PartialEq, Eq)]
enum Room {
    Everywhere,
    /// In the first or the last sectors of the data alone.
    First,
    Last,
    Nowhere,
}

impl Room {
    const ALL: [Room; 4] = [Room::Everywhere, Room::First, Room::Last, Room::Nowhere];

    fn name(self) -> &'static str {
        match self {
            Room::Everywhere => "everywhere",
            Room::First => "first sectors only",
            Room::Last => "last sectors only",
            Room::Nowhere => "nowhere",
        }
    }

    /// The least start at or after a goal, else the least, if there is one.
    fn start(self, (s, t, d): Geometry, goal: u32) -> Option<u32> {
        let first = first_data((s, t, d));
        let (low, end) = match self {
            Room::Everywhere => (first, s),
            Room::First => (first, first + ROOM),
            Room::Last => (s - ROOM, s),
            Room::Nowhere => return None,
        };
        let at = goal.max(low);
        Some(if at + FILE as u32 <= end { at } else { low })
    }
}

/// A mounted card with room there and nowhere else: a large file in each page,
/// and one more, which is removed again where its sectors are to be the room.
fn bed(geometry: Geometry, room: Room) -> Bed {
    let mut bed = Bed::fresh(geometry);
    bed.name = b"goal".to_vec();
    if room == Room::Everywhere {
        bed.mount();
        return bed;
    }
    let (s, first) = (geometry.0, first_data(geometry));
    bed.mount();
    bed.put(FILLER, ROOM as usize);
    let mut at = first + ROOM;
    while at < s {
        let end = (at / PAGE_SECTORS + 1) * PAGE_SECTORS;
        let end = if end < s || room != Room::Last {
            end
        } else {
            s - ROOM
        };
        bed.put(format!("page_{at}").as_bytes(), (end - at) as usize);
        at = if end == s - ROOM { s } else { end };
    }
    bed.unmount();
    bed.mount();
    if room == Room::First {
        let session = Session::decode(&bed.session);
        assert_eq!(plain::remove(&session, &mut bed.work, FILLER), plain::DONE);
        bed.unmount();
        bed.mount();
    }
    bed
}

fn put_at(bed: &mut Bed, content: &[u8], goal: u32) -> u32 {
    host::put_at(&bed.session, &mut bed.work, &bed.name, content, Goal(goal))
}

/// What one put gave: its number, and where the file is.
fn found(bed: &Bed, content: &[u8], goal: u32) -> (u32, Option<u32>) {
    let mut bed = bed.clone();
    let number = put_at(&mut bed, content, goal);
    let session = Session::decode(&bed.session);
    let count = plain::list(&session, &bed.work, &mut bed.lines).unwrap_or(0);
    let mut lines = bed.lines[..count as usize].iter();
    let line = lines.find(|line| line.used_name() == bed.name);
    (number, line.map(|line| line.start))
}

/// The slowest put from 0 and from another goal.
#[derive(Default)]
struct Worst {
    zero: f64,
    goal: f64,
}

/// Puts with a goal of 0, just after the first sectors, in the middle and near
/// the end.
pub fn goals() -> String {
    let mut rows = Vec::new();
    let mut told = String::new();
    for geometry in [PAGE, LARGEST] {
        let mut worst = Worst::default();
        for room in Room::ALL {
            rows.extend(of_room(geometry, room, &mut worst));
        }
        let Worst { zero, goal } = worst;
        told += &format!(
            "- S = {}: the slowest search from 0 is a put of {zero:.0} ns, from another goal {goal:.0} ns: {}.\n",
            grouped(geometry.0),
            marked(goal / zero, AIM)
        );
    }
    let head = [
        "S, T, D",
        "room",
        "goal",
        "gives",
        "start",
        "put",
        "fit",
        "put / fit",
        "put / put from 0",
    ];
    format!(
        "### Put with a goal\n\n\
         A file of 16 sectors; room, where it is not everywhere, is 64 sectors. Each start is the one that the\n\
         request asks for. Put from 0 is the row with goal 0 on the same card.\n\n{}\n{told}",
        table(2, &head, &rows)
    )
}

fn of_room(geometry: Geometry, room: Room, worst: &mut Worst) -> Vec<Vec<String>> {
    let beds = [bed(geometry, room)];
    let content = vec![7; SECTOR * FILE - 1];
    let s = geometry.0;
    let goals = [0, first_data(geometry) + ROOM, s / 2, s - ROOM, s - 1];
    let [a, b, c, d, e] = goals.map(|goal| {
        let content = &content;
        Lane::of(0, move |bed| put_at(bed, content, goal))
    });
    let lanes = [a, b, c, d, e, Lane::proved(0, Call::Fit)];
    let timed = race(&beds, lanes, SPENT).map(|timed| timed.time);
    let (zero, fit) = (timed[0], timed[5]);
    let row = |(goal, put): (u32, f64)| {
        let (number, start) = found(&beds[0], &content, goal);
        assert_eq!(start, room.start(geometry, goal));
        if goal == 0 {
            worst.zero = worst.zero.max(put);
        } else {
            worst.goal = worst.goal.max(put);
        }
        vec![
            card(geometry),
            room.name().into(),
            grouped(goal),
            number.to_string(),
            start.map_or(String::new(), grouped),
            nanoseconds(put),
            nanoseconds(fit),
            ratio(put / fit),
            ratio(put / zero),
        ]
    };
    goals.into_iter().zip(timed).map(row).collect()
}
