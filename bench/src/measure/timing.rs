//! Times of several things that take turns on the same cards.

use super::bed::{first_data, Bed, Call};
use crate::plain::SECTOR;
use crate::store::{Plain, Proved, Store};
use std::hint::black_box;
use std::time::{Duration, Instant};

/// Most runs of a race, and the fewest, however long they take.
const MOST_RUNS: usize = 4_001;
const LEAST_RUNS: usize = 15;
/// A look over some sectors is timed so often in a row.
const LOOKS: u32 = 8;

/// One thing that is timed: on which of the beds, how often in a row, and what.
pub struct Lane<'a> {
    bed: usize,
    times: u32,
    run: Box<dyn FnMut(&mut Bed) -> u32 + 'a>,
}

impl<'a> Lane<'a> {
    /// Anything that gives a number.
    pub fn of(bed: usize, run: impl FnMut(&mut Bed) -> u32 + 'a) -> Lane<'a> {
        let run = Box::new(run);
        Lane { bed, times: 1, run }
    }

    fn call(bed: usize, store: &'static dyn Store, call: Call) -> Lane<'a> {
        let content = vec![7; call.content_bytes()];
        Lane::of(bed, move |bed| bed.call(store, call, &content))
    }

    pub fn proved(bed: usize, call: Call) -> Lane<'a> {
        Lane::call(bed, &Proved, call)
    }

    pub fn plain(bed: usize, call: Call) -> Lane<'a> {
        Lane::call(bed, &Plain, call)
    }

    /// One pass: the sum of the 64-bit words over the sectors before the data.
    pub fn pass(bed: usize) -> Lane<'a> {
        let mut lane = Lane::of(bed, |bed| {
            let end = SECTOR * first_data(bed.geometry) as usize;
            (0..LOOKS).for_each(|_| sum(&bed.work[..end]));
            0
        });
        lane.times = LOOKS;
        lane
    }

    /// The same sum over the pages that the bitmap has in one view, and in two.
    pub fn pages(bed: usize) -> Lane<'a> {
        let mut lane = Lane::of(bed, |bed| {
            let (_, t, d) = bed.geometry;
            let end = SECTOR * (first_data(bed.geometry) - d) as usize;
            let begin = SECTOR * (t as usize + 2);
            (0..LOOKS).for_each(|_| sum(&bed.work[begin..end]));
            0
        });
        lane.times = LOOKS;
        lane
    }

    /// One plain compare of the two images, sector by sector.
    pub fn compare(bed: usize) -> Lane<'a> {
        Lane::of(bed, |bed| differing(&bed.card, &bed.work))
    }

    /// One plain copy of the working image to the card.
    pub fn copy(bed: usize) -> Lane<'a> {
        Lane::of(bed, |bed| {
            bed.card.copy_from_slice(black_box(&bed.work));
            0
        })
    }
}

#[inline(never)]
fn sum(bytes: &[u8]) {
    let word = |part: &[u8]| part.try_into().map_or(0, u64::from_le_bytes);
    let words = black_box(bytes).chunks_exact(8).map(word);
    black_box(words.fold(0, u64::wrapping_add));
}

/// How many sectors of two images differ.
#[inline(never)]
fn differing(one: &[u8], other: &[u8]) -> u32 {
    let pairs = one.chunks_exact(SECTOR).zip(other.chunks_exact(SECTOR));
    pairs.filter(|(a, b)| a != b).count() as u32
}

/// What came out of a lane.
#[derive(Clone, Copy, Debug)]
pub struct Timed {
    /// The time in nanoseconds that one run in ten was below.
    pub time: f64,
    /// What the last run gave.
    pub number: u32,
}

/// Runs the lanes in turn, for about so long. Before each run its bed is
/// brought back to what it was, by copying the sectors that some lane changes;
/// so all is as warm as the cache allows.
pub fn race<const N: usize>(beds: &[Bed], mut lanes: [Lane; N], spent: Duration) -> [Timed; N] {
    let mut grounds: Vec<Ground> = beds.iter().map(Ground::new).collect();
    for lane in &mut lanes {
        let ground = &mut grounds[lane.bed];
        (lane.run)(&mut ground.live);
        ground.learn();
    }
    let mut times: [Vec<f64>; N] = std::array::from_fn(|_| Vec::new());
    let mut numbers = [0; N];
    let begun = Instant::now();
    for run in 0..MOST_RUNS {
        if run >= LEAST_RUNS && begun.elapsed() > spent {
            break;
        }
        for turn in 0..N {
            let i = (run + turn) % N;
            let lane = &mut lanes[i];
            let ground = &mut grounds[lane.bed];
            ground.prepare();
            let (time, number) = timed(|| (lane.run)(&mut ground.live));
            times[i].push(time);
            numbers[i] = number;
        }
    }
    let idle = clock();
    std::array::from_fn(|i| Timed {
        time: (low(&mut times[i]) - idle).max(0.1) / f64::from(lanes[i].times),
        number: numbers[i],
    })
}

/// A bed, as it is before each run and as it is, and the sectors that some lane
/// changes.
struct Ground<'a> {
    from: &'a Bed,
    live: Bed,
    card: Vec<usize>,
    work: Vec<usize>,
}

impl Ground<'_> {
    fn new(from: &Bed) -> Ground<'_> {
        Ground {
            from,
            live: from.clone(),
            card: Vec::new(),
            work: Vec::new(),
        }
    }

    /// Notes what was changed, and brings it back.
    fn learn(&mut self) {
        note(&mut self.card, &self.from.card, &self.live.card);
        note(&mut self.work, &self.from.work, &self.live.work);
        self.prepare();
    }

    fn prepare(&mut self) {
        bring_back(&self.card, &self.from.card, &mut self.live.card);
        bring_back(&self.work, &self.from.work, &mut self.live.work);
        self.live.session = self.from.session;
    }
}

fn note(sectors: &mut Vec<usize>, from: &[u8], live: &[u8]) {
    let pairs = from.chunks(SECTOR).zip(live.chunks(SECTOR)).enumerate();
    sectors.extend(pairs.filter(|(_, (a, b))| a != b).map(|(i, _)| i));
    sectors.sort_unstable();
    sectors.dedup();
}

fn bring_back(sectors: &[usize], from: &[u8], live: &mut [u8]) {
    for i in sectors {
        let sector = SECTOR * i..SECTOR * (i + 1);
        live[sector.clone()].copy_from_slice(&from[sector]);
    }
}

/// The clock's own time for nothing.
pub fn clock() -> f64 {
    low(&mut (0..2_001).map(|_| timed(|| ()).0).collect::<Vec<f64>>())
}

/// How long a call takes, and what it gives.
pub fn timed<T>(call: impl FnOnce() -> T) -> (f64, T) {
    let begun = Instant::now();
    let answer = black_box(call());
    (begun.elapsed().as_nanos() as f64, answer)
}

/// What a tenth of a list is below, 0 if it is empty.
pub fn low(list: &mut [f64]) -> f64 {
    list.sort_by(f64::total_cmp);
    list.get(list.len() / 10).copied().unwrap_or(0.0)
}
