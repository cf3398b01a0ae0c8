//! The driver's duty before the table sector (docs/DRIVER.md): a driver that
//! flushes only what the sync itself wrote loses files, one that flushes
//! everything never does.

mod common;

use bench::plain::steps::{self, Step};
use common::{fresh_card, shown, shown_content, Dice, Host};
use std::collections::BTreeMap;

/// A driver between the lent card and the flash.
struct Driver {
    flash: Vec<u8>,
    queue: BTreeMap<u32, Vec<u8>>,
    flushes_all: bool,
}

fn sector(image: &[u8], i: u32) -> &[u8] {
    &image[512 * i as usize..][..512]
}

impl Driver {
    fn new(host: &Host, flushes_all: bool) -> Driver {
        Driver {
            flash: host.card.clone(),
            queue: BTreeMap::new(),
            flushes_all,
        }
    }

    /// A sector that stands in the queue reaches the flash.
    fn flush(&mut self, i: u32) {
        if let Some(content) = self.queue.remove(&i) {
            self.flash[512 * i as usize..][..512].copy_from_slice(&content);
        }
    }

    /// Land: the sector is queued.
    fn land(&mut self, host: &mut Host, i: u32) {
        assert_eq!(host.land(i), 0);
        self.queue.insert(i, sector(&host.card, i).to_vec());
    }

    /// Sync, step by step; at a barrier everything is flushed, or only what
    /// this sync wrote.
    fn sync(&mut self, host: &mut Host) -> u32 {
        let list = steps::of_sync(&host.session, &host.card, &host.work).expect("sync is taken");
        let mut own = Vec::new();
        for step in &list {
            match step {
                Step::Write { sector, content } => {
                    self.queue.insert(*sector, content.to_vec());
                    own.push(*sector);
                }
                Step::Barrier if self.flushes_all => {
                    let all: Vec<u32> = self.queue.keys().copied().collect();
                    all.into_iter().for_each(|i| self.flush(i));
                }
                Step::Barrier => own.drain(..).for_each(|i| self.flush(i)),
            }
        }
        assert_eq!(host.sync(), 0);
        steps::counted(&list)
    }
}

/// Put `a` of 0 bytes, land its directory sector, sync: nothing differs, so
/// the table sector alone is written. What the flash shows after a cut.
fn a_land_before(flushes_all: bool) -> Vec<String> {
    let mut host = Host::small();
    let mut driver = Driver::new(&host, flushes_all);
    assert_eq!(host.put("a", b""), 0);
    driver.land(&mut host, 5);
    assert_eq!(driver.sync(&mut host), 1);
    shown(&driver.flash)
}

#[test]
fn a_sector_that_a_land_wrote_earlier_must_be_flushed_too() {
    assert_eq!(a_land_before(true), ["a 0 0 0"]);
    assert_eq!(a_land_before(false), [""; 0]);
}

/// Sector 6 goes to the flash with a byte 7, then comes back to its old
/// bytes. What the flash shows of `b`, which is 512 zeros.
fn back_to_old_bytes(flushes_all: bool) -> Vec<u8> {
    let mut host = Host::small();
    let mut driver = Driver::new(&host, flushes_all);
    assert_eq!(host.put("a", &[7]), 0);
    driver.land(&mut host, 6);
    driver.flush(6);
    assert_eq!(host.remove("a"), 0);
    assert_eq!(host.put("b", &[0; 512]), 0);
    driver.land(&mut host, 6);
    driver.sync(&mut host);
    shown_content(&driver.flash, "b").expect("b is there")
}

#[test]
fn a_sector_that_came_back_to_its_old_bytes_must_be_flushed_too() {
    assert_eq!(back_to_old_bytes(true), [0; 512]);
    assert_eq!(back_to_old_bytes(false)[0], 7);
}

/// Whether, in a random history with lands at any time, the flash shows the
/// files of every sync when the power goes off after it.
fn keeps_every_sync(seed: u64, flushes_all: bool) -> bool {
    let mut dice = Dice::new(seed);
    let mut host = Host::mount(fresh_card(10, 1, 1));
    let mut driver = Driver::new(&host, flushes_all);
    for _ in 0..40 {
        let name = ["a", "b", "c"][dice.below(3)];
        match dice.below(5) {
            0 => drop(host.remove(name)),
            1 => drop(host.put(name, &vec![0; dice.below(600)])),
            2 => drop(host.put(name, &vec![7; dice.below(600)])),
            3 => {
                let i = dice.below(10) as u32;
                driver.land(&mut host, i);
                if dice.below(2) == 0 {
                    driver.flush(i);
                }
            }
            _ => {
                driver.sync(&mut host);
                let same = |n: &&str| shown_content(&driver.flash, n) == host.get(n, 2048);
                if !["a", "b", "c"].iter().all(same) {
                    return false;
                }
            }
        }
    }
    true
}

#[test]
fn random_histories_tell_the_two_drivers_apart() {
    assert!((0..200).all(|seed| keeps_every_sync(seed, true)));
    assert!((0..200).any(|seed| !keeps_every_sync(seed, false)));
}
