//! Histories after which every card that a cut could leave is looked at.

use super::op::Op;
use super::parse::history;

/// The histories whose cards number at most 2 to the `most`, which is 14 or
/// 20. Two of them leave twelve sectors unsettled, of two values each: 4,096
/// cards.
pub fn all(most: u32) -> Vec<Vec<Op>> {
    let one_put = |sectors: usize| {
        let bytes = 512 * sectors;
        format!(
            "fresh 60 1 1; mount; put a 700 1; put b {bytes} 2; sync; put b {bytes} 3;
             exactly {} {}",
            sectors + 3,
            1_u64 << (sectors + 3)
        )
    };
    let after_cuts = "fresh 40 1 1; mount; put a 1000 1; sync; put b 4000 2; land 7; land 8;
         cut-in sync 20 5; mount; put c 600 3; cut 7; mount; put d 4500 4; exactly 12 4096";
    let fixed = [
        after_cuts, REMOVED, THREE_PUTS, REPLACED, LAST_COUNT, INSIDE,
    ];
    let larger: &[usize] = if most < 20 {
        &[11]
    } else {
        &[17, 16, 15, 13, 11]
    };
    // The longest first, so that the cores end together.
    let mut list: Vec<String> = larger.iter().map(|sectors| one_put(*sectors)).collect();
    list.push(one_put(9));
    list.extend(fixed.map(String::from));
    let parsed = |text: &String| history(text).expect("a history of this file");
    list.iter().map(parsed).collect()
}

/// A removed file and another in its place: entry and apage have 3 values.
const REMOVED: &str = "fresh 30 1 1; mount; put a 2048 1; put b 300 2; sync; remove a;
    put c 3000 3; exactly 9 1152";
/// Entries and apage have 4 values.
const THREE_PUTS: &str = "fresh 30 1 1; mount; put a 1500 1; put b 1500 2; put c 1000 3;
    exactly 11 8192";
/// One file put again and again: sectors of this transaction are used again.
const REPLACED: &str = "fresh 20 1 1; mount; put a 1024 1; sync; put a 1024 2; put a 1024 3;
    put a 1024 4; exactly 7 648";
/// The last transaction count of the last crash count.
const LAST_COUNT: &str = "fresh 30 1 1; poke card 0 127; poke card 1020 2147483646; mount;
    put a 1500 1; put b 1500 2; exactly 9 1152; sync; exactly 0 1";
/// All cards at every step of sync, unmount and mount.
const INSIDE: &str = "fresh 18 1 1; mount; put a 600 1; put b 100 2; sync; remove b;
    put a 2000 3; all-in sync 4096; all-in unmount 4096; land 8; sync; put c 1100 4;
    all-in sync 4096; all-in mount 4096; unmount; exactly 1 2; all-in mount 4096";
