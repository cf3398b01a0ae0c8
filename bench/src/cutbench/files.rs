//! What a card shows: names with contents.

use crate::plain::{self, Line};
use std::collections::BTreeMap;

/// Files by name.
pub type Files = BTreeMap<Vec<u8>, Vec<u8>>;

/// The files that a card shows, through the plain version's list and get.
pub fn files_of(card: &[u8]) -> Result<Files, u32> {
    let mut lines = [Line::default(); 256];
    let count = plain::read_list(card, &mut lines)? as usize;
    let mut files = Files::new();
    for line in &lines[..count] {
        let mut content = vec![0; line.bytes as usize];
        plain::read_get(card, line.used_name(), &mut content)?;
        files.insert(line.used_name().to_vec(), content);
    }
    Ok(files)
}

/// The sectors that files take.
pub fn sectors(files: &Files) -> u32 {
    let of_one = |content: &Vec<u8>| content.len().div_ceil(plain::SECTOR) as u32;
    files.values().map(of_one).sum()
}

/// Files in a few words, for a message.
pub fn told(files: &Files) -> String {
    let one = |(name, content): (&Vec<u8>, &Vec<u8>)| {
        format!("{} {}", String::from_utf8_lossy(name), content.len())
    };
    let list: Vec<String> = files.iter().map(one).collect();
    format!("[{}]", list.join(", "))
}
