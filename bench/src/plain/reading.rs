//! Reading a card without a session, and what the reading program prints.

use super::files::{get_shown, list_shown};
use super::image::word;
use super::rules::sound_card;
use super::view::Line;
use super::BAD_GEOMETRY;

/// The longest input the reading program takes.
pub const LONGEST_INPUT: usize = 65_536;

/// Bytes of a report as it crosses the C boundary: four words.
pub const REPORT_BYTES: usize = 16;

/// What reading a card gives.
#[derive(Clone, Copy, Debug, PartialEq, Eq)]
pub struct Report {
    /// C, the crash count.
    pub c: u32,
    /// N, the table's words.
    pub n: u32,
    /// How many files are shown.
    pub files: u32,
    /// The clear bits of the shown bitmap.
    pub free: u32,
}

impl Report {
    /// The four words C, N, files and clear bits, least byte first, as they
    /// cross the C boundary; a refused read gives zeros in their place.
    pub fn encode(&self) -> [u8; REPORT_BYTES] {
        let words = [self.c, self.n, self.files, self.free];
        let mut bytes = [0; REPORT_BYTES];
        for (place, word) in bytes.chunks_exact_mut(4).zip(words) {
            place.copy_from_slice(&word.to_le_bytes());
        }
        bytes
    }
}

/// Reads a card: 1, 2.
pub fn read(card: &[u8]) -> Result<Report, u32> {
    let view = sound_card(card)?;
    Ok(Report {
        c: word(card, 0, 0),
        n: view.geometry.n(),
        files: view.lines().len() as u32,
        free: view.clear_bits(),
    })
}

/// Fills the first lines with the shown files and counts them: 1, 2, 10.
pub fn read_list(card: &[u8], lines: &mut [Line]) -> Result<u32, u32> {
    list_shown(&sound_card(card)?, lines)
}

/// Fills the first bytes of the output with a shown file and counts them:
/// 1, 2, 5, 6, 10.
pub fn read_get(card: &[u8], name: &[u8], out: &mut [u8]) -> Result<u32, u32> {
    get_shown(&sound_card(card)?, name, out)
}

/// What the reading program prints for an input.
pub fn printed(input: &[u8]) -> String {
    let answer = if input.len() > LONGEST_INPUT {
        Err(BAD_GEOMETRY)
    } else {
        report_text(input)
    };
    answer.unwrap_or_else(|refusal| format!("refused {refusal}\n"))
}

fn report_text(card: &[u8]) -> Result<String, u32> {
    let Report { c, n, files, free } = read(card)?;
    let mut text = format!("counts {c} of {n}\nfiles {files}\n");
    for line in sound_card(card)?.lines() {
        let name = String::from_utf8_lossy(line.used_name());
        let Line {
            bytes,
            start,
            sectors,
            ..
        } = line;
        text += &format!("{name} {bytes} {start} {sectors}\n");
    }
    text += &format!("free {free}\n");
    Ok(text)
}
