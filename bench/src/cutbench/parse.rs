//! Reads the text of a history.

use super::op::{Cuttable, Op, Which};
use std::str::{FromStr, SplitWhitespace};

/// The history of a text: lines end with a newline or `;`, and what follows a
/// `#` is left out.
pub fn history(text: &str) -> Result<Vec<Op>, String> {
    text.lines()
        .map(|line| line.split('#').next().unwrap_or(""))
        .flat_map(|line| line.split(';'))
        .filter(|line| !line.trim().is_empty())
        .map(|line| op(line).ok_or_else(|| format!("not understood: {line}")))
        .collect()
}

/// The text of a history.
pub fn text(history: &[Op]) -> String {
    history.iter().map(|op| format!("{op}\n")).collect()
}

fn op(line: &str) -> Option<Op> {
    let mut words = line.split_whitespace();
    let w = &mut words;
    let op = match w.next()? {
        "fresh" => Op::Fresh(number(w)?, number(w)?, number(w)?),
        "make" => Op::Make(number(w)?, number(w)?, number(w)?),
        "read" => Op::Read,
        "mount" => Op::Mount,
        "put" => Op::Put {
            name: name(w)?,
            bytes: number(w)?,
            seed: number(w)?,
        },
        "put-at" => Op::PutAt {
            name: name(w)?,
            bytes: number(w)?,
            seed: number(w)?,
            goal: number(w)?,
        },
        "sync" => Op::Sync,
        "land" => Op::Land(number(w)?),
        "free" => Op::Free,
        "list" => Op::List(number(w)?),
        "read-list" => Op::ReadList(number(w)?),
        "get" => Op::Get(name(w)?),
        "read-get" => Op::ReadGet(name(w)?),
        "remove" => Op::Remove(name(w)?),
        "unmount" => Op::Unmount,
        "try" => Op::Try(number(w)?),
        "all" => Op::All(number(w)?),
        "exactly" => Op::Exactly(number(w)?, number(w)?),
        "all-in" => Op::AllIn(cuttable(w)?, number(w)?),
        "cut" => Op::Cut(number(w)?),
        "cut-in" => Op::CutIn(cuttable(w)?, number(w)?, number(w)?),
        "stored" => Op::Stored(w.next()?.to_string()),
        "noise" => Op::Noise(which(w)?, number(w)?, number(w)?),
        "poke" => Op::Poke(which(w)?, number(w)?, number(w)?),
        "length" => Op::Length(which(w)?, number(w)?),
        "session" => Op::Session(number(w)?, number(w)?),
        "save" => Op::Save,
        "back" => Op::Back,
        _ => return None,
    };
    words.next().is_none().then_some(op)
}

fn number<T: FromStr>(words: &mut SplitWhitespace) -> Option<T> {
    words.next()?.parse().ok()
}

fn which(words: &mut SplitWhitespace) -> Option<Which> {
    match words.next()? {
        "card" => Some(Which::Card),
        "work" => Some(Which::Work),
        _ => None,
    }
}

fn cuttable(words: &mut SplitWhitespace) -> Option<Cuttable> {
    match words.next()? {
        "mount" => Some(Cuttable::Mount),
        "sync" => Some(Cuttable::Sync),
        "unmount" => Some(Cuttable::Unmount),
        _ => None,
    }
}

fn name(words: &mut SplitWhitespace) -> Option<Vec<u8>> {
    let text = words.next()?;
    if text == "%" {
        return Some(Vec::new());
    }
    let mut parts = text.split('%');
    let mut bytes = parts.next()?.as_bytes().to_vec();
    for part in parts {
        bytes.push(u8::from_str_radix(part.get(..2)?, 16).ok()?);
        bytes.extend(part.get(2..)?.bytes());
    }
    Some(bytes)
}
