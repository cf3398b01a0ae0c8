//! The cut bench: the proved store's host functions beside the plain version.
//!
//! A history is a list of lines ([`Op`]), each a call of a host function, a
//! cut, or some meddling with images and session, and has a text form. Both
//! stores run it from the same state. After every call the numbers, sessions
//! and all bytes of both images must be the same, and a refusal must have
//! changed nothing. A list's table holds rubbish beforehand, and lines that it
//! does not count must still hold it. After every line but meddling both are
//! asked for free and waiting, which must be the same, and add up with F and the
//! sectors of the present files to S where the session fits; on a refusal the
//! output must be as it was. A get's output holds rubbish beforehand as well.
//!
//! At a cut each sector of the card may hold any value written to it since the
//! latest moment: a finished sync, or the mount. Such cards are read back by
//! both stores, and must show the names and contents of that moment, or, where
//! the cut fell inside a sync after its table sector was written, of either
//! side of it.
//!
//! One part runs histories through the functions without the fit test, behind
//! the one owner that may call them, beside the tested ones: all must be alike.
//!
//! The parts are in [`parts`]; a history that shows a disagreement is made
//! shorter by [`shrink`] and printed, so that it can be replayed.

mod choices;
mod cuts;
mod edges;
mod exhaustive;
mod figures;
mod files;
mod gets;
mod histories;
mod hostile;
mod image;
mod lists;
mod module;
mod op;
mod pages;
mod parse;
pub mod parts;
mod replay;
mod shrink;
mod summary;
mod track;
mod world;

pub use module::{twin_fault, twin_fault_of, Start, Twin};
pub use op::{Cuttable, Op, Which};
pub use parse::{history, text};
pub use replay::replay;
pub use shrink::{fault, shrink};
pub use summary::{table, total, Row, Tally};
pub use world::{Outcome, World};
