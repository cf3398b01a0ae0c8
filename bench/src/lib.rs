//! The bench of the store: a second version of every call, written from the
//! paper alone, the stored cards for the reading program's tests, and the
//! proved store's host functions, which are compared with it and measured.
//!
//! * [`plain`] holds the calls of the second version.
//! * [`stored`] holds the stored cards and the report expected for each.
//! * [`host`] holds the host functions of the proved store and list's two.
//! * [`module`] has them with a session that holds its images, and the table's
//!   numbers as an enum.
//! * [`fitting`] holds the functions without the fit test, behind one owner of
//!   card, working image and session.
//! * [`store`] is what both have in common.
//! * [`cutbench`] runs histories with cuts through both and compares.
//! * [`measure`] times them and looks at their stack.

#![deny(unsafe_code)]

pub mod cutbench;
pub mod dice;
#[allow(unsafe_code)]
pub mod fitting;
#[allow(unsafe_code)]
pub mod host;
pub mod measure;
pub mod module;
pub mod plain;
#[allow(unsafe_code)]
pub mod stack;
pub mod store;
pub mod stored;
