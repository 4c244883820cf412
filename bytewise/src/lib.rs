//! The byte-by-byte reading of the documents and of the contracts, for the program `bytewise` and for tests and
//! measurements that compare with it.

// without the dereference, `pick` would be taken to choose among unsized slices
#![allow(clippy::explicit_auto_deref)]

pub mod broken;
pub mod byline;
pub mod case;
pub mod cases;
pub mod contract;
pub mod handed;
pub mod job;
pub mod line_reports;
pub mod lines;
pub mod names;
pub mod path;
pub mod random;
pub mod records;
pub mod reports;
pub mod rules;
pub mod spelt;
pub mod strays;
