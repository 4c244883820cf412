//! A structural index over a JSON report, built by proved code in lent words, and asked for paths.
//!
//! ```
//! use wararish::Report;
//!
//! let report = Report::new(br#"{"a":1,"b":[2,30]}"#);
//! let index = report.index(2, &[])?;
//! assert_eq!(index.ask(b"$.b[1]")?, b"30");
//! let miss = index.ask(b"$.b[2]").unwrap_err();
//! assert_eq!((miss.number(), miss.step(), miss.place()), (26, 2, 11));
//! assert_eq!(miss.to_string(), "step 2: the array has no such number, at byte 11");
//! # Ok::<(), Box<dyn std::error::Error>>(())
//! ```
//!
//! A text with a report in each of its lines is cut into a table of them ([`Lines`]), and each is indexed by itself.
#![deny(unsafe_code)]

pub mod calls;
pub mod digest;
pub mod errors;
mod face;
pub mod lines;
pub mod plan;
mod random;
pub mod report;
pub mod sample;

pub use calls::Call;
pub use errors::{AskError, BrokenKind, FaultKind, IndexError, LineError, LinesError, MissKind, Where};
pub use lines::{line_in, next_line, table_in, table_needed, LineIndex, Lines};
pub use report::{words_needed, Index, Report, Unindexed, LEVELS, LIMIT};
