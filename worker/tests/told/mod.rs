//! What the safe face tells of a line, as bytewise writes it down.

use bytewise::lines::Indexed;
use wararish::{LineError, LineIndex};

/// What a line's call tells: of a fault alone the line's number too.
pub fn line_told(indexed: &Result<LineIndex, LineError>) -> Indexed {
    match indexed {
        Ok(_) => Indexed { number: 0, place: 0, line: 0 },
        Err(error) => {
            let line = if error.is_fault() { error.line } else { 0 };
            Indexed { number: error.number(), place: error.place(), line }
        }
    }
}
