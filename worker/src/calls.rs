//! The calls of a job, as the proved code takes them: a byte each.

/// One step of one chunk. A call that the job refuses changes nothing.
#[derive(Clone, Copy, Debug, PartialEq, Eq)]
#[repr(transparent)]
pub struct Call(u8);

/// The highest number that a chunk can have.
const LAST_CHUNK: usize = 63;

impl Call {
    /// The low two bits are the step, the others the chunk.
    fn new(chunk: usize, step: u8) -> Call {
        assert!(chunk <= LAST_CHUNK, "a report has at most 64 chunks, so none has the number {chunk}");
        Call(4 * chunk as u8 + step)
    }

    /// With the guess: does the chunk begin inside a string? Panics where its number is above 63, as the two below do.
    pub fn scan(chunk: usize, inside: bool) -> Call {
        Call::new(chunk, u8::from(inside))
    }

    /// Accepted once the chunk is scanned, and the one before it settled.
    pub fn settle(chunk: usize) -> Call {
        Call::new(chunk, 2)
    }

    /// Accepted once the chunk is settled.
    pub fn level(chunk: usize) -> Call {
        Call::new(chunk, 3)
    }

    /// As the proved code takes it.
    pub fn byte(self) -> u8 {
        self.0
    }
}

#[cfg(test)]
mod tests {
    use super::*;

    #[test]
    fn a_call_is_one_byte() {
        let calls = [Call::scan(0, false), Call::scan(1, true), Call::settle(2), Call::level(63)];
        assert_eq!(calls.map(Call::byte), [0, 5, 10, 255]);
    }

    #[test]
    #[should_panic(expected = "none has the number 64")]
    fn no_chunk_wraps_round_to_another() {
        Call::settle(64);
    }
}
