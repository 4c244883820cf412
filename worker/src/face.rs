//! The proved code, as it is linked: all of this program's `unsafe`. Each function here takes what the proved one takes
//! and gives what it gives; none has a premise beyond the types.
#![allow(unsafe_code)]

use std::ops::Range;

use crate::calls::Call;

// As crates/face_c declares them, a slice being a pointer and a length. (include/wararish.h says the same to C.)
extern "C" {
    fn wararish_run(
        text: *const u8,
        text_length: usize,
        words: *mut u64,
        words_length: usize,
        levels: usize,
        cuts: *const usize,
        cuts_length: usize,
        calls: *const u8,
        calls_length: usize,
        place: *mut usize,
    ) -> u64;
    fn wararish_index(
        text: *const u8,
        text_length: usize,
        words: *mut u64,
        words_length: usize,
        levels: usize,
        cuts: *const usize,
        cuts_length: usize,
        place: *mut usize,
    ) -> u64;
    fn wararish_query(
        text: *const u8,
        text_length: usize,
        words: *const u64,
        words_length: usize,
        levels: usize,
        path: *const u8,
        path_length: usize,
        place: *mut usize,
        size: *mut usize,
        step: *mut usize,
    ) -> u64;
    fn wararish_table(
        text: *const u8,
        text_length: usize,
        table: *mut usize,
        table_length: usize,
        count: *mut usize,
    ) -> u64;
    fn wararish_line(
        text: *const u8,
        text_length: usize,
        table: *const usize,
        table_length: usize,
        line: usize,
        words: *mut u64,
        words_length: usize,
        levels: usize,
        place: *mut usize,
    ) -> u64;
    fn wararish_next_line(text: *const u8, text_length: usize, from: usize, start: *mut usize, end: *mut usize) -> u64;
}

/// A number of the scope's table, and the value beside it.
pub type Told = (u64, usize);

pub fn run(text: &[u8], words: &mut [u64], levels: usize, cuts: &[usize], calls: &[Call]) -> Told {
    let mut place = 0;
    // SAFETY: each pointer and length are those of a slice that is borrowed for the call; the words and the place are
    // borrowed mutably, so nobody else reads or writes them, and nobody writes the others. The proved function keeps
    // within them. A `Call` is a transparent byte.
    let number = unsafe {
        wararish_run(
            text.as_ptr(),
            text.len(),
            words.as_mut_ptr(),
            words.len(),
            levels,
            cuts.as_ptr(),
            cuts.len(),
            calls.as_ptr().cast(),
            calls.len(),
            &mut place,
        )
    };
    (number, place)
}

pub fn index(text: &[u8], words: &mut [u64], levels: usize, cuts: &[usize]) -> Told {
    let mut place = 0;
    // SAFETY: as in `run`.
    let number = unsafe {
        wararish_index(
            text.as_ptr(),
            text.len(),
            words.as_mut_ptr(),
            words.len(),
            levels,
            cuts.as_ptr(),
            cuts.len(),
            &mut place,
        )
    };
    (number, place)
}

/// What a query tells: a number of the scope's table, the place and the path step beside it, and how many bytes the part
/// has. It begins at that place where the number is 0, and else it has none.
pub struct QueryTold {
    pub number: u64,
    pub place: usize,
    pub size: usize,
    pub step: usize,
}

pub fn query(text: &[u8], words: &[u64], levels: usize, path: &[u8]) -> QueryTold {
    let (mut place, mut size, mut step) = (0, 0, 0);
    // SAFETY: as in `run`; the words are only read.
    let number = unsafe {
        wararish_query(
            text.as_ptr(),
            text.len(),
            words.as_ptr(),
            words.len(),
            levels,
            path.as_ptr(),
            path.len(),
            &mut place,
            &mut size,
            &mut step,
        )
    };
    QueryTold { number, place, size, step }
}

/// The value beside the number is how many lines there are.
pub fn table(text: &[u8], table: &mut [usize]) -> Told {
    let mut count = 0;
    // SAFETY: as in `run`; here the table is what is borrowed mutably.
    let number = unsafe { wararish_table(text.as_ptr(), text.len(), table.as_mut_ptr(), table.len(), &mut count) };
    (number, count)
}

pub fn line(text: &[u8], table: &[usize], line: usize, words: &mut [u64], levels: usize) -> Told {
    let mut place = 0;
    // SAFETY: as in `run`; the table is only read, and any numbers may stand in it.
    let number = unsafe {
        wararish_line(
            text.as_ptr(),
            text.len(),
            table.as_ptr(),
            table.len(),
            line,
            words.as_mut_ptr(),
            words.len(),
            levels,
            &mut place,
        )
    };
    (number, place)
}

pub fn next_line(text: &[u8], from: usize) -> Option<Range<usize>> {
    let (mut start, mut end) = (0, 0);
    // SAFETY: as in `run`; nothing but start and end is written.
    let number = unsafe { wararish_next_line(text.as_ptr(), text.len(), from, &mut start, &mut end) };
    (number != 0).then_some(start..end)
}
