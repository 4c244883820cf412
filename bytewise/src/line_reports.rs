//! Request Three's sentences about lines, worked out by hand on small texts, byte by byte: what a line is, what the table holds,
//! and what each line answers with the words that it leaves. Whatever is read here is from the document and never from a
//! program's answer.

use std::fmt::Debug;

use crate::case::Case;
use crate::job::Answer;
use crate::lines::{Indexed, Line};

/// The numbers of a table before it is made, as many of the first as are lent: no text here is as long.
const LENT: [usize; 12] = [901, 902, 903, 904, 905, 906, 907, 908, 909, 910, 911, 912];

/// A line that is indexed with so many levels in a buffer of so many words.
pub struct LineCall {
    pub line: usize,
    pub levels: usize,
    pub words: usize,
    pub told: Indexed,
    /// What the front of the buffer then holds. All words behind stay as they were.
    pub front: &'static [u64],
}

/// A text, the table that is lent, and what is said of its lines.
pub struct LineReport {
    pub name: &'static str,
    pub text: Vec<u8>,
    pub lent: Vec<usize>,
    /// What making the table answers, and all its numbers afterwards. None: no table is made, the entries lent are made up.
    pub made: Option<(Answer, &'static [usize])>,
    pub calls: &'static [LineCall],
}

/// A text, a place, and the next line from there on.
pub type NextReport = (&'static [u8], usize, Option<Line>);

/// A sound line in just as many words as it needs, with one level. The words are quotes, mask, colons and commas.
const fn sound(line: usize, front: &'static [u64]) -> LineCall {
    indexed(line, 1, front.len(), front)
}

const fn indexed(line: usize, levels: usize, words: usize, front: &'static [u64]) -> LineCall {
    LineCall { line, levels, words, told: Indexed { number: 0, place: 0, line: 0 }, front }
}

/// A line of up to 64 bytes with a fault, with one level.
const fn faulty(line: usize, number: u64, place: usize) -> LineCall {
    faulty_in(4, line, number, place)
}

const fn faulty_in(words: usize, line: usize, number: u64, place: usize) -> LineCall {
    LineCall { line, levels: 1, words, told: Indexed { number, place, line }, front: &[0; 4] }
}

const fn refused(line: usize, levels: usize, words: usize, number: u64) -> LineCall {
    LineCall { line, levels, words, told: Indexed { number, place: 0, line: 0 }, front: &[] }
}

/// A report's name, its text, what making the table answers, the table's numbers afterwards, and what its lines answer.
type Row = (&'static str, &'static [u8], Answer, &'static [usize], &'static [LineCall]);

/// `{"a":1}`: quotes at 1 and 3, inside a string 2 and 3, a colon at 4.
const OBJECT: &[u64] = &[10, 12, 16, 0];
/// The same with 16 levels: 2 + 2·16 words.
const OBJECT_16: &[u64] = &[10, 12, 16, 0, 0, 0, 0, 0, 0, 0, 0, 0, 0, 0, 0, 0, 0, 0, 0, 0, 0, 0, 0, 0, 0, 0, 0, 0, 0, 0, 0, 0, 0, 0];
/// No quote, colon or comma at level 1 in up to 64 bytes.
const BARE: &[u64] = &[0, 0, 0, 0];
/// A comma at 2, and one at 3.
const COMMA_2: &[u64] = &[0, 0, 0, 4];
const COMMA_3: &[u64] = &[0, 0, 0, 8];

/// "cut at LF bytes in strings too, the LF in no line, a last line without LF counted".
const ROWS_CUT: &[Row] = &[
    ("Three, one line without LF", b"{\"a\":1}", (0, 1), &[0, 7], &[sound(0, OBJECT)]),
    ("Three, one line with LF", b"{\"a\":1}\n", (0, 1), &[0, 7], &[sound(0, OBJECT)]),
    ("Three, two lines, no last LF", b"[1]\n[2,3]", (0, 2), &[0, 3, 4, 9], &[sound(0, BARE), sound(1, COMMA_2)]),
    ("Three, two lines, a last LF", b"[1]\n[2,3]\n", (0, 2), &[0, 3, 4, 9], &[sound(1, COMMA_2), sound(0, BARE)]),
    ("Three, lines of one byte", b"1\n2\n3", (0, 3), &[0, 1, 2, 3, 4, 5], &[sound(2, BARE), sound(0, BARE), sound(1, BARE)]),
    ("Three, CR LF", b"[1]\r\n[2,3]\r\n", (0, 2), &[0, 4, 5, 11], &[sound(0, BARE), sound(1, COMMA_2)]),
    ("Three, CR LF, and CR at the end", b"[1]\r\n[2,3]\r", (0, 2), &[0, 4, 5, 11], &[sound(1, COMMA_2)]),
    ("Three, a fault before CR LF", b"[1]\r\n[2\r\n", (0, 2), &[0, 4, 5, 8], &[sound(0, BARE), faulty(1, 16, 3)]),
    ("Three, CR ends no line", b"[1]\r[2]\n", (0, 1), &[0, 7, 903, 904], &[sound(0, BARE)]),
    ("Three, LF CR", b"[1]\n\r[2,3]", (0, 2), &[0, 3, 4, 10], &[sound(1, COMMA_3)]),
    ("Three, VT and FF end no line", b"1\x0b2\x0c3\n", (0, 1), &[0, 5], &[sound(0, BARE)]),
    ("Three, NUL ends no line", b"[1\0,2]\n3", (0, 2), &[0, 6, 7, 8], &[sound(0, COMMA_3), sound(1, BARE)]),
    ("Three, U+0085 and U+2028 end no line", b"1\xC2\x852\xE2\x80\xA83\n4", (0, 2), &[0, 8, 9, 10], &[sound(0, BARE), sound(1, BARE)]),
    ("Three, LF as 16th byte", b"123456789012345\n7", (0, 2), &[0, 15, 16, 17], &[sound(0, BARE), sound(1, BARE)]),
    ("Three, LF as 17th byte", b"1234567890123456\n[]]", (0, 2), &[0, 16, 17, 20], &[sound(0, BARE), faulty(1, 13, 2)]),
    ("Three, an LF by an escape is none", br#"[1]\n[2]"#, (0, 1), &[0, 8], &[sound(0, BARE)]),
    ("Three, LF in a string", b"{\"a\":1}\n[\"x\ny\"]\n[2]\n", (0, 4), &[0, 7, 8, 11, 12, 15, 16, 19], &[
        sound(0, OBJECT), faulty(1, 15, 3), faulty(2, 15, 3), sound(3, BARE), faulty(1, 15, 3), sound(0, OBJECT),
    ]),
    ("Three, a string of one LF", b"\"\n\"", (0, 2), &[0, 1, 2, 3], &[faulty(0, 15, 1), faulty(1, 15, 1)]),
    ("Three, LF behind a backslash", b"[\"\\\n\"]", (0, 2), &[0, 3, 4, 6], &[faulty(0, 15, 3), faulty(1, 15, 2)]),
    ("Three, LF behind a colon", b"{\"a\":\n1}\n", (0, 2), &[0, 5, 6, 8], &[faulty(0, 16, 5), faulty(1, 13, 1)]),
    ("Three, LF between brackets", b"[\n]", (0, 2), &[0, 1, 2, 3], &[faulty(0, 16, 1), faulty(1, 13, 0)]),
];

/// "all lines that are not blank": space, tab and CR are blanks, and entries keep theirs.
const ROWS_BLANK: &[Row] = &[
    ("Three, an empty line between", b"[1]\n\n[2]\n", (0, 2), &[0, 3, 5, 8], &[sound(0, BARE), sound(1, BARE)]),
    ("Three, empty lines before", b"\n\n\n[2,3]", (0, 1), &[3, 8], &[sound(0, COMMA_2)]),
    ("Three, empty lines behind", b"[2,3]\n\n\n", (0, 1), &[0, 5], &[sound(0, COMMA_2)]),
    ("Three, a line of each blank", b" \n\t\n\r\n \t\r\n[1]\n\r \t", (0, 1), &[10, 13], &[sound(0, BARE)]),
    ("Three, entries are not trimmed", b" [1,2] \t\n\t[2]\r\n", (0, 2), &[0, 8, 9, 14], &[sound(0, COMMA_3), sound(1, BARE)]),
    ("Three, blank lines only", b" \n\t\n\r\n\n \t\r", (0, 0), &[901, 902], &[refused(0, 1, 4, 1), refused(1, 1, 4, 1)]),
    ("Three, CR LF only", b"\r\n\r\n", (0, 0), &[901, 902, 903], &[]),
    ("Three, one LF", b"\n", (0, 0), &[901, 902], &[]),
    ("Three, one space", b" ", (0, 0), &[901, 902], &[]),
    ("Three, no table for blank lines", b"\t\n \n", (0, 0), &[], &[refused(0, 1, 4, 1)]),
    ("Three, half an entry for blank lines", b"\t\n \n", (0, 0), &[901], &[]),
    ("Three, VT FF NUL A0 are no blanks", b"\x0b\n\x0c\n\0\n\xA0", (0, 4), &[0, 1, 2, 3, 4, 5, 6, 7], &[
        sound(0, BARE), sound(1, BARE), sound(2, BARE), sound(3, BARE),
    ]),
    ("Three, nor are 08 0E 1F 21", b"\x08\n\x0e\n\x1f\n!", (0, 4), &[0, 1, 2, 3, 4, 5, 6, 7], &[sound(3, BARE)]),
    ("Three, nor U+0085 U+2028 U+FEFF", b"\xC2\x85\n\xE2\x80\xA8\n\xEF\xBB\xBF\n", (0, 3), &[0, 2, 3, 6, 7, 10], &[sound(0, BARE)]),
    ("Three, a byte behind 20 blanks", b"                    7\n \n", (0, 1), &[0, 21], &[sound(0, BARE)]),
    ("Three, a NUL among blanks", b" \t\0\r\n \t\r\n", (0, 1), &[0, 4], &[sound(0, BARE)]),
];

/// "A line with a fault answers that fault, its place counted in the line, and the line's number in the table, from 0; no other
/// line's answer depends on it."
const ROWS_FAULTY: &[Row] = &[
    ("Three, 13", b"[1]\n[]]\n[2,3]", (0, 3), &[0, 3, 4, 7, 8, 13], &[
        sound(0, BARE), faulty(1, 13, 2), sound(2, COMMA_2), faulty(1, 13, 2), sound(0, BARE),
    ]),
    ("Three, 14", b"1\n[[[[[[[[[[[[[[[[[[[[[[[[[[[[[[[[[[[[[[[[[[[[[[[[[[[[[[[[[[[[[[[[[\n[2,3]", (0, 3), &[0, 1, 2, 67, 68, 73], &[
        LineCall { line: 1, levels: 1, words: 8, told: Indexed { number: 14, place: 64, line: 1 }, front: &[0; 8] },
        sound(2, COMMA_2), sound(0, BARE), refused(1, 1, 7, 4),
    ]),
    ("Three, 15", b"[1]\n[\"a]\n{\"a\":1}", (0, 3), &[0, 3, 4, 8, 9, 16], &[sound(0, BARE), faulty(1, 15, 4), sound(2, OBJECT)]),
    ("Three, 16", b"[1]\n[[2]\n{\"a\":1}", (0, 3), &[0, 3, 4, 8, 9, 16], &[faulty(1, 16, 4), sound(2, OBJECT), sound(0, BARE)]),
    ("Three, the number in the table", b"\n[1]\n \n\n]\n", (0, 2), &[1, 4, 8, 9], &[faulty(1, 13, 0), sound(0, BARE)]),
    ("Three, the first fault of each", b"]\"\n[\"\n[", (0, 3), &[0, 2, 3, 5, 6, 7], &[
        faulty(0, 13, 0), faulty(1, 15, 2), faulty(2, 16, 1), faulty(0, 13, 0),
    ]),
];

/// "31 exactly when there are more lines than table entries, the table unchanged"; "entries behind stay".
const ROWS_ROOM: &[Row] = &[
    ("Three, 3 lines, no table", b"1\n2\n3\n", (31, 0), &[], &[refused(0, 1, 4, 1)]),
    ("Three, 3 lines, half an entry", b"1\n2\n3\n", (31, 0), &[901], &[]),
    ("Three, 3 lines, 2 entries", b"1\n2\n3\n", (31, 0), &[901, 902, 903, 904], &[]),
    ("Three, 3 lines, 2 entries and a half", b"1\n2\n3\n", (31, 0), &[901, 902, 903, 904, 905], &[refused(2, 1, 4, 1)]),
    ("Three, 3 lines, 3 entries", b"1\n2\n3\n", (0, 3), &[0, 1, 2, 3, 4, 5], &[refused(3, 1, 4, 1)]),
    ("Three, 3 lines, 3 entries and a half", b"1\n2\n3\n", (0, 3), &[0, 1, 2, 3, 4, 5, 907], &[refused(3, 1, 4, 1)]),
    ("Three, 3 lines, 4 entries", b"1\n2\n3\n", (0, 3), &[0, 1, 2, 3, 4, 5, 907, 908], &[refused(3, 1, 4, 1)]),
    ("Three, 3 lines, 6 entries", b"1\n2\n3", (0, 3), &[0, 1, 2, 3, 4, 5, 907, 908, 909, 910, 911, 912], &[]),
    ("Three, blank lines take no entry", b"\n1\n \n2\n\r\n3\n\t", (0, 3), &[1, 2, 5, 6, 9, 10], &[]),
    ("Three, one line, half an entry", b"1", (31, 0), &[901], &[]),
    ("Three, one line, 1 entry and a half", b"1", (0, 1), &[0, 1, 903], &[sound(0, BARE), refused(1, 1, 4, 1)]),
    ("Three, an empty text", b"", (1, 0), &[901, 902], &[refused(0, 1, 4, 1)]),
    ("Three, an empty text, no table", b"", (1, 0), &[], &[]),
];

/// Word buffers and levels: 3 before 4, 4 before a fault, "in the front of the same word buffer".
const ROWS_WORDS: &[Row] = &[
    ("Three, buffers for a sound line", b"{\"a\":1}\n[2]]\n", (0, 2), &[0, 7, 8, 12], &[
        refused(0, 1, 0, 4), refused(0, 1, 3, 4), indexed(0, 1, 4, OBJECT), indexed(0, 1, 5, OBJECT), indexed(0, 1, 9, OBJECT),
        refused(0, 2, 5, 4), indexed(0, 2, 6, &[10, 12, 16, 0, 0, 0]), indexed(0, 2, 7, &[10, 12, 16, 0, 0, 0]), refused(0, 16, 33, 4),
        indexed(0, 16, 34, OBJECT_16),
    ]),
    ("Three, buffers for a faulty line", b"{\"a\":1}\n[2]]\n", (0, 2), &[0, 7, 8, 12], &[
        refused(1, 1, 3, 4), faulty(1, 13, 3), faulty_in(5, 1, 13, 3), faulty_in(9, 1, 13, 3), indexed(0, 1, 9, OBJECT),
    ]),
    ("Three, levels", b"{\"a\":1}\n[2]]\n", (0, 2), &[0, 7, 8, 12], &[
        refused(0, 0, 4, 3), refused(0, 17, 64, 3), refused(0, 65_535, 64, 3), refused(0, 0, 0, 3), refused(1, 17, 0, 3),
        refused(1, 0, 4, 3), refused(2, 0, 0, 1), refused(2, 17, 3, 1),
    ]),
    ("Three, two levels", b"[[1,2],{\"a\":3}]\n{\"b\":[4,5]}", (0, 2), &[0, 15, 16, 27], &[
        // quotes at 8 and 10, inside 9 and 10; a comma of level 1 at 6; a colon of level 2 at 11, a comma at 3
        indexed(0, 2, 6, &[1280, 1536, 0, 64, 2048, 8]),
        // quotes at 1 and 3, inside 2 and 3; a colon of level 1 at 4; a comma of level 2 at 7
        indexed(1, 2, 6, &[10, 12, 16, 0, 0, 128]),
        indexed(0, 1, 4, &[1280, 1536, 0, 64]),
        indexed(0, 3, 8, &[1280, 1536, 0, 64, 2048, 8, 0, 0]),
    ]),
];

/// The part at a start up to an end that no table call gave, over `{"a":1}`, LF, `[2]`, LF: 12 bytes.
const MADE_UP: &[usize] = &[
    7, 0, // 0: from behind its end
    0, 13, // 1: beyond the text
    5, 5, // 2: nothing
    3, 10, // 3: `":1}`, LF, `[2`
    0, 12, // 4: the whole text
    12, 12, // 5: nothing at the end
    12, 13, // 6: behind the end
    usize::MAX, usize::MAX, // 7
    0, usize::MAX, // 8
    usize::MAX, 0, // 9
    8, 11, // 10: `[2]`
    5, 11, // 11: `1}`, LF, `[2]`
    7, 12, // 12: LF, `[2]`, LF
    11, 12, // 13: LF
    1, 7, // 14: `"a":1}`
    13, 12, // 15: from behind the text back to its end
    8, // no entry
];

const CALLS_MADE_UP: &[LineCall] = &[
    refused(0, 1, 4, 1), refused(1, 1, 4, 1), refused(2, 1, 4, 1), refused(5, 1, 4, 1), refused(6, 1, 4, 1), refused(7, 1, 4, 1),
    refused(8, 1, 4, 1), refused(9, 1, 4, 1), refused(15, 1, 4, 1), refused(16, 1, 4, 1), refused(17, 1, 4, 1),
    refused(usize::MAX, 1, 4, 1),
    // twice these are 0, 20 and -2 in 64 bits
    refused(1 << 63, 1, 4, 1), refused((1 << 63) + 10, 1, 4, 1), refused(usize::MAX >> 1, 1, 4, 1),
    faulty(3, 15, 7), sound(4, OBJECT), sound(10, BARE), faulty(11, 13, 1), sound(12, BARE), sound(13, BARE), faulty(14, 13, 5),
    refused(13, 1, 3, 4), refused(13, 0, 4, 3), refused(0, 0, 0, 1), refused(usize::MAX, 17, 0, 1),
];

/// A report's name, its text, its entries, and what they answer.
type MadeUpRow = (&'static str, &'static [u8], &'static [usize], &'static [LineCall]);

/// Entries that no table call gave. The third number is in none; a blank line is not empty.
const ROWS_MADE_UP: &[MadeUpRow] = &[
    ("Three, made-up entries", b"{\"a\":1}\n[2]\n", MADE_UP, CALLS_MADE_UP),
    ("Three, an entry and a half", b"{\"a\":1}\n[2]\n", &[0, 7, 8], &[sound(0, OBJECT), refused(1, 1, 4, 1)]),
    ("Three, a blank entry", b" \t\r\n7", &[0, 3], &[sound(0, BARE)]),
    ("Three, no entry", b"7", &[], &[refused(0, 1, 4, 1), refused(1, 1, 4, 1)]),
    ("Three, an entry of an empty text", b"", &[0, 0, 0, 1], &[refused(0, 1, 4, 1), refused(1, 1, 4, 1)]),
];

/// "Each line is then indexed by a job of its own": 64 bytes, then 67 with a comma at place 64 of the line.
const CALLS_LONG: &[LineCall] = &[
    refused(0, 1, 3, 4), sound(0, BARE), refused(1, 1, 7, 4), indexed(1, 1, 8, &[0, 0, 0, 0, 0, 0, 0, 1]), indexed(0, 1, 8, BARE),
    indexed(1, 1, 8, &[0, 0, 0, 0, 0, 0, 0, 1]), indexed(1, 1, 9, &[0, 0, 0, 0, 0, 0, 0, 1]),
];

/// The next line from a place on, as if one began there.
const NEXT: &[NextReport] = &[
    (b"[1]\n \n[2]", 0, Some((0, 3))),
    (b"[1]\n \n[2]", 1, Some((1, 3))),
    (b"[1]\n \n[2]", 2, Some((2, 3))),
    (b"[1]\n \n[2]", 3, Some((6, 9))),
    (b"[1]\n \n[2]", 4, Some((6, 9))),
    (b"[1]\n \n[2]", 5, Some((6, 9))),
    (b"[1]\n \n[2]", 6, Some((6, 9))),
    (b"[1]\n \n[2]", 8, Some((8, 9))),
    (b"[1]\n \n[2]", 9, None),
    (b"[1]\n \n[2]", 10, None),
    (b"[1]\n \n[2]", usize::MAX, None),
    (b" x \n", 0, Some((0, 3))),
    (b" x \n", 1, Some((1, 3))),
    (b" x \n", 2, None),
    (b" x \n", 3, None),
    (b" x \n", 4, None),
    (b"a\rb\r\nc", 0, Some((0, 4))),
    (b"a\rb\r\nc", 1, Some((1, 4))),
    (b"a\rb\r\nc", 3, Some((5, 6))),
    (b"a\rb\r\nc", 4, Some((5, 6))),
    (b"a\rb\r\nc", 6, None),
    (b"123456789012345\n7", 0, Some((0, 15))),
    (b"123456789012345\n7", 14, Some((14, 15))),
    (b"123456789012345\n7", 15, Some((16, 17))),
    (b"                    7", 0, Some((0, 21))),
    (b"                    7", 4, Some((4, 21))),
    (b"\"x\ny\"", 0, Some((0, 2))),
    (b"\"x\ny\"", 2, Some((3, 5))),
    (b"\r\n\t\n ", 0, None),
    (b"\r\n\t\n ", 3, None),
    (b"\x0b\n", 0, Some((0, 1))),
    (b"\n\xA0", 0, Some((1, 2))),
    (b"", 0, None),
    (b"", 1, None),
];

fn of_rows(rows: &'static [Row]) -> impl Iterator<Item = LineReport> {
    let of_row = |&(name, text, answer, numbers, calls): &'static Row| {
        let lent = LENT[..numbers.len()].to_vec();
        LineReport { name, text: text.to_vec(), lent, made: Some((answer, numbers)), calls }
    };
    rows.iter().map(of_row)
}

fn of_made_up_rows(rows: &'static [MadeUpRow]) -> impl Iterator<Item = LineReport> {
    let of_row = |&(name, text, numbers, calls): &'static MadeUpRow| {
        LineReport { name, text: text.to_vec(), lent: numbers.to_vec(), made: None, calls }
    };
    rows.iter().map(of_row)
}

fn long_lines() -> LineReport {
    let text = [&[b'1'; 64][..], b"\n[", &[b'1'; 63], b",2]"].concat();
    let made = Some(((0, 2), &[0, 64, 65, 132][..]));
    LineReport { name: "Three, long lines", text, lent: LENT[..4].to_vec(), made, calls: CALLS_LONG }
}

/// Every text with its lines.
pub fn all() -> impl Iterator<Item = LineReport> {
    let rows = [ROWS_CUT, ROWS_BLANK, ROWS_FAULTY, ROWS_ROOM, ROWS_WORDS];
    rows.into_iter().flat_map(of_rows).chain(of_made_up_rows(ROWS_MADE_UP)).chain([long_lines()])
}

/// Every next line.
pub fn all_next() -> &'static [NextReport] {
    NEXT
}

fn same<T: PartialEq + Debug>(name: &str, what: &str, got: T, said: T) {
    assert!(got == said, "report {name}: {what} is {got:?}, and the document says {said:?}");
}

impl LineReport {
    fn case(&self) -> Case {
        let mut case = Case::new();
        case.set_record(&self.text);
        case.set_table(&self.lent);
        if let Some((answer, numbers)) = self.made {
            same(self.name, "what making the table answers", case.make_table(0), answer);
            same(self.name, "the table", &case.table[..], numbers);
        }
        for (i, call) in self.calls.iter().enumerate() {
            // where as many words are lent, over what the line before left
            if i == 0 || self.calls[i - 1].words != call.words {
                case.set_words(call.words, 31 + call.words as u64);
            }
            self.call(&mut case, call);
        }
        case.end();
        case
    }

    fn call(&self, case: &mut Case, call: &LineCall) {
        let before = case.words.clone();
        let told = case.index_line(0, call.levels, call.line);
        same(self.name, &format!("line {}", call.line), told, call.told);
        let left = [call.front, &before[call.front.len()..]].concat();
        same(self.name, &format!("what line {} leaves", call.line), &case.words, &left);
    }
}

/// One case for all next lines.
fn next_case() -> Case {
    let mut case = Case::new();
    for (i, &(text, from, said)) in NEXT.iter().enumerate() {
        if i == 0 || NEXT[i - 1].0 != text {
            case.set_record(text);
        }
        same("Three, next lines", &format!("from {from} of \"{}\"", text.escape_ascii()), case.next_line(0, from), said);
    }
    case.end();
    case
}

/// As cases; each asserts what is said.
pub fn cases() -> Vec<Case> {
    all().map(|report| report.case()).chain([next_case()]).collect()
}
