//! Section 'Reports to try' of the scope, and what else it shows by example, in its literal numbers and as request One amends
//! them; and the sentences of requests One and Two, worked out by hand on small records (line_reports.rs has those of Three).
//! Whatever is read here is from the documents and never from a program's answer. A case of a report asserts it, so that a
//! misreading is noticed also where both programs share it.

use std::fmt::Debug;

use crate::case::Case;
use crate::line_reports;
use crate::path::{line, part, refused, told, Found};
use crate::records::brackets;
use crate::rules::{truth, width, Fault};

/// A bitmap's name, its place among the bitmaps, and its words.
pub type Words = &'static [(Bitmap, &'static [u64])];
pub type Bitmap = (&'static str, usize);
pub type Paths = &'static [(&'static str, Found)];
/// A report's name, L, its record, and what its paths find.
type Row = (&'static str, usize, &'static [u8], Paths);

pub struct Report {
    pub name: &'static str,
    pub record: Vec<u8>,
    pub levels: usize,
    pub cuts: &'static [usize],
    /// None: accepted.
    pub fault: Option<Fault>,
    pub words: Words,
    pub paths: Paths,
    /// Paths of which the documents say nothing.
    also: &'static [&'static str],
    /// How many combinations of guesses are tried.
    pub guesses: u64,
}

fn report(name: &'static str, record: &[u8]) -> Report {
    Report { name, record: record.to_vec(), levels: 1, cuts: &[], fault: None, words: &[], paths: &[], also: &[], guesses: 1 }
}

fn of_rows(rows: &[Row]) -> Vec<Report> {
    rows.iter().map(|&(name, levels, record, paths)| Report { levels, paths, ..report(name, record) }).collect()
}

const RECORD_4: &[u8] = br#"{"a":[1,2],"b":{"c":3}}"#;

/// "quotes, then mask, then for k = 1 to L colons of k, commas of k", counted out.
const QUOTES: Bitmap = ("quotes", 0);
const MASK: Bitmap = ("mask", 1);
const COLONS_1: Bitmap = ("colons of level 1", 2);
const COMMAS_1: Bitmap = ("commas of level 1", 3);
const COLONS_2: Bitmap = ("colons of level 2", 4);
const COMMAS_2: Bitmap = ("commas of level 2", 5);

const WORDS_1: Words = &[(QUOTES, &[298]), (MASK, &[460]), (COLONS_1, &[16]), (COMMAS_1, &[0])];
const WORDS_2: Words = &[(QUOTES, &[18]), (MASK, &[28]), (COMMAS_1, &[32])];
const WORDS_4: Words = &[(COLONS_1, &[16400]), (COLONS_2, &[524288]), (COMMAS_1, &[1024]), (COMMAS_2, &[128])];
const WORDS_5: Words = &[(QUOTES, &[1 << 62, 8]), (MASK, &[1 << 63, 15])];

const PATHS_12: Paths = &[
    ("$", part(0, 23)),
    ("$.b.c", part(20, 21)),
    ("$.a[1]", part(8, 9)),
    ("$.c", told(25, 1, 0)),
    ("$.a.x", told(23, 2, 5)),
    ("$[0]", told(24, 1, 0)),
    ("$.a[2]", told(26, 2, 5)),
    ("$.a[01]", told(20, 0, 5)),
    ("$.", told(20, 0, 2)),
];

/// Report 12 with L = 1, report 13, the showing program's example, and the record that is blank all through.
const ROWS_13: &[Row] = &[
    ("12, L = 1", 1, RECORD_4, &[("$.a[1]", refused(22))]),
    ("13, [1,]", 1, b"[1,]", &[("$[1]", told(29, 1, 3)), ("$[2]", told(26, 1, 0))]),
    ("13, {}", 1, b" {} ", &[("$", part(1, 3)), ("$.a", told(25, 1, 1))]),
    ("13, repeated names", 1, br#"{"a":1,"a":2}"#, &[("$.a", part(5, 6))]),
    ("of the showing program", 4, br#"{"a":1,"b":[2,30]}"#, &[("$.b[1]", part(14, 16))]),
    ("of a blank record", 1, b"  \n ", &[("$", told(29, 0, 0))]),
];

/// Request One: the three broken items, their order within an item, and which items are looked at.
const ROWS_BROKEN: &[Row] = &[
    ("One, no colon", 3, br#"{"a"}"#, &[("$.a", told(27, 1, 1)), ("$.b", told(27, 1, 1))]),
    ("One, a deeper colon", 3, br#"{"a"{"b":1}}"#, &[("$.a", told(27, 1, 1))]),
    ("One, a colon in a string", 3, br#"{"a:1"}"#, &[("$.a", told(27, 1, 1))]),
    ("One, no colon before bad name", 3, br#"{x,"a":1}"#, &[("$.x", told(27, 1, 1)), ("$.a", told(27, 1, 1))]),
    ("One, a blank item of an object", 3, br#"{"b":1, ,"a":2}"#, &[("$.b", part(5, 6)), ("$.a", told(27, 1, 7))]),
    ("One, a blank item at the end", 3, br#"{"b":1,}"#, &[("$.b", part(5, 6)), ("$.a", told(27, 1, 7))]),
    ("One, two blank items", 3, b"{,}", &[("$.a", told(27, 1, 1))]),
    ("One, no name", 3, b"{:1}", &[("$.a", told(28, 1, 1))]),
    ("One, a name of two strings", 3, br#"{"a""b":1}"#, &[("$.a", told(28, 1, 1)), ("$.b", told(28, 1, 1))]),
    ("One, bad name before empty value", 3, b"{x:}", &[("$.x", told(28, 1, 1)), ("$.a", told(28, 1, 1))]),
    ("One, a bad name behind an item", 3, br#"{"b":1,x:2}"#, &[("$.b", part(5, 6)), ("$.x", told(28, 1, 7)), ("$.a", told(28, 1, 7))]),
    ("One, the first broken item", 3, br#"{x:1,"a"}"#, &[("$.a", told(28, 1, 1))]),
    ("One, 29 for the item taken", 3, br#"{"b":,"a":1}"#, &[("$.a", part(10, 11)), ("$.b", told(29, 1, 1)), ("$.c", told(25, 1, 0))]),
    ("One, 29 for the first of a name", 3, br#"{"a":,"a":1}"#, &[("$.a", told(29, 1, 1))]),
    ("One, empty array items", 3, b"[,]", &[("$[0]", told(29, 1, 1)), ("$[1]", told(29, 1, 2)), ("$[2]", told(26, 1, 0))]),
    ("One, a blank array item", 3, b"[1, ,2]", &[("$[0]", part(1, 2)), ("$[1]", told(29, 1, 3)), ("$[2]", part(5, 6))]),
    ("One, a number looks at no name", 3, br#"[,x:,{"a"}]"#, &[("$[1]", part(2, 4)), ("$[2]", part(5, 10)), ("$[2].a", told(27, 2, 6))]),
];

/// Request One: the places, with blanks about values and items, and the steps.
const ROWS_PLACES: &[Row] = &[
    ("One, blanks before a bad name", 3, b" {  x :1}", &[("$.x", told(28, 1, 2))]),
    ("One, blanks before no colon", 3, br#"{"b":1,  "a"}"#, &[("$.a", told(27, 1, 7))]),
    ("One, blanks before a name without value", 3, br#"{ "a" : , "b":1}"#, &[("$.a", told(29, 1, 1)), ("$.b", part(14, 15))]),
    ("One, blanks in an array", 3, b"[ 1 ,  ]", &[("$[1]", told(29, 1, 5)), ("$[2]", told(26, 1, 0)), ("$.a", told(23, 1, 0))]),
    ("One, blanks and no items", 3, b"\t[ ]", &[("$[0]", told(26, 1, 1)), ("$.a", told(23, 1, 1))]),
    ("One, blanks before the record", 3, br#"  {"a":1} "#, &[("$.b", told(25, 1, 2)), ("$[0]", told(24, 1, 2))]),
    ("One, a value of one byte", 3, br#"  {"a":1} "#, &[("$.a.b", told(23, 2, 7)), ("$.a[0]", told(24, 2, 7))]),
    ("One, blanks before a value", 3, br#"{"a":  [1] }"#, &[("$.a[1]", told(26, 2, 7)), ("$.a.b", told(23, 2, 7)), ("$.a[0].b", told(23, 3, 8))]),
    ("One, step 2", 3, br#"[1,{"b":,x:1}]"#, &[("$[1].b", told(29, 2, 4)), ("$[1].a", told(28, 2, 9)), ("$[1][0]", told(24, 2, 3))]),
    ("One, step 3, no colon", 3, br#"{"a":[{"b" , }]}"#, &[("$.a[0].b", told(27, 3, 7)), ("$.a[0][0]", told(24, 3, 6))]),
    ("One, step 3, bad name", 3, br#"{"a":{"b":{x:1}}}"#, &[("$.a.b.x", told(28, 3, 11)), ("$.a.c", told(25, 2, 5)), ("$.a.b", part(10, 15))]),
    ("One, step 3, empty value", 3, b"[[ [1,] ]]", &[("$[0][0][1]", told(29, 3, 6)), ("$[0][0][2]", told(26, 3, 3)), ("$[0][1]", told(26, 2, 1))]),
    ("One, a blank record", 1, b"\r\n", &[("$.a", told(29, 0, 0)), ("$[0]", told(29, 0, 0))]),
    ("One, a blank record after 20 to 22", 1, b" ", &[("$.", told(20, 0, 2)), ("$[16777216]", refused(21)), ("$.a.b", refused(22))]),
];

/// Request Two: names compare by their characters.
const ROWS_SPELT: &[Row] = &[
    ("Two, a name spelt by an escape", 3, br#"{"\u006eame":1}"#, &[("$.name", part(13, 14)), ("$.ame", told(25, 1, 0)), ("$.u006eame", told(25, 1, 0))]),
    ("Two, digits in either case", 3, br#"{"\u006A":1,"\u006a":2}"#, &[("$.j", part(10, 11)), ("$.J", told(25, 1, 0))]),
    ("Two, every digit that is a letter", 3, br#"{"\uabcd\uefAB\uCDEF":1,"a":2}"#, &[("$.a", part(28, 29))]),
    ("Two, all of a name by escapes", 3, br#"{"\u005f\u0052\u0039":1}"#, &[("$._R9", part(22, 23)), ("$._r9", told(25, 1, 0))]),
    ("Two, zero is a character", 3, br#"{"\u0000":1,"a\u0000":2,"a":3}"#, &[("$.a", part(28, 29))]),
    ("Two, the short escapes", 3, br#"{"\"\\\/\b\f\n\r\t":1,"a":2}"#, &[("$.a", part(26, 27)), ("$.bfnrt", told(25, 1, 0))]),
    ("Two, no escape is its letter, b f", 3, br#"{"\b":0,"\f":1,"b":2,"f":3}"#, &[("$.b", part(19, 20)), ("$.f", part(25, 26))]),
    ("Two, no escape is its letter, n r", 3, br#"{"\n":0,"\r":1,"n":2,"r":3}"#, &[("$.n", part(19, 20)), ("$.r", part(25, 26))]),
    ("Two, no escape is its letter, t u", 3, br#"{"\t":0,"\u0000":1,"t":2}"#, &[("$.t", part(23, 24)), ("$.u0000", told(25, 1, 0))]),
    ("Two, an escaped backslash", 3, br#"{"\\u0061":1,"a":2}"#, &[("$.a", part(17, 18)), ("$.u0061", told(25, 1, 0))]),
    ("Two, what an escape gives begins none", 3, br#"{"\u005cq":1,"\u0022":2,"a":3}"#, &[("$.a", part(28, 29))]),
    ("Two, a surrogate pair", 3, br#"{"\uD83D\ude00":1,"a":2}"#, &[("$.a", part(22, 23))]),
    ("Two, the first and the last pair", 3, br#"{"\ud800\udc00\uDBFF\uDFFF":1,"a":2}"#, &[("$.a", part(34, 35))]),
    ("Two, beside the surrogates", 3, br#"{"\uD7FF\uE000":1,"a":2}"#, &[("$.a", part(22, 23))]),
    ("Two, a character is all its digits", 3, br#"{"\u0161":1,"\uD800\uDC61":2,"\u6100":3,"a":4}"#, &[("$.a", part(44, 45))]),
    ("Two, the first of two by characters", 3, br#"{"\u0061":1,"a":2}"#, &[("$.a", part(10, 11))]),
    ("Two, the first of two, raw", 3, br#"{"a":1,"\u0061":2}"#, &[("$.a", part(5, 6))]),
    ("Two, no case folding", 3, br#"{"\u0061":1,"A":2}"#, &[("$.A", part(16, 17)), ("$.a", part(10, 11))]),
    ("Two, no normalisation", 3, br#"{"e\u0301":1,"\uFF45":2,"e":3}"#, &[("$.e", part(28, 29))]),
    ("Two, a name that goes on", 3, br#"{"a\u0062":1,"a":2}"#, &[("$.a", part(17, 18)), ("$.ab", part(11, 12)), ("$.abc", told(25, 1, 0))]),
    ("Two, a raw surrogate", 3, b"{\"\xED\xA0\x80\":1,\"a\":2}", &[("$.a", part(13, 14))]),
    ("Two, raw control bytes", 3, b"{\"a\n\":1,\"\x01a\":2,\"a\":3}", &[("$.a", part(19, 20)), ("$.an", told(25, 1, 0))]),
    ("Two, a raw zero", 3, b"{\"a\0\":1,\"a\":2}", &[("$.a", part(12, 13))]),
    ("Two, bytes that are no UTF-8", 3, b"{\"\xFFa\xC3\":1,\"a\":2}", &[("$.a", part(13, 14))]),
    ("Two, an overlong letter", 3, b"{\"\xC1\xA1\":1,\"a\":2}", &[("$.a", part(12, 13))]),
    ("Two, no UTF-8 before an escape", 3, b"{\"\xC3\\u0061\":1,\"a\":2}", &[("$.a", part(17, 18))]),
    ("Two, blanks about a spelt name", 3, br#"{ "\u0061" : 7 }"#, &[("$.a", part(13, 14))]),
    ("Two, an empty value of a spelt name", 3, br#"{"\u0062":,"\u0061":}"#, &[("$.a", told(29, 1, 11)), ("$.b", told(29, 1, 1)), ("$.c", told(25, 1, 0))]),
    ("Two, spelt at steps 1 and 3", 3, br#"{"\u006d":[{"\u0061":1}]}"#, &[("$.m[0].a", part(21, 22)), ("$.m[0].b", told(25, 3, 11))]),
];

/// Request Two: which items are looked at for 30, in which order, and what it tells.
const ROWS_UNREAD: &[Row] = &[
    ("Two, the name is read whole", 3, br#"{"x\q":1,"a":2}"#, &[("$.a", told(30, 1, 1)), ("$.x", told(30, 1, 1)), ("$.b", told(30, 1, 1))]),
    ("Two, 30 for the item that would be found", 3, br#"{"\u0061\q":1,"a":2}"#, &[("$.a", told(30, 1, 1))]),
    ("Two, 30 behind an item", 3, br#"{"b":1, "\q":2,"a":3}"#, &[("$.b", part(5, 6)), ("$.a", told(30, 1, 7))]),
    ("Two, 30 behind the item taken", 3, br#"{"a":1,"\q":2}"#, &[("$.a", part(5, 6)), ("$.b", told(30, 1, 7))]),
    ("Two, the first of two", 3, br#"{"\ud800":1,"\q":2}"#, &[("$.a", told(30, 1, 1))]),
    ("Two, 27 before 30", 3, br#"{"\q","a":1}"#, &[("$.a", told(27, 1, 1))]),
    ("Two, 28 before 30", 3, br#"{"\q"x:1,"a":2}"#, &[("$.a", told(28, 1, 1))]),
    ("Two, 28 before 30, two strings", 3, br#"{"\q""a":1}"#, &[("$.a", told(28, 1, 1))]),
    ("Two, 30 before 29", 3, br#"{"\q":,"a":1}"#, &[("$.a", told(30, 1, 1)), ("$.q", told(30, 1, 1))]),
    ("Two, the first broken item, 30", 3, br#"{"\q":1,"a",x:2}"#, &[("$.a", told(30, 1, 1))]),
    ("Two, the first broken item, 27", 3, br#"{"a","\q":1}"#, &[("$.b", told(27, 1, 1))]),
    ("Two, the first broken item, 28", 3, br#"{x:1,"\q":1}"#, &[("$.a", told(28, 1, 1))]),
    ("Two, blanks before a bad escape", 3, br#" {  "\q" :1}"#, &[("$.a", told(30, 1, 2))]),
    ("Two, a number looks at no name", 3, br#"["\q":1,{"\q":1}]"#, &[("$[0]", part(1, 7)), ("$[1]", part(8, 16)), ("$[1].a", told(30, 2, 9)), ("$[2]", told(26, 1, 0))]),
    ("Two, a value is no name", 3, br#"{"b":"\q","a":"\ud800"}"#, &[("$.a", part(14, 22)), ("$.a.b", told(23, 2, 14))]),
    ("Two, a deeper name", 3, br#"{"m":{"\q":1},"a":2}"#, &[("$.a", part(18, 19)), ("$.m", part(5, 13)), ("$.m.a", told(30, 2, 6))]),
    ("Two, step 2", 3, br#"{"m":{"k":0,"\q":1}}"#, &[("$.m.a", told(30, 2, 12)), ("$.m.k", part(10, 11)), ("$.a", told(25, 1, 0))]),
    ("Two, step 3", 3, br#"[[{ "\ud800":1}]]"#, &[("$[0][0].a", told(30, 3, 3)), ("$[0][0][0]", told(24, 3, 2))]),
];

/// Request Two: names that are 30, each in the first item of a record.
const PATHS_UNREAD: Paths = &[("$.a", told(30, 1, 1))];
const UNREAD: &[(&str, &[u8])] = &[
    ("Two, no escape of one letter", br"\q"),
    ("Two, \\a", br"\a"),
    ("Two, \\v", br"\v"),
    ("Two, \\0", br"\0"),
    ("Two, \\'", br"\'"),
    ("Two, \\x61", br"\x61"),
    ("Two, \\N", br"\N"),
    ("Two, \\U", br"\U0061"),
    ("Two, a backslash before a blank", br"\ "),
    ("Two, no digits", br"\u"),
    ("Two, three digits", br"\u006"),
    ("Two, three digits before an escape", br"\u006\u0061"),
    ("Two, a last digit that is none", br"\u006g"),
    ("Two, a digit that is none", br"\u00g1"),
    ("Two, a first digit that is none", br"\ug061"),
    ("Two, a sign", br"\u+061"),
    ("Two, braces", br"\u{61}"),
    ("Two, a bad escape behind good ones", br"\u0061\n\q"),
    ("Two, a high surrogate alone", br"\ud83d"),
    ("Two, the first high surrogate", br"\uD800"),
    ("Two, the last high surrogate", br"\uDBFF"),
    ("Two, a low surrogate alone", br"\ude00"),
    ("Two, the first low surrogate", br"\uDC00"),
    ("Two, the last low surrogate", br"\uDFFF"),
    ("Two, a high one before a letter", br"\ud83dx"),
    ("Two, a high one before a raw low one", b"\\ud83d\xED\xB8\x80"),
    ("Two, a low one behind a raw high one", b"\xED\xA0\xBD\\ude00"),
    ("Two, a high one before a short escape", br"\ud83d\n"),
    ("Two, a high one before another character", br"\ud83d\u0061"),
    ("Two, a high one before the next to the low ones", br"\ud83d\ue000"),
    ("Two, a high one before a bad escape", br"\ud83d\q"),
    ("Two, a high one before three digits", br"\ud83d\ude0"),
    ("Two, two high ones", br"\ud83d\ud83d"),
    ("Two, two low ones", br"\ude00\ude00"),
    ("Two, two high ones and a low one", br"\ud83d\ud83d\ude00"),
    ("Two, a pair and a low one", br"\ud83d\ude00\ude00"),
    ("Two, a low one before a high one", br"\ude00\ud83d"),
    ("Two, a letter between a high and a low one", br"\ud83dx\ude00"),
];

/// Reports 1 to 4, and the paths of record 4 with L = 2.
fn words() -> Vec<Report> {
    vec![
        Report { words: WORDS_1, also: &["$.a"], ..report("1", br#"{"a":":,"}"#) },
        Report { words: WORDS_2, also: &["$[1]"], ..report("2", br#"["\\",1]"#) },
        Report { words: WORDS_2, also: &["$[1]"], ..report("3", br#"["\"",1]"#) },
        Report { levels: 2, words: WORDS_4, paths: PATHS_12, ..report("4 and 12", RECORD_4) },
    ]
}

/// Report 5: "62 spaces, `"\`, then `" ,"` (68 bytes), cut at 64".
fn over_border() -> Vec<Report> {
    let record = [&[b' '; 62][..], br#""\"#, br#"" ,""#].concat();
    vec![Report { cuts: &[64], words: WORDS_5, also: &["$"], guesses: 4, ..report("5", &record) }]
}

/// Reports 6 to 10.
fn verdicts() -> Vec<Report> {
    let verdict = |name, record: &[u8], fault| Report { fault, also: &["$"], guesses: 2, ..report(name, record) };
    vec![
        verdict("6", b"]", Some((13, 0))),
        verdict("7", b"[", Some((16, 1))),
        verdict("8", b"[\"", Some((15, 2))),
        verdict("9", b"[]][\"", Some((13, 2))),
        verdict("10", b"{]", None),
    ]
}

/// Report 11.
fn deepest() -> Vec<Report> {
    vec![report("11, 64 and 64", &brackets(64)), Report { fault: Some((14, 64)), ..report("11, 65 and 65", &brackets(65)) }]
}

/// Each name in `{"NAME":1,"a":2}`.
fn unread() -> Vec<Report> {
    let record = |spelt: &[u8]| [b"{\"", spelt, b"\":1,\"a\":2}"].concat();
    UNREAD.iter().map(|&(name, spelt)| Report { paths: PATHS_UNREAD, ..report(name, &record(spelt)) }).collect()
}

impl Report {
    fn same<T: PartialEq + Debug>(&self, what: &str, got: T, said: T) {
        assert!(got == said, "report {}: {what} is {got:?}, and the documents say {said:?}", self.name);
    }

    /// One for each combination of guesses.
    fn cases(&self) -> Vec<Case> {
        (0..self.guesses).map(|guesses| self.case(guesses)).collect()
    }

    fn case(&self, guesses: u64) -> Case {
        let mut case = Case::new();
        case.set_record(&self.record);
        let (settled, closed) = case.plain_run(self.levels, self.cuts, |k| guesses >> k & 1 == 1);
        self.same("the record's fault", truth(&self.record).fault, self.fault);
        self.same("what settle finds", settled, self.fault);
        self.same("what close answers", closed, self.fault.unwrap_or((0, 0)));
        let wide = width(self.record.len());
        for &((name, row), said) in self.words {
            self.same(name, &case.words[row * wide..][..wide], said);
        }
        for &(path, said) in self.paths {
            self.same(path, case.query(0, self.levels, path.as_bytes()), said);
        }
        for path in self.also {
            case.query(0, self.levels, path.as_bytes());
        }
        case.end();
        case
    }
}

/// The lines that the section of the showing program has, and that of 20 and of each number which goes on printing 0 0.
fn check_lines() {
    let long = [&b"$\n"[..], &[b' '; 16_385]].concat();
    let lines: [(&[u8], &str); 14] = [
        (b"$.b[1]\n{\"a\":1,\"b\":[2,30]}", "0 14 16\n"),
        (&[b'$'; 1025], "21 0 0\n"),
        (&long, "2 0 0\n"),
        (b"$[01]\n[1]", "20 3 3\n"),
        (b"$[0].a\n [1]", "23 0 0\n"),
        (b"$[0]\n {}", "24 0 0\n"),
        (b"$.a\n {}", "25 0 0\n"),
        (b"$[0][1]\n [[1]]", "26 0 0\n"),
        (b"$.a\n {x}", "27 0 0\n"),
        (b"$.a\n {x:}", "28 0 0\n"),
        (b"$[1]\n [1,]", "29 0 0\n"),
        (b"$\n ", "29 0 0\n"),
        (b"$.a\n {\"\\q\":1}", "30 0 0\n"),
        (b"$.name\n{\"\\u006eame\":1}", "0 13 14\n"),
    ];
    for (input, said) in lines {
        assert!(line(input) == said, "the showing program prints {:?}, and the documents say {said:?}", line(input));
    }
}

/// Every literal of the documents.
pub fn check() {
    check_lines();
    line_reports::cases();
    for report in all() {
        report.cases();
    }
}

/// The scope's reports but 11, which stands in a list of depths.
fn but_deepest() -> impl Iterator<Item = Report> {
    words().into_iter().chain(of_rows(ROWS_13)).chain(over_border()).chain(verdicts())
}

/// What request One tells, a row a sentence.
fn of_request_one() -> impl Iterator<Item = Report> {
    of_rows(ROWS_BROKEN).into_iter().chain(of_rows(ROWS_PLACES))
}

/// What request Two tells.
fn of_request_two() -> impl Iterator<Item = Report> {
    of_rows(ROWS_SPELT).into_iter().chain(of_rows(ROWS_UNREAD)).chain(unread())
}

/// Every report.
pub fn all() -> impl Iterator<Item = Report> {
    but_deepest().chain(deepest()).chain(of_request_one()).chain(of_request_two())
}

/// The scope's as cases; those of 11 stand in that list.
pub fn cases() -> Vec<Case> {
    but_deepest().flat_map(|report| report.cases()).collect()
}

/// Request One's as cases.
pub fn cases_of_request_one() -> Vec<Case> {
    of_request_one().flat_map(|report| report.cases()).collect()
}

/// Request Two's as cases.
pub fn cases_of_request_two() -> Vec<Case> {
    of_request_two().flat_map(|report| report.cases()).collect()
}

/// Every path with its record, as the showing program reads them.
pub fn inputs() -> impl Iterator<Item = Vec<u8>> {
    all().flat_map(|report| report.paths.iter().map(move |(path, _)| [path.as_bytes(), b"\n", &report.record].concat()))
}

#[cfg(test)]
mod tests {
    #[test]
    fn every_literal_of_the_documents() {
        super::check();
    }
}
