//! What request One tells of misses and broken items: values whole and broken, in which the first, the second or the third step
//! works, over the words that a run gave and over words with one bit turned over.

use crate::case::Case;
use crate::rules::{row, width, Bitmap};

const LEVELS: usize = 3;

/// Objects, arrays and other values: no items, whole ones, and items without a colon, with a bad name, with an empty value; one
/// of these before another, behind whole ones, blanks before them, and where it is not taken.
const VALUES: [&str; 30] = [
    "7", r#""{}""#, "{]", "[}", "{}", "{ \n}", "[]", "[\t]",
    r#"{"a":1,"b":2}"#, r#"{ "b" : 1 , "a" : 2 }"#, r#"{"":1,"a":{"z":2}}"#,
    r#"{"a"}"#, r#"{"b":1,  "a" }"#, r#"{"b":1, ,"a":2}"#, r#"{"a":1,}"#, r#"{"b"{"a":1},"a":1}"#,
    "{x}", "{:1}", "{ a:1}", r#"{"b":1, x :2,"a":3}"#, r#"{"b" "c":1,"a":2}"#, "{x:}",
    r#"{"a":}"#, r#"{"b":,"a":1}"#, "{\"b\":1, \"a\":\r, x}", r#"{"a": ,"a":1}"#,
    "[1,2]", "[,]", "[ 1 ,  , 2]", r#"[x:,"a",]"#,
];

/// Where a value stands: what is before it, the path to it, and what is behind it.
type Setting = (&'static str, &'static str, &'static str);

/// Two for each step: close, and with blanks.
const SETTINGS: [[Setting; 2]; LEVELS] = [
    [("", "$", ""), (" \n", "$", "\t")],
    [(r#"{"m":"#, "$.m", "}"), ("\r[ 0 , ", "$[1]", " ] ")],
    [(r#"[0,{"m":"#, "$[1].m", "}]"), (r#" { "k" : 0 ,"m": [ "#, "$.m[0]", " ,1]\n}")],
];

/// A value, and steps for which each bit is turned over that they go by.
pub type Turned = (&'static str, &'static [&'static str]);

const TURNED: [Turned; 6] = [
    (r#"{"b":1,"a":2}"#, &[".a", ".b"]),
    (r#"{ "b":,"a" : 3 }"#, &[".a", ".b"]),
    (r#"{"a"}"#, &[".a"]),
    ("{ }", &[".a"]),
    ("[1, 2]", &["[0]", "[1]"]),
    ("[ ]", &["[0]"]),
];

/// Values that grow by blanks where the mark `~` is, so that the item, its colon or its comma comes to lie in another word.
const GROWN: [&str; 10] = [
    r#"~{"b":1}"#, r#"{"b":1~,x:2}"#, r#"{"b":1,~}"#, r#"{"b":1,~x:2}"#, r#"{ "a"~:}"#, r#"{"a":~}"#, r#"{ "a"~}"#,
    "[12345~,]", "[1234,~]", "[12345,~,6]",
];

/// The words of a run without cuts.
fn ran(record: &str) -> Case {
    let mut case = Case::new();
    case.set_record(record.as_bytes());
    case.plain_run(LEVELS, &[], |_| false);
    case
}

fn ask(case: &mut Case, path: &str, steps: &[&str]) {
    for step in steps {
        case.query(0, LEVELS, format!("{path}{step}").as_bytes());
    }
}

fn asked(record: &str, path: &str, steps: &[&str]) -> Case {
    let mut case = ran(record);
    ask(&mut case, path, steps);
    case.end();
    case
}

fn over_a_run() -> Vec<Case> {
    let steps = [".a", ".b", ".z", "[0]", "[1]", "[2]"];
    let case = |(before, path, behind): Setting, value: &str| asked(&[before, value, behind].concat(), path, &steps);
    SETTINGS.concat().into_iter().flat_map(|setting| VALUES.map(|value| case(setting, value))).collect()
}

fn over_word_borders() -> Vec<Case> {
    let case = |value: &str, blanks: usize| asked(&value.replace('~', &" ".repeat(blanks)), "$", &[".a", ".b", "[1]", "[2]"]);
    GROWN.into_iter().flat_map(|value| [55, 56, 57, 58, 59, 121].map(|blanks| case(value, blanks))).collect()
}

/// Each bit of the quotes, colons and commas that step k goes by turned over, and back again: the brackets' places too.
fn turned_over(k: usize, (before, path, behind): Setting, value: &str, steps: &[&str]) -> Case {
    let mut case = ran(&[before, value, behind].concat());
    let (from, wide) = (before.len(), width(case.record.len()));
    let bitmaps = [Bitmap::Quotes, Bitmap::Colons(k), Bitmap::Commas(k)];
    for (bitmap, at) in bitmaps.into_iter().flat_map(|bitmap| (from..from + value.len()).map(move |at| (bitmap, at))) {
        let (word, bit) = (row(bitmap) * wide + at / 64, 1 << (at % 64));
        case.damage(word, bit);
        ask(&mut case, path, steps);
        case.damage(word, bit);
    }
    case.end();
    case
}

pub fn over_damaged_words(values: &[Turned]) -> Vec<Case> {
    let of_step = |k: usize| values.iter().enumerate().map(move |(i, &(value, steps))| turned_over(k, SETTINGS[k - 1][i % 2], value, steps));
    (1..=LEVELS).flat_map(of_step).collect()
}

pub fn all() -> impl Iterator<Item = Case> {
    [over_a_run(), over_word_borders(), over_damaged_words(&TURNED)].into_iter().flatten()
}

#[cfg(test)]
mod tests {
    use super::*;
    use crate::case::queries;

    /// How often the cases give a number at a step.
    fn times(list: &[Case], number: u64, step: usize) -> usize {
        list.iter().flat_map(|case| queries(&case.line)).filter(|&told| told == (number, step)).count()
    }

    #[test]
    fn every_miss_and_every_broken_item_at_every_step() {
        let (plain, damaged) = (over_a_run(), over_damaged_words(&TURNED));
        for step in 1..=LEVELS {
            for number in 23..=29 {
                assert!(times(&plain, number, step) >= 4, "{number} at step {step}, over the words of a run");
            }
            for number in 25..=29 {
                assert!(times(&damaged, number, step) >= 4, "{number} at step {step}, over damaged words");
            }
        }
    }

    #[test]
    fn places_about_the_border_of_two_words() {
        let lines: String = over_word_borders().iter().map(|case| case.line.as_str()).collect();
        for told in ["25@58/1", "28@63/1", "28@64/1", "28@128/1", "29@63/1", "29@64/1", "29@128/1"] {
            assert!(lines.contains(told), "{told} is not among them");
        }
    }
}
