//! The program: every command, every exit status, every message with a place.

use std::collections::HashSet;
use std::ffi::{OsStr, OsString};
use std::fs::{self, File};
use std::io::{Read, Write};
use std::os::unix::ffi::OsStringExt;
use std::path::PathBuf;
use std::process::{Command, Stdio};

use bytewise::cases::text;
use bytewise::random::Random;
use bytewise::{path, records, rules};

const PROGRAM: &str = env!("CARGO_BIN_EXE_wararish");
const LIMIT: usize = 16_777_216;
const RECORD: &[u8] = br#"{"a":[1,2],"b":{"c":3}}"#;

/// Exit status, standard output, standard error.
type Ended = (i32, String, String);

fn ended(status: i32, out: &str, said: &str) -> Ended {
    (status, out.into(), said.into())
}

fn run_bytes(words: &[impl AsRef<OsStr>], input: &[u8]) -> (i32, Vec<u8>, String) {
    let mut child = Command::new(PROGRAM)
        .args(words)
        .stdin(Stdio::piped())
        .stdout(Stdio::piped())
        .stderr(Stdio::piped())
        .spawn()
        .unwrap();
    // the program may have read enough before all is written
    let _ = child.stdin.take().unwrap().write_all(input);
    let output = child.wait_with_output().unwrap();
    (output.status.code().unwrap(), output.stdout, String::from_utf8(output.stderr).unwrap())
}

fn run(words: &[&str], input: &[u8]) -> Ended {
    let (status, out, said) = run_bytes(words, input);
    (status, String::from_utf8(out).unwrap(), said)
}

/// A file of its own for each test, removed at the end.
struct Room(PathBuf);

impl Room {
    fn new(name: &str) -> Room {
        let path = std::env::temp_dir().join(format!("wararish-{}-{name}", std::process::id()));
        fs::create_dir(&path).unwrap();
        Room(path)
    }

    fn path(&self, name: &str) -> String {
        self.0.join(name).to_str().unwrap().into()
    }

    fn file(&self, name: &str, bytes: &[u8]) -> String {
        fs::write(self.0.join(name), bytes).unwrap();
        self.path(name)
    }
}

impl Drop for Room {
    fn drop(&mut self) {
        let _ = fs::remove_dir_all(&self.0);
    }
}

#[test]
fn ask_prints_the_value() {
    let room = Room::new("value");
    let file = room.file("report", br#"{"a":1,"b":[2,30]}"#);
    assert_eq!(run(&["ask", "$.b[1]", &file], b""), ended(0, "30\n", ""));
    assert_eq!(run(&["ask", "$", "-"], b" [1,\n2] \n"), ended(0, "[1,\n2]\n", ""));
}

#[test]
fn ask_takes_several_paths_a_line_each() {
    let name = "step 1, .c: the object has no such name, at byte 0, line 1, column 1 (25)";
    let number = "step 2, [2]: the array has no such number, at byte 5, line 1, column 6 (26)";
    let record = String::from_utf8_lossy(RECORD);
    let said = format!("wararish: $.c: {name}\n  {record}\n  ^\nwararish: $.a[2]: {number}\n  {record}\n       ^\n");
    let paths = ["ask", "$.a[1]", "$.c", "$.b.c", "$.a[2]", "-"];
    assert_eq!(run(&paths, RECORD), ended(1, "2\n\n3\n\n", &said));
    assert_eq!(run(&["ask", "$.a[0]", "$.a", "-"], RECORD), ended(0, "1\n[1,2]\n", ""));
}

/// A path, a record of one line in which it finds nothing, the step as the message tells it, and the place.
type Unfound = (&'static str, &'static str, &'static str, usize);

/// Checks what is printed and said of each, with a number that has this status and this sentence.
fn check_unfound(number: u64, status: i32, why: &str, rows: &[Unfound]) {
    for &(path, record, step, place) in rows {
        let column = place + 1;
        let sentence = format!("step {step}: {why}, at byte {place}, line 1, column {column} ({number})");
        let said = format!("wararish: {path}: {sentence}\n  {record}\n  {:>column$}\n", '^');
        assert_eq!(run(&["ask", path, "-"], record.as_bytes()), ended(status, "\n", &said));
        let (step, _) = step.split_once(',').unwrap();
        let told = format!("{number} {place} {place} {step}\n");
        assert_eq!(run(&["ask", "--where", path, "-"], record.as_bytes()), ended(status, &told, &said));
    }
}

#[test]
fn a_miss_tells_the_step_and_the_value_it_works_in() {
    let object = [
        ("$.a", "  7 ", "1, .a", 2),
        ("$.a.x", r#"{"a":[1,2],"b":{"c":3}}"#, "2, .x", 5),
        ("$[1][0].x.y", r#"[0,[ "{}"]]"#, "3, .x", 5),
    ];
    check_unfound(23, 1, "the value is not an object", &object);
    let array =
        [("$[0]", "{}", "1, [0]", 0), ("$.b[0]", r#"{"b": "[]"}"#, "2, [0]", 6), ("$[0][0][9]", "[[7]]", "3, [9]", 2)];
    check_unfound(24, 1, "the value is not an array", &array);
    let name = [
        ("$.c", r#" {"a":{"c":1}}"#, "1, .c", 1),
        ("$.a.b", r#"{"a":{ },"b":1}"#, "2, .b", 5),
        ("$.a[1]._x9[0]", r#"{"a":[{},{"x":{"_x9":1}}]}"#, "3, ._x9", 9),
    ];
    check_unfound(25, 1, "the object has no such name", &name);
    let number = [
        ("$[2]", "[1,]", "1, [2]", 0),
        ("$.a[0]", r#"{"a":[ ]}"#, "2, [0]", 5),
        ("$[0][1][10]", "[[0, [1]]]", "3, [10]", 5),
    ];
    check_unfound(26, 1, "the array has no such number", &number);
}

#[test]
fn a_broken_item_tells_the_step_and_where_it_begins() {
    let no_colon = [
        ("$.a", r#"{ "b" 1}"#, "1, .a", 1),
        ("$[0].a", r#"[{"b":1,}]"#, "2, .a", 8),
        ("$.a[0].b", r#"{"a":[{x{:}}]}"#, "3, .b", 7),
    ];
    check_unfound(27, 2, "a broken item without a colon", &no_colon);
    let bad_name = [
        ("$.a", "{x:}", "1, .a", 1),
        ("$.b.a", r#"{"b":{"c":1, d:2}}"#, "2, .a", 12),
        ("$[0][0].a", r#"[[{"a"x:1}]]"#, "3, .a", 3),
    ];
    check_unfound(28, 2, "a broken item whose name is no quoted string", &bad_name);
    let empty_value = [
        ("$[1]", "[1,]", "1, [1]", 3),
        ("$[0]", "[,]", "1, [0]", 1),
        ("$.a.b", r#"{"a":{ "b": }}"#, "2, .b", 6),
        ("$.a[0][2]", r#"{"a":[[1,2, ]]}"#, "3, [2]", 11),
    ];
    check_unfound(29, 2, "a broken item whose value is empty", &empty_value);
    assert_eq!(run(&["ask", "$.a", "-"], br#"{"b":,"a":1}"#), ended(0, "1\n", ""), "only the item that is taken");
}

const BAD_ESCAPE: &str = "a broken item whose name has a bad escape or an unpaired surrogate";

#[test]
fn a_bad_escape_in_a_name_is_told_where_its_item_begins() {
    let bad_escape = [
        ("$.a", r#"{"x\q":1,"a":2}"#, "1, .a", 1),
        ("$.a", r#"{"a\q":}"#, "1, .a", 1),
        ("$.b.a", r#"{"b":{"c":1, "\ud83d":2}}"#, "2, .a", 12),
        ("$[0][0].a[1]", r#"[[{"\u00g1":[]}]]"#, "3, .a", 3),
    ];
    check_unfound(30, 2, BAD_ESCAPE, &bad_escape);
    let record = "{\"reel\":\"R2\",\n \"frames\":[{\"ra\\te\":24},\n  { \"r\\ate\":25}]}\n";
    let sentence = format!("step 3, .rate: {BAD_ESCAPE}, at byte 42, line 3, column 4 (30)");
    let said = format!("wararish: $.frames[1].rate: {sentence}\n    {{ \"r\\ate\":25}}]}}\n     ^\n");
    assert_eq!(run(&["ask", "$.frames[1].rate", "-"], record.as_bytes()), ended(2, "\n", &said));
}

/// What `--where` prints of a path, and the status.
fn told_where(path: &str, record: &[u8]) -> (i32, String) {
    let (status, out, _) = run(&["ask", "--where", path, "-"], record);
    (status, out)
}

#[test]
fn escapes_that_are_none_and_surrogates_without_their_pair() {
    let escapes = [r"\q", r"\'", r"\U0061", r"\u", r"\u006", r"\u006x", r"\u 061", r"a\x61", r"\\\q"];
    let surrogates = [r"\ud800", r"\uDFFF", r"\udc00\ud800", r"\uD83C\u0041", r"\ud83c\n", r"\ud83cx\udfac"];
    for name in escapes.iter().chain(&surrogates) {
        let record = format!("{{\"{name}\":1,\"a\":2}}");
        assert_eq!(told_where("$.a", record.as_bytes()), (2, "30 1 1 1\n".into()), "{record}");
    }
    let before = [(r#"{"\q" 1}"#, "27 1 1 1\n"), (r#"{"\q"x:1}"#, "28 1 1 1\n"), (r#"{"a":,"\q":1}"#, "29 1 1 1\n")];
    for (record, line) in before {
        assert_eq!(told_where("$.a", record.as_bytes()), (2, line.into()), "{record}");
    }
}

#[test]
fn a_bad_escape_where_no_name_is_compared_does_no_harm() {
    let found = [
        ("$.a", r#"{"a":1,"\q":2}"#, "1\n"),
        ("$.a", r#"{"b":"\q","a":"\ud800"}"#, "\"\\ud800\"\n"),
        ("$[0]", r#"[{"\q":1}]"#, "{\"\\q\":1}\n"),
        ("$", r#"{"\q":1}"#, "{\"\\q\":1}\n"),
    ];
    for (path, record, out) in found {
        assert_eq!(run(&["ask", path, "-"], record.as_bytes()), ended(0, out, ""), "{record}");
    }
}

#[test]
fn names_are_compared_by_their_characters() {
    assert_eq!(run(&["ask", "$.name", "-"], br#"{"\u006eame":7}"#), ended(0, "7\n", ""));
    let told: [(&str, &[u8], &str); 9] = [
        ("$.name", br#"{"\u006eame":7}"#, "0 13 14 0\n"),
        ("$._J9", br#"{"\u005F\u004a\u0039":7}"#, "0 22 23 0\n"),
        ("$.a", br#"{"\u0061":1,"a":2}"#, "0 10 11 0\n"),
        ("$.a", br#"{"a":1,"\u0061":2}"#, "0 5 6 0\n"),
        ("$.a.b", br#"{"\ud83c\udfac":0,"\u0061":{"\u0062":3}}"#, "0 37 38 0\n"),
        ("$.a", br#"{"\"\\\/\b\f\n\r\t\u0000":1,"a":2}"#, "0 32 33 0\n"),
        ("$.a", b"{\"\xed\xa0\x80\":1,\"\xff\t\":2,\"a\":3}", "0 20 21 0\n"),
        ("$.a", br#"{"\\u0061":1,"\u0041":2,"a\u0000":3}"#, "25 0 0 1\n"),
        ("$.n", br#"{"\n":1,"\u000an":2}"#, "25 0 0 1\n"),
    ];
    for (path, record, line) in told {
        let status = i32::from(line.starts_with("25"));
        assert_eq!(told_where(path, record), (status, line.into()), "{}", String::from_utf8_lossy(record));
    }
}

#[test]
fn a_step_is_shown_in_its_line() {
    let record = "{\n \"frames\": [\n  {\"rate\": 24, \"tiles\": []},\n  {\"rate\": }\n ],\n}\n";
    let shown = |path: &str, sentence: &str, window: &str| {
        let said = format!("wararish: {path}: {sentence}\n{window}\n");
        assert_eq!(run(&["ask", path, "-"], record.as_bytes()).2, said);
    };
    let number = "step 2, [2]: the array has no such number, at byte 13, line 2, column 12 (26)";
    shown("$.frames[2]", number, "   \"frames\": [\n             ^");
    let number = "step 4, [0]: the array has no such number, at byte 39, line 3, column 25 (26)";
    shown("$.frames[0].tiles[0]", number, "    {\"rate\": 24, \"tiles\": []},\n                          ^");
    let value = "step 3, .rate: a broken item whose value is empty, at byte 47, line 4, column 4 (29)";
    shown("$.frames[1].rate", value, "    {\"rate\": }\n     ^");
    // it begins with the line feed behind the comma, and what stands behind that is shown
    let colon = "step 1, .reel: a broken item without a colon, at byte 60, line 5, column 4 (27)";
    shown("$.reel", colon, "   ],.}\n     ^");
}

#[test]
fn a_long_step_is_cut_short() {
    let name = "n".repeat(60);
    let (status, _, said) = run(&["ask", &format!("$.{name}"), "-"], b"{}");
    let sentence = "the object has no such name, at byte 0, line 1, column 1 (25)";
    let shown = format!("$.{}..: step 1, .{}..", "n".repeat(56), "n".repeat(57));
    assert_eq!((status, said), (1, format!("wararish: {shown}: {sentence}\n  {{}}\n  ^\n")));
}

#[test]
fn a_record_that_is_blank_all_through_has_no_step() {
    for path in ["$", "$.a[0]"] {
        let said = format!("wararish: {path}: the record is blank all through (29)\n");
        assert_eq!(run(&["ask", path, "-"], b" \n"), ended(2, "\n", &said));
        assert_eq!(run(&["ask", "--where", path, "-"], b"\t\r"), ended(2, "29 0 0 0\n", &said));
        let told = r#""number":29,"start":0,"end":0,"step":0,"value":null,"message":"the record is blank all through""#;
        let object = format!("{{\"path\":\"{path}\",{told}}}\n");
        assert_eq!(run(&["ask", "--json", path, "-"], b" "), ended(2, &object, &said));
    }
    assert_eq!(run(&["ask", "--where", "$.", "-"], b" ").1, "20 2 2 0\n", "what is no path goes before");
}

#[test]
fn ask_refuses_what_is_no_path() {
    let one = |path: &str| run(&["ask", path, "-"], RECORD);
    let leading = "wararish: $.a[01]: this is no path, from byte 5 of it on (20)\n  $.a[01]\n       ^\n";
    assert_eq!(one("$.a[01]"), ended(64, "\n", leading));
    let short = "wararish: $.: this is no path, from byte 2 of it on (20)\n  $.\n    ^\n";
    assert_eq!(one("$."), ended(64, "\n", short));
    assert_eq!(one(""), ended(64, "\n", "wararish: : this is no path, from byte 0 of it on (20)\n  \n  ^\n"));
    let large = "the path is above 1,024 bytes, or a number in it above 16,777,215 (21)\n";
    assert_eq!(one("$[16777216]"), ended(64, "\n", &format!("wararish: $[16777216]: {large}")));
    let long = format!("${}", ".abc".repeat(256));
    assert_eq!(one(&long), ended(64, "\n", &format!("wararish: {}..: {large}", &long[..58])));
}

#[test]
fn a_long_path_is_shown_around_its_place() {
    let path = format!("${}![0]{}", "[0]".repeat(15), ".abcdefgh".repeat(9));
    let (status, out, said) = run(&["ask", "--where", &path, "-"], RECORD);
    assert_eq!((status, out.as_str()), (64, "20 46 46 0\n"));
    let window = format!("\n  {}\n  {}^\n", &path[16..76], " ".repeat(30));
    assert!(said.ends_with(&window), "{said}");
}

#[test]
fn sixteen_steps_are_the_most() {
    let record = [vec![b'['; 17], b"7".to_vec(), vec![b']'; 17]].concat();
    let path = |steps| format!("${}", "[0]".repeat(steps));
    assert_eq!(run(&["ask", &path(16), "-"], &record), ended(0, "[7]\n", ""));
    let (status, out, said) = run(&["ask", &path(17), "-"], &record);
    assert_eq!((status, out.as_str()), (64, "\n"));
    assert_eq!(said, format!("wararish: {}: the path has more steps than the index has levels (22)\n", path(17)));
}

#[test]
fn ask_where_prints_number_start_end_and_step() {
    let paths = ["$", "$.b.c", "$.a[1]", "$.c", "$.a.x", "$[0]", "$.a[2]", "$.a[01]", "$."];
    let lines = "0 0 23 0\n0 20 21 0\n0 8 9 0\n25 0 0 1\n23 5 5 2\n24 0 0 1\n26 5 5 2\n20 5 5 0\n20 2 2 0\n";
    let words = [&["ask", "--where"], &paths[..], &["-"]].concat();
    let (status, out, said) = run(&words, RECORD);
    assert_eq!((status, out.as_str(), said.matches("wararish: ").count()), (64, lines, 6));
    let (status, out, _) = run(&["ask", "--where", "$", "$.", "-"], b"[[");
    assert_eq!((status, out.as_str()), (2, "16 2 2 0\n16 2 2 0\n"), "a fault goes before the path's refusal");
    assert_eq!(run(&["ask", "--where", "$", "-"], b"").1, "1 0 0 0\n");
}

/// What bytewise says of a path: the record's fault, or the answer over an index with as many levels as there can be.
fn where_line(record: &[u8], path: &[u8]) -> String {
    match rules::index(record, 16) {
        (Some((number, place)), _) => format!("{number} {place} {place} 0\n"),
        (None, words) => {
            let told = path::query(record, &words, 16, path);
            format!("{} {} {} {}\n", told.number, told.start, told.end, told.step)
        }
    }
}

#[test]
fn ask_where_agrees_with_bytewise() {
    let mut random = Random::new(21);
    let mut numbers = HashSet::new();
    for _ in 0..300 {
        let text = text(&mut random);
        let path = String::from_utf8(records::path(&mut random, &text.paths)).unwrap();
        let line = where_line(&text.bytes, path.as_bytes());
        let out = run(&["ask", "--where", "--", &path, "-"], &text.bytes).1;
        assert_eq!(out, line, "{path} of {}", String::from_utf8_lossy(&text.bytes));
        numbers.insert(line.split(' ').next().unwrap().to_owned());
    }
    assert!(numbers.len() >= 8, "few kinds of answers: {numbers:?}");
}

#[test]
fn ask_json_prints_an_object_a_line() {
    let found = r#"{"path":"$[0]","number":0,"start":1,"end":7,"step":0,"value":"\"a\\tb\"","message":"found"}"#;
    let none = r#""value":null,"message":"this is no path, from byte 2 of it on""#;
    let none = format!(r#"{{"path":"$[","number":20,"start":2,"end":2,"step":0,{none}}}"#);
    let (status, out, _) = run(&["ask", "--json", "$[0]", "$[", "-"], br#"["a\tb"]"#);
    assert_eq!((status, out), (64, format!("{found}\n{none}\n")));
    let raw = r#"{"path":"$[0]","number":0,"start":1,"end":4,"step":0,"value":null,"message":"found"}"#;
    assert_eq!(run(&["ask", "--json", "$[0]", "-"], b"[\"\xff\"]"), ended(0, &format!("{raw}\n"), ""));
    let message = "a bracket is closed that was not opened, at byte 0";
    let fault = format!(r#"{{"path":"$","number":13,"start":0,"end":0,"step":0,"value":null,"message":"{message}"}}"#);
    let (status, out, _) = run(&["ask", "--json", "$", "-"], b"]");
    assert_eq!((status, out), (2, format!("{fault}\n")));
}

#[test]
fn ask_json_tells_the_step() {
    let object = |path: &str, number: u64, place: usize, step: usize, message: &str| {
        let told = format!(r#""path":"{path}","number":{number},"start":{place},"end":{place},"step":{step}"#);
        format!("{{{told},\"value\":null,\"message\":\"{message}\"}}\n")
    };
    let out = [
        object("$[4]", 26, 0, 1, "step 1: the array has no such number, at byte 0"),
        object("$[1].x", 23, 3, 2, "step 2: the value is not an object, at byte 3"),
        object("$[0][2]", 24, 1, 2, "step 2: the value is not an array, at byte 1"),
        object("$[2].a.b", 29, 6, 2, "step 2: a broken item whose value is empty, at byte 6"),
        object("$[3].a", 30, 13, 2, &format!("step 2: {BAD_ESCAPE}, at byte 13")),
    ];
    let words = ["ask", "--json", "$[4]", "$[1].x", "$[0][2]", "$[2].a.b", "$[3].a", "-"];
    let (status, told, said) = run(&words, br#"[1,2,{"a":},{"\q":1}]"#);
    assert_eq!((status, told, said.matches("wararish: ").count()), (2, out.concat(), 5));
}

#[test]
fn the_greatest_status_counts() {
    let status = |paths: &[&str]| run(&[&["ask"], paths, &["-"]].concat(), b"[1,]").0;
    assert_eq!(status(&["$[0]", "$[2]"]), 1);
    assert_eq!(status(&["$[1]", "$[2]"]), 2);
    assert_eq!(status(&["$[1]", "$[", "$[2]", "$[0]"]), 64);
}

/// The message about a record from standard input, by both commands that index it.
fn fault_message(record: &[u8]) -> String {
    let (status, out, said) = run(&["ask", "$", "-"], record);
    assert_eq!((status, out.as_str()), (2, "\n"));
    let (status, _, said_by_index) = run(&["index", "--cuts", "5", "--order", "backward", "-"], record);
    assert_eq!((status, &said_by_index), (2, &said));
    said
}

#[test]
fn a_fault_is_shown_at_its_place() {
    let input = "wararish: standard input: ";
    let closed = "a bracket is closed that was not opened, at byte";
    assert_eq!(fault_message(b"[1,2]]"), format!("{input}{closed} 5, line 1, column 6 (13)\n  [1,2]]\n       ^\n"));
    assert_eq!(fault_message(b"[\n1]\n]\n"), format!("{input}{closed} 5, line 3, column 1 (13)\n  ]\n  ^\n"));
    let accents = "[\"\u{e9}\t\"] ]x\r\n\"".as_bytes();
    assert_eq!(
        fault_message(accents),
        format!("{input}{closed} 8, line 1, column 9 (13)\n  [\"...\"] ]x.\n          ^\n")
    );
    let deep = vec![b'['; 65];
    let brackets = "[".repeat(31);
    let opened = "a bracket is opened where 64 are open, at byte 64, line 1, column 65 (14)";
    assert_eq!(fault_message(&deep), format!("{input}{opened}\n  {brackets}\n  {}^\n", " ".repeat(30)));
}

#[test]
fn a_fault_at_the_end_is_shown_behind_the_last_byte() {
    let input = "wararish: standard input: ";
    let string = "a string is open at the end of the record, at byte";
    assert_eq!(fault_message(b"[\"a"), format!("{input}{string} 3, line 1, column 4 (15)\n  [\"a\n     ^\n"));
    let bracket = "a bracket is open at the end of the record, at byte";
    assert_eq!(fault_message(b"[\n[1,\n"), format!("{input}{bracket} 6, line 2, column 5 (16)\n  [1,.\n      ^\n"));
    let line = format!("{{\"a\":\"{}\"", "x".repeat(100));
    let shown = format!("  {}\"\n  {}^\n", "x".repeat(29), " ".repeat(30));
    assert_eq!(fault_message(line.as_bytes()), format!("{input}{bracket} 107, line 1, column 108 (16)\n{shown}"));
}

/// The lines of an index but time and speed, which are only looked at.
fn index_lines(words: &[&str], record: &[u8]) -> (i32, String, String) {
    let (status, out, said) = run(&[&["index"], words, &["-"]].concat(), record);
    let lines: Vec<&str> = out.lines().collect();
    assert_eq!(lines.len(), 8, "{out}{said}");
    assert!(
        lines[6].starts_with("time     ") && (lines[6].ends_with(" ms") || lines[6].ends_with(" s")),
        "{}",
        lines[6]
    );
    assert!(lines[7].starts_with("speed    ") && lines[7].ends_with(" MB/s"), "{}", lines[7]);
    (status, lines[..6].join("\n"), said)
}

#[test]
fn index_prints_verdict_and_digest() {
    // of the words 298, 460, 16, 0
    let digest = "594aad326de16a713ea966add50f6089c97b53cff98e320844842e782bf3cc75";
    let lines = format!("bytes    10\nlevels   1\nchunks   1\nwords    4\nverdict  sound\ndigest   sha256 {digest}");
    assert_eq!(index_lines(&["--levels", "1"], br#"{"a":":,"}"#), ended(0, &lines, ""));
    // of ten words, all zero
    let zero = "5b6fb58e61fa475939767d68a446f97f1bff02c0e5935a3ea8bb51e6515783d8";
    let lines =
        format!("bytes    5\nlevels   4\nchunks   1\nwords    10\nverdict  fault 13 at 2\ndigest   sha256 {zero}");
    let closed = "a bracket is closed that was not opened, at byte 2, line 1, column 3 (13)";
    let said = format!("wararish: standard input: {closed}\n  []][\"\n    ^\n");
    assert_eq!(index_lines(&[], b"[]][\""), ended(2, &lines, &said));
}

#[test]
fn index_json_prints_one_object() {
    let (status, out, said) = run(&["index", "--json", "--levels=1", "-"], br#"{"a":":,"}"#);
    let digest = "594aad326de16a713ea966add50f6089c97b53cff98e320844842e782bf3cc75";
    let counts = r#"{"bytes":10,"levels":1,"chunks":1,"words":4,"number":0,"place":0"#;
    let start = format!(r#"{counts},"verdict":"sound","digest":"sha256 {digest}","seconds":"#);
    assert!(out.starts_with(&start) && out.contains(",\"bytes_per_second\":") && out.ends_with("}\n"), "{out}");
    assert_eq!((status, said.as_str(), out.lines().count()), (0, "", 1));
    let (status, out, said) = run(&["index", "--json", "-"], b"[");
    assert!(out.contains(r#""number":16,"place":1,"verdict":"fault 16 at 1""#), "{out}");
    assert_eq!((status, said.lines().count()), (2, 3));
    let empty = r#"{"bytes":0,"levels":4,"chunks":1,"words":0,"number":1,"place":0,"verdict":"refused 1"}"#;
    let said = "wararish: standard input: the record is empty (1)\n";
    assert_eq!(run(&["index", "--json", "-"], b""), ended(2, &format!("{empty}\n"), said));
}

#[test]
fn index_gives_one_digest_whatever_the_manner() {
    let room = Room::new("manner");
    let (_, report, _) = run_bytes(&["sample", "--style", "strings", "--size", "100000"], b"");
    let file = room.file("report", &report);
    let digest = |words: &[&str], chunks: &str| {
        let (status, out, said) = run(&[&["index"], words, &[&file]].concat(), b"");
        assert_eq!((status, said.as_str()), (0, ""));
        assert!(out.contains(&format!("chunks   {chunks}\n")), "{out}");
        out.lines().find(|line| line.starts_with("digest")).unwrap().to_owned()
    };
    let plain = digest(&[], "1");
    for order in ["forward", "backward", "random"] {
        for guess in ["outside", "inside", "random"] {
            let words = ["--order", order, "--guess", guess, "--seed", "9"];
            assert_eq!(digest(&[&words[..], &["--cuts", "63"]].concat(), "64"), plain);
            assert_eq!(digest(&[&words[..], &["--cuts-at", "64,192,99968"]].concat(), "4"), plain);
        }
    }
    assert_ne!(digest(&["--levels", "5"], "1"), plain);
}

#[test]
fn even_cuts_are_as_many_as_have_room() {
    let (_, lines, _) = index_lines(&["--cuts", "63"], &[b' '; 129]);
    assert!(lines.contains("\nchunks   3\n"), "{lines}");
}

#[test]
fn index_refuses_levels_and_cuts() {
    let refused = |words: &[&str], why: &str| {
        let said = format!("wararish: standard input: {why}\n");
        assert_eq!(run(&[&["index"], words, &["-"]].concat(), &[b' '; 200]), ended(64, "", &said));
    };
    refused(&["--levels", "0"], "the levels are not 1 to 16 (3)");
    refused(&["--levels", "17"], "the levels are not 1 to 16 (3)");
    refused(&["--levels", "18446744073709551615"], "the levels are not 1 to 16 (3)");
    let many = vec!["64"; 64].join(",");
    refused(&["--cuts-at", &many], "there are more than 63 cuts (5)");
    let cut = "is no multiple of 64 inside the record and above the cut before it (6)";
    refused(&["--cuts-at", "64,65"], &format!("cut 1 (from 0) {cut}"));
    refused(&["--cuts-at", "256"], &format!("cut 0 (from 0) {cut}"));
}

/// A fault in its second line, a blank line behind it, and a miss of `.rate` in the last.
const TEXT: &[u8] = b"{\"frame\":1,\"rate\":24}\n{\"frame\":2,\"rate\":25]}\n\n{\"frame\":3,\"rote\":26}";

const TEXT_FAULT: &str = concat!(
    "wararish: standard input: line 1 of the table: a bracket is closed that was not opened, at byte 21 of the line, ",
    "line 2, column 22 of the text (13)\n  {\"frame\":2,\"rate\":25]}\n                       ^\n"
);

const TEXT_MISS: &str = concat!(
    "wararish: standard input: line 2 of the table: $.rate: step 1, .rate: the object has no such name, ",
    "at byte 0 of the line, line 4, column 1 of the text (25)\n  {\"frame\":3,\"rote\":26}\n  ^\n"
);

#[test]
fn lines_prints_each_verdict() {
    assert_eq!(run(&["lines", "-"], TEXT), ended(2, "0 sound\n1 faulty 13 21\n2 sound\n", TEXT_FAULT));
    let room = Room::new("verdicts");
    let file = room.file("text", TEXT);
    let said = TEXT_FAULT.replace("standard input", &file);
    assert_eq!(run(&["lines", &file], b""), ended(2, "0 sound\n1 faulty 13 21\n2 sound\n", &said));
    assert_eq!(run(&["lines", "-"], b"[1]\n7\n\"x\"\n{]\n"), ended(0, "0 sound\n1 sound\n2 sound\n3 sound\n", ""));
}

#[test]
fn lines_prints_each_value() {
    let said = [TEXT_FAULT, TEXT_MISS].concat();
    assert_eq!(run(&["lines", "-", "$.rate"], TEXT), ended(2, "24\n\n\n", &said));
    assert_eq!(run(&["lines", "-", "$.frame"], TEXT), ended(2, "1\n\n3\n", TEXT_FAULT));
    assert_eq!(run(&["lines", "-", "$"], b" [1, 2]\t\n\"x\"\n"), ended(0, "[1, 2]\n\"x\"\n", ""));
    assert_eq!(run(&["lines", "/dev/stdin", "$[1]"], b"[1,[2]]\n[3,4]"), ended(0, "[2]\n4\n", ""));
}

#[test]
fn lines_where_prints_places_in_the_line() {
    let said = [TEXT_FAULT, TEXT_MISS].concat();
    assert_eq!(run(&["lines", "--where", "-", "$.rate"], TEXT), ended(2, "0 18 20 0\n13 21 21 0\n25 0 0 1\n", &said));
}

#[test]
fn lines_json_prints_an_object_a_line() {
    let told = |rest: &str| format!("\"path\":\"$.rate\",{rest}}}\n");
    let out = [
        r#"{"line":0,"line_start":0,"line_end":21,"#,
        &told(r#""number":0,"start":18,"end":20,"step":0,"value":"24","message":"found""#),
        r#"{"line":1,"line_start":22,"line_end":44,"#,
        r#""path":"$.rate","number":13,"start":21,"end":21,"step":0,"value":null,"#,
        "\"message\":\"a bracket is closed that was not opened, at byte 21\"}\n",
        r#"{"line":2,"line_start":46,"line_end":67,"#,
        r#""path":"$.rate","number":25,"start":0,"end":0,"step":1,"value":null,"#,
        "\"message\":\"step 1: the object has no such name, at byte 0\"}\n",
    ];
    let said = [TEXT_FAULT, TEXT_MISS].concat();
    assert_eq!(run(&["lines", "--json", "-", "$.rate"], TEXT), ended(2, &out.concat(), &said));
    let out = [
        r#"{"line":0,"line_start":0,"line_end":21,"number":0,"place":0,"verdict":"sound"}"#,
        r#"{"line":1,"line_start":22,"line_end":44,"number":13,"place":21,"verdict":"fault 13 at 21"}"#,
        r#"{"line":2,"line_start":46,"line_end":67,"number":0,"place":0,"verdict":"sound"}"#,
    ];
    assert_eq!(run(&["lines", "--json", "-"], TEXT), ended(2, &(out.join("\n") + "\n"), TEXT_FAULT));
}

#[test]
fn lines_may_end_with_a_carriage_return() {
    let text = b"{\"a\":1}\r\n\r\n{\"a\":[2\r\n{\"a\":3 }\r\n";
    let bracket = "a bracket is open at the end of the line, at byte 8 of the line, line 3, column 9 of the text (16)";
    let said = format!("wararish: standard input: line 1 of the table: {bracket}\n  {{\"a\":[2.\n          ^\n");
    assert_eq!(run(&["lines", "-", "$.a"], text), ended(2, "1\n\n3\n", &said));
    assert_eq!(run(&["lines", "--where", "-", "$"], b"[1]\r\n"), ended(0, "0 0 3 0\n", ""));
    // it ends no line by itself
    assert_eq!(run(&["lines", "--json", "-"], b"[1]\r[2]\r").1.lines().count(), 1);
}

#[test]
fn a_line_feed_in_a_string_cuts_it() {
    let text = b"[1]\n[\"x\ny\"]\n[2]\n";
    let half = |line: usize, half: &str| {
        let sentence = "a string is open at the end of the line, at byte 3 of the line";
        let place = format!("line {}, column 4 of the text", line + 1);
        format!("wararish: standard input: line {line} of the table: {sentence}, {place} (15)\n  {half}\n     ^\n")
    };
    let said = [half(1, "[\"x"), half(2, "y\"]")];
    assert_eq!(run(&["lines", "-", "$[0]"], text), ended(2, "1\n\n\n2\n", &said.concat()));
    let rows = "0 sound\n1 faulty 15 3\n2 faulty 15 3\n3 sound\n";
    assert_eq!(run(&["lines", "-"], text), ended(2, rows, &said.concat()));
}

#[test]
fn texts_without_lines() {
    for blank in [&b" "[..], b"\n", b"\r\n\t\r\n  \n\n", &[b'\n'; 1000]] {
        for words in [&["lines", "-"][..], &["lines", "-", "$.a"], &["lines", "--json", "-"]] {
            assert_eq!(run(words, blank), ended(0, "", ""));
        }
    }
    for words in [&["lines", "-"][..], &["lines", "-", "$"], &["lines", "--json", "-"]] {
        assert_eq!(run(words, b""), ended(2, "", "wararish: standard input: the text is empty (1)\n"));
    }
}

#[test]
fn the_limit_holds_for_the_whole_text() {
    let mut text = b"[1,\"0123\"]\n".repeat(LIMIT / 11);
    text.resize(LIMIT, b' ');
    let (status, out, said) = run(&["lines", "-", "$[0]"], &text);
    assert!((status, said.as_str()) == (0, "") && out == "1\n".repeat(LIMIT / 11), "{status} {said}");
    text.push(b'\n');
    let long = "wararish: standard input: the text is above 16,777,216 bytes (2)\n";
    assert_eq!(run(&["lines", "-", "$[0]"], &text), ended(2, "", long));
    assert_eq!(run(&["lines", "/dev/zero"], b"").0, 2, "it has no end");
}

#[test]
fn lines_ends_with_the_greatest_status() {
    let status = |text: &[u8]| run(&["lines", "-", "$.a"], text).0;
    assert_eq!(status(b"{\"a\":1}\n{\"a\":2}"), 0);
    assert_eq!(status(b"{\"a\":1}\n{}\n{\"a\":2}"), 1);
    assert_eq!(status(b"{\"a\":}\n{}\n{\"a\":2}"), 2);
    assert_eq!(status(b"[]\n{\"a\":1\n"), 2);
    assert_eq!(run(&["lines", "-"], b"{}\n{\"a\":}\n7").0, 0, "only a path meets a broken item");
}

#[test]
fn a_broken_item_is_told_in_its_line() {
    let text = "\n{\"a\":{\"b\":1}}\n \n  {\"a\":{\"c\":0, \"b\" 2}}\n{\"a\":{\"b\":3}}\n";
    let sentence = "a broken item without a colon, at byte 14 of the line, line 4, column 15 of the text (27)";
    let said = format!("wararish: standard input: line 1 of the table: $.a.b: step 2, .b: {sentence}\n");
    let window = "    {\"a\":{\"c\":0, \"b\" 2}}\n                ^\n";
    assert_eq!(run(&["lines", "-", "$.a.b"], text.as_bytes()), ended(2, "1\n\n3\n", &(said + window)));
}

#[test]
fn a_long_line_is_shown_around_its_place() {
    let line = format!("{{\"a\":\"{}\"", "x".repeat(100));
    let text = format!("[]\n{line}\n[]\n");
    let bracket = "a bracket is open at the end of the line, at byte 107 of the line";
    let shown = format!("line 2, column 108 of the text (16)\n  {}\"\n  {}^\n", "x".repeat(29), " ".repeat(30));
    let said = format!("wararish: standard input: line 1 of the table: {bracket}, {shown}");
    assert_eq!(run(&["lines", "-"], text.as_bytes()), ended(2, "0 sound\n1 faulty 16 107\n2 sound\n", &said));
}

#[test]
fn lines_refuses_a_path_before_all_else() {
    let refused = |words: &[&str], why: &str| {
        let said = format!("wararish: {why}\n");
        let command = [&["lines"], words].concat();
        assert_eq!(run(&command, b"[1]\n]\n"), ended(64, "", &said), "{words:?}");
    };
    let none = "$.a[01]: this is no path, from byte 5 of it on (20)\n  $.a[01]\n       ^";
    refused(&["-", "$.a[01]"], none);
    refused(&["--json", "-", "$.a[01]"], none);
    refused(&["/no/such/file", "$.a[01]"], none);
    let large = "the path is above 1,024 bytes, or a number in it above 16,777,215 (21)";
    refused(&["-", "$[16777216]"], &format!("$[16777216]: {large}"));
    let steps = "the path has more steps than the index has levels (22)";
    refused(&["--levels", "1", "-", "$[0][1]"], &format!("$[0][1]: {steps}"));
    let long = format!("${}", "[0]".repeat(17));
    refused(&["-", &long], &format!("{long}: {steps}"));
    refused(&["--levels", "16", "-", &long], &format!("{long}: {steps}"));
}

#[test]
fn lines_has_as_many_levels_as_are_asked_for() {
    let deep = [vec![b'['; 17], b"7".to_vec(), vec![b']'; 17]].concat();
    let path = format!("${}", "[0]".repeat(16));
    assert_eq!(run(&["lines", "-", &path], &deep), ended(0, "[7]\n", ""));
    assert_eq!(run(&["lines", "--levels", "16", "-", "$[0]"], b"[[1]]\n[2]"), ended(0, "[1]\n2\n", ""));
    assert_eq!(run(&["lines", "--levels=2", "-", "$[0][0]"], b"[[1]]"), ended(0, "1\n", ""));
    assert_eq!(run(&["lines", "--levels", "16", "-"], b"[[1]]\n]").1, "0 sound\n1 faulty 13 0\n");
}

/// Lines of many kinds; what is made may itself have line feeds in it.
fn any_lines(random: &mut Random, count: usize) -> Vec<u8> {
    let mut text = Vec::new();
    for _ in 0..count {
        let room = 1 + random.below(120);
        let json = records::json(random, room);
        let made = match random.below(6) {
            0 => records::damaged(random, json),
            1 => records::broken(random, json),
            2 => records::noise(random, room),
            _ => json,
        };
        match random.below(3) {
            0 => text.extend_from_slice(&made.bytes),
            _ => text.extend_from_slice(&[b"{\"a\":", &made.bytes[..], b"}"].concat()),
        }
        text.extend_from_slice([&b"\n"[..], b"\r\n", b" \n\n"][random.below(3)]);
    }
    text
}

/// Where the lines lie that are not blank.
fn spans(text: &[u8]) -> Vec<(usize, usize)> {
    let mut start = 0;
    let mut spans = Vec::new();
    for line in text.split(|&byte| byte == b'\n') {
        if line.iter().any(|byte| !b" \t\r".contains(byte)) {
            spans.push((start, start + line.len()));
        }
        start += line.len() + 1;
    }
    spans
}

#[test]
fn each_line_is_answered_as_ask_answers_it_alone() {
    let text = any_lines(&mut Random::new(31), 1500);
    let spans = spans(&text);
    assert!(spans.len() > 2000, "{} lines", spans.len());
    let forms = [&[][..], &["--where"], &["--json"]];
    let by_lines = forms.map(|form| run_bytes(&[&["lines"], form, &["-", "$.a"]].concat(), &text));
    let rows = by_lines.each_ref().map(|(_, out, _)| out.split(|&byte| byte == b'\n').collect::<Vec<_>>());
    let (mut greatest, mut messages) = (0, 0);
    for (i, &(start, end)) in spans.iter().enumerate() {
        let (status, mut told, said) = run_bytes(&[&["ask"], forms[i % 3], &["$.a", "-"]].concat(), &text[start..end]);
        assert_eq!(told.pop(), Some(b'\n'));
        if i % 3 == 2 {
            let about = format!("{{\"line\":{i},\"line_start\":{start},\"line_end\":{end},");
            told.splice(..1, about.into_bytes());
        }
        assert!(rows[i % 3][i] == told, "line {i}: {}", String::from_utf8_lossy(&text[start..end]));
        (greatest, messages) = (status.max(greatest), messages + said.matches("wararish: ").count());
    }
    for ((status, _, said), rows) in by_lines.iter().zip(&rows) {
        assert_eq!((*status, rows.len(), rows[rows.len() - 1]), (greatest, spans.len() + 1, &b""[..]));
        assert_eq!(said.matches("wararish: standard input: line ").count(), messages);
    }
    let kinds: HashSet<&[u8]> = rows[1].iter().map(|row| row.split(|&byte| byte == b' ').next().unwrap()).collect();
    assert!(kinds.len() >= 9, "few kinds of answers: {}", kinds.len());
}

#[test]
fn many_messages_tell_the_lines_of_the_text() {
    let text = b"[1]\n\n]\n".repeat(3000);
    let (status, out, said) = run(&["lines", "-"], &text);
    assert_eq!((status, out.lines().count()), (2, 6000));
    let heads: Vec<&str> = said.lines().step_by(3).collect();
    assert_eq!(heads.len(), 3000);
    for (k, head) in heads.iter().enumerate() {
        assert!(head.starts_with(&format!("wararish: standard input: line {} of the table: ", 2 * k + 1)), "{head}");
        assert!(head.ends_with(&format!(", line {}, column 1 of the text (13)", 3 * k + 3)), "{head}");
    }
}

#[test]
fn sample_makes_reports_of_a_size() {
    for style in ["compact", "indented", "strings"] {
        let (status, report, said) = run_bytes(&["sample", "--style", style, "--size", "3000"], b"");
        assert_eq!((status, report.len(), said.as_str()), (0, 3000, ""));
        assert_eq!(run(&["index", "-"], &report).0, 0);
        assert_eq!(run(&["ask", "--where", "$.frames[0].tiles[0].rate", "-"], &report).0, 0);
    }
    let (_, indented, _) = run_bytes(&["sample", "--style", "indented", "--size", "600"], b"");
    assert!(indented.starts_with(b"{\n  \"reel\""));
    let (status, report, _) = run_bytes(&["sample"], b"");
    assert_eq!((status, report.len()), (0, LIMIT));
    let (status, out, _) = run(&["index", "--levels", "4", "--cuts", "7", "-"], &report);
    assert!(status == 0 && out.contains("bytes    16777216\n") && out.contains("verdict  sound\n"), "{out}");
}

#[test]
fn help_and_version_are_results() {
    let help = |words: &[&str]| {
        let (status, out, said) = run(words, b"");
        assert_eq!((status, said.as_str()), (0, ""));
        out
    };
    assert!(help(&["--help"]).starts_with("usage: wararish ask"));
    assert_eq!(help(&["-h"]), help(&["--help"]));
    for command in ["ask", "lines", "index", "sample"] {
        assert!(help(&[command, "--help"]).starts_with(&format!("usage: wararish {command} ")));
        assert_eq!(help(&[command, "x", "-h", "--nonsense"]), help(&[command, "--help"]));
    }
    assert_eq!(help(&["--version"]), format!("wararish {}\n", env!("CARGO_PKG_VERSION")));
    let usage = help(&["--help"]);
    assert_eq!(run(&[], b""), ended(64, "", &usage), "no arguments");
}

#[test]
fn wrong_use_is_told() {
    let wrong = |words: &[&str], why: &str| {
        assert_eq!(run(words, RECORD), ended(64, "", &format!("wararish: {why}\n")), "{words:?}");
    };
    wrong(&["aks"], "there is no command 'aks'; wararish --help tells them");
    wrong(&["--where"], "there is no command '--where'; wararish --help tells them");
    wrong(&["ask"], "PATH and FILE are missing");
    wrong(&["ask", "-"], "PATH or FILE is missing: wararish ask PATH.. FILE");
    wrong(&["ask", "--were", "$", "-"], "there is no option --were here");
    wrong(&["ask", "--where", "--json", "$", "-"], "--where and --json do not go together");
    wrong(&["ask", "--where", "--where", "$", "-"], "--where is given twice");
    wrong(&["ask", "--where=1", "$", "-"], "--where takes no value");
    wrong(&["lines"], "FILE is missing");
    wrong(&["lines", "-", "$", "more"], "there is one FILE and one PATH, so 'more' is too much");
    wrong(&["lines", "--where", "-"], "--where needs a PATH");
    wrong(&["lines", "--where", "--json", "-", "$"], "--where and --json do not go together");
    for levels in ["0", "17", "x", "18446744073709551616"] {
        let why = format!("--levels takes a number, 1 to 16, and not '{levels}'");
        wrong(&["lines", "--levels", levels, "-"], &why);
    }
    wrong(&["index"], "FILE is missing");
    wrong(&["index", "-", "more"], "there is one FILE, so 'more' is too much");
    wrong(&["index", "-", "--levels"], "--levels needs a value");
    wrong(&["index", "--levels", "x", "-"], "--levels takes a number, 1 to 16, and not 'x'");
    wrong(&["index", "--levels", "+1", "-"], "--levels takes a number, 1 to 16, and not '+1'");
    wrong(&["index", "--cuts", "64", "-"], "--cuts takes a number, 0 to 63, and not '64'");
    wrong(&["index", "--cuts-at", "64,", "-"], "--cuts-at takes numbers with commas between them, and not '64,'");
    wrong(&["index", "--cuts", "1", "--cuts-at", "64", "-"], "--cuts and --cuts-at do not go together");
    wrong(&["index", "--guess", "in", "-"], "--guess takes outside, inside or random, and not 'in'");
    wrong(&["index", "--order=", "-"], "--order takes forward, backward or random, and not ''");
    wrong(&["index", "--seed", "-1", "-"], "--seed takes a number, and not '-1'");
    wrong(&["sample", "--size", "511"], "--size takes a number of bytes, 512 to 1,073,741,824, and not '511'");
    wrong(&["sample", "--style", "nice"], "--style takes compact, indented or strings, and not 'nice'");
    wrong(&["sample", "x"], "sample takes options only, and not 'x'");
}

#[test]
fn two_dashes_end_the_options() {
    let room = Room::new("dashes");
    room.file("--json", RECORD);
    let output = Command::new(PROGRAM).args(["ask", "--", "$.a[0]", "--json"]).current_dir(&room.0).output().unwrap();
    assert_eq!((output.status.code(), output.stdout), (Some(0), b"1\n".to_vec()));
    assert_eq!(run(&["ask", "$.a[0]", "-", "--where"], RECORD), ended(0, "0 6 7 0\n", ""), "options may stand last");
}

#[test]
fn files_that_cannot_be_read() {
    let room = Room::new("unread");
    let (folder, missing) = (room.path(""), room.path("missing"));
    for command in [&["ask", "$"][..], &["index"], &["lines"]] {
        let read = |file: &str| run(&[command, &[file]].concat(), b"");
        let directory = format!("wararish: {folder} cannot be read: it is a directory\n");
        assert_eq!(read(&folder), ended(66, "", &directory));
        let none = format!("wararish: {missing} cannot be read: No such file or directory (os error 2)\n");
        assert_eq!(read(&missing), ended(66, "", &none));
    }
}

#[test]
fn empty_and_too_long_records() {
    let room = Room::new("sizes");
    let empty = room.file("empty", b"");
    let said = format!("wararish: {empty}: the record is empty (1)\n");
    assert_eq!(run(&["ask", "$", &empty], b""), ended(2, "\n", &said));
    assert_eq!(run(&["index", &empty], b""), ended(2, "", &said));
    assert_eq!(run(&["index", "-"], b""), ended(2, "", "wararish: standard input: the record is empty (1)\n"));

    let mut report = [vec![b' '; LIMIT - 2], b"[]".to_vec()].concat();
    let largest = room.file("largest", &report);
    assert_eq!(run(&["ask", "--where", "$", &largest], b""), ended(0, "0 16777214 16777216 0\n", ""));
    report.push(b' ');
    let above = room.file("above", &report);
    let said = |name: &str| format!("wararish: {name}: the record is above 16,777,216 bytes (2)\n");
    assert_eq!(run(&["ask", "--where", "$", &above], b""), ended(2, "2 0 0 0\n", &said(&above)));
    assert_eq!(run(&["index", "-"], &report), ended(2, "", &said("standard input")));
    assert_eq!(run(&["index", "/dev/zero"], b""), ended(2, "", &said("/dev/zero")), "it has no end");
}

#[test]
fn pipes_are_read_as_standard_input_is() {
    assert_eq!(run(&["ask", "$.a[1]", "/dev/stdin"], RECORD), ended(0, "2\n", ""));
    let room = Room::new("pipes");
    let pipe = room.path("pipe");
    assert!(Command::new("mkfifo").arg(&pipe).status().unwrap().success());
    let writer = {
        let pipe = pipe.clone();
        std::thread::spawn(move || fs::write(pipe, RECORD).unwrap())
    };
    assert_eq!(run(&["ask", "$.b.c", &pipe], b""), ended(0, "3\n", ""));
    writer.join().unwrap();
}

/// Runs the program with an output that is closed after its first bytes; gives the status and what was said.
fn run_closed(words: &[&str]) -> (Option<i32>, String) {
    let mut child = Command::new(PROGRAM).args(words).stdout(Stdio::piped()).stderr(Stdio::piped()).spawn().unwrap();
    let mut out = child.stdout.take().unwrap();
    out.read_exact(&mut [0; 3]).unwrap();
    drop(out);
    let output = child.wait_with_output().unwrap();
    (output.status.code(), String::from_utf8(output.stderr).unwrap())
}

#[test]
fn a_closed_output_ends_the_program_quietly() {
    let room = Room::new("closed");
    let (_, report, _) = run_bytes(&["sample", "--size", "1000000"], b"");
    let file = room.file("report", &report);
    let asked = [&["ask", "$", &file][..], &["ask", "--json", "$", &file], &["lines", &file, "$"]];
    for words in asked.into_iter().chain([&["sample"][..]]) {
        assert_eq!(run_closed(words), (Some(0), String::new()), "{words:?}");
    }
    let many = room.file("many", &[&b"[1]\n".repeat(100_000), &b"]"[..]].concat());
    let (status, said) = run_closed(&["lines", &many]);
    assert_eq!((status, said.lines().count()), (Some(2), 3), "{said}");
    let miss = "wararish: $.x: step 1, .x: the object has no such name, at byte 0, line 1, column 1 (25)";
    let told = format!("{miss}\n  {}\n  ^\n", String::from_utf8_lossy(&report[..30]));
    assert_eq!(run_closed(&["ask", "$", "$.x", &file]), (Some(1), told), "the status stays");
}

#[test]
fn an_output_that_is_full_is_told() {
    let room = Room::new("full");
    let text = room.file("text", b"[1]\n[2]\n");
    for words in [&["sample"][..], &["lines", &text]] {
        let full = File::options().write(true).open("/dev/full").unwrap();
        let output = Command::new(PROGRAM).args(words).stdout(full).output().unwrap();
        let said = "wararish: the results cannot be written: No space left on device (os error 28)\n";
        assert_eq!((output.status.code(), String::from_utf8(output.stderr).unwrap()), (Some(74), said.into()));
    }
}

#[test]
fn arguments_need_not_be_utf_8() {
    let raw = |bytes: &[u8]| OsString::from_vec(bytes.to_vec());
    let words = |list: &[&[u8]]| list.iter().map(|word| raw(word)).collect::<Vec<OsString>>();
    let (status, _, said) = run_bytes(&words(&[b"ask", b"$.\xff", b"-"]), RECORD);
    let none = "wararish: $..: this is no path, from byte 2 of it on (20)\n  $..\n    ^\n";
    assert_eq!((status, said.as_str()), (64, none));
    let (status, out, said) = run_bytes(&words(&[b"lines", b"-", b"$.\xff"]), RECORD);
    assert_eq!((status, out.len(), said.as_str()), (64, 0, none));
    assert_eq!(run_bytes(&words(&[b"ask", b"$", b"/\xff"]), RECORD).0, 66);
    assert_eq!(run_bytes(&words(&[b"lines", b"/\xff", b"$"]), RECORD).0, 66);
    let uses: [&[&[u8]]; 5] = [
        &[b"\xff"],
        &[b"ask", b"--\xff", b"$", b"-"],
        &[b"index", b"--levels", b"\xff", b"-"],
        &[b"lines", b"-", b"$", b"\xff"],
        &[b"sample", b"\xff"],
    ];
    for list in uses {
        let (status, out, said) = run_bytes(&words(list), RECORD);
        assert_eq!((status, out.len(), said.lines().count()), (64, 0, 1), "{said}");
    }
    let json = run_bytes(&words(&[b"ask", b"--json", b"$\xff", b"-"]), RECORD).1;
    assert!(String::from_utf8(json).unwrap().starts_with("{\"path\":\"$\u{fffd}\","));
}

/// What is seen on a terminal that runs a command, or nothing where no terminal can be made.
fn on_a_terminal(command: &str) -> Option<String> {
    let script = |command| Command::new("script").args(["-qec", command, "/dev/null"]).stdin(Stdio::null()).output();
    if !script("true").is_ok_and(|output| output.status.success()) {
        println!("left out: there is no command script, or it can make no terminal");
        return None;
    }
    Some(String::from_utf8(script(command).unwrap().stdout).unwrap())
}

#[test]
fn progress_is_shown_on_a_terminal_and_cleared() {
    let slow = format!("(printf '[1'; sleep 3; printf ']') | {PROGRAM} ask '$[0]' -");
    let Some(seen) = on_a_terminal(&slow) else { return };
    assert!(seen.starts_with("\r\x1b[Kwararish: reading, "), "{seen:?}");
    assert!(seen.contains("wararish: reading, 2 bytes, "), "{seen:?}");
    assert!(seen.matches("\r\x1b[Kwararish: reading, ").count() > 1, "the line is rewritten: {seen:?}");
    assert!(seen.ends_with(" s\r\x1b[K1\r\n"), "and cleared: {seen:?}");
}

#[test]
fn no_progress_for_short_work() {
    let quick = format!("printf '[1]' | {PROGRAM} ask '$[0]' -");
    // a machine may be so busy that even this takes a second; not every time
    let quiet = (0..5).map(|_| on_a_terminal(&quick)).any(|seen| seen.is_none_or(|seen| seen == "1\r\n"));
    assert!(quiet, "progress is shown though there is none to tell");
}

#[test]
fn no_progress_where_standard_error_is_no_terminal() {
    let slow = format!("(printf '[1'; sleep 1.7; printf ']') | {PROGRAM} ask '$[0]' -");
    let output = Command::new("sh").args(["-c", &slow]).output().unwrap();
    assert_eq!((output.stdout, output.stderr), (b"1\n".to_vec(), Vec::new()));
}
