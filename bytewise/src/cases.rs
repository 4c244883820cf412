//! Which cases there are: the reports of the documents, a list for each thing that has gone wrong before, lists of misses and
//! broken items, random ones, runs that stray, names spelt anew, and lines.

use crate::broken;
use crate::byline;
use crate::case::{size, Case, SHORT_RECORD, SHORT_WORDS};
use crate::job::{State, Step};
use crate::line_reports;
use crate::random::Random;
use crate::records::{self, brackets, damaged, deep, json, noise, path, wrapped, Text};
use crate::reports;
use crate::rules::width;
use crate::spelt;
use crate::strays;

const STEPS: [Step; 3] = [Step::Scan, Step::Settle, Step::Level];

fn plain(record: &[u8], levels: usize, cuts: &[usize], guesses: u64, paths: &[&str]) -> Case {
    let mut case = Case::new();
    case.set_record(record);
    case.plain_run(levels, cuts, |k| guesses >> (k % 64) & 1 == 1);
    for path in paths {
        case.query(0, levels, path.as_bytes());
    }
    case.end();
    case
}

/// Depths about the highest, 64.
fn deepest() -> Vec<Case> {
    let mut list = Vec::new();
    for depth in 63..=66 {
        for cuts in [&[][..], &[64]] {
            list.push(plain(&brackets(depth), 2, cuts, 2, &["$", "$[0]", "$[0][0]"]));
        }
    }
    list
}

/// Items of every shape, whole and broken.
fn items() -> Vec<Case> {
    let objects: [&[u8]; 22] = [
        br#"{"a""b":1}"#, br#"{"b":1,"a""c":2,"a":3}"#, br#"{"a"x:1}"#, br#"{x"a":1}"#, br#"{a:1}"#, br#"{"a" "b":1,"b":2}"#, br#"{:1}"#,
        br#"{"a":}"#, br#"{"a": ,"b":2}"#, br#"{"a"}"#, br#"{"a":1,}"#, br#"{"b":1,,"a":2}"#, br#"{,}"#, br#"{ }"#, br#"{}"#, br#"{"":1,"a":2}"#,
        br#"{" a":1,"a ":2, "a" :  3 }"#, br#"{"a":1:2,"b":3}"#, br#"{"a\"":1,"a":2}"#, br#"{"\u0061":1,"a":2}"#, br#"{"a":{"a":{}},"b":{"a":[]}}"#, br#"{"a]":1,"a":2]"#,
    ];
    let arrays: [&[u8]; 8] = [b"[]", b"[ \t]", b"[,]", b"[1,,2]", b"[ 1 , [2,3] ,{}]", b"[\"a,b\",[\",\"]]", b"[1}", b"{1]"];
    let mut list = Vec::new();
    for record in objects {
        list.push(plain(record, 2, &[], 0, &["$", "$.a", "$.b", "$.ab", "$.a.a", "$.b.a", "$[0]"]));
    }
    for record in arrays {
        list.push(plain(record, 2, &[], 1, &["$", "$[0]", "$[1]", "$[2]", "$[3]", "$[1][1]", "$[0][0]", "$.a"]));
    }
    list
}

/// A quote behind a run of backslashes that ends at a border, and one byte before and behind it.
fn runs(random: &mut Random) -> Vec<Case> {
    let mut list = Vec::new();
    let lengths = (0..=70).map(|run| (run, 128)).chain((0..=4).chain(1016..=1032).map(|run| (run, 1088)));
    for (run, border) in lengths {
        for shift in 0..3 {
            let end = border + shift - 1;
            if run + 2 > end {
                continue;
            }
            let mut record = vec![b' '; end - run - 2];
            record.extend_from_slice(b"[\"");
            record.resize(record.len() + run, b'\\');
            record.extend_from_slice(b"\",1,\"x\",2]");
            let cuts = if border > 1024 && random.chance(1, 2) { vec![1024, border] } else { vec![border] };
            list.push(plain(&record, 1, &cuts, random.next(), &["$[1]"]));
        }
    }
    list
}

/// Strings and brackets that reach over one or more borders, by every combination of guesses.
fn borders() -> Vec<Case> {
    let mut list = Vec::new();
    for from in [1, 62, 63, 64, 65, 127] {
        for length in [1, 62, 63, 64, 65, 130] {
            let inner = [b"[\"".to_vec(), vec![b'}'; length], b"\",{\"a\":[1,2]}]".to_vec()].concat();
            let record = [vec![b' '; from], inner, vec![b' '; 65]].concat();
            let cuts: Vec<usize> = (1..4).map(|k| 64 * k).filter(|&c| c < record.len()).collect();
            for guesses in [0, 5, 10, 15] {
                list.push(plain(&record, 3, &cuts, guesses, &["$[1].a[1]", "$[0]"]));
            }
        }
    }
    list
}

/// A fault of each number in each chunk of a record of five.
fn faults() -> Vec<Case> {
    let cuts = [64, 128, 192, 256];
    let mut list = Vec::new();
    for k in 0..5 {
        for at in [64 * k, 64 * k + 31, 64 * k + 63] {
            let around = |text: &[u8]| {
                let mut record = vec![b' '; 320];
                record[at..(at + text.len()).min(320)].copy_from_slice(&text[..text.len().min(320 - at)]);
                record
            };
            let mut over = vec![b' '; 320];
            for i in 0..64 {
                over[i * at.max(1) / 64] = b'[';
            }
            let opened = over.iter().filter(|&&b| b == b'[').count();
            let record14 = if opened == 64 && over[at] != b'[' {
                over[at] = b'{';
                over
            } else {
                [vec![b'['; 64], vec![b' '; at], vec![b'['; 3], vec![b' '; 320 - at]].concat()
            };
            for guesses in [0, 31, 9] {
                for record in [&around(b"]"), &record14, &around(b"\"]"), &around(b"["), &around(b"\"\\\"[")] {
                    list.push(plain(record, 1, &cuts, guesses, &["$"]));
                }
            }
        }
    }
    list
}

fn sizes(random: &mut Random) -> Vec<Case> {
    let mut list = Vec::new();
    for n in [1, 2, 63, 64, 65, 127, 128, 129, 1023, 1024, 1025, 2048, 4095, 4096, 4097] {
        for _ in 0..3 {
            let mut record = vec![b'1'; n];
            if n > 2 {
                record[0] = b'[';
                record[n - 1] = b']';
                for _ in 0..n / 9 {
                    let at = 1 + random.below(n - 2);
                    record[at] = b',';
                }
            }
            let most: Vec<usize> = (1..64).map(|k| 64 * k).filter(|&c| c < n).collect();
            list.push(plain(&record, 1, &most, random.next(), &["$", "$[1]", "$[5]"]));
        }
    }
    list
}

pub fn text(random: &mut Random) -> Text {
    let room = *random.pick(&[4, 20, 60, 60, 120, 120, 250, 500, 1200]);
    match random.below(13) {
        0..=5 => json(random, room),
        6 => {
            let inner = json(random, room / 2);
            let times = random.below(20);
            wrapped(random, inner, times)
        }
        7 | 8 => {
            let whole = json(random, room);
            damaged(random, whole)
        }
        9 => {
            let length = random.below(300);
            noise(random, length)
        }
        10 => {
            let depth = 61 + random.below(7);
            let extra = *random.pick(&[0, 0, 0, 1, -1]);
            deep(random, depth, extra)
        }
        11 => {
            let inner = json(random, room / 2);
            let times = 1 + random.below(3);
            let whole = wrapped(random, inner, times);
            records::broken(random, whole)
        }
        _ => {
            let inner = json(random, room);
            let times = 55 + random.below(10);
            wrapped(random, inner, times)
        }
    }
}

pub fn good_cuts(random: &mut Random, n: usize) -> Vec<usize> {
    let keep = *random.pick(&[0, 1, 2, 4]);
    let mut cuts: Vec<usize> = (1..width(n)).map(|w| 64 * w).filter(|_| random.below(4) < keep).collect();
    while cuts.len() > 63 {
        let at = random.below(cuts.len());
        cuts.remove(at);
    }
    cuts
}

fn bad_cuts(random: &mut Random, n: usize) -> Vec<usize> {
    let mut cuts = good_cuts(random, n);
    let at = random.below(cuts.len() + 1);
    let bad = match random.below(6) {
        0 => 0,
        1 => n,
        2 => 64 * width(n),
        3 => random.below(n + 64),
        4 => usize::MAX - 63,
        _ => cuts.get(at.wrapping_sub(1)).copied().unwrap_or(64),
    };
    cuts.insert(at, bad);
    if random.chance(1, 4) {
        let more = 64 + random.below(8);
        cuts = (0..more).map(|i| 64 * (i + 1)).collect();
    }
    cuts
}

fn flag(random: &mut Random) -> u8 {
    *random.pick(&[0, 0, 0, SHORT_RECORD, SHORT_WORDS, SHORT_RECORD | SHORT_WORDS])
}

fn chunk(random: &mut Random, case: &Case) -> usize {
    let chunks = case.job.chunks().len();
    match random.below(8) {
        0 => chunks,
        1 => *random.pick(&[63, 64, 65, usize::MAX, 1 << 32]),
        _ => random.below(chunks.max(1)),
    }
}

/// Any call at all, most of them refused.
pub fn any_call(random: &mut Random, case: &mut Case) {
    let k = chunk(random, case);
    match random.below(6) {
        0 => case.ask(k),
        1 => {
            let flag = flag(random);
            case.close(flag);
        }
        _ => {
            let (step, flag, guess) = (*random.pick(&STEPS), flag(random), random.chance(1, 2));
            case.step(step, flag, k, guess);
        }
    }
}

/// Steps in any order that is accepted, with other calls between them, until the job is closed.
pub fn run_job(random: &mut Random, case: &mut Case) {
    let others = *random.pick(&[0, 0, 1, 3]);
    while case.job.state() != State::Closed {
        while random.below(10) < others {
            any_call(random, case);
        }
        accepted_call(random, case);
    }
}

/// A step that is accepted, or close where there is none.
pub fn accepted_call(random: &mut Random, case: &mut Case) {
    let mut ready = Vec::new();
    for (k, c) in case.job.chunks().iter().enumerate() {
        let before = k == 0 || case.job.chunks()[k - 1].had[1];
        if !c.had[0] {
            ready.push((Step::Scan, k));
        }
        if c.had[0] && !c.had[1] && before {
            ready.push((Step::Settle, k));
        }
        if c.had[1] && !c.had[2] {
            ready.push((Step::Level, k));
        }
    }
    if ready.is_empty() || case.job.state() != State::Open {
        case.close(0);
    } else {
        let (step, k) = *random.pick(&ready);
        let guess = random.chance(1, 2);
        case.step(step, 0, k, guess);
    }
}

pub fn ask_paths(random: &mut Random, case: &mut Case, levels: usize, paths: &[Vec<u8>], times: usize) {
    for _ in 0..times {
        let path = path(random, paths);
        let flag = if random.chance(1, 20) { flag(random) } else { 0 };
        let levels = if random.chance(1, 30) { *random.pick(&[0, 1, 2, 16, 17, 65535]) } else { levels };
        case.query(flag, levels, &path);
    }
}

fn refused_openings(random: &mut Random, case: &mut Case, levels: usize) {
    let n = case.record.len();
    let cuts = bad_cuts(random, n);
    let wrong = *random.pick(&[0, 17, 18, 65535]);
    match random.below(4) {
        0 => case.open(0, wrong, &cuts),
        1 => case.open(SHORT_WORDS, levels, &cuts),
        2 => case.open(SHORT_RECORD, levels, &cuts),
        _ => case.open(0, levels, &cuts),
    };
    any_call(random, case);
}

fn random_case(random: &mut Random) -> Case {
    let mut case = Case::new();
    let text = if random.chance(1, 60) { Text { bytes: Vec::new(), paths: vec![b"$".to_vec()] } } else { text(random) };
    let n = text.bytes.len();
    let levels = *random.pick(&[1, 1, 2, 2, 3, 3, 4, 4, 5, 8, 15, 16]);
    case.set_record(&text.bytes);
    let count = size(n, levels) + usize::from(random.chance(1, 40));
    let seed = random.next();
    case.set_words(count, seed);
    for _ in 0..*random.pick(&[1, 1, 1, 1, 2]) {
        if random.chance(1, 5) {
            refused_openings(random, &mut case, levels);
        }
        let cuts = good_cuts(random, n);
        case.open(0, levels, &cuts);
        run_job(random, &mut case);
    }
    if random.chance(1, 3) {
        any_call(random, &mut case);
    }
    let times = 1 + random.below(5);
    ask_paths(random, &mut case, levels, &text.paths, times);
    if random.chance(1, 4) && count > 0 {
        for _ in 0..1 + random.below(4) {
            let (at, bit) = (random.below(count), random.below(64));
            let by = if random.chance(1, 4) { random.next() } else { 1 << bit };
            case.damage(at, by);
        }
        ask_paths(random, &mut case, levels, &text.paths, 4);
    }
    case.end();
    case
}

/// A record above the limit: 2, by a line table, by a query and by an opening.
fn beyond() -> Case {
    let mut case = Case::new();
    case.set_words(8, 3);
    case.set_table(&[5, 6, 7]);
    case.beyond(1);
    case.ask(0);
    case.close(0);
    case.end();
    case
}

/// What the showing program may be given.
pub fn inputs(seed: u64, count: usize) -> Vec<Vec<u8>> {
    let mut random = Random::new(seed);
    let mut list = vec![Vec::new(), b"$".to_vec(), b"\n".to_vec(), b"$\n".to_vec(), b"\n[]".to_vec(), b"$[\n]".to_vec(), b"$.\n[]".to_vec()];
    list.extend(reports::inputs());
    let filled = |path: usize, feed: bool, record: usize| {
        let mut input = vec![b'$'; path.min(1)];
        while input.len() + 3 <= path {
            input.extend_from_slice(b"[0]");
        }
        input.resize(path, b'x');
        if feed {
            input.push(b'\n');
        }
        input.resize(input.len() + record, b'1');
        input
    };
    for path in [1, 4, 1021, 1022, 1023, 1024, 1025, 1026, 3000] {
        for record in [0, 1, 1023, 1024, 1025, 16383, 16384, 16385, 70000] {
            list.push(filled(path, true, record));
        }
        list.push(filled(path, false, 0));
    }
    for _ in 0..count {
        let text = text(&mut random);
        let path = path(&mut random, &text.paths);
        let times = if random.chance(1, 5) { 1 + 4000 / (text.bytes.len() + 1) } else { 1 };
        let record = if times > 1 { repeated(&text.bytes, times) } else { text.bytes };
        list.push([&path[..], b"\n", &record].concat());
    }
    list
}

/// An array of so many copies, for records over many chunks.
fn repeated(text: &[u8], times: usize) -> Vec<u8> {
    let mut record = b"[".to_vec();
    for i in 0..times {
        if i > 0 {
            record.push(b',');
        }
        record.extend_from_slice(text);
    }
    record.push(b']');
    record
}

/// The cases of every list, and so many random ones; behind them those of runs that stray, those of names spelt anew and those of
/// lines, each of which draw from numbers of their own.
pub fn all(seed: u64, count: usize, with_beyond: bool) -> impl Iterator<Item = Case> {
    let mut random = Random::new(seed);
    let mut listed = reports::cases();
    listed.extend(deepest());
    listed.extend(with_beyond.then(beyond));
    listed.extend(items());
    listed.extend(runs(&mut random));
    listed.extend(borders());
    listed.extend(faults());
    listed.extend(sizes(&mut random));
    listed.extend(reports::cases_of_request_one());
    listed.extend(broken::all());
    let randomly = (0..count).map(move |_| random_case(&mut random));
    let of_names = reports::cases_of_request_two().into_iter().chain(spelt::all(seed, count / 8));
    let of_lines = line_reports::cases().into_iter().chain(byline::all(seed, count / 8));
    listed.into_iter().chain(randomly).chain(strays::all(seed, count / 8)).chain(of_names).chain(of_lines)
}

#[cfg(test)]
mod tests {
    use super::*;
    use crate::case::queries;
    use crate::path::line;

    #[test]
    fn the_showing_program_has_a_line_of_every_number_it_prints() {
        let lines: Vec<String> = inputs(3, 200).iter().map(|input| line(input)).collect();
        for number in [0, 1, 2, 13, 14, 15, 16, 20, 21, 22, 23, 24, 25, 26, 27, 28, 29, 30] {
            let first = format!("{number} ");
            assert!(lines.iter().any(|line| line.starts_with(&first)), "no line has the number {number}");
        }
    }

    /// But 30, for which spelt.rs has random cases of its own.
    #[test]
    fn random_cases_meet_every_miss_and_every_broken_item_at_every_step() {
        let mut random = Random::new(9);
        let told: Vec<(u64, usize)> = (0..10_000).flat_map(|_| queries(&random_case(&mut random).line)).collect();
        for number in 23..=29 {
            for step in 1..=3 {
                let times = told.iter().filter(|&&one| one == (number, step)).count();
                assert!(times >= 5, "{number} was given {times} times at step {step}");
            }
        }
    }
}
