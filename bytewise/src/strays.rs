//! Runs that stray from what the scope's job is promised: an older job is handed in again, another record of the same length is
//! lent in the middle of a run, or words of another run.

use crate::case::{size, Case};
use crate::cases::{accepted_call, any_call, ask_paths, good_cuts, run_job, text};
use crate::job::Step;
use crate::random::Random;
use crate::records::{noise, Text};
use crate::rules::{row, Bitmap};

const LEVELS: usize = 2;
const CUTS: [usize; 2] = [64, 128];
/// The last word has bits beyond the record.
const LENGTH: usize = 170;

/// A record of blanks with texts at some places.
fn spread(texts: &[(usize, &[u8])]) -> Vec<u8> {
    let mut record = vec![b' '; LENGTH];
    for &(at, text) in texts {
        record[at..at + text.len()].copy_from_slice(text);
    }
    record
}

/// Two sound records whose strings and brackets reach over both borders, at different places.
fn sound() -> Vec<u8> {
    spread(&[
        (0, br#"{"a":[1,2],"b":""#),
        (62, br#"}],","c":[3,{"d":"#),
        (120, br#""[{:,[[[[[]"#),
        (140, br#""}],"e":4}"#),
    ])
}

fn also_sound() -> Vec<u8> {
    spread(&[(0, br#"[[0,"x",{"a":"#), (60, br#"[1,2],"b":["#), (100, br#""\\",""#), (131, br#""]}],7]"#)])
}

/// A fault of each number, 13 to 16: the first two in chunk 1, the others at the end.
fn faulty() -> [Vec<u8>; 4] {
    [
        spread(&[(0, b"[1,2]"), (70, b"],[\""), (130, b"\"]")]),
        spread(&[(0, &[b'['; 40]), (64, &[b'{'; 30]), (100, &[b']'; 70])]),
        spread(&[(0, br#"["a",[1]"#), (100, br#","b]:"#)]),
        spread(&[(0, b"[[1,"), (80, br#""]",2]"#), (150, b",3")]),
    ]
}

/// A run's calls: each step of each chunk, the scans from the last on, and then close.
fn calls(chunks: usize) -> Vec<Option<(Step, usize)>> {
    let scans = (0..chunks).rev().map(|k| Some((Step::Scan, k)));
    let others = (0..chunks).flat_map(|k| [Some((Step::Settle, k)), Some((Step::Level, k))]);
    scans.chain(others).chain([None]).collect()
}

/// The calls from one up to another.
fn go(case: &mut Case, chunks: usize, from: usize, to: usize, guesses: usize) {
    for call in &calls(chunks)[from..to] {
        match *call {
            Some((step, k)) => case.step(step, 0, k, guesses >> k & 1 == 1),
            None => case.close(0),
        };
    }
}

/// How many calls a run over the three chunks has.
const ALL: usize = 10;

fn opened(record: &[u8]) -> Case {
    let mut case = Case::new();
    case.set_record(record);
    case.set_words(size(LENGTH, LEVELS), 5);
    case.open(0, LEVELS, &CUTS);
    case
}

/// What the job and the words tell at the end.
fn ended(mut case: Case) -> Case {
    for k in 0..=CUTS.len() + 1 {
        case.ask(k);
    }
    case.close(0);
    for path in ["$", "$.a[1]", "$.c[1].d", "$.e", "$[1]", "$[0][2]"] {
        case.query(0, LEVELS, path.as_bytes());
    }
    case.end();
    case
}

/// A job kept before one call and handed in again before a later one, or behind the close; then all calls.
fn older_jobs() -> Vec<Case> {
    let mut list = Vec::new();
    for record in [sound()].into_iter().chain(faulty()) {
        for (kept, back) in [(0, 4), (0, ALL), (2, 6), (3, 5), (5, 6), (5, ALL), (9, ALL)] {
            let mut case = opened(&record);
            go(&mut case, 3, 0, kept, list.len());
            case.keep();
            go(&mut case, 3, kept, back, list.len());
            case.hand_in();
            go(&mut case, 3, 0, ALL, list.len() + 3);
            list.push(ended(case));
        }
    }
    list
}

/// Another record lent before each of the calls: for one call, or to the end.
fn other_records() -> Vec<Case> {
    let [closer, _, _, bracket] = faulty();
    let mut list = Vec::new();
    for other in [also_sound(), closer, bracket] {
        for put in 0..ALL {
            for back in [put + 1, ALL] {
                let mut case = opened(&sound());
                go(&mut case, 3, 0, put, list.len());
                case.set_record(&other);
                go(&mut case, 3, put, back, list.len());
                case.set_record(&sound());
                go(&mut case, 3, back, ALL, list.len());
                list.push(ended(case));
            }
        }
    }
    list
}

/// A second run before a call, over the same record or another, up to its scans or its close; then the first job goes on.
fn words_of_a_run() -> Vec<Case> {
    let [closer, ..] = faulty();
    let mut list = Vec::new();
    for at in [1, 3, 4, 5, 6, 8, 9] {
        for (record, cuts) in [(sound(), &CUTS[1..]), (also_sound(), &CUTS), (closer.clone(), &CUTS)] {
            let chunks = cuts.len() + 1;
            for till in [chunks, calls(chunks).len()] {
                let mut case = opened(&sound());
                go(&mut case, 3, 0, at, list.len());
                case.keep();
                case.set_record(&record);
                case.open(0, LEVELS, cuts);
                go(&mut case, chunks, 0, till, list.len() + 1);
                case.set_record(&sound());
                case.hand_in();
                go(&mut case, 3, at, ALL, list.len());
                list.push(ended(case));
            }
        }
    }
    list
}

/// Words that no run wrote before a call: all of them, or all bits turned over in the words of one bitmap.
fn other_words() -> Vec<Case> {
    let mut list = Vec::new();
    for at in [1, 3, 4, 5, 6, 8, 9] {
        for bitmap in [None, Some(Bitmap::Quotes), Some(Bitmap::Mask), Some(Bitmap::Colons(1))] {
            let mut case = opened(&sound());
            go(&mut case, 3, 0, at, list.len());
            match bitmap {
                None => case.set_words(size(LENGTH, LEVELS), list.len() as u64),
                Some(bitmap) => (0..3).for_each(|w| case.damage(row(bitmap) * 3 + w, u64::MAX)),
            }
            go(&mut case, 3, at, ALL, list.len());
            list.push(ended(case));
        }
    }
    list
}

/// Records with a chunk whose counts announce a fault; what lies behind it shows the depth that is handed on, or the end's fault.
fn announcing() -> [(usize, Vec<u8>); 8] {
    [
        (0, spread(&[(0, b"]"), (64, b"[1,2]")])),
        (0, spread(&[(0, b"][["), (64, b"1,2]")])),
        (1, spread(&[(64, b"]"), (128, b"[1,2]")])),
        (1, spread(&[(0, &[b'['; 10]), (64, &[b'{'; 60]), (128, b"[")])),
        (2, spread(&[(128, b"]")])),
        (2, spread(&[(128, b"][[")])),
        (2, spread(&[(128, b"]\"")])),
        (2, spread(&[(0, &[b'['; 40]), (64, &[b'['; 24]), (128, b"[]")])),
    ]
}

/// That fault is no longer there when the chunk is settled: a blank record is lent for this call, or a mask over all brackets.
fn announced_faults() -> Vec<Case> {
    let mut list = Vec::new();
    for (k, record) in announcing() {
        let settle = 3 + 2 * k;
        for masked in [false, true] {
            let mut case = opened(&record);
            go(&mut case, 3, 0, settle, 0);
            if masked {
                case.damage(row(Bitmap::Mask) * 3 + k, u64::MAX);
            } else {
                case.set_record(&spread(&[]));
            }
            go(&mut case, 3, settle, settle + 1, 0);
            case.set_record(&record);
            go(&mut case, 3, settle + 1, ALL, 0);
            list.push(ended(case));
        }
    }
    list
}

/// A record of the same length: some bytes changed, all others, or the same bytes from another place on.
fn other_record(random: &mut Random, record: &[u8]) -> Vec<u8> {
    let n = record.len();
    let mut other = record.to_vec();
    match random.below(3) {
        0 => {
            for _ in 0..1 + random.below(6) {
                let at = random.below(n);
                other[at] = *random.pick(b"\"\\{}[]:, x");
            }
        }
        1 => other = noise(random, n).bytes,
        _ => other.rotate_left(random.below(n)),
    }
    other
}

fn stray(random: &mut Random, case: &mut Case, text: &Text, levels: usize) {
    match random.below(10) {
        0 | 1 => case.keep(),
        2 | 3 => case.hand_in(),
        4 | 5 => {
            let other = other_record(random, &text.bytes);
            case.set_record(&other);
        }
        6 => case.set_record(&text.bytes),
        7 => case.set_words(size(text.bytes.len(), levels), random.next()),
        8 => {
            let cuts = good_cuts(random, text.bytes.len());
            case.open(0, levels, &cuts);
        }
        _ => {
            for _ in 0..1 + random.below(4) {
                let at = random.below(size(text.bytes.len(), levels));
                case.damage(at, random.next());
            }
        }
    }
}

/// A text of some words.
fn longer_text(random: &mut Random) -> Text {
    loop {
        let text = text(random);
        if (65..500).contains(&text.bytes.len()) {
            return text;
        }
    }
}

fn random_case(random: &mut Random) -> Case {
    let text = longer_text(random);
    let levels = *random.pick(&[1, 1, 2, 2, 3, 4, 16]);
    let mut case = Case::new();
    case.set_record(&text.bytes);
    case.set_words(size(text.bytes.len(), levels), random.next());
    let cuts = good_cuts(random, text.bytes.len());
    case.open(0, levels, &cuts);
    case.keep();
    for _ in 0..2 + random.below(6) {
        for _ in 0..random.below(2 * cuts.len() + 3) {
            accepted_call(random, &mut case);
        }
        if random.chance(1, 3) {
            any_call(random, &mut case);
        }
        stray(random, &mut case, &text, levels);
    }
    run_job(random, &mut case);
    case.hand_in();
    run_job(random, &mut case);
    ask_paths(random, &mut case, levels, &text.paths, 3);
    case.end();
    case
}

/// The lists, and so many random ones. No number is drawn from those of the other cases.
pub fn all(seed: u64, count: usize) -> impl Iterator<Item = Case> {
    let mut random = Random::new(!seed);
    let listed = [older_jobs(), other_records(), words_of_a_run(), other_words(), announced_faults()];
    listed.into_iter().flatten().chain((0..count).map(move |_| random_case(&mut random)))
}
