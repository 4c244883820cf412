//! One table of ratios from one run: what an index, a query, a small job, a text of lines and a whole program cost, and beside
//! what. Each contestant has one turn a round, and its cell is the smallest of its turns. Nothing here asserts a time.

use std::cell::RefCell;
use std::ffi::OsStr;
use std::hint::black_box;
use std::path::{Path, PathBuf};
use std::process::Command;
use std::time::{Duration, Instant};

use bytewise::rules::{self, Bitmap};
use wararish::sample::{self, Style};
use wararish::{line_in, plan, table_in, words_needed, Call, Index, Lines, Report};

const SIZE: usize = 16_777_216;
const LEVELS: usize = 4;
const ROUNDS: usize = 7;
/// For a program that takes long.
const FEW_ROUNDS: usize = 3;
/// A short call is repeated until its turn has taken so long.
const TURN: Duration = Duration::from_millis(5);

const STYLES: [(&str, Style); 3] =
    [("compact", Style::Compact), ("indented", Style::Indented), ("long strings", Style::Strings)];

/// The rows of the index. The first is the one by which 'share' is told, the last the one by which 'faster' is.
const INDEX_ROWS: &[(&str, Way)] = &[
    ("one chunk", Way::Ours(1, Guesses::Right, Words::AsLeft)),
    ("one chunk, wrong guess", Way::Ours(1, Guesses::Wrong, Words::AsLeft)),
    ("eight chunks, right guesses", Way::Ours(8, Guesses::Right, Words::AsLeft)),
    ("eight chunks, wrong guesses", Way::Ours(8, Guesses::Wrong, Words::AsLeft)),
    ("one chunk, words cleared first", Way::Ours(1, Guesses::Right, Words::Cleared)),
    ("one chunk, new words", Way::Ours(1, Guesses::Right, Words::New)),
    ("bytewise, byte by byte", Way::Bytewise),
];

/// The rows of queries by name. 'times' is told by the first.
const NAME_ROWS: &[NameRow] = &[
    ("20,000 members", many_names, Spelling::Plain),
    ("20,000 members, escapes", many_names, Spelling::Escapes),
    ("12 members", few_names, Spelling::Plain),
];

/// What it is called, the names of its object, and how they are spelt.
type NameRow = (&'static str, fn() -> Vec<String>, Spelling);

/// With a number behind it, up to 19,999, each is a name of 4 to 24 bytes.
const STEMS: [&str; 7] =
    ["subtitle_safe_area_", "cue", "peak_", "tile_rate_", "colour_space_", "timecode", "audio_channel_gain_"];

const FEW_NAMES: &str = "reel title encoder frames colour_space frame_rate width height peak held cleared_by note";

const SMALL_RECORD: &[u8; 64] = br#"{"reel":"R-0417","frames":[{"rate":2137},{"rate":890}],"held":0}"#;

fn main() {
    println!("Wararish on x86-64, one core: made reports of {SIZE} bytes, L = {LEVELS}.");
    println!("Smallest of {ROUNDS} interleaved rounds; of {FEW_ROUNDS} for jq and Python.");
    println!();
    let columns = STYLES.map(|(name, style)| Column::new(name, style));
    let compact = &columns[0];
    let one_chunk = index_table(&columns);
    query_table(compact, one_chunk);
    name_table();
    job_table();
    lines_table();
    program_table(compact);
}

/// How an index comes about.
#[derive(Clone, Copy)]
enum Way {
    Ours(usize, Guesses, Words),
    Bytewise,
}

#[derive(Clone, Copy, PartialEq)]
enum Guesses {
    Right,
    Wrong,
}

#[derive(Clone, Copy, PartialEq)]
enum Words {
    /// Lent as the turn before left them.
    AsLeft,
    /// The clearing is part of the turn.
    Cleared,
    /// Allocated in the turn, as bytewise allocates its own.
    New,
}

#[derive(Clone, Copy)]
enum Spelling {
    Plain,
    /// One name in ten, the last among them, has its first letter written as `\u00XX`.
    Escapes,
}

impl Spelling {
    fn of(self, k: usize, name: &str) -> String {
        match self {
            Spelling::Escapes if k % 10 == 9 => format!("\\u{:04x}{}", name.as_bytes()[0], &name[1..]),
            _ => name.to_owned(),
        }
    }
}

/// A made report, and the words that bytewise has for it.
struct Column {
    name: &'static str,
    style: Style,
    record: Vec<u8>,
    words: Vec<u64>,
}

impl Column {
    fn new(name: &'static str, style: Style) -> Column {
        let record = sample::report(style, SIZE);
        let (fault, words) = rules::index(&record, LEVELS);
        assert_eq!(fault, None, "a made report is sound");
        Column { name, style, record, words }
    }

    fn last_frame(&self) -> usize {
        sample::frames(self.style, SIZE) - 1
    }

    /// Whether a chunk that begins here begins inside a string.
    fn inside(&self, border: usize) -> bool {
        rules::get_bit(&self.words, self.record.len(), Bitmap::Mask, border)
    }
}

/// The cuts and calls of a job.
struct Plan {
    cuts: Vec<usize>,
    calls: Vec<Call>,
}

impl Plan {
    /// Even chunks: scan all, each with the guess for its border, then settle and level one after another.
    fn new(n: usize, chunks: usize, guess: impl Fn(usize) -> bool) -> Plan {
        let cuts = plan::even_cuts(n, chunks - 1);
        let borders = std::iter::once(0).chain(cuts.iter().copied());
        let scans = borders.enumerate().map(|(k, border)| Call::scan(k, guess(border)));
        let calls = scans.chain((0..chunks).flat_map(|k| [Call::settle(k), Call::level(k)])).collect();
        Plan { cuts, calls }
    }

    fn one_chunk(n: usize) -> Plan {
        Plan::new(n, 1, |_| false)
    }

    fn index<'r>(&self, record: &'r [u8], words: Vec<u64>) -> Index<'r> {
        Report::new(record).index_in(words, LEVELS, &self.cuts, &self.calls).expect("the record is sound")
    }
}

/// Has a turn in each of its rounds; a turn tells what it took.
struct Contestant<'a> {
    rounds: usize,
    turn: Box<dyn FnMut() -> Duration + 'a>,
}

impl<'a> Contestant<'a> {
    fn new(rounds: usize, turn: impl FnMut() -> Duration + 'a) -> Contestant<'a> {
        Contestant { rounds, turn: Box::new(turn) }
    }

    /// Of many calls, what one takes. The clock is read rarely: reading it takes as long as a short call.
    fn short(mut call: impl FnMut() + 'a) -> Contestant<'a> {
        Contestant::new(ROUNDS, move || {
            let start = Instant::now();
            let mut calls = 0;
            while start.elapsed() < TURN {
                (0..64).for_each(|_| call());
                calls += 64;
            }
            start.elapsed() / calls
        })
    }
}

/// The smallest turn of each.
fn race(mut contestants: Vec<Contestant>) -> Vec<Duration> {
    let mut smallest = vec![Duration::MAX; contestants.len()];
    for round in 0..ROUNDS {
        for (contestant, smallest) in contestants.iter_mut().zip(&mut smallest) {
            if round < contestant.rounds {
                *smallest = (*smallest).min((contestant.turn)());
            }
        }
    }
    smallest
}

fn timed<T>(work: impl FnOnce() -> T) -> (Duration, T) {
    let start = Instant::now();
    let result = work();
    (start.elapsed(), result)
}

/// Gives what the first row takes in the first column.
fn index_table(columns: &[Column]) -> Duration {
    let lent = RefCell::new(vec![0; words_needed(LEVELS, SIZE)]);
    let cells = INDEX_ROWS.iter().flat_map(|&(_, way)| columns.iter().map(move |column| (column, way)));
    let smallest = race(cells.map(|(column, way)| index_contestant(column, way, &lent)).collect());
    let rows: Vec<&[Duration]> = smallest.chunks(columns.len()).collect();
    let (first, last) = (rows[0], rows[rows.len() - 1]);
    print_head("", &columns.iter().flat_map(|column| ["", "", column.name]).collect::<Vec<_>>());
    print_head("index of a report", &["ms", "faster", "share"].repeat(columns.len()));
    for ((name, _), row) in INDEX_ROWS.iter().zip(&rows) {
        let cells = row.iter().zip(first).zip(last).flat_map(|((&took, &first), &last)| {
            [format!("{:.2}", ms(took)), format!("{:.1}", ratio(last, took)), format!("{:.2}", ratio(took, first))]
        });
        print_row(name, &cells.collect::<Vec<_>>());
    }
    println!("faster: bytewise's time by this one; share: this time by that of one chunk.");
    println!("Words are lent as the turn before left them, unless the row says otherwise; bytewise allocates its own.");
    first[0]
}

fn index_contestant<'a>(column: &'a Column, way: Way, lent: &'a RefCell<Vec<u64>>) -> Contestant<'a> {
    let Way::Ours(chunks, guesses, words) = way else {
        return Contestant::new(ROUNDS, || timed(|| rules::index(black_box(&column.record), LEVELS)).0);
    };
    let plan = Plan::new(SIZE, chunks, |border| column.inside(border) == (guesses == Guesses::Right));
    let index = plan.index(&column.record, lent.take());
    assert!(index.words() == column.words, "{chunks} chunks give other words than bytewise");
    lent.replace(index.into_words());
    Contestant::new(ROUNDS, move || {
        let mut taken = if words == Words::New { Vec::new() } else { lent.take() };
        let (took, index) = timed(|| {
            if words == Words::Cleared {
                taken.fill(0);
            }
            plan.index(&column.record, taken)
        });
        lent.replace(index.into_words());
        took
    })
}

fn query_table(column: &Column, one_chunk: Duration) {
    let index = Plan::one_chunk(SIZE).index(&column.record, vec![0; words_needed(LEVELS, SIZE)]);
    let last = column.last_frame();
    let paths = [0, last / 2, last].map(|frame| format!("$.frames[{frame}].tiles[0]"));
    let ask = |path: &String| {
        black_box(index.ask(black_box(path.as_bytes())).expect("a made report has this frame"));
    };
    let smallest = race(paths.iter().map(|path| Contestant::short(|| ask(path))).collect());
    println!();
    print_head("query in the compact report", &["us", "share"]);
    for (path, took) in paths.iter().zip(smallest) {
        print_row(path, &[format!("{:.2}", 1000.0 * ms(took)), format!("{:.6}", ratio(took, one_chunk))]);
    }
    println!("share: this time by that of the index of one chunk.");
}

fn many_names() -> Vec<String> {
    (0..20_000).map(|k| format!("{}{k}", STEMS[k % STEMS.len()])).collect()
}

fn few_names() -> Vec<String> {
    FEW_NAMES.split(' ').map(str::to_owned).collect()
}

/// A record of one object, the path to its last member, and the value there.
struct Object {
    record: Vec<u8>,
    members: usize,
    path: String,
    value: String,
}

impl Object {
    /// The value of each member is its number, from 0.
    fn new(names: &[String], spelling: Spelling) -> Object {
        let member = |(k, name): (usize, &String)| format!("\"{}\":{k}", spelling.of(k, name));
        let members: Vec<String> = names.iter().enumerate().map(member).collect();
        let last = names.len() - 1;
        Object {
            record: format!("{{{}}}", members.join(",")).into_bytes(),
            members: names.len(),
            path: format!("$.{}", names[last]),
            value: last.to_string(),
        }
    }

    /// What a member takes, in nanoseconds.
    fn each(&self, took: Duration) -> f64 {
        1e6 * ms(took) / self.members as f64
    }
}

fn name_contestant(object: &Object) -> Contestant<'_> {
    let index = Report::new(&object.record).index(LEVELS, &[]).expect("the record is sound");
    let ask = move || index.ask(black_box(object.path.as_bytes())).expect("the object has this name");
    assert_eq!(ask(), object.value.as_bytes(), "{}", object.path);
    Contestant::short(move || {
        black_box(ask());
    })
}

fn name_table() {
    let objects: Vec<Object> = NAME_ROWS.iter().map(|&(_, names, spelling)| Object::new(&names(), spelling)).collect();
    let smallest = race(objects.iter().map(name_contestant).collect());
    let first = objects[0].each(smallest[0]);
    println!();
    print_head("query for an object's last name", &["us", "ns each", "times"]);
    for (((name, ..), object), took) in NAME_ROWS.iter().zip(&objects).zip(smallest) {
        let each = object.each(took);
        print_row(name, &[format!("{:.2}", 1000.0 * ms(took)), format!("{each:.1}"), format!("{:.2}", each / first)]);
    }
    println!("ns each: the time of the query by the number of members; times: this by that of the first row.");
    println!("Names have 4 to 24 bytes; escapes: one name in ten, the last too, has a letter written as \\u00XX.");
}

fn job_table() {
    let plan = Plan::one_chunk(SMALL_RECORD.len());
    let mut words = vec![0; words_needed(LEVELS, SMALL_RECORD.len())];
    let job = Contestant::short(move || {
        words = plan.index(black_box(SMALL_RECORD), std::mem::take(&mut words)).into_words();
    });
    let smallest = race(vec![job]);
    println!();
    print_head("small job", &["ns"]);
    print_row("64 bytes, one chunk", &[smallest[0].as_nanos().to_string()]);
}

/// A text of lines, the table that is lent for it, and the same bytes as one record: an array with a comma for each line feed.
struct Text {
    bytes: Vec<u8>,
    lines: usize,
    table: Vec<usize>,
    words: Vec<u64>,
    record: Vec<u8>,
}

impl Text {
    fn new() -> Text {
        // the record has a byte more than the text
        let bytes = sample::lines(SIZE - 1);
        let lines = Lines::new(&bytes).expect("a made text has a size that is allowed");
        let words = vec![0; lines.words_needed(LEVELS)];
        let items = lines.iter().collect::<Vec<_>>().join(&b',');
        let record = [b"[", &items[..], b"]"].concat();
        assert_eq!(record.len(), bytes.len() + 1, "each line has its line feed, and none is blank");
        Text { lines: lines.len(), table: vec![0; 2 * lines.len()], words, record, bytes }
    }

    fn make_table(&mut self) {
        assert_eq!(table_in(black_box(&self.bytes), &mut self.table), Ok(self.lines));
    }

    /// All lines, one after another in the same words; `look` sees each line's bytes and words.
    fn index_lines(&mut self, look: impl Fn(&[u8], &[u64])) {
        for line in 0..self.lines {
            let index = line_in(&self.bytes, &self.table, line, LEVELS, &mut self.words).expect("the line is sound");
            look(index.record(), index.words());
        }
    }
}

/// The contestants: the table alone, the table and all lines, and the one record.
fn lines_contestants<'a>(text: &'a RefCell<Text>, plan: &'a Plan, record: &'a [u8]) -> Vec<Contestant<'a>> {
    let mut lent = vec![0; words_needed(LEVELS, record.len())];
    let one_record = move || {
        let (took, index) = timed(|| plan.index(black_box(record), std::mem::take(&mut lent)));
        lent = index.into_words();
        took
    };
    let table = || timed(|| text.borrow_mut().make_table()).0;
    let all_lines = || {
        let text = &mut *text.borrow_mut();
        let work = || {
            text.make_table();
            text.index_lines(|_, words| {
                black_box(words);
            });
        };
        timed(work).0
    };
    vec![Contestant::new(ROUNDS, table), Contestant::new(ROUNDS, all_lines), Contestant::new(ROUNDS, one_record)]
}

fn lines_table() {
    let mut text = Text::new();
    text.make_table();
    text.index_lines(|line, words| assert!(words == rules::index(line, LEVELS).1, "other words than bytewise"));
    let record = std::mem::take(&mut text.record);
    let (lines, bytes) = (text.lines, text.bytes.len());
    let text = RefCell::new(text);
    let smallest = race(lines_contestants(&text, &Plan::one_chunk(record.len()), &record));
    let [table, all_lines, one_record] = smallest[..] else { unreachable!("there are three contestants") };
    let each = |took: Duration| 1e6 * ms(took) / lines as f64;
    println!();
    print_head("text of lines", &["ms", "share", "ns a line"]);
    for (name, took) in [("table", table), ("table, and index of each line", all_lines), ("one record", one_record)] {
        let share = format!("{:.2}", ratio(took, one_record));
        print_row(name, &[format!("{:.2}", ms(took)), share, format!("{:.0}", each(took))]);
    }
    let job = format!("{:.0}", each(all_lines) - each(table) - each(one_record));
    print_row("a line's job beside its bytes", &[String::new(), String::new(), job]);
    println!("{lines} lines, {bytes} bytes; one record: the same as an array, its index made in one chunk.");
    println!("share: this time by that of one record; a line's job: the second row less the first and the third.");
}

/// A program that is asked the same about the same file, the first ours. No command: it is not installed.
struct Program {
    name: &'static str,
    rounds: usize,
    command: Option<Vec<String>>,
}

fn programs(file: &Path, frame: usize) -> Vec<Program> {
    let words = |list: &[&str]| list.iter().map(|&word| word.to_owned()).chain([file.display().to_string()]).collect();
    let question = format!(".frames[{frame}].tiles[0].rate");
    let ours = words(&[env!("CARGO_BIN_EXE_wararish"), "ask", &format!("${question}")]);
    let jq = said(&["jq", "--version"]).map(|_| words(&["jq", &question]));
    let value = format!("json.load(open(sys.argv[1]))['frames'][{frame}]['tiles'][0]['rate']");
    let script = format!("import json, sys; print({value})");
    // the interpreter itself, since `python3` may be a script that looks for it
    let interpreter = said(&["python3", "-c", "import json, sys; print(sys.executable)"]);
    let python = interpreter.map(|python| words(&[&python, "-c", &script]));
    vec![
        Program { name: "wararish ask", rounds: ROUNDS, command: Some(ours) },
        Program { name: "jq", rounds: FEW_ROUNDS, command: jq },
        Program { name: "Python's json", rounds: FEW_ROUNDS, command: python },
    ]
}

/// What a command writes, if it is installed and ends well.
fn said(command: &[impl AsRef<OsStr>]) -> Option<String> {
    let output = Command::new(&command[0]).args(&command[1..]).output().ok()?;
    output.status.success().then(|| String::from_utf8_lossy(&output.stdout).trim().to_owned())
}

/// Its turn, in which it must give the answer.
fn program_contestant<'a>(program: &'a Program, answer: &'a str) -> Contestant<'a> {
    Contestant::new(program.rounds, move || {
        let Some(command) = &program.command else { return Duration::MAX };
        let (took, given) = timed(|| said(command));
        assert_eq!(given.as_deref(), Some(answer), "{}", program.name);
        took
    })
}

fn program_table(column: &Column) {
    let file = Passing(Path::new(env!("CARGO_TARGET_TMPDIR")).join(format!("table-{}.json", std::process::id())));
    std::fs::write(&file.0, &column.record).expect("cargo's folder for such files can be written to");
    let programs = programs(&file.0, column.last_frame() / 2);
    let answer = programs[0].command.as_deref().and_then(said).expect("wararish answers");
    let smallest = race(programs.iter().map(|program| program_contestant(program, &answer)).collect());
    println!();
    print_head("whole program, one question", &["ms", "times"]);
    for (program, &took) in programs.iter().zip(&smallest) {
        if program.command.is_some() {
            print_row(program.name, &[format!("{:.1}", ms(took)), format!("{:.1}", ratio(took, smallest[0]))]);
        } else {
            println!("{:<32}  not installed", program.name);
        }
    }
    println!("times: this time by that of wararish; the file is in the system's cache.");
}

/// A file that goes when its value does.
struct Passing(PathBuf);

impl Drop for Passing {
    fn drop(&mut self) {
        let _ = std::fs::remove_file(&self.0);
    }
}

fn print_head(name: &str, heads: &[&str]) {
    print_row(name, &heads.iter().map(|&head| head.to_owned()).collect::<Vec<_>>());
}

fn print_row(name: &str, cells: &[String]) {
    let cells: String = cells.iter().map(|cell| format!("{cell:>10}")).collect();
    println!("{name:<32}{cells}");
}

fn ratio(a: Duration, b: Duration) -> f64 {
    a.as_secs_f64() / b.as_secs_f64()
}

fn ms(took: Duration) -> f64 {
    1000.0 * took.as_secs_f64()
}
