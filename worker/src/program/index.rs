//! `wararish index`: verdict, digest and speed.

use std::io::{self, Write};
use std::time::{Duration, Instant};

use wararish::plan::{self, Guesses, Order};
use wararish::{digest, words_needed, IndexError, Report};

use super::arguments::{number, Arguments, Known};
use super::json::write_string;
use super::out::out;
use super::progress::Progress;
use super::reading::{self, Input};
use super::sentences;
use super::status::{say, Status, Stop};

pub const OPTIONS: &[Known] = &[
    ("--levels", true),
    ("--cuts", true),
    ("--cuts-at", true),
    ("--guess", true),
    ("--order", true),
    ("--seed", true),
    ("--json", false),
];

/// How the report is to be indexed.
struct Manner {
    levels: usize,
    cuts: Cuts,
    guesses: Guesses,
    order: Order,
    seed: u64,
}

enum Cuts {
    Even(usize),
    At(Vec<usize>),
}

/// What came of it: a refused report has no words.
struct Outcome {
    bytes: usize,
    levels: usize,
    chunks: usize,
    words: Vec<u64>,
    error: Option<IndexError>,
    took: Duration,
}

pub fn run(arguments: Arguments) -> Result<Status, Stop> {
    let json = arguments.has("--json");
    let manner = Manner::read(&arguments)?;
    let input = reading::read(&arguments.only("FILE")?)?;
    let outcome = manner.index(&input);
    let mut out = out();
    if json {
        outcome.write_json(&mut out)?;
    } else {
        outcome.write_lines(&mut out)?;
    }
    out.flush()?;
    let Some(error) = outcome.error else {
        return Ok(Status::Done);
    };
    say(&sentences::of_record(&input, error));
    Ok(error.into())
}

fn guesses(text: &str) -> Option<Guesses> {
    match text {
        "outside" => Some(Guesses::Outside),
        "inside" => Some(Guesses::Inside),
        "random" => Some(Guesses::Random),
        _ => None,
    }
}

fn order(text: &str) -> Option<Order> {
    match text {
        "forward" => Some(Order::Forward),
        "backward" => Some(Order::Backward),
        "random" => Some(Order::Random),
        _ => None,
    }
}

fn even(text: &str) -> Option<Cuts> {
    number(text).filter(|&count| count < plan::CHUNKS).map(Cuts::Even)
}

fn at(text: &str) -> Option<Cuts> {
    text.split(',').map(number).collect::<Option<Vec<usize>>>().map(Cuts::At)
}

impl Manner {
    fn read(arguments: &Arguments) -> Result<Manner, Stop> {
        arguments.not_both("--cuts", "--cuts-at")?;
        let cuts = arguments.read_as("--cuts", Cuts::Even(0), "a number, 0 to 63", even)?;
        Ok(Manner {
            levels: arguments.read_as("--levels", 4, "a number, 1 to 16", number)?,
            cuts: arguments.read_as("--cuts-at", cuts, "numbers with commas between them", at)?,
            guesses: arguments.read_as("--guess", Guesses::Outside, "outside, inside or random", guesses)?,
            order: arguments.read_as("--order", Order::Forward, "forward, backward or random", order)?,
            seed: arguments.read_as("--seed", 1, "a number", number)?,
        })
    }

    fn index(self, input: &Input) -> Outcome {
        let (record, levels) = (&input.record[..], self.levels);
        let cuts = match self.cuts {
            Cuts::Even(count) => plan::even_cuts(record.len(), count),
            Cuts::At(places) => places,
        };
        let chunks = cuts.len() + 1;
        let calls = plan::calls(chunks, self.guesses, self.order, self.seed);
        // words that were written before, so that the time is the index's own, and not the system's for new memory
        let lent = vec![u64::MAX; words_needed(levels, record.len())];
        let progress = Progress::of("indexing");
        progress.set(record.len());
        let start = Instant::now();
        let indexed = Report::new(record).index_in(lent, levels, &cuts, &calls);
        let took = start.elapsed();
        let (error, words) = match indexed {
            Ok(index) => (None, index.into_words()),
            Err(unindexed) if unindexed.error().is_fault() => (Some(unindexed.error()), unindexed.into_words()),
            Err(unindexed) => (Some(unindexed.error()), Vec::new()),
        };
        Outcome { bytes: record.len(), levels, chunks, words, error, took }
    }
}

impl Outcome {
    fn verdict(&self) -> String {
        match self.error {
            None => "sound".into(),
            Some(fault) if fault.is_fault() => format!("fault {} at {}", fault.number(), fault.place()),
            Some(refusal) => format!("refused {}", refusal.number()),
        }
    }

    /// There is no index to tell of.
    fn is_refused(&self) -> bool {
        self.error.is_some_and(|error| !error.is_fault())
    }

    fn bytes_per_second(&self) -> f64 {
        // a clock may be too coarse for a small record
        self.bytes as f64 / self.took.max(Duration::from_nanos(1)).as_secs_f64()
    }

    fn write_lines(&self, out: &mut impl Write) -> io::Result<()> {
        if self.is_refused() {
            return Ok(());
        }
        let seconds = self.took.as_secs_f64();
        let time = if seconds < 1.0 { format!("{:.3} ms", seconds * 1e3) } else { format!("{seconds:.3} s") };
        let lines = [
            ("bytes", self.bytes.to_string()),
            ("levels", self.levels.to_string()),
            ("chunks", self.chunks.to_string()),
            ("words", self.words.len().to_string()),
            ("verdict", self.verdict()),
            ("digest", format!("sha256 {}", digest::sha256(&self.words))),
            ("time", time),
            ("speed", format!("{:.1} MB/s", self.bytes_per_second() / 1e6)),
        ];
        lines.iter().try_for_each(|(name, value)| writeln!(out, "{name:<9}{value}"))
    }

    fn write_json(&self, out: &mut impl Write) -> io::Result<()> {
        let (number, place) = self.error.map_or((0, 0), |error| (error.number(), error.place()));
        write!(out, "{{\"bytes\":{},\"levels\":{},\"chunks\":{},", self.bytes, self.levels, self.chunks)?;
        write!(out, "\"words\":{},\"number\":{number},\"place\":{place},\"verdict\":", self.words.len())?;
        write_string(out, &self.verdict())?;
        if self.is_refused() {
            return writeln!(out, "}}");
        }
        write!(out, ",\"digest\":\"sha256 {}\",", digest::sha256(&self.words))?;
        let (seconds, speed) = (self.took.as_secs_f64(), self.bytes_per_second());
        writeln!(out, "\"seconds\":{seconds:.9},\"bytes_per_second\":{speed:.0}}}")
    }
}
