//! What request Two tells of names: spelt anew at random, spoilt at every place, framed by bits that no run gave, and long ones
//! with an escape at every place.

use crate::broken::{over_damaged_words, Turned};
use crate::case::Case;
use crate::cases::good_cuts;
use crate::names::{read, Unit};
use crate::random::Random;
use crate::records::{json, wrapped, Text};
use crate::rules::{escaped, row, width, Bitmap};

const LEVELS: usize = 3;

/// The characters that have a short escape, and its letter.
const SHORT: [(char, u8); 8] =
    [('"', b'"'), ('\\', b'\\'), ('/', b'/'), ('\u{8}', b'b'), ('\u{c}', b'f'), ('\n', b'n'), ('\r', b'r'), ('\t', b't')];

/// Names that no path has: each short escape, pairs and their neighbours, and what is a path's name but for something.
const ODD: [&str; 20] = [
    "", "\"", "\\", "/", "\u{8}", "\u{c}", "\n", "\r", "\t", "\0", "a\0", r"\u0061", "a\u{301}", "\u{161}", "\u{ff41}", "b\u{1f600}",
    "\u{10061}", "\u{10ffff}a", "\u{d7ff}\u{e000}", "\u{ffff}",
];

/// Bytes that make, spoil or end an escape.
const SPOILING: &[u8] = b"\\\"uU0dDcgn\xED";

/// Names of which every byte is spoilt: the first is `name`.
const SPOILT: [&[u8]; 3] = [br"\u006eame", br"\ud83D\uDE00", br#"\"\\\/a"#];

/// What is cut into names from every place to every other.
const FRAMED: &[u8] = br#"\\\u0061\"\ud83d\uDE00\n"#;

/// Each has a name that is 30, unless a bit is turned over that makes it 27 or 28, or puts it behind what is asked for.
const TURNED: [Turned; 2] = [(r#"{"b\q":1,"a":2}"#, &[".a"]), (r#"{ "\u0061":,"\ud800" : 3 }"#, &[".a", ".b"])];

/// A character as RFC 8259 lets it be written: raw, by its short escape or by its number, in digits of either case.
fn spell(random: &mut Random, character: char, out: &mut Vec<u8>) {
    let short = SHORT.iter().find(|&&(short, _)| short == character);
    let unescaped = character >= ' ' && character != '"' && character != '\\';
    match (random.below(3), short) {
        (0, Some(&(_, letter))) => out.extend_from_slice(&[b'\\', letter]),
        (0 | 1, _) if unescaped => out.extend_from_slice(character.to_string().as_bytes()),
        _ => {
            for unit in character.encode_utf16(&mut [0; 2]) {
                let digits = format!("{unit:04x}").into_bytes();
                out.extend_from_slice(br"\u");
                out.extend(digits.into_iter().map(|digit| if random.chance(1, 2) { digit.to_ascii_uppercase() } else { digit }));
            }
        }
    }
}

fn spelt(random: &mut Random, name: &str) -> Vec<u8> {
    let mut out = Vec::new();
    name.chars().for_each(|character| spell(random, character, &mut out));
    out
}

/// The same name, spelt anew.
fn anew(random: &mut Random, name: &[u8]) -> Vec<u8> {
    let mut out = Vec::new();
    for unit in read(name).expect("a name of JSON") {
        match unit {
            Unit::Character(character) => spell(random, character, &mut out),
            Unit::Byte(byte) => out.push(byte),
        }
    }
    out
}

/// From behind a name's first quote up to its last. A name is a string with a colon behind it.
fn names(text: &[u8]) -> Vec<(usize, usize)> {
    let quotes: Vec<usize> = (0..text.len()).filter(|&i| text[i] == b'"' && !escaped(text, i)).collect();
    let strings = quotes.chunks_exact(2).map(|pair| (pair[0] + 1, pair[1]));
    strings.filter(|&(_, end)| text[end + 1..].trim_ascii_start().starts_with(b":")).collect()
}

/// A byte changed, put in or left out, so that the quotes about the name are quotes as before.
fn spoilt(random: &mut Random, name: &[u8]) -> Vec<u8> {
    loop {
        let mut spoilt = name.to_vec();
        let at = random.below(name.len() + 1);
        let byte = if random.chance(1, 2) { b'\\' } else { *random.pick(SPOILING) };
        match random.below(3) {
            0 if at < name.len() => spoilt[at] = byte,
            1 if at < name.len() => {
                spoilt.remove(at);
            }
            _ => spoilt.insert(at, byte),
        }
        if names(&[b"\"", &spoilt[..], b"\":"].concat()) == [(1, 1 + spoilt.len())] {
            return spoilt;
        }
    }
}

/// Each name of a text spelt anew. Before some an item with an odd name is put in, and of so many in sixteen a byte is spoilt.
fn respelt(random: &mut Random, plain: &Text, bad: usize) -> Text {
    let mut bytes = Vec::new();
    let mut from = 0;
    for (start, end) in names(&plain.bytes) {
        bytes.extend_from_slice(&plain.bytes[from..start]);
        if random.chance(1, 4) {
            let odd = *random.pick(&ODD);
            bytes.extend(spelt(random, odd));
            bytes.extend_from_slice(b"\":0,\"");
        }
        let name = anew(random, &plain.bytes[start..end]);
        bytes.extend(if random.chance(bad, 16) { spoilt(random, &name) } else { name });
        from = end;
    }
    bytes.extend_from_slice(&plain.bytes[from..]);
    Text { bytes, paths: plain.paths.clone() }
}

/// JSON with an object or an array about it.
fn plain(random: &mut Random) -> Text {
    let room = *random.pick(&[20, 60, 120, 250]);
    let inner = json(random, room);
    let times = 1 + random.below(3);
    wrapped(random, inner, times)
}

/// JSON with its names spelt anew, all of them well or some of them spoilt.
pub fn text(random: &mut Random) -> Text {
    let plain = plain(random);
    let bad = *random.pick(&[0, 4, 8]);
    respelt(random, &plain, bad)
}

/// Each path, and instead of its last step a name that no object has: the step that looks for it meets every item.
fn ask(case: &mut Case, levels: usize, paths: &[Vec<u8>]) {
    for path in paths.iter().take(6) {
        let last = path.iter().rposition(|byte| b".[".contains(byte)).unwrap_or(path.len());
        case.query(0, levels, path);
        case.query(0, levels, &[&path[..last], b".zz"].concat());
    }
}

/// A bit about a name turned over, of those that a name step goes by.
fn damage_name(random: &mut Random, case: &mut Case, (start, end): (usize, usize)) {
    let at = start - 1 + random.below(end - start + 3);
    let k = 1 + random.below(2);
    let bitmap = *random.pick(&[Bitmap::Quotes, Bitmap::Colons(k), Bitmap::Commas(k)]);
    case.damage(row(bitmap) * width(case.record.len()) + at / 64, 1 << (at % 64));
}

fn random_case(random: &mut Random) -> Case {
    let text = text(random);
    let levels = *random.pick(&[4, 8, 16]);
    let (cuts, guesses) = (good_cuts(random, text.bytes.len()), random.next());
    let mut case = Case::new();
    case.set_record(&text.bytes);
    case.plain_run(levels, &cuts, |k| guesses >> k & 1 == 1);
    ask(&mut case, levels, &text.paths);
    let names = names(&text.bytes);
    if !names.is_empty() && random.chance(1, 2) {
        let name = *random.pick(&names);
        for _ in 0..1 + random.below(3) {
            damage_name(random, &mut case, name);
        }
        ask(&mut case, levels, &text.paths);
    }
    case.end();
    case
}

/// A run over a record without cuts.
fn run(case: &mut Case, record: &[u8]) {
    case.set_record(record);
    case.plain_run(LEVELS, &[], |_| false);
}

/// A name spoilt at a place. A changed byte is lent over the words of the name as it was, where a quote ends no name and a
/// backslash may be its last byte; a byte left out or put in has words of its own.
fn spoilt_at(name: &[u8], at: usize) -> Case {
    let record = |before: &[u8], behind: &[u8]| [b"{\"", before, behind, b"\":1,\"name\":2}"].concat();
    let (before, behind) = name.split_at(at);
    let mut case = Case::new();
    run(&mut case, &record(before, behind));
    case.query(0, LEVELS, b"$.name");
    if let Some((_, behind)) = behind.split_first() {
        for &byte in SPOILING {
            case.set_record(&record(&[before, &[byte]].concat(), behind));
            case.query(0, LEVELS, b"$.name");
        }
        run(&mut case, &record(before, behind));
        case.query(0, LEVELS, b"$.name");
    }
    for byte in SPOILING {
        run(&mut case, &record(&[before, &[*byte]].concat(), behind));
        case.query(0, LEVELS, b"$.name");
    }
    case.end();
    case
}

fn spoilt_everywhere() -> Vec<Case> {
    SPOILT.into_iter().flat_map(|name| (0..=name.len()).map(|at| spoilt_at(name, at))).collect()
}

/// The bitmap's bits from now on.
fn set_places(case: &mut Case, bitmap: Bitmap, places: &[usize]) {
    let wide = width(case.record.len());
    for w in 0..wide {
        let at = row(bitmap) * wide + w;
        let bits = places.iter().filter(|&&place| place / 64 == w).fold(0, |bits, place| bits | 1 << (place % 64));
        let by = case.words[at] ^ bits;
        if by != 0 {
            case.damage(at, by);
        }
    }
}

/// What is behind so many bytes, framed by quote bits as a name that ends at each place up to the last.
fn framed(dropped: usize) -> Case {
    // every second one lies across the border of two words
    let blanks = dropped % 2 * 50;
    let record = [&b" ".repeat(blanks), &b"{\""[..], &FRAMED[dropped..], b"\":1,\"a\":2}"].concat();
    let (first, n) = (blanks + 1, record.len());
    let mut case = Case::new();
    run(&mut case, &record);
    for end in first + 1..n - 2 {
        let behind = |places: &[usize]| places.iter().copied().filter(|&place| place > end + 1).collect::<Vec<_>>();
        set_places(&mut case, Bitmap::Quotes, &[&[first, end], &behind(&[n - 6, n - 4])[..]].concat());
        set_places(&mut case, Bitmap::Colons(1), &[&[end + 1], &behind(&[n - 3])[..]].concat());
        set_places(&mut case, Bitmap::Commas(1), &behind(&[n - 7]));
        case.query(0, LEVELS, b"$.a");
    }
    case.end();
    case
}

/// Where a long name stands: so many blanks are before its bracket, and this behind its last quote.
type Stand = (usize, &'static [u8]);

/// As near to the record's end as can be; to the end of a word too; and with its middle at the border of two words, a bad escape
/// close behind it that is no name's.
fn stands(length: usize) -> [Stand; 3] {
    [(0, b":}"), (63 - (length + 4) % 64, b":}"), (62 - length / 2, br#":"\q","a":2}"#)]
}

/// A name of so many `n`, and at each place another letter, a bad escape, and an `n` by an escape, all cut off where the name ends.
/// No bit changes by them, but for a backslash that ends the name: each is lent over the words of the first.
fn long_name(length: usize, (blanks, behind): Stand) -> Case {
    let record = |name: &[u8]| [&b" ".repeat(blanks), &b"{\""[..], name, b"\"", behind].concat();
    let path = |times: usize| [b"$.", &b"n".repeat(times)[..]].concat();
    let plain = b"n".repeat(length);
    let mut case = Case::new();
    run(&mut case, &record(&plain));
    case.query(0, LEVELS, &path(length));
    let characters = length.saturating_sub(5).max(1);
    for at in 0..length {
        for (put, asked) in [(&b"m"[..], path(length)), (br"\q", b"$.a".to_vec()), (br"\u006e", path(characters))] {
            let till = length.min(at + put.len());
            let name = [&plain[..at], &put[..till - at], &plain[till..]].concat();
            case.set_record(&record(&name));
            case.query(0, LEVELS, &asked);
        }
    }
    case.end();
    case
}

fn long_names() -> Vec<Case> {
    let each = |length: usize| stands(length).map(|stand| long_name(length, stand));
    let longer = [(24, 0), (41, 2), (70, 1)].map(|(length, stand)| long_name(length, stands(length)[stand]));
    [1, 2, 6, 7, 8, 9, 15, 16, 17].into_iter().flat_map(each).chain(longer).collect()
}

/// The lists, and so many random ones. No number is drawn from those of the other cases.
pub fn all(seed: u64, count: usize) -> impl Iterator<Item = Case> {
    let mut random = Random::new(seed.reverse_bits());
    let frames = (0..FRAMED.len()).map(framed).collect();
    let listed = [spoilt_everywhere(), frames, over_damaged_words(&TURNED), long_names()];
    listed.into_iter().flatten().chain((0..count).map(move |_| random_case(&mut random)))
}

#[cfg(test)]
mod tests {
    use super::*;
    use crate::case::queries;
    use crate::path::{query, Found};
    use crate::rules::index;
    use std::collections::BTreeSet;

    /// How often a number was told.
    fn times(case: &Case, number: u64) -> usize {
        queries(&case.line).into_iter().filter(|&(told, _)| told == number).count()
    }

    #[test]
    fn a_character_is_spelt_in_every_way() {
        let mut random = Random::new(4);
        let mut ways = |name: &str| (0..2_000).map(|_| spelt(&mut random, name)).collect::<BTreeSet<_>>();
        let list = |ways: &[&str]| ways.iter().map(|way| way.as_bytes().to_vec()).collect::<BTreeSet<_>>();
        assert_eq!(ways("a"), list(&["a", r"\u0061"]));
        assert_eq!(ways("/"), list(&["/", r"\/", r"\u002f", r"\u002F"]));
        assert_eq!(ways("\""), list(&[r#"\""#, r"\u0022"]));
        assert_eq!(ways("\n"), list(&[r"\n", r"\u000a", r"\u000A"]));
        // raw, or a pair with the digits d, d, d and e in either case
        assert_eq!(ways("\u{1f600}").len(), 17);
    }

    #[test]
    fn a_text_spelt_anew_answers_as_before() {
        const DEEP: usize = 16;
        let mut random = Random::new(6);
        let mut escapes = 0;
        for _ in 0..3_000 {
            let before = plain(&mut random);
            let anew = respelt(&mut random, &before, 0);
            let ask = |text: &Text, path: &[u8]| query(&text.bytes, &index(&text.bytes, DEEP).1, DEEP, path);
            for path in &before.paths {
                let (one, other) = (ask(&before, path), ask(&anew, path));
                assert_eq!((one.number, one.step), (other.number, other.step), "{}", String::from_utf8_lossy(&anew.bytes));
                let part = |text: &Text, found: Found| text.bytes[found.start..found.end].to_vec();
                if one.number == 0 && names(&part(&before, one)).is_empty() {
                    assert_eq!(part(&before, one), part(&anew, other));
                    escapes += usize::from(anew.bytes[..other.start].ends_with(br#"\u0062":"#));
                }
            }
        }
        assert!(escapes > 50, "only {escapes} parts were found by the name b in an escape");
    }

    /// Where no 30 can be made: at a backslash that begins an escape of one character, and behind the name.
    #[test]
    fn a_name_is_spoilt_at_every_place_that_can_be() {
        let harmless: [&[usize]; 3] = [&[0, 9], &[12], &[0, 2, 4, 7]];
        for (name, harmless) in SPOILT.into_iter().zip(harmless) {
            for at in 0..=name.len() {
                let case = spoilt_at(name, at);
                assert_eq!(times(&case, 30) == 0, harmless.contains(&at), "{} at {at}", String::from_utf8_lossy(name));
                assert!(times(&case, 0) > 0, "{} at {at}", String::from_utf8_lossy(name));
            }
        }
        assert!(spoilt_at(SPOILT[0], 9).line.contains(" 0@13/0+1:"));
    }

    /// The names are the first 0 to 31 bytes of `\\\u0061\"\ud83d\uDE00\n":1,"a":2}`. Whole are those of 0, 2, 8, 10, 22 and from 24
    /// bytes on; up to 25 the comma is behind them. Without the first two bytes, that of 6 is `a`.
    #[test]
    fn a_frame_about_every_front_part() {
        let case = framed(0);
        assert_eq!((times(&case, 30), times(&case, 0), times(&case, 25)), (19, 7, 6));
        assert!(framed(2).line.contains(" 0@10/0+17:"));
    }

    #[test]
    fn bits_turned_over_about_a_bad_name() {
        let cases = over_damaged_words(&TURNED);
        for told in [27, 28, 29, 30].into_iter().flat_map(|number| (1..=LEVELS).map(move |step| (number, step))) {
            let met = cases.iter().flat_map(|case| queries(&case.line)).filter(|&one| one == told).count();
            assert!(met >= 10, "{told:?} was met {met} times");
        }
    }

    /// The bad escape is 30 at each place, the good one where a digit is cut off; else it is the name that is asked for.
    #[test]
    fn a_long_name_with_an_escape_at_every_place() {
        for length in [1, 6, 7, 8, 16, 33] {
            let cut = length.min(5);
            for stand in stands(length) {
                let case = long_name(length, stand);
                assert_eq!(times(&case, 30), length + cut, "{length}, {stand:?}");
                assert_eq!(times(&case, 0) + times(&case, 29), 1 + length - cut, "{length}, {stand:?}");
                assert_eq!(times(&case, 25), length, "{length}, {stand:?}");
            }
        }
    }

    #[test]
    fn where_long_names_stand() {
        for length in 2..=70 {
            let [last, of_word, across] = stands(length).map(|(blanks, behind)| (blanks + 2, blanks + 3 + length + behind.len()));
            assert_eq!((last, of_word.1 % 64), ((2, length + 5), 0));
            assert!(across.0 < 64 && 64 < across.0 + length, "{length}");
        }
    }

    #[test]
    fn random_cases_meet_30_and_a_miss_at_every_step() {
        let mut random = Random::new(8);
        let told: Vec<(u64, usize)> = (0..3_000).flat_map(|_| queries(&random_case(&mut random).line)).collect();
        for one in [25, 30].into_iter().flat_map(|number| (1..=3).map(move |step| (number, step))) {
            let times = told.iter().filter(|&&other| other == one).count();
            assert!(times >= 50, "{one:?} was told {times} times");
        }
    }
}
