//! Made reports of an exact size, as a mastering encoder would write them, and texts of lines as a preview encoder would, for
//! tests, measurements and trying.

use crate::random::Random;

/// No smaller report is made: what stands around the frames needs room.
pub const SMALLEST: usize = 512;

/// The end of a report, behind its last frame, has fewer bytes than this when its note is empty.
const ROOM_FOR_END: usize = 32;

/// How many bytes a long string has, or some more.
const LONG: usize = 1000;

#[derive(Clone, Copy, Debug, PartialEq, Eq)]
pub enum Style {
    /// No blanks outside strings.
    Compact,
    /// A line for each value, two blanks a level.
    Indented,
    /// As compact, and most of it in strings of about 1 KiB, with colons, commas, brackets and escapes in them.
    Strings,
}

/// A sound report in valid JSON, of exactly `size` bytes: as many frames as have room, and a note that takes the rest.
/// The same style and size give the same bytes. A small report may have no frame.
///
/// # Panics
/// Where `size` is below `SMALLEST`.
pub fn report(style: Style, size: usize) -> Vec<u8> {
    made(style, size).0
}

/// How many frames that report has: they are `$.frames[0]` and so on, each with `tiles[0].rate` in it.
pub fn frames(style: Style, size: usize) -> usize {
    made(style, size).1
}

/// A text of at most `size` bytes: a record of about 300 bytes for each frame, a line each, with a line feed behind the last
/// too. The same size gives the same bytes, and another size the same lines, only more or fewer.
pub fn lines(size: usize) -> Vec<u8> {
    let mut pen = Pen::new(false, size);
    let mut draw = Random(2025);
    for number in 0.. {
        let before = pen.place();
        write_line(&mut pen, number, &mut draw);
        if pen.bytes.len() > size {
            pen.back_to(before);
            break;
        }
    }
    pen.bytes
}

fn write_line(pen: &mut Pen, number: usize, draw: &mut Random) {
    pen.open(b'{');
    write_number_and_timecode(pen, number);
    pen.name("tiles");
    pen.open(b'[');
    for _ in 0..4 + draw.below(3) {
        write_tile(pen, draw);
    }
    pen.close(b']');
    pen.member("font", FONTS[draw.below(FONTS.len())]);
    pen.member("note", &format!("\"{}\"", PHRASES[draw.below(PHRASES.len())]));
    pen.member("held", if draw.below(50) == 0 { "true" } else { "false" });
    pen.close(b'}');
    pen.raw("\n");
}

fn made(style: Style, size: usize) -> (Vec<u8>, usize) {
    assert!(size >= SMALLEST, "a made report has at least {SMALLEST} bytes, and not {size}");
    let mut pen = Pen::new(style == Style::Indented, size);
    let mut draw = Random(2024);
    write_head(&mut pen);
    let mut count = 0;
    loop {
        let before = pen.place();
        write_frame(&mut pen, style, count, &mut draw);
        if pen.bytes.len() + ROOM_FOR_END > size {
            pen.back_to(before);
            break;
        }
        count += 1;
    }
    write_end(&mut pen, size);
    (pen.bytes, count)
}

fn write_head(pen: &mut Pen) {
    pen.open(b'{');
    pen.member("reel", r#""R-0417 \"feature\", part 1""#);
    pen.name("encoder");
    pen.open(b'{');
    pen.member("name", r#""mezzanine""#);
    pen.member("version", "31");
    pen.member("profile", r#""D:\\profiles\\dcp.json""#);
    pen.member("lossless", "false");
    pen.close(b'}');
    pen.name("frames");
    pen.open(b'[');
}

fn write_frame(pen: &mut Pen, style: Style, number: usize, draw: &mut Random) {
    pen.item();
    pen.open(b'{');
    write_number_and_timecode(pen, number);
    pen.name("tiles");
    pen.open(b'[');
    let tiles = if style == Style::Strings { 1 } else { 2 + draw.below(3) };
    for _ in 0..tiles {
        write_tile(pen, draw);
    }
    pen.close(b']');
    pen.member("font", FONTS[draw.below(FONTS.len())]);
    if style == Style::Strings {
        pen.member("log", &long_string(draw));
    }
    pen.member("peak", &format!("-{}.{}", draw.below(60), 1 + draw.below(9)));
    pen.member("held", if draw.below(50) == 0 { "true" } else { "false" });
    pen.close(b'}');
}

fn write_number_and_timecode(pen: &mut Pen, number: usize) {
    let (seconds, picture) = (number / 24, number % 24);
    let (hour, minute, second) = (1 + seconds / 3600, seconds / 60 % 60, seconds % 60);
    pen.member("frame", &number.to_string());
    pen.member("timecode", &format!(r#""{hour:02}:{minute:02}:{second:02}:{picture:02}""#));
}

fn write_tile(pen: &mut Pen, draw: &mut Random) {
    pen.item();
    pen.open(b'{');
    pen.member("rate", &(1000 + draw.below(90_000)).to_string());
    pen.name("layers");
    pen.open(b'[');
    for _ in 0..1 + draw.below(4) {
        pen.item();
        pen.raw(&draw.below(4096).to_string());
    }
    pen.close(b']');
    pen.close(b'}');
}

/// Behind the last frame; the note takes all bytes that are left.
fn write_end(pen: &mut Pen, size: usize) {
    pen.close(b']');
    pen.name("note");
    let end = if pen.indented { "\"\n}" } else { "\"}" };
    pen.raw("\"");
    let rest = size - pen.bytes.len() - end.len();
    pen.bytes.extend(b"checked, and cleared by the desk; ".iter().cycle().take(rest));
    pen.raw(end);
}

const FONTS: [&str; 5] = [
    r#""Garamond \"Premier\" 12""#,
    r#""C:\\fonts\\univers.otf""#,
    r#""Akzidenz, bold""#,
    r#""\\\\store\\fonts\\""#,
    r#""Didot [small caps]: \"Std\\11\"""#,
];

const PHRASES: [&str; 9] = [
    "pass 2: rate held, layers [0, 1, 2] kept; ",
    r#"\"tile {7}\": above the mark, "#,
    r"see D:\\reels\\0417\\log, ",
    r#"{\"retry\": [true, 3]}, "#,
    "no change of the grain here and none in the frame before ",
    r"\n\tnext: ",
    r"\\\\",
    "]} ",
    "motion is low, so the rate went to the sound, ",
];

fn long_string(draw: &mut Random) -> String {
    let mut text = String::from("\"");
    while text.len() < LONG {
        text.push_str(PHRASES[draw.below(PHRASES.len())]);
    }
    text + "\""
}

/// Writes JSON, compact or indented.
struct Pen {
    bytes: Vec<u8>,
    indented: bool,
    depth: usize,
    /// Nothing was written since a bracket was opened.
    fresh: bool,
}

impl Pen {
    fn new(indented: bool, size: usize) -> Pen {
        // a frame more than has room is written before it is taken back
        Pen { bytes: Vec::with_capacity(size + 8 * LONG), indented, depth: 0, fresh: true }
    }

    fn place(&self) -> (usize, bool) {
        (self.bytes.len(), self.fresh)
    }

    /// Takes back all that was written since a place of the same depth.
    fn back_to(&mut self, (length, fresh): (usize, bool)) {
        self.bytes.truncate(length);
        self.fresh = fresh;
    }

    fn raw(&mut self, text: &str) {
        self.bytes.extend_from_slice(text.as_bytes());
    }

    fn line(&mut self) {
        if self.indented {
            self.bytes.push(b'\n');
            self.bytes.resize(self.bytes.len() + 2 * self.depth, b' ');
        }
    }

    fn open(&mut self, bracket: u8) {
        self.bytes.push(bracket);
        self.depth += 1;
        self.fresh = true;
    }

    fn close(&mut self, bracket: u8) {
        self.depth -= 1;
        if !self.fresh {
            self.line();
        }
        self.bytes.push(bracket);
        self.fresh = false;
    }

    /// What stands before an item's value.
    fn item(&mut self) {
        if !self.fresh {
            self.bytes.push(b',');
        }
        self.line();
        self.fresh = false;
    }

    fn name(&mut self, name: &str) {
        self.item();
        self.raw(&format!("\"{name}\":{}", if self.indented { " " } else { "" }));
    }

    fn member(&mut self, name: &str, value: &str) {
        self.name(name);
        self.raw(value);
    }
}

#[cfg(test)]
mod tests {
    use super::*;

    const STYLES: [Style; 3] = [Style::Compact, Style::Indented, Style::Strings];
    const LIMIT: usize = 16_777_216;

    /// How deep the brackets go, or where a bracket or a quote has no partner, or a blank lies where none should.
    fn depth(report: &[u8], blanks: bool) -> Result<usize, usize> {
        let mut open = Vec::new();
        let (mut inside, mut escaped, mut deepest) = (false, false, 0);
        for (i, &byte) in report.iter().enumerate() {
            match byte {
                b' '..=b'~' if inside => {
                    inside = byte != b'"' || escaped;
                    escaped = byte == b'\\' && !escaped;
                }
                b'"' => inside = true,
                b'{' | b'[' => open.push(byte),
                b'}' | b']' if open.pop() != Some(byte - 2) => return Err(i),
                b' ' | b'\n' if !blanks => return Err(i),
                b' '..=b'~' | b'\n' if !inside && byte != b'\\' => {}
                _ => return Err(i),
            }
            deepest = deepest.max(open.len());
            if open.is_empty() && i + 1 < report.len() {
                return Err(i);
            }
        }
        if inside || !open.is_empty() {
            return Err(report.len());
        }
        Ok(deepest)
    }

    fn count(report: &[u8], text: &[u8]) -> usize {
        report.windows(text.len()).filter(|window| *window == text).count()
    }

    #[test]
    fn the_check_sees_what_is_wrong() {
        assert_eq!(depth(br#"{"a":["\"]\\"]}"#, false), Ok(2));
        assert_eq!(depth(br#"{"a":[}]"#, false), Err(6));
        assert_eq!(depth(br#"{"a":"\"}"#, false), Err(9));
        assert_eq!(depth(br#"{"a": 1}"#, false), Err(5));
        assert_eq!(depth(b"{}{}", false), Err(1));
        assert_eq!(depth(b"[\\]", false), Err(1));
    }

    #[test]
    fn each_report_has_its_size_and_is_whole() {
        for style in STYLES {
            let sizes = (SMALLEST..SMALLEST + 3000).chain([65_536, 1_000_003]);
            for size in sizes.chain([LIMIT, LIMIT + 1]) {
                let report = report(style, size);
                assert_eq!(report.len(), size, "{style:?}");
                let deepest = if frames(style, size) == 0 { 2 } else { 6 };
                assert_eq!(depth(&report, style == Style::Indented), Ok(deepest), "{style:?} of {size} bytes");
            }
        }
    }

    #[test]
    fn frames_are_counted() {
        for style in STYLES {
            for size in [SMALLEST, 1500, 4000, 65_536, LIMIT] {
                let report = report(style, size);
                let names = count(&report, br#""timecode":"#);
                assert_eq!(names, frames(style, size), "{style:?} of {size} bytes");
                assert!(names >= size / 2000, "{style:?} of {size} bytes has {names} frames");
            }
        }
    }

    #[test]
    fn styles_look_as_they_say() {
        let [compact, indented, strings] = STYLES.map(|style| report(style, 100_000));
        assert!(compact.starts_with(br#"{"reel":"R-0417 \"feature\", part 1","encoder":{"name":"mezzanine","#));
        assert!(indented.starts_with(b"{\n  \"reel\": ") && indented.ends_with(b"\"\n}"));
        assert_eq!(count(&indented, b"\n      \"timecode\": \""), frames(Style::Indented, 100_000));
        let longest = strings.split(|&byte| byte == b'\n').map(<[u8]>::len).max();
        assert_eq!(longest, Some(100_000), "no line feed outside the escapes");
        assert_eq!(count(&strings, br#""log":""#), frames(Style::Strings, 100_000));
        assert_eq!(report(Style::Strings, 100_000), strings, "the same each time");
    }

    #[test]
    fn each_line_is_a_whole_record() {
        let text = lines(1_000_000);
        let records: Vec<&[u8]> = text.strip_suffix(b"\n").unwrap().split(|&byte| byte == b'\n').collect();
        assert!(records.iter().all(|record| depth(record, false) == Ok(4)), "none has a line feed in it");
        let each = text.len() / records.len();
        assert!((280..=320).contains(&each), "{each} bytes on average");
        assert!(1_000_000 - text.len() < 500, "{} bytes", text.len());
        assert!(records[7].starts_with(br#"{"frame":7,"timecode":"01:00:00:07","tiles":[{"rate":"#));
        assert_eq!(lines(1_000_000), text, "the same each time");
        assert!(text.starts_with(&lines(2000)) && lines(100).is_empty());
    }

    #[test]
    #[should_panic(expected = "at least 512 bytes")]
    fn too_small_is_refused() {
        report(Style::Compact, SMALLEST - 1);
    }
}
