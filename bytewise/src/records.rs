//! Records: JSON texts with the paths to their values, damaged ones, ones with a broken item, and plain noise.

use crate::random::Random;
use crate::rules::truth;

const NAMES: [&str; 9] = ["a", "b", "c", "ab", "_x", "reel_1", "A9", "_", "loud"];

pub struct Text {
    pub bytes: Vec<u8>,
    pub paths: Vec<Vec<u8>>,
}

fn blanks(random: &mut Random, out: &mut Vec<u8>) {
    while random.chance(1, 5) {
        out.push(*random.pick(b" \t\n\r "));
    }
}

fn string(random: &mut Random, out: &mut Vec<u8>, most: usize) {
    out.push(b'"');
    for _ in 0..random.below(most + 1) {
        match random.below(8) {
            0 => out.extend_from_slice(b"\\\""),
            1 => {
                for _ in 0..1 + random.below(5) {
                    out.extend_from_slice(b"\\\\");
                }
            }
            2 => out.push(*random.pick(b"{}[]")),
            3 => out.push(*random.pick(b":,")),
            4 => out.extend_from_slice("é".as_bytes()),
            5 => out.extend_from_slice(b"\\n"),
            _ => out.push(*random.pick(b"abc019 _-")),
        }
    }
    out.push(b'"');
}

fn name(random: &mut Random, out: &mut Vec<u8>) -> Option<Vec<u8>> {
    if random.chance(1, 12) {
        string(random, out, 4);
        return None;
    }
    let name = random.pick(&NAMES).as_bytes();
    out.push(b'"');
    out.extend_from_slice(name);
    out.push(b'"');
    Some(name.to_vec())
}

/// A value of up to about `room` bytes; `path` leads to it.
fn value(random: &mut Random, room: usize, path: &[u8], text: &mut Text) {
    if path.len() < 900 && random.chance(1, 2) {
        text.paths.push(path.to_vec());
    }
    let parts = if room < 6 { 0 } else { random.below(6) };
    match random.below(if room < 6 { 4 } else { 10 }) {
        0 => text.bytes.extend_from_slice(*random.pick(&[&b"true"[..], b"false", b"null"])),
        1 | 2 => text.bytes.extend_from_slice(*random.pick(&[&b"0"[..], b"-1.5e3", b"42", b"7"])),
        3 => string(random, &mut text.bytes, (room / 2).min(40)),
        4..=6 => {
            text.bytes.push(b'[');
            blanks(random, &mut text.bytes);
            for i in 0..parts {
                let inner = [path, format!("[{i}]").as_bytes()].concat();
                separate(random, i, text);
                value(random, room / parts, &inner, text);
                blanks(random, &mut text.bytes);
            }
            text.bytes.push(b']');
        }
        _ => {
            text.bytes.push(b'{');
            blanks(random, &mut text.bytes);
            for i in 0..parts {
                separate(random, i, text);
                let inner = match name(random, &mut text.bytes) {
                    Some(name) => [path, b".", &name].concat(),
                    None => [path, b".z"].concat(),
                };
                blanks(random, &mut text.bytes);
                text.bytes.push(b':');
                blanks(random, &mut text.bytes);
                value(random, room / parts, &inner, text);
                blanks(random, &mut text.bytes);
            }
            text.bytes.push(b'}');
        }
    }
}

fn separate(random: &mut Random, i: usize, text: &mut Text) {
    if i > 0 {
        text.bytes.push(b',');
        blanks(random, &mut text.bytes);
    }
}

pub fn json(random: &mut Random, room: usize) -> Text {
    let mut text = Text { bytes: Vec::new(), paths: vec![b"$".to_vec()] };
    blanks(random, &mut text.bytes);
    value(random, room, b"$", &mut text);
    blanks(random, &mut text.bytes);
    text
}

/// Brackets and names around a text, so that its values lie deep.
pub fn wrapped(random: &mut Random, mut text: Text, times: usize) -> Text {
    for _ in 0..times {
        let (head, step, tail): (&[u8], &[u8], &[u8]) =
            if random.chance(1, 2) { (b"[0,", b"[1]", b"]") } else { (b"{\"a\":1,\"b\":", b".b", b"}") };
        text.bytes = [head, &text.bytes, tail].concat();
        text.paths = text.paths.iter().map(|p| [b"$", step, &p[1..]].concat()).collect();
    }
    text
}

pub fn damaged(random: &mut Random, mut text: Text) -> Text {
    for _ in 0..1 + random.below(3) {
        let at = random.below(text.bytes.len() + 1);
        let byte = *random.pick(b"\"\\{}[]:, \nx");
        match random.below(3) {
            0 => text.bytes.insert(at, byte),
            1 if at < text.bytes.len() => text.bytes[at] = byte,
            _ if at < text.bytes.len() => {
                text.bytes.remove(at);
            }
            _ => {}
        }
    }
    text
}

/// An item broken at a colon or comma outside strings, with all brackets and strings sound: no colon, a bad name, an empty value.
pub fn broken(random: &mut Random, mut text: Text) -> Text {
    let mask = truth(&text.bytes).mask;
    let places: Vec<usize> = (0..text.bytes.len()).filter(|&i| !mask[i] && matches!(text.bytes[i], b':' | b',')).collect();
    if places.is_empty() {
        return text;
    }
    let at = *random.pick(&places);
    match random.below(4) {
        0 => text.bytes[at] = b' ',
        1 => text.bytes.insert(at, b'x'),
        2 => text.bytes.insert(at, b','),
        _ => text.bytes.insert(at + 1, b','),
    }
    text
}

/// Bytes of few kinds, so that brackets, quotes and runs of backslashes meet.
pub fn noise(random: &mut Random, length: usize) -> Text {
    let kinds: &[u8] = *random.pick(&[&b"\"\\ "[..], b"\"\\{}[]:,a", b"[]{}", b"\\\\\\\"", b"{\"a\":1,}[]", b" ,:\"ab[]\\"]);
    let bytes = (0..length).map(|_| *random.pick(kinds)).collect();
    Text { bytes, paths: vec![b"$".to_vec(), b"$[0]".to_vec(), b"$.a".to_vec(), b"$[1][0]".to_vec()] }
}

/// So many openers, and as many closers.
pub fn brackets(depth: usize) -> Vec<u8> {
    [vec![b'['; depth], vec![b']'; depth]].concat()
}

/// Brackets to a depth, with blanks between some of them; `extra` closers more or fewer.
pub fn deep(random: &mut Random, depth: usize, extra: i64) -> Text {
    let mut bytes = Vec::new();
    let gap = random.below(4);
    for _ in 0..depth {
        bytes.push(*random.pick(b"[{"));
        bytes.resize(bytes.len() + random.below(gap + 1), b' ');
    }
    for _ in 0..(depth as i64 + extra).max(0) {
        bytes.push(*random.pick(b"]}"));
        bytes.resize(bytes.len() + random.below(gap + 1), b' ');
    }
    Text { bytes, paths: vec![b"$".to_vec(), b"$[0][0]".to_vec()] }
}

/// A path like one of those given, or a spoilt one.
pub fn path(random: &mut Random, paths: &[Vec<u8>]) -> Vec<u8> {
    let mut path = random.pick(paths).clone();
    match random.below(12) {
        0 => path.extend_from_slice(*random.pick(&[&b".a"[..], b".zz", b"[0]", b"[7]", b"[16777215]", b"[16777216]", b"[99999999999999999999999]"])),
        1 => path.extend_from_slice(*random.pick(&[&b"."[..], b"[", b"[01]", b"[-1]", b"[1", b".1", b"..a", b"[]", b"[0]]", b" ", b".a b", b"[a]"])),
        2 if path.len() > 1 => {
            let at = random.below(path.len());
            path[at] = *random.pick(b"$.[]0a_ 9\"");
        }
        3 => path.truncate(random.below(path.len() + 1)),
        4 => {
            while path.len() < 1020 + random.below(8) {
                path.extend_from_slice(*random.pick(&[&b"[0]"[..], b".a", b"x"]));
            }
        }
        _ => {}
    }
    path
}
