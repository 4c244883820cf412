//! A name as request Two reads it: by its characters, which RFC 8259 gives to a string in section 7 and compares in section 8.3.

/// What a name is made of, one after another: a character, raw or by an escape; or a raw byte that is no part of one (RFC 3629)
/// and stands for itself.
#[derive(Clone, Copy, Debug, PartialEq, Eq)]
pub enum Unit {
    Character(char),
    Byte(u8),
}

/// What the bytes between the quotes spell; 30 for an escape that is none, or an unpaired surrogate.
pub fn read(name: &[u8]) -> Result<Vec<Unit>, u64> {
    let mut units = Vec::new();
    let mut rest = name;
    while !rest.is_empty() {
        let (unescaped, escaped) = rest.split_at(rest.iter().position(|&byte| byte == b'\\').unwrap_or(rest.len()));
        units.extend(raw(unescaped));
        rest = escaped;
        if !rest.is_empty() {
            let (character, behind) = escape(rest).ok_or(30u64)?;
            units.push(Unit::Character(character));
            rest = behind;
        }
    }
    Ok(units)
}

/// Whether that is a path's name, which is ASCII.
pub fn is(units: &[Unit], name: &[u8]) -> bool {
    units.iter().copied().eq(name.iter().map(|&byte| Unit::Character(char::from(byte))))
}

/// Bytes without an escape.
fn raw(bytes: &[u8]) -> Vec<Unit> {
    let mut units = Vec::new();
    for chunk in bytes.utf8_chunks() {
        units.extend(chunk.valid().chars().map(Unit::Character));
        units.extend(chunk.invalid().iter().map(|&byte| Unit::Byte(byte)));
    }
    units
}

/// The character of the escape that begins here, and what lies behind it.
fn escape(text: &[u8]) -> Option<(char, &[u8])> {
    let character = match text.get(1)? {
        b'"' => '"',
        b'\\' => '\\',
        b'/' => '/',
        b'b' => '\u{8}',
        b'f' => '\u{c}',
        b'n' => '\n',
        b'r' => '\r',
        b't' => '\t',
        _ => return by_number(text),
    };
    Some((character, &text[2..]))
}

/// One code unit, or two that are a surrogate pair. `from_u32` gives nothing for a surrogate, and so for every one that is alone.
fn by_number(text: &[u8]) -> Option<(char, &[u8])> {
    let (unit, behind) = code_unit(text)?;
    if !(0xD800..=0xDBFF).contains(&unit) {
        return Some((char::from_u32(unit)?, behind));
    }
    let (low, behind) = code_unit(behind)?;
    let low = (0xDC00..=0xDFFF).contains(&low).then(|| low - 0xDC00)?;
    Some((char::from_u32(0x10000 + (unit - 0xD800) * 0x400 + low)?, behind))
}

/// `\u` and four hexadecimal digits.
fn code_unit(text: &[u8]) -> Option<(u32, &[u8])> {
    let (digits, behind) = text.strip_prefix(br"\u")?.split_at_checked(4)?;
    let unit = digits.iter().try_fold(0, |unit, &digit| Some(16 * unit + char::from(digit).to_digit(16)?))?;
    Some((unit, behind))
}

#[cfg(test)]
mod tests {
    use super::*;

    /// Characters, as a name reads.
    fn characters(text: &str) -> Result<Vec<Unit>, u64> {
        Ok(text.chars().map(Unit::Character).collect())
    }

    #[test]
    fn what_a_name_spells() {
        let names: [(&str, &str); 12] = [
            ("", ""),
            ("name", "name"),
            (r"\u006eame", "name"),
            (r"\u006Eam\u0065", "name"),
            (r#"\"\\\/\b\f\n\r\t"#, "\"\\/\u{8}\u{c}\n\r\t"),
            (r"\u0000\uABCD\uabcd", "\u{0}\u{ABCD}\u{ABCD}"),
            (r"\ud83d\uDE00x", "\u{1F600}x"),
            (r"\uD800\uDC00\uDBFF\uDFFF", "\u{10000}\u{10FFFF}"),
            (r"\uD7FF\uE000", "\u{D7FF}\u{E000}"),
            (r"\\u0061", r"\u0061"),
            ("\u{e9}\u{1F600}\u{0}", "\u{e9}\u{1F600}\u{0}"),
            (r"\u005cq", r"\q"),
        ];
        for (name, said) in names {
            assert_eq!(read(name.as_bytes()), characters(said), "{name}");
        }
    }

    #[test]
    fn what_spells_nothing() {
        let bad = [r"\", r"a\", r"\\\", r"\q", r"\'", r"\N", r"\U0061", r"\u", r"\u006", r"\u00g1", r"\u+061", r"\u 061"];
        let alone = [r"\ud800", r"\udbff", r"\udc00", r"\udfff", r"\ud83d\", r"\ud83dx", r"\ud83d\n", r"\ud83d\u0061", r"\ud83dude00"];
        let unpaired = [r"\ude00\ud83d", r"\ud83d\ud83d\ude00", r"\ud83d\ude00\ude00", r"\ud83dx\ude00", r"\ud83d\ude0"];
        for name in bad.into_iter().chain(alone).chain(unpaired) {
            assert_eq!(read(name.as_bytes()), Err(30), "{name}");
        }
    }

    #[test]
    fn bytes_that_are_no_characters_stand_for_themselves() {
        let names: [&[u8]; 4] = [b"\xED\xA0\x80", b"\xFF", b"\xC1\xA1", b"\xF0\x9F\x98"];
        for name in names {
            assert_eq!(read(name), Ok(name.iter().map(|&byte| Unit::Byte(byte)).collect()), "{name:?}");
        }
        assert_eq!(read(b"\xC3\\u0061\xC3\xA9"), Ok(vec![Unit::Byte(0xC3), Unit::Character('a'), Unit::Character('é')]));
        assert_eq!(read(b"\xED\xA0\xBD\\ude00"), Err(30));
        assert_eq!(read(b"\\ud83d\xED\xB8\x80"), Err(30));
    }

    #[test]
    fn which_name_it_is() {
        let is = |spelt: &[u8], name: &[u8]| read(spelt).is_ok_and(|units| is(&units, name));
        assert!(is(br"\u0061\u0042_1", b"aB_1"));
        let others: [&[u8]; 9] = [b"", b"b", b"A", b"aa", br"a\u0000", br"\u0161", br"\ud800\udc61", b"\xE1", b"\xC1\xA1"];
        for other in others {
            assert!(!is(other, b"a"), "{other:?}");
        }
    }
}
