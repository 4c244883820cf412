//! Options and other words of a command.

use std::ffi::OsString;
use std::os::unix::ffi::OsStrExt;
use std::str::FromStr;

use super::status::Stop;

/// An option's name, and whether a value follows it.
pub type Known = (&'static str, bool);

/// What stands behind the command.
pub struct Arguments {
    options: Vec<(&'static str, OsString)>,
    pub rest: Vec<OsString>,
}

impl Arguments {
    /// None where help is asked for. `--` ends the options.
    pub fn read(known: &'static [Known], words: Vec<OsString>) -> Result<Option<Arguments>, Stop> {
        let mut arguments = Arguments { options: Vec::new(), rest: Vec::new() };
        let mut words = words.into_iter();
        while let Some(word) = words.next() {
            match word.to_str() {
                Some("--") => break,
                Some("--help" | "-h") => return Ok(None),
                Some("-") => arguments.rest.push(word),
                _ if word.as_bytes().starts_with(b"-") => {
                    arguments.option(known, &word.to_string_lossy(), &mut words)?;
                }
                _ => arguments.rest.push(word),
            }
        }
        arguments.rest.extend(words);
        Ok(Some(arguments))
    }

    fn option(
        &mut self,
        known: &'static [Known],
        text: &str,
        words: &mut impl Iterator<Item = OsString>,
    ) -> Result<(), Stop> {
        let (name, joined) = match text.split_once('=') {
            Some((name, value)) => (name, Some(OsString::from(value))),
            None => (text, None),
        };
        let &(name, valued) = known
            .iter()
            .find(|option| option.0 == name)
            .ok_or_else(|| wrong(format!("there is no option {name} here")))?;
        if self.has(name) {
            return Err(wrong(format!("{name} is given twice")));
        }
        let value = match (valued, joined) {
            (false, None) => OsString::new(),
            (false, Some(_)) => return Err(wrong(format!("{name} takes no value"))),
            (true, Some(value)) => value,
            (true, None) => words.next().ok_or_else(|| wrong(format!("{name} needs a value")))?,
        };
        self.options.push((name, value));
        Ok(())
    }

    pub fn has(&self, name: &str) -> bool {
        self.value(name).is_some()
    }

    fn value(&self, name: &str) -> Option<&OsString> {
        self.options.iter().find(|option| option.0 == name).map(|option| &option.1)
    }

    /// The value of an option, read by `read`; where the option is not given, `plain`.
    pub fn read_as<T>(&self, name: &str, plain: T, takes: &str, read: fn(&str) -> Option<T>) -> Result<T, Stop> {
        match self.value(name) {
            None => Ok(plain),
            Some(value) => value
                .to_str()
                .and_then(read)
                .ok_or_else(|| wrong(format!("{name} takes {takes}, and not '{}'", value.to_string_lossy()))),
        }
    }

    pub fn not_both(&self, one: &str, other: &str) -> Result<(), Stop> {
        if self.has(one) && self.has(other) {
            return Err(wrong(format!("{one} and {other} do not go together")));
        }
        Ok(())
    }

    /// The only other word.
    pub fn only(mut self, what: &str) -> Result<OsString, Stop> {
        match (self.rest.pop(), self.rest.len()) {
            (Some(word), 0) => Ok(word),
            (None, _) => Err(wrong(format!("{what} is missing"))),
            (Some(word), _) => Err(wrong(format!("there is one {what}, so '{}' is too much", word.to_string_lossy()))),
        }
    }
}

pub fn wrong(why: String) -> Stop {
    Stop::Use(why)
}

/// Digits alone: `parse` would take a sign too.
pub fn number<T: FromStr>(text: &str) -> Option<T> {
    text.bytes().all(|byte| byte.is_ascii_digit()).then(|| text.parse().ok()).flatten()
}
