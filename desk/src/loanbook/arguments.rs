//! What a command may be asked, and what it was asked.

use crate::failure::{Ending, Failure};
use crate::text::brief;
use std::ffi::{OsStr, OsString};
use std::io::Write;
use std::os::unix::ffi::OsStrExt;
use std::path::Path;

/// A command: its words, its options, its help, and what carries it out.
pub struct Form {
    pub name: &'static str,
    /// The names of its words, in order; all are needed.
    pub words: &'static [&'static str],
    /// Its options without a value.
    pub switches: &'static [&'static str],
    /// Its options with a number; all are needed.
    pub numbers: &'static [&'static str],
    pub help: &'static str,
    pub run: fn(&Asked, &mut dyn Write) -> Result<Ending, Failure>,
}

/// What a command was asked.
#[derive(Debug, Default)]
pub struct Asked {
    words: Vec<OsString>,
    switches: Vec<&'static str>,
    numbers: Vec<(&'static str, usize)>,
}

impl Asked {
    /// The word of this number.
    pub fn word(&self, number: usize) -> &OsStr {
        self.words.get(number).map_or(OsStr::new(""), OsString::as_os_str)
    }

    /// The first word, which is the book's path.
    pub fn book(&self) -> &Path {
        Path::new(self.word(0))
    }

    pub fn has(&self, switch: &str) -> bool {
        self.switches.contains(&switch)
    }

    pub fn number(&self, option: &str) -> Option<usize> {
        self.numbers.iter().find(|(name, _)| *name == option).map(|(_, number)| *number)
    }

    /// Reads what was asked, and refuses what the form does not have.
    pub fn read(form: &Form, given: &[OsString]) -> Result<Asked, Failure> {
        let mut asked = Asked::default();
        let mut rest = given.iter();
        while let Some(argument) = rest.next() {
            match argument.as_bytes() {
                b"--" => asked.words.extend(rest.by_ref().cloned()),
                [b'-', _, ..] => asked.option(form, argument, &mut rest)?,
                _ => asked.words.push(argument.clone()),
            }
        }
        asked.complete(form)
    }

    /// Reads one option, and its number if it has one.
    fn option<'a>(
        &mut self,
        form: &Form,
        argument: &OsStr,
        rest: &mut impl Iterator<Item = &'a OsString>,
    ) -> Result<(), Failure> {
        let given = argument.as_bytes();
        let (name, attached) = match given.iter().position(|&byte| byte == b'=') {
            Some(at) => (given.get(..at).unwrap_or_default(), given.get(at + 1..)),
            None => (given, None),
        };
        let is = |known: &&&'static str| known.as_bytes() == name;
        if let (Some(switch), None) = (form.switches.iter().find(is), attached) {
            self.switches.push(switch);
            return Ok(());
        }
        let Some(option) = form.numbers.iter().find(is) else {
            let hint = "put -- before a word that begins with -";
            return misuse(form, &format!("there is no option {} here; {hint}", brief(given)));
        };
        if self.number(option).is_some() {
            return misuse(form, &format!("{option} is given twice"));
        }
        match attached.or_else(|| rest.next().map(|next| next.as_bytes())) {
            Some(digits) => self.numbers.push((option, number(form, option, digits)?)),
            None => return misuse(form, &format!("{option} needs a number")),
        }
        Ok(())
    }

    /// Refuses too few words or numbers, and too many.
    fn complete(self, form: &Form) -> Result<Asked, Failure> {
        if let Some(missing) = form.words.get(self.words.len()) {
            return misuse(form, &format!("{missing} is missing"));
        }
        if let Some(extra) = self.words.get(form.words.len()) {
            return misuse(form, &format!("{} is one word too many", brief(extra.as_bytes())));
        }
        if let Some(missing) = form.numbers.iter().find(|option| self.number(option).is_none()) {
            return misuse(form, &format!("{missing} N is missing"));
        }
        Ok(self)
    }
}

/// A decimal number, without a sign.
fn number(form: &Form, option: &str, digits: &[u8]) -> Result<usize, Failure> {
    if digits.is_empty() || !digits.iter().all(u8::is_ascii_digit) {
        return misuse(form, &format!("{option} needs a number, and {} is none", brief(digits)));
    }
    match std::str::from_utf8(digits).map(str::parse) {
        Ok(Ok(number)) => Ok(number),
        _ => misuse(form, &format!("{} is too large for {option}", brief(digits))),
    }
}

fn misuse<T>(form: &Form, words: &str) -> Result<T, Failure> {
    Err(Failure::Misuse(format!("{}: {words} (loanbook {} --help says more)", form.name, form.name)))
}
