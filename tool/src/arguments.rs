//! The command line: words, and options anywhere among them.

use crate::Failure;
use std::collections::VecDeque;
use std::ffi::{OsStr, OsString};
use std::os::unix::ffi::{OsStrExt, OsStringExt};
use std::path::PathBuf;
use std::str::FromStr;

/// Options that stand alone, of all commands.
const FLAGS: [&str; 4] = ["--help", "-h", "--export", "--verify"];
/// Options that a value follows.
const VALUED: [&str; 11] = [
    "-o",
    "--app",
    "--session",
    "--bits",
    "--format",
    "--accept",
    "--hash",
    "--signature",
    "--roster",
    "--list",
    "--responses",
];

/// What is left of the command line.
pub struct Arguments {
    words: VecDeque<OsString>,
    /// Each once; a flag's value is empty.
    options: Vec<(&'static str, OsString)>,
}

impl Arguments {
    /// Tells words and options apart. `--` ends the options; a single `-` is a word.
    pub fn parse(given: impl IntoIterator<Item = OsString>) -> Result<Arguments, Failure> {
        let mut given = given.into_iter();
        let (words, options) = (VecDeque::new(), Vec::new());
        let mut arguments = Arguments { words, options };
        while let Some(word) = given.next() {
            if word == "--" {
                break;
            }
            if word.len() < 2 || !word.as_bytes().starts_with(b"-") {
                arguments.words.push_back(word);
                continue;
            }
            let (name, value) = option(&word, &mut given)?;
            if arguments.has(name) {
                return Err(Failure::usage("", format!("{name} is said twice")));
            }
            arguments.options.push((name, value));
        }
        arguments.words.extend(given);
        Ok(arguments)
    }

    /// Is help asked for?
    pub fn help(&self) -> bool {
        self.has("--help") || self.has("-h")
    }

    /// The words that are left.
    pub fn words(&self) -> impl Iterator<Item = &OsStr> {
        self.words.iter().map(OsString::as_os_str)
    }

    /// The next word, which must be there.
    pub fn word(&mut self, command: &'static str, what: &str) -> Result<OsString, Failure> {
        let word = self.words.pop_front();
        word.ok_or_else(|| Failure::usage(command, format!("{what} is missing")))
    }

    /// The next word as a name: its bytes, whatever they are.
    pub fn name(&mut self, command: &'static str) -> Result<Vec<u8>, Failure> {
        Ok(self.word(command, "NAME")?.into_vec())
    }

    /// All words that are left.
    pub fn rest(&mut self) -> Vec<OsString> {
        self.words.drain(..).collect()
    }

    /// All words that are left, as names.
    pub fn names(&mut self) -> Vec<Vec<u8>> {
        self.rest().into_iter().map(OsString::into_vec).collect()
    }

    /// Is this option there?
    pub fn has(&self, option: &str) -> bool {
        self.options.iter().any(|(name, _)| *name == option)
    }

    /// The value of an option, if it is there.
    pub fn value(&mut self, option: &str) -> Option<OsString> {
        let place = self.options.iter().position(|(name, _)| *name == option)?;
        Some(self.options.remove(place).1)
    }

    /// A flag, which counts as used.
    pub fn flag(&mut self, option: &str) -> bool {
        self.value(option).is_some()
    }

    /// The value of an option as a path.
    pub fn path(&mut self, option: &str) -> Option<PathBuf> {
        self.value(option).map(PathBuf::from)
    }

    /// The value of an option as a number.
    pub fn number<N: FromStr>(
        &mut self,
        command: &'static str,
        option: &str,
    ) -> Result<Option<N>, Failure> {
        let Some(value) = self.value(option) else {
            return Ok(None);
        };
        number(command, option, &value).map(Some)
    }

    /// Nothing may be left: neither a word nor an option that the command has no use for.
    pub fn end(self, command: &'static str) -> Result<(), Failure> {
        if let Some(word) = self.words.front() {
            let reason = format!("{} is one word too many", word.display());
            return Err(Failure::usage(command, reason));
        }
        match self.options.first() {
            Some((name, _)) => Err(Failure::usage(command, format!("{name} is no option here"))),
            None => Ok(()),
        }
    }
}

/// A decimal number of the type's range.
pub fn number<N: FromStr>(command: &'static str, what: &str, word: &OsStr) -> Result<N, Failure> {
    let number = word.to_str().and_then(|text| text.parse().ok());
    number.ok_or_else(|| {
        let reason = format!("{what} {}: no number, or too large", word.display());
        Failure::usage(command, reason)
    })
}

/// An option and its value, which stands behind `=` or is the next word.
fn option(
    word: &OsStr,
    given: &mut impl Iterator<Item = OsString>,
) -> Result<(&'static str, OsString), Failure> {
    let bytes = word.as_bytes();
    let long = bytes.starts_with(b"--");
    let equals = bytes.iter().position(|&byte| long && byte == b'=');
    let name = OsStr::from_bytes(&bytes[..equals.unwrap_or(bytes.len())]);
    let behind = equals.map(|place| OsStr::from_bytes(&bytes[place + 1..]).to_owned());
    let listed = |options: &[&'static str]| options.iter().copied().find(|&one| name == one);

    if let Some(flag) = listed(&FLAGS) {
        return match behind {
            None => Ok((flag, OsString::new())),
            Some(_) => Err(Failure::usage("", format!("{flag} has no value"))),
        };
    }
    let Some(name) = listed(&VALUED) else {
        return Err(Failure::unknown("", "option", name));
    };
    match behind.or_else(|| given.next()) {
        Some(value) => Ok((name, value)),
        None => Err(Failure::usage("", format!("{name} needs a value"))),
    }
}
