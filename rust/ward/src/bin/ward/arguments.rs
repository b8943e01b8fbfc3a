//! The arguments of a command: options, with values or without, and files.

use crate::failure::Failure;
use crate::files::{STANDARD, printable};
use crate::{Said, day::Day};
use std::ffi::{OsStr, OsString};
use std::ops::RangeInclusive;

/// A command of the tool. `values` are its options that take a value, `flags` those that take none.
pub struct Command {
    pub name: &'static str,
    pub values: &'static [&'static str],
    pub flags: &'static [&'static str],
    /// How many files it takes, and what it calls them.
    pub files: RangeInclusive<usize>,
    pub takes: &'static str,
    pub help: &'static str,
    pub run: fn(&Given) -> Result<Said, Failure>,
}

/// What a command was given.
pub struct Given {
    command: &'static str,
    options: Vec<(&'static str, OsString)>,
    pub files: Vec<OsString>,
}

/// Takes arguments apart. An option's value is the next argument, or follows `=`; after `--` all are files.
pub fn parse(command: &'static Command, arguments: &[OsString]) -> Result<Given, Failure> {
    let mut given = Given { command: command.name, options: Vec::new(), files: Vec::new() };
    let mut rest = arguments.iter();
    while let Some(argument) = rest.next() {
        if argument == "--" {
            given.files.extend(rest.by_ref().cloned());
        } else if argument == STANDARD || !argument.as_encoded_bytes().starts_with(b"-") {
            given.files.push(argument.clone());
        } else {
            given.take_option(command, argument, &mut rest)?;
        }
    }
    if !given.has("--help") {
        given.check_files(command)?;
    }
    Ok(given)
}

impl Given {
    fn take_option<'a>(&mut self, command: &'static Command, argument: &OsStr, rest: &mut impl Iterator<Item = &'a OsString>) -> Result<(), Failure> {
        let text = argument.to_str().unwrap_or_default();
        let (name, joined) = text.split_once('=').map_or((text, None), |(name, value)| (name, Some(value)));
        let name = if name == "-h" { "--help" } else { name };
        let of = |options: &'static [&'static str]| options.iter().copied().find(|option| *option == name);
        let (option, value) = match (of(command.values), of(command.flags).or(of(&["--help"]))) {
            (Some(option), _) => {
                let value = joined.map(OsString::from).or_else(|| rest.next().cloned());
                (option, value.ok_or_else(|| self.wrong(format!("{option} needs a value")))?)
            }
            (None, Some(_)) if joined.is_some() => return Err(self.wrong(format!("{name} takes no value"))),
            (None, Some(option)) => (option, OsString::new()),
            (None, None) => return Err(self.wrong(format!("no option {}", printable(argument)))),
        };
        if self.has(option) {
            return Err(self.wrong(format!("{option} is given twice")));
        }
        self.options.push((option, value));
        Ok(())
    }

    fn check_files(&self, command: &Command) -> Result<(), Failure> {
        if self.files.len() < *command.files.start() {
            return Err(self.wrong(format!("too few files: it takes {}", command.takes)));
        }
        if self.files.len() > *command.files.end() {
            return Err(self.wrong(format!("too many files: it takes {}", command.takes)));
        }
        if self.files.iter().filter(|file| *file == STANDARD).count() > 1 {
            return Err(self.wrong("standard input can be read once"));
        }
        Ok(())
    }

    pub fn wrong(&self, what: impl Into<String>) -> Failure {
        Failure::usage(Some(self.command), what)
    }

    pub fn has(&self, option: &str) -> bool {
        self.value(option).is_some()
    }

    /// The value of an option as it was given.
    pub fn value(&self, option: &str) -> Option<&OsStr> {
        self.options.iter().find(|given| given.0 == option).map(|given| given.1.as_os_str())
    }

    /// The value of an option, by what its text means; what it should be like is said where it means nothing.
    fn meant<T>(&self, option: &str, like: &str, meaning: impl Fn(&str) -> Option<T>) -> Result<Option<T>, Failure> {
        let Some(value) = self.value(option) else { return Ok(None) };
        let meant = value.to_str().and_then(meaning);
        meant.map(Some).ok_or_else(|| self.wrong(format!("{option} {}: it should be {like}", printable(value))))
    }

    pub fn number(&self, option: &str) -> Result<Option<usize>, Failure> {
        self.meant(option, "a number, as in 3", number)
    }

    /// The two ticks of a span.
    pub fn span(&self, option: &str) -> Result<Option<(usize, usize)>, Failure> {
        self.meant(option, "a first and a last tick, as in 3-9, or one tick", range)
    }

    pub fn badges(&self, option: &str) -> Result<Option<u128>, Failure> {
        self.meant(option, "badges from 0 to 127, as in 0-9,12", badges)
    }

    /// A number that the command cannot do without.
    pub fn needed<T>(&self, option: &str, value: Result<Option<T>, Failure>) -> Result<T, Failure> {
        value?.ok_or_else(|| self.wrong(format!("{option} is missing")))
    }

    /// The badges under review: all of the day's where none are named.
    pub fn review(&self, day: &Day) -> Result<u128, Failure> {
        Ok(self.badges("--review")?.unwrap_or(ward::all_badges(day.badges)))
    }
}

/// A number in decimal digits alone.
pub fn number(text: &str) -> Option<usize> {
    if text.bytes().all(|byte| byte.is_ascii_digit()) { text.parse().ok() } else { None }
}

/// Two numbers as in 3-9, or one for both.
fn range(text: &str) -> Option<(usize, usize)> {
    match text.split_once('-') {
        Some((first, last)) => Some((number(first)?, number(last)?)),
        None => number(text).map(|one| (one, one)),
    }
}

/// A set of badges as in 0-9,12, in any order. A range may not be empty.
fn badges(text: &str) -> Option<u128> {
    let mut set = 0;
    for piece in text.split(',') {
        let (first, last) = range(piece)?;
        if first > last || last >= ward::BADGES {
            return None;
        }
        set |= ward::all_badges(last + 1) & !ward::all_badges(first);
    }
    Some(set)
}
