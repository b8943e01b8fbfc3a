//! Files, and standard input and output, whose name is -.

use crate::Said;
use crate::failure::Failure;
use std::ffi::OsStr;
use std::fs::{self, File};
use std::io::{self, Read};

pub const STANDARD: &str = "-";

/// What is to be read under a name.
pub fn open(name: &OsStr) -> Result<Box<dyn Read>, Failure> {
    if name == STANDARD {
        return Ok(Box::new(io::stdin()));
    }
    File::open(name).map(|file| Box::new(file) as Box<dyn Read>).map_err(|error| Failure::file(name, error))
}

/// The bytes of a log, or as many of them as decide: what is longer than any log is judged by one byte more than the longest has.
pub fn read_log(name: &OsStr) -> Result<Vec<u8>, Failure> {
    let mut bytes = Vec::new();
    open(name)?.take(ward::LOG_BYTES as u64 + 1).read_to_end(&mut bytes).map_err(|error| Failure::file(name, error))?;
    Ok(bytes)
}

/// Puts bytes into a file, or says them on standard output.
pub fn write(name: &OsStr, bytes: Vec<u8>) -> Result<Said, Failure> {
    if name == STANDARD {
        return Ok(Said::done(bytes));
    }
    fs::write(name, bytes).map_err(|error| Failure::file(name, error))?;
    Ok(Said::done(""))
}

/// The name of a file as it is shown in a line.
pub fn shown(name: &OsStr) -> String {
    if name == STANDARD { String::from("standard input") } else { printable(name) }
}

/// An argument as it can be shown in a line: what is no text, or would move the cursor, is replaced.
pub fn printable(argument: &OsStr) -> String {
    argument.to_string_lossy().chars().map(|c| if c.is_control() { char::REPLACEMENT_CHARACTER } else { c }).collect()
}
