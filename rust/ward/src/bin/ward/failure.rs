//! Why a command does not do what it was asked: what is said of it, and the status.

use crate::files::shown;
use crate::{Said, json};
use std::ffi::OsStr;
use std::io;
use ward::{Refusal, Refused};

pub enum Failure {
    /// Wrong usage, perhaps of a command: status 2.
    Usage { command: Option<&'static str>, what: String },
    /// A file that cannot be read or written: status 2.
    File(String),
    /// A call refused, and of what: status 1.
    Refused { refused: Refused, of: String },
    /// A text of contacts that no log can be made of, and what would mend that: status 1.
    Contacts { what: String, mend: String },
}

impl Failure {
    pub fn usage(command: Option<&'static str>, what: impl Into<String>) -> Failure {
        Failure::Usage { command, what: what.into() }
    }

    pub fn file(name: &OsStr, error: io::Error) -> Failure {
        Failure::File(format!("{}: {error}", shown(name)))
    }

    pub fn refused(refused: Refused, of: impl Into<String>) -> Failure {
        Failure::Refused { refused, of: of.into() }
    }

    /// A refusal is a line on standard output, or an object in JSON; all else is on standard error.
    pub fn said(self, in_json: bool) -> Said {
        let (out, err, status) = match self {
            Failure::Usage { command, what } => (String::new(), usage(command, &what), 2),
            Failure::File(what) => (String::new(), format!("ward: {what}\n"), 2),
            Failure::Refused { refused, of } => {
                let err = format!("ward: {of}: {}\nward: to mend it: {}\n", refused.refusal.meaning(), mend(refused.refusal));
                (if in_json { json::refusal(refused) } else { line(refused) }, err, 1)
            }
            Failure::Contacts { what, mend } => (String::new(), format!("ward: {what}\nward: to mend it: {mend}\n"), 1),
        };
        Said { out: out.into(), err, status }
    }
}

fn usage(command: Option<&'static str>, what: &str) -> String {
    let name = command.map_or(String::from("ward"), |command| format!("ward {command}"));
    format!("{name}: {what}\nward: `{name} --help` shows how it is used\n")
}

/// A refusal as the listing program prints it.
pub fn line(refused: Refused) -> String {
    format!("refused {} at {}\n", refused.refusal.number(), refused.offset)
}

/// What would mend a refusal.
fn mend(refusal: Refusal) -> &'static str {
    match refusal {
        Refusal::CutShort => "fetch the log from its receiver again, whole: every log ends with an ED record of 6 bytes",
        Refusal::WrongMark => {
            "give a log: it begins with BH, and then has CT records and one ED; `ward show` shows the bytes, `ward import` takes text"
        }
        Refusal::HeaderOutOfLimits => "correct n and T in the header, or make the log of a smaller ward or of a shorter shift",
        Refusal::InvalidContact => "correct this CT record, or remove it and count one less in ED; `ward show` shows it",
        Refusal::TooManyContacts => "cut the shift into two logs, or leave out repeated records",
        Refusal::WrongCount => "correct the count in ED, or find the CT records that are missing; `ward show` shows those that are there",
        Refusal::TrailingBytes => "remove what follows the ED record; several logs are files of their own, which `ward join` takes together",
        Refusal::InvalidSpan => "give a span of the day's ticks, which count from 0, as in --span 3-9, the first not after the last",
        Refusal::ForeignQuery => "name badges of the day alone in --query; they count from 0",
        Refusal::InvalidParts => "give --parts from 1 to the day's number of ticks",
        Refusal::WriteTooMany => {
            "have fewer contacts that break off and begin again: a higher --quorum, a longer --tick, or a shorter part of the shift"
        }
        Refusal::ThresholdOutOfRange => "give --least-ticks from 1 to 96, --least-order from 1 to 127, --least-members from 2 to 128",
        Refusal::InvalidReceivers => "give 2 to 4 logs, and --quorum from 1 to their number",
        Refusal::DifferentShifts => "give logs of one shift, with the same n and T in their headers; `ward show` shows these",
        Refusal::InvalidReview => "name badges of the day alone in --review; they count from 0",
        Refusal::QueryNotReviewed => "name in --review every badge of --query, too",
        Refusal::InvalidStart => "give a badge of the day as --index and a tick of it as --start; both count from 0",
        Refusal::TooFewWords | Refusal::BufferTooShort | Refusal::SizeOutOfLimits | Refusal::NotADay => {
            "this is a defect of the tool, which lends room for every day and every answer; please report it with the file"
        }
    }
}
