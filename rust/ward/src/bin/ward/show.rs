//! A log record by record, with offsets; where it is refused, up to the refused record, which is marked.

use crate::arguments::Given;
use crate::failure::{self, Failure};
use crate::files::{read_log, shown};
use crate::{Said, records};
use ward::{Refusal, Refused};

pub fn show(given: &Given) -> Result<Said, Failure> {
    let name = &given.files[0];
    let log = read_log(name)?;
    let Err(refused) = ward::read(&log, &mut vec![0; ward::WORDS]) else {
        return Ok(Said::done(accepted(&log)));
    };
    let said = Failure::refused(refused, shown(name)).said(false);
    Ok(Said { out: (accepted(&log[..refused.offset]) + &refused_lines(&log, refused)).into(), ..said })
}

fn accepted(log: &[u8]) -> String {
    records::whole(log).map(|(offset, record)| format!("{offset:>5}  {}\n", records::line(record))).collect()
}

/// The refused record, what follows it, and the refusal as a line of its own.
fn refused_lines(log: &[u8], refused: Refused) -> String {
    let record = records::refused_at(log, refused.offset);
    let line = match refused.refusal {
        Refusal::TrailingBytes => records::beside(record, "after the end"),
        _ => records::line(record),
    };
    let marked = format!("{:>5}  {line}  <- refused {}\n", refused.offset, refused.refusal.number());
    let after = refused.offset + record.len();
    let rest = match log.len() - after {
        0 => String::new(),
        _ if log.len() > ward::LOG_BYTES => format!("{after:>5}  more bytes, which are not judged\n"),
        1 => format!("{after:>5}  1 byte more, which is not judged\n"),
        count => format!("{after:>5}  {count} bytes more, which are not judged\n"),
    };
    marked + &rest + &failure::line(refused)
}
