//! The commands, and those of them that show the answer of one call.

use crate::arguments::{Command, Given};
use crate::day::{Day, Record, listed};
use crate::failure::Failure;
use crate::{Said, chart, files, help, import, json, records, same, show, tree};
use std::ffi::OsStr;
use ward::{Refused, Thresholds};

const LEAST: [&str; 3] = ["--least-ticks", "--least-order", "--least-members"];

pub const ALL: &[Command] = &[
    Command {
        name: "list",
        values: &[LEAST[0], LEAST[1], LEAST[2], "--review"],
        flags: &["--json"],
        files: 1..=1,
        takes: "one LOG",
        help: help::LIST,
        run: list,
    },
    Command { name: "same", values: &[], flags: &["--json"], files: 2..=2, takes: "two logs, A and B", help: help::SAME, run: same::same },
    Command { name: "tidy", values: &["-o"], flags: &[], files: 1..=1, takes: "one LOG", help: help::TIDY, run: tidy },
    Command { name: "show", values: &[], flags: &[], files: 1..=1, takes: "one LOG", help: help::SHOW, run: show::show },
    Command { name: "join", values: &["--quorum", "-o"], flags: &[], files: 1..=usize::MAX, takes: "2 to 4 logs", help: help::JOIN, run: join },
    Command {
        name: "numbers",
        values: &["--span", "--review"],
        flags: &["--json"],
        files: 1..=1,
        takes: "one LOG",
        help: help::NUMBERS,
        run: numbers,
    },
    Command {
        name: "plan",
        values: &["--query", "--parts", "--review"],
        flags: &["--json"],
        files: 1..=1,
        takes: "one LOG",
        help: help::PLAN,
        run: plan,
    },
    Command { name: "trace", values: &["--index", "--start"], flags: &["--json"], files: 1..=1, takes: "one LOG", help: help::TRACE, run: trace },
    Command {
        name: "chart",
        values: &["-o", LEAST[0], LEAST[1], LEAST[2], "--review", "--query", "--parts", "--index", "--start"],
        flags: &["--plan", "--trace"],
        files: 1..=1,
        takes: "one LOG",
        help: help::CHART,
        run: chart::chart,
    },
    Command {
        name: "import",
        values: &["--tick", "--from", "--to", "-o"],
        flags: &[],
        files: 1..=1,
        takes: "one file of CONTACTS",
        help: help::IMPORT,
        run: import::import,
    },
];

fn list(given: &Given) -> Result<Said, Failure> {
    let least = thresholds(given)?;
    let day = Day::read(&given.files[0])?;
    let groups = day.groups(given.review(&day)?, least)?;
    Ok(Said::done(if given.has("--json") { json::groups(&day, &groups) } else { listing(&day, &groups) }))
}

/// What a report is asked to keep; all groups where nothing is said.
pub fn thresholds(given: &Given) -> Result<Thresholds, Failure> {
    given.badges("--review")?;
    let plain = Thresholds::default();
    Ok(Thresholds {
        ticks: given.number(LEAST[0])?.unwrap_or(plain.ticks),
        order: given.number(LEAST[1])?.unwrap_or(plain.order),
        members: given.number(LEAST[2])?.unwrap_or(plain.members),
    })
}

/// Groups as the listing program prints them.
fn listing(day: &Day, groups: &[Record]) -> String {
    let head = format!("badges {} ticks {} groups {}\n", day.badges, day.ticks, groups.len());
    head + &lines("order", groups)
}

/// Groups or parts, a line each.
fn lines(what: &str, records: &[Record]) -> String {
    records.iter().map(|record| record_line(what, record) + "\n").collect()
}

/// A group or a part in words.
pub fn record_line(what: &str, record: &Record) -> String {
    format!("{what} {} ticks {} to {} badges{}", record.order, record.first, record.last, listed(record.members))
}

fn tidy(given: &Given) -> Result<Said, Failure> {
    let log = tidied(&given.files[0])?;
    match given.value("-o") {
        Some(out) => files::write(out, log),
        None => Ok(Said::done(records::explained(&log))),
    }
}

/// The tidy log of the log under a name.
pub fn tidied(name: &OsStr) -> Result<Vec<u8>, Failure> {
    let log = files::read_log(name)?;
    let (mut work, mut tidied) = (vec![0; ward::WORDS], vec![0; ward::LOG_BYTES]);
    let size = ward::tidy(&log, &mut work, &mut tidied).map_err(|refused| Failure::refused(refused, files::shown(name)))?;
    tidied.truncate(size);
    Ok(tidied)
}

fn join(given: &Given) -> Result<Said, Failure> {
    let quorum = given.needed("--quorum", given.number("--quorum"))?;
    let logs = given.files.iter().map(|name| files::read_log(name)).collect::<Result<Vec<_>, _>>()?;
    let day = Day::join(&logs, quorum).map_err(|refused| Failure::refused(refused, refused_log(given, &logs, refused)))?;
    match given.value("-o") {
        Some(out) => files::write(out, day.write()?),
        None => Ok(Said::done(listing(&day, &day.groups(ward::all_badges(day.badges), Thresholds::default())?))),
    }
}

/// Which of several logs is refused, and where in it: the first that is refused by itself; or all of them, by how they are joined.
fn refused_log(given: &Given, logs: &[Vec<u8>], refused: Refused) -> String {
    let alone = |log: &Vec<u8>| ward::read(log, &mut vec![0; ward::WORDS]).err();
    let own = given.files.iter().zip(logs).find_map(|(name, log)| alone(log).map(|own| (name, own)));
    match own {
        Some((name, own)) if own.refusal == refused.refusal => format!("{} at {}", files::shown(name), own.offset),
        _ => String::from("the logs together"),
    }
}

fn numbers(given: &Given) -> Result<Said, Failure> {
    let (first, last) = given.needed("--span", given.span("--span"))?;
    given.badges("--review")?;
    let day = Day::read(&given.files[0])?;
    let numbers = day.numbers(given.review(&day)?, first, last)?;
    if given.has("--json") {
        return Ok(Said::done(json::numbers(&day, first, last, &numbers)));
    }
    let head = format!("badges {} ticks {} span {first} to {last}\n", day.badges, day.ticks);
    let lines: String = numbers.iter().enumerate().map(|(badge, number)| format!("badge {badge} core number {number}\n")).collect();
    Ok(Said::done(head + &lines))
}

fn plan(given: &Given) -> Result<Said, Failure> {
    let (query, parts) = around(given)?;
    let day = Day::read(&given.files[0])?;
    let parts = day.plan(given.review(&day)?, query, parts)?;
    if given.has("--json") {
        return Ok(Said::done(json::plan(&day, query, &parts)));
    }
    let sum: usize = parts.iter().map(|part| part.order).sum();
    let query = if query == 0 { String::from(" nobody") } else { listed(query) };
    let head = format!("badges {} ticks {} parts {} sum {sum} around{query}\n", day.badges, day.ticks, parts.len());
    Ok(Said::done(head + &lines("score", &parts)))
}

/// What a plan is asked: the query, of nobody where it is not given, and the number of parts.
pub fn around(given: &Given) -> Result<(u128, usize), Failure> {
    given.badges("--review")?;
    Ok((given.badges("--query")?.unwrap_or(0), given.needed("--parts", given.number("--parts"))?))
}

fn trace(given: &Given) -> Result<Said, Failure> {
    let (index, start) = from(given)?;
    let day = Day::read(&given.files[0])?;
    let trace = day.trace(index, start)?;
    if given.has("--json") {
        return Ok(Said::done(json::trace(&day, &trace)));
    }
    let line = |badge: &usize| match (trace.ticks[*badge], trace.sources[*badge]) {
        (Some(tick), Some(source)) => format!("badge {badge} in tick {tick} from badge {source}\n"),
        _ => format!("badge {badge} from tick {start}\n"),
    };
    let reached: String = trace.reached().iter().map(line).collect();
    let never = trace.never();
    let never = if never == 0 { String::from("everybody is reached\n") } else { format!("never reached: badges{}\n", listed(never)) };
    Ok(Said::done(reached + &never + "\n" + &tree::text(&trace)))
}

/// What a trace is asked: the index, and the start, which is the first tick where it is not given.
pub fn from(given: &Given) -> Result<(usize, usize), Failure> {
    Ok((given.needed("--index", given.number("--index"))?, given.number("--start")?.unwrap_or(0)))
}
