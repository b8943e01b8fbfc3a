//! The calls that are measured, by name: with all badges under review, but for one report.

use crate::baselines::{algorithm2, bitset_plan, bitset_trace, bitsets, lists};
use crate::days::Day;
use crate::receivers;

pub type Report = fn(&[u64], usize, usize, &mut [u8]) -> Option<usize>;
pub type Plan = fn(&[u64], usize, usize, u64, usize, &mut [u8]) -> Option<usize>;
pub type Trace = fn(&[u64], usize, usize, usize, usize, &mut [u8]) -> Option<usize>;

pub fn engine_report(words: &[u64], n: usize, ticks: usize, out: &mut [u8]) -> Option<usize> {
    ward::report(words, n, ticks, ward::all_badges(n), ward::Thresholds::default(), out).ok()
}

/// The engine's report of the groups that last 4 ticks or more, are of order 2 or more and have 3 members or more.
fn filtered(words: &[u64], n: usize, ticks: usize, out: &mut [u8]) -> Option<usize> {
    ward::report(words, n, ticks, ward::all_badges(n), ward::Thresholds { ticks: 4, order: 2, members: 3 }, out).ok()
}

/// The engine's report with half of the badges under review, the lower ones.
fn half(words: &[u64], n: usize, ticks: usize, out: &mut [u8]) -> Option<usize> {
    ward::report(words, n, ticks, ward::all_badges(n.div_ceil(2)), ward::Thresholds::default(), out).ok()
}

fn engine_plan(words: &[u64], n: usize, ticks: usize, query: u64, parts: usize, out: &mut [u8]) -> Option<usize> {
    ward::plan(words, n, ticks, ward::all_badges(n), query.into(), parts, out).ok()
}

fn engine_trace(words: &[u64], n: usize, ticks: usize, index: usize, start: usize, out: &mut [u8]) -> Option<usize> {
    ward::trace(words, n, ticks, index, start, out).ok()
}

/// The number by which the engine refuses a trace from badge n, directly after the check of the words: what a trace takes beside this is its own.
fn checked(words: &[u64], n: usize, ticks: usize, out: &mut [u8]) -> usize {
    ward::trace(words, n, ticks, n, 0, out).expect_err("there is no badge n").refusal.number().into()
}

/// The ways to make the plain report. The baselines, here and below, take days of up to 64 badges, whose sets are single words.
pub const REPORTS: [(&str, Report); 4] =
    [("engine", engine_report), ("lists", lists::report), ("algorithm2", algorithm2::report), ("bitsets", bitsets::report)];
/// The engine's reports of less than that.
pub const PARTIAL: [(&str, Report); 2] = [("filtered", filtered), ("half", half)];
/// The ways to make a plan; the number of its parts follows in the call's name, as in plan8.
pub const PLANS: [(&str, Plan); 2] = [("plan", engine_plan), ("bitplan", bitset_plan::plan)];
pub const PARTS: [usize; 2] = [8, 32];
/// The badges that a plan is around: 0 and 1.
pub const QUERY: u64 = 0b11;
/// The ways to make a trace, and where it starts: at badge 0, in tick 0.
pub const TRACES: [(&str, Trace); 2] = [("trace", engine_trace), ("bittrace", bitset_trace::trace)];
pub const INDEX: usize = 0;
pub const START: usize = 0;
pub const OTHERS: [&str; 10] = ["numbers", "trace", "checked", "write", "read", "tidy", "reads2", "join2", "reads4", "join4"];

/// A call on one day with buffers of its own, to be made so often as one likes: the number of bytes, of contact records, or of words, that it gives,
/// or of its refusal.
pub type Call<'a> = Box<dyn FnMut() -> usize + 'a>;

/// The call of a name; none where it needs the day's log and the day has none, having more than 8,000 runs.
pub fn ready<'a>(name: &str, day: &'a Day) -> Option<Call<'a>> {
    made_of_words(name, day).or_else(|| made_of_the_log(name, day))
}

/// The call of a name, if it is one of those that need no log.
fn made_of_words<'a>(name: &str, day: &'a Day) -> Option<Call<'a>> {
    let &Day { badges, ticks, ref words } = day;
    if let Some(&(_, report)) = REPORTS.iter().chain(&PARTIAL).find(|r| r.0 == name) {
        let mut out = vec![0; ward::REPORT_BYTES];
        return Some(Box::new(move || report(words, badges, ticks, &mut out).expect("a report")));
    }
    for (way, plan) in PLANS {
        if let Some(parts) = name.strip_prefix(way).and_then(|parts| parts.parse().ok()) {
            let mut out = vec![0; ward::PLAN_BYTES];
            return Some(Box::new(move || plan(words, badges, ticks, QUERY, parts, &mut out).expect("as many parts as ticks or fewer")));
        }
    }
    if let Some(&(_, trace)) = TRACES.iter().find(|t| t.0 == name) {
        let mut out = vec![0; ward::TRACE_BYTES];
        return Some(Box::new(move || trace(words, badges, ticks, INDEX, START, &mut out).expect("a trace")));
    }
    match name {
        "numbers" => {
            let (everyone, mut out) = (ward::all_badges(badges), vec![0; ward::CORE_NUMBERS]);
            Some(Box::new(move || ward::core_numbers(words, badges, ticks, everyone, 0, 3, &mut out).expect("four ticks")))
        }
        "checked" => {
            let mut out = vec![0; ward::TRACE_BYTES];
            Some(Box::new(move || checked(words, badges, ticks, &mut out)))
        }
        _ => None,
    }
}

/// The call of a name that is made on the day's log, if there is one, or writes it.
fn made_of_the_log<'a>(name: &str, day: &'a Day) -> Option<Call<'a>> {
    let &Day { badges, ticks, ref words } = day;
    let mut log = vec![0; ward::LOG_BYTES];
    let size = ward::write(words, badges, ticks, &mut log).ok()?;
    log.truncate(size);
    let (mut work, mut out) = (vec![0; ward::WORDS], vec![0; ward::LOG_BYTES]);
    match name {
        "write" => Some(Box::new(move || ward::write(words, badges, ticks, &mut out).expect("a day with a log"))),
        "read" => Some(Box::new(move || ward::read(&log, &mut work).expect("a log").contacts)),
        "tidy" => Some(Box::new(move || ward::tidy(&log, &mut work, &mut out).expect("a log"))),
        "reads2" => Some(reads(receivers::logs(&log, 2))),
        "reads4" => Some(reads(receivers::logs(&log, 4))),
        "join2" => Some(join(receivers::logs(&log, 2))),
        "join4" => Some(join(receivers::logs(&log, 4))),
        _ => panic!("no call {name}"),
    }
}

/// The logs of receivers, read one after the other.
fn reads(logs: Vec<Vec<u8>>) -> Call<'static> {
    let mut words = vec![0; ward::WORDS];
    Box::new(move || logs.iter().map(|log| ward::read(log, &mut words).expect("a log").contacts).sum())
}

/// The logs of receivers, joined at quorum 2.
fn join(logs: Vec<Vec<u8>>) -> Call<'static> {
    let lengths: Vec<usize> = logs.iter().map(Vec::len).collect();
    let (logs, mut words, mut work) = (logs.concat(), vec![0; ward::WORDS], vec![0; ward::JOIN_WORK_WORDS]);
    Box::new(move || {
        let day = ward::join(&logs, &lengths, 2, &mut words, &mut work).expect("logs of one shift");
        day.badges * day.ticks
    })
}
