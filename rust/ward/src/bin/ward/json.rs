//! Answers in JSON, one object each. All of it is numbers and fixed words, so that nothing needs an escape.

use crate::day::{Day, Record, Trace, members};
use crate::same::{Run, Sides};
use ward::Refused;

fn object(fields: &[(&str, String)]) -> String {
    let fields: Vec<String> = fields.iter().map(|(name, value)| format!("\"{name}\":{value}")).collect();
    format!("{{{}}}", fields.join(","))
}

fn array(values: impl Iterator<Item = String>) -> String {
    format!("[{}]", values.collect::<Vec<_>>().join(","))
}

fn set(set: u128) -> String {
    array(members(set).map(|badge| badge.to_string()))
}

fn number(number: Option<usize>) -> String {
    number.map_or(String::from("null"), |number| number.to_string())
}

/// The object of a day, with further fields.
fn of_day(day: &Day, fields: &[(&str, String)]) -> String {
    let sizes = [("badges", day.badges.to_string()), ("ticks", day.ticks.to_string())];
    object(&[&sizes, fields].concat()) + "\n"
}

fn records(what: &str, records: &[Record]) -> String {
    let record = |record: &Record| {
        let span = [("first", record.first.to_string()), ("last", record.last.to_string())];
        object(&[&[(what, record.order.to_string())], &span[..], &[("members", set(record.members))]].concat())
    };
    array(records.iter().map(record))
}

pub fn groups(day: &Day, groups: &[Record]) -> String {
    of_day(day, &[("groups", records("order", groups))])
}

pub fn plan(day: &Day, query: u128, parts: &[Record]) -> String {
    let sum: usize = parts.iter().map(|part| part.order).sum();
    of_day(day, &[("query", set(query)), ("parts", records("score", parts)), ("sum", sum.to_string())])
}

pub fn numbers(day: &Day, first: usize, last: usize, numbers: &[u8]) -> String {
    let numbers = array(numbers.iter().map(|number| number.to_string()));
    of_day(day, &[("first", first.to_string()), ("last", last.to_string()), ("numbers", numbers)])
}

pub fn trace(day: &Day, trace: &Trace) -> String {
    let reached =
        |badge: &usize| object(&[("badge", badge.to_string()), ("tick", number(trace.ticks[*badge])), ("source", number(trace.sources[*badge]))]);
    let reached = array(trace.reached().iter().map(reached));
    let asked = [("index", trace.index.to_string()), ("start", trace.start.to_string())];
    of_day(day, &[&asked[..], &[("reached", reached), ("never", set(trace.never()))]].concat())
}

pub fn sides(same: bool, sides: &Sides) -> String {
    let run = |run: &Run| {
        let pair = format!("[{},{}]", run.pair.0, run.pair.1);
        object(&[("pair", pair), ("first", run.first.to_string()), ("last", run.last.to_string())])
    };
    let side = |at: usize| {
        let side = &sides[at];
        let only = array(side.only.iter().map(run));
        object(&[("badges", side.badges.to_string()), ("ticks", side.ticks.to_string()), ("only", only)])
    };
    object(&[("same", same.to_string()), ("a", side(0)), ("b", side(1))]) + "\n"
}

pub fn refusal(refused: Refused) -> String {
    let number = refused.refusal.number().to_string();
    object(&[("refused", number), ("offset", refused.offset.to_string()), ("meaning", format!("\"{}\"", refused.refusal.meaning()))]) + "\n"
}
