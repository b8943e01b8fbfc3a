//! A picture of a day, in SVG: its groups, the parts of a plan, or the reach of a badge; and the contacts of each tick.

mod bars;
mod colours;
mod frame;
mod reach;
mod svg;

use crate::arguments::Given;
use crate::commands::{around, from, thresholds};
use crate::day::{Day, Record};
use crate::failure::Failure;
use crate::{Said, files};
use frame::Frame;

pub fn chart(given: &Given) -> Result<Said, Failure> {
    let picture = match (given.has("--plan"), given.has("--trace")) {
        (true, true) => return Err(given.wrong("--plan and --trace are two pictures")),
        (true, false) => plan(given)?,
        (false, true) => reach(given)?,
        (false, false) => groups(given)?,
    };
    files::write(given.value("-o").unwrap_or(files::STANDARD.as_ref()), picture.into_bytes())
}

/// Options that say something of another picture than the one asked for.
fn refuse(given: &Given, picture: &str, others: &[&str]) -> Result<(), Failure> {
    match others.iter().find(|option| given.has(option)) {
        Some(option) => Err(given.wrong(format!("{option} says nothing of {picture}"))),
        None => Ok(()),
    }
}

fn counted(count: usize, what: &str) -> String {
    format!("{count} {what}{}", if count == 1 { "" } else { "s" })
}

fn sizes(day: &Day) -> String {
    format!("{}: {}, {}", day.name(), counted(day.badges, "badge"), counted(day.ticks, "tick"))
}

/// The groups, a block of lanes for each order, the highest first.
fn groups(given: &Given) -> Result<String, Failure> {
    refuse(given, "groups: it is for --plan or --trace", &["--query", "--parts", "--index", "--start"])?;
    let least = thresholds(given)?;
    let day = Day::read(&given.files[0])?;
    let groups = day.groups(given.review(&day)?, least)?;
    let mut orders: Vec<usize> = groups.iter().map(|group| group.order).collect();
    orders.sort_by(|a, b| b.cmp(a));
    orders.dedup();

    let mut frame = Frame::new(&format!("{}, {}", sizes(&day), counted(groups.len(), "group")), day.ticks, frame::MARGIN);
    frame.legend(orders.iter().map(|order| (format!("order {order}"), colours::of(*order, &orders))));
    for order in &orders {
        let of_order: Vec<Record> = groups.iter().copied().filter(|group| group.order == *order).collect();
        bars::block(&mut frame, "order", &format!("order {order}"), &of_order, &orders);
    }
    Ok(frame.finish(if groups.is_empty() { "no groups" } else { "" }, &[("contacts", &day.contacts())]))
}

/// The parts of a plan, in one block.
fn plan(given: &Given) -> Result<String, Failure> {
    refuse(given, "a plan", &["--least-ticks", "--least-order", "--least-members", "--index", "--start"])?;
    let (query, parts) = around(given)?;
    let day = Day::read(&given.files[0])?;
    let parts = day.plan(given.review(&day)?, query, parts)?;
    let mut scores: Vec<usize> = parts.iter().map(|part| part.order).collect();
    let sum: usize = scores.iter().sum();
    scores.sort_by(|a, b| b.cmp(a));
    scores.dedup();

    let around = if query == 0 { String::from("nobody") } else { bars::ranges(query) };
    let title = format!("{}, {} around {around}, sum of scores {sum}", sizes(&day), counted(parts.len(), "part"));
    let mut frame = Frame::new(&title, day.ticks, frame::MARGIN);
    frame.legend(scores.iter().map(|score| (format!("score {score}"), colours::of(*score, &scores))));
    bars::block(&mut frame, "score", "parts", &parts, &scores);
    Ok(frame.finish("", &[("contacts", &day.contacts())]))
}

/// Whom a badge reaches, and how many by each tick.
fn reach(given: &Given) -> Result<String, Failure> {
    refuse(given, "a trace", &["--least-ticks", "--least-order", "--least-members", "--review", "--query", "--parts"])?;
    let (index, start) = from(given)?;
    let day = Day::read(&given.files[0])?;
    let trace = day.trace(index, start)?;
    let by = |tick: usize| trace.ticks.iter().filter(|own| own.is_some_and(|own| own <= tick)).count();
    let reached: Vec<usize> = (0..day.ticks).map(by).collect();

    let title = format!("{}, badge {index} from tick {start} reaches {}", sizes(&day), counted(trace.reached().len() - 1, "other"));
    let mut frame = Frame::new(&title, day.ticks, reach::MARGIN);
    let never = reach::lanes(&mut frame, &trace);
    Ok(frame.finish(&never, &[("reached", &reached), ("contacts", &day.contacts())]))
}
