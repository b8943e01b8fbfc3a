//! Compares the plain report with baselines in Rust, with the engine's own report under thresholds and with the one of half of the badges; the plan
//! around badges 0 and 1 in 8 and in 32 parts with a baseline; the trace from badge 0 at tick 0 with a baseline; and measures the core numbers of
//! ticks 0 to 3, that trace beside one that is refused once the words are checked, write, read and tidy of the day's log, and the join of the logs of
//! 2 and of 4 receivers at quorum 2 beside the reads of the same logs, one after the other, on days of 64 badges and 96 ticks from a fixed generator.
//! Medians of wall time, and ratios, in one run. Every baseline does the checks of its call and the encoding, as the engine does, and its bytes are
//! compared with the engine's first. Buffers are not cleared between calls.
//!
//!     cargo run --offline --release --example bench                the tables
//!     cargo run --offline --release --example bench -- W C         one call, for an instruction count: workload W, call C, as in random plan8
//!     cargo run --offline --release --example bench -- W N T C     the same, on a day of N badges and T ticks that is made as workload W is: up to 128
//!                                                                  badges for the engine's calls, and up to 64 for the baselines

mod baselines;
mod calls;
mod days;
#[path = "../../tests/all/support/random.rs"]
mod random;
mod receivers;

use calls::{ready, Call, INDEX, OTHERS, PARTIAL, PARTS, PLANS, QUERY, REPORTS, START, TRACES};
use days::Day;
use std::time::Instant;

/// One call, under a name that an instruction count can start and stop at.
#[no_mangle]
#[inline(never)]
fn counted(call: &mut dyn FnMut() -> usize) -> usize {
    call()
}

/// The median time of a call, in microseconds.
fn median(rounds: usize, mut call: Call) -> f64 {
    let mut times: Vec<f64> = (0..rounds)
        .map(|_| {
            let start = Instant::now();
            call();
            start.elapsed().as_secs_f64() * 1e6
        })
        .collect();
    times.sort_by(f64::total_cmp);
    times[rounds / 2]
}

/// The number of groups, once every way to make the plain report has given the same bytes.
fn groups(name: &str, day: &Day) -> usize {
    let mut expected = vec![0; ward::REPORT_BYTES];
    let size = calls::engine_report(&day.words, day.badges, day.ticks, &mut expected).expect("a day");
    for (way, report) in REPORTS {
        let mut out = vec![0; ward::REPORT_BYTES];
        assert_eq!(report(&day.words, day.badges, day.ticks, &mut out), Some(size), "{name}: {way}");
        assert!(out == expected, "{name}: {way}");
    }
    (size - 10) / 13
}

/// Every way to make a plan in so many parts has to give the same bytes.
fn compare_plans(name: &str, day: &Day, parts: usize) {
    let [engine, bitsets] = PLANS.map(|(_, plan)| {
        let mut out = vec![0; ward::PLAN_BYTES];
        let size = plan(&day.words, day.badges, day.ticks, QUERY, parts, &mut out).expect("a plan");
        (size, out)
    });
    assert!(engine == bitsets, "{name}: a plan in {parts} parts");
}

/// Every way to make a trace has to give the same bytes.
fn compare_traces(name: &str, day: &Day) {
    let [engine, bitsets] = TRACES.map(|(_, trace)| {
        let mut out = vec![0; ward::TRACE_BYTES];
        let size = trace(&day.words, day.badges, day.ticks, INDEX, START, &mut out).expect("a trace");
        (size, out)
    });
    assert!(engine == bitsets, "{name}: a trace");
}

fn report_table() {
    print!("{:<12}{:>8}", "report, µs", "groups");
    REPORTS.iter().chain(&PARTIAL).for_each(|r| print!("{:>12}", r.0));
    println!("{:>16}{:>14}{:>17}{:>13}", "engine/bitsets", "lists/engine", "filtered/engine", "half/engine");
    for name in days::NAMES {
        let day = Day::named(name);
        print!("{name:<12}{:>8}", groups(name, &day));
        let time = |(way, _)| median(if way == "lists" { 5 } else { 15 }, ready(way, &day).expect("a report"));
        let (plain, partial) = (REPORTS.map(time), PARTIAL.map(time));
        plain.iter().chain(&partial).for_each(|time| print!("{time:>12.0}"));
        let ([engine, lists, _, bitsets], [filtered, half]) = (plain, partial);
        println!("{:>16.2}{:>14.2}{:>17.2}{:>13.2}", engine / bitsets, lists / engine, filtered / engine, half / engine);
    }
}

fn plan_table() {
    print!("{:<20}", "plan, µs");
    for parts in PARTS {
        PLANS.iter().for_each(|p| print!("{:>12}", format!("{}{parts}", p.0)));
        print!("{:>16}", "engine/bitsets");
    }
    println!();
    for name in days::NAMES {
        let day = Day::named(name);
        print!("{name:<20}");
        for parts in PARTS {
            compare_plans(name, &day, parts);
            let [engine, bitsets] = PLANS.map(|(way, _)| median(15, ready(&format!("{way}{parts}"), &day).expect("a plan")));
            print!("{engine:>12.0}{bitsets:>12.0}{:>16.2}", engine / bitsets);
        }
        println!();
    }
}

fn trace_table() {
    print!("{:<20}", "trace, µs");
    TRACES.iter().for_each(|t| print!("{:>12}", t.0));
    println!("{:>16}", "engine/bitsets");
    for name in days::NAMES {
        let day = Day::named(name);
        compare_traces(name, &day);
        let [engine, bitsets] = TRACES.map(|(way, _)| median(101, ready(way, &day).expect("a trace")));
        println!("{name:<20}{engine:>12.1}{bitsets:>12.1}{:>16.2}", engine / bitsets);
    }
}

fn other_table() {
    print!("{:<20}", "other calls, µs");
    OTHERS.iter().for_each(|call| print!("{call:>12}"));
    println!();
    for name in days::NAMES {
        let day = Day::named(name);
        print!("{name:<20}");
        for call in OTHERS {
            match ready(call, &day) {
                Some(call) => print!("{:>12.0}", median(15, call)),
                None => print!("{:>12}", "-"),
            }
        }
        println!();
    }
}

fn tables() {
    report_table();
    println!();
    plan_table();
    println!();
    trace_table();
    println!();
    other_table();
}

fn once(day: Day, name: &str) {
    let call = ready(name, &day);
    match call {
        Some(mut call) => println!("{}", counted(&mut call)),
        None => println!("the day has no log"),
    }
}

fn main() {
    let arguments: Vec<String> = std::env::args().skip(1).collect();
    let number = |argument: &String| argument.parse().expect("a number of badges or ticks");
    match &arguments[..] {
        [name, call] => once(Day::named(name), call),
        [name, badges, ticks, call] => once(Day::sized(name, number(badges), number(ticks)), call),
        _ => tables(),
    }
}
