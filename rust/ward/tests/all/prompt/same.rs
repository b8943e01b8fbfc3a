//! Whether two logs mean the same: in any order and in any pieces they do; and what only one has, run by run.

use crate::model::{self, Day};
use crate::support::days::{about_whole_words, random_day};
use crate::support::json::Json;
use crate::support::prompt::{Folder, fed, ward};
use crate::support::random::Random;

/// A log of a day as a receiver may write it: its runs in pieces, some of them twice or over one another, pairs from either side, in any order.
fn written(random: &mut Random, day: &Day) -> Vec<u8> {
    let mut pieces = Vec::new();
    for [a, b, first, last] in day.runs() {
        let cut = first + random.below((last - first + 1).into()) as u8;
        let reach = cut + random.below((last - cut + 1).into()) as u8;
        pieces.extend([[a, b, first, reach], [b, a, cut, last]]);
    }
    for place in (1..pieces.len()).rev() {
        pieces.swap(place, random.below(place + 1));
    }
    model::log_bytes(day.n as u8, day.ticks as u8, &pieces)
}

/// The contacts of a day that another has not, as runs.
fn only(here: &Day, there: &Day) -> Vec<[usize; 4]> {
    let mut left = Day::empty(here.n, here.ticks);
    for t in 0..here.ticks {
        for u in 0..here.n {
            for v in u + 1..here.n {
                let there = t < there.ticks && v < there.n && there.met(t, u, v);
                if here.met(t, u, v) && !there {
                    left.meet(t, u, v);
                }
            }
        }
    }
    left.runs().iter().map(|run| run.map(usize::from)).collect()
}

fn runs(side: &Json) -> Vec<[usize; 4]> {
    let run = |run: &Json| {
        assert_eq!(run.names(), ["pair", "first", "last"]);
        let pair = run.at("pair").numbers();
        assert_eq!(pair.len(), 2);
        [pair[0], pair[1], run.at("first").number(), run.at("last").number()]
    };
    side.at("only").list().iter().map(run).collect()
}

fn random_sizes(random: &mut Random) -> (usize, usize) {
    let n = if random.below(4) == 0 { about_whole_words(random) } else { 2 + random.below(8) };
    (n, 1 + random.below(96))
}

#[test]
fn logs_in_any_order_mean_the_same() {
    let (mut random, folder) = (Random(41), Folder::new());
    for _ in 0..40 {
        let (n, ticks) = random_sizes(&mut random);
        let day = random_day(&mut random, n, ticks, 100 / n, 80);
        let (a, b) = (written(&mut random, &day), written(&mut random, &day));
        let name = folder.file("a", &a);
        assert_eq!(fed(&["same", &name, "-"], &b).done(), "same\n");
        let json = Json::read(&fed(&["same", "--json", "-", &name], &b).done());
        assert_eq!(json.names(), ["same", "a", "b"]);
        assert_eq!(json.at("same"), &Json::Bool(true));
        for side in ["a", "b"] {
            assert_eq!((json.at(side).at("badges").number(), json.at(side).at("ticks").number()), (n, ticks));
            assert_eq!(runs(json.at(side)), <Vec<[usize; 4]>>::new());
        }
        assert_eq!(fed(&["tidy", "-", "-o", "-"], &a).bytes, fed(&["tidy", "-o", "-", "-"], &b).bytes);
    }
}

#[test]
fn what_only_one_has() {
    let (mut random, folder) = (Random(42), Folder::new());
    for round in 0..40 {
        let (n, ticks) = random_sizes(&mut random);
        let here = random_day(&mut random, n, ticks, 100 / n, 80);
        let (m, more) = if round % 2 == 0 { (n, ticks) } else { random_sizes(&mut random) };
        let there = random_day(&mut random, m, more, 100 / m, 80);
        let differ = (n, ticks) != (m, more) || !only(&here, &there).is_empty() || !only(&there, &here).is_empty();
        let (a, b) = (folder.file("a", &written(&mut random, &here)), folder.file("b", &written(&mut random, &there)));
        let ran = ward(&["same", "--json", &a, &b]);
        let json = Json::read(ran.out());
        assert_eq!((ran.status, json.at("same")), (differ.into(), &Json::Bool(!differ)));
        assert_eq!(runs(json.at("a")), only(&here, &there));
        assert_eq!(runs(json.at("b")), only(&there, &here));
        assert_eq!(ward(&["same", &a, &b]).out(), text([&a, &b], [&here, &there]));
    }
}

/// The text of two logs that differ, or not: sizes that differ, and of each log the first ten runs and how many more.
fn text(names: [&str; 2], [here, there]: [&Day; 2]) -> String {
    let size = |what: &str, a: usize, b: usize| match a == b {
        true => String::new(),
        false => format!("{what}: {a} in {}, {b} in {}\n", names[0], names[1]),
    };
    let side = |name: &str, runs: Vec<[usize; 4]>| {
        let first = runs.iter().take(10).map(|[u, v, first, last]| format!("only in {name}: badges {u} {v} ticks {first} to {last}\n"));
        let more = if runs.len() > 10 { format!("only in {name}: {} more\n", runs.len() - 10) } else { String::new() };
        first.collect::<String>() + &more
    };
    let differences = size("badges", here.n, there.n)
        + &size("ticks", here.ticks, there.ticks)
        + &side(names[0], only(here, there))
        + &side(names[1], only(there, here));
    if differences.is_empty() { String::from("same\n") } else { format!("different\n{differences}") }
}

/// Logs without a contact that differ in their sizes alone.
#[test]
fn sizes_alone() {
    let folder = Folder::new();
    let a = folder.file("a", b"BH\x05\x04ED\x00\x00\x00\x00");
    for (log, words) in [(b"BH\x06\x04ED\x00\x00\x00\x00", "badges: 5 in "), (b"BH\x05\x03ED\x00\x00\x00\x00", "ticks: 4 in ")] {
        let ran = ward(&["same", &a, &folder.file("b", log)]);
        assert_eq!((ran.status, ran.out().lines().count()), (1, 2));
        assert!(ran.out().starts_with(&format!("different\n{words}")), "{}", ran.out());
    }
}
