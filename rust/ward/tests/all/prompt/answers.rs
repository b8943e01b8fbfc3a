//! What the commands print of random logs, against the second implementation; and their JSON, which has the same records.

use crate::model::{self, Cores, Day, Graph, Record, full};
use crate::support::days::{about_whole_words, log_of, random_day};
use crate::support::json::Json;
use crate::support::prompt::{Folder, Ran, fed, ward};
use crate::support::random::Random;

/// A random day of few ticks: of few badges, or of about as many as one word or two hold.
fn some_day(random: &mut Random) -> Day {
    let (n, density) = if random.below(3) == 0 { (about_whole_words(random), 4) } else { (1 + random.below(12), 40) };
    let ticks = 1 + random.below(6);
    random_day(random, n, ticks, density, 60)
}

fn set(random: &mut Random, n: usize) -> u128 {
    let some = (0..n).filter(|_| random.below(4) > 0).fold(0, |set, u| set | 1 << u);
    if some == 0 { 1 } else { some }
}

fn badges(set: u128) -> Vec<usize> {
    (0..128).filter(|u| set >> u & 1 == 1).collect()
}

/// A set as an argument, in pieces: one badge each.
fn argument(set: u128) -> String {
    badges(set).iter().map(usize::to_string).collect::<Vec<_>>().join(",")
}

/// The records of a list in JSON.
pub fn records(list: &Json, what: &str) -> Vec<Record> {
    let record = |record: &Json| {
        assert_eq!(record.names(), [what, "first", "last", "members"]);
        let members = record.at("members").numbers();
        assert!(members.windows(2).all(|pair| pair[0] < pair[1]), "members rise");
        (record.at(what).number(), record.at("first").number(), record.at("last").number(), members.iter().fold(0, |set, u| set | 1 << u))
    };
    list.list().iter().map(record).collect()
}

fn lines(what: &str, records: &[Record]) -> String {
    let line = |(order, first, last, members): &Record| {
        let badges: String = badges(*members).iter().map(|u| format!(" {u}")).collect();
        format!("{what} {order} ticks {first} to {last} badges{badges}\n")
    };
    records.iter().map(line).collect()
}

/// A command on a log, as text and in JSON.
fn both(arguments: &[&str], log: &[u8]) -> (String, Json) {
    let ran = |arguments: &[&str]| -> Ran { fed(&[arguments, &["-"]].concat(), log) };
    let json = ran(&[arguments, &["--json"]].concat()).done();
    (ran(arguments).done(), Json::read(&json))
}

#[test]
fn lists() {
    let mut random = Random(31);
    for _ in 0..60 {
        let day = some_day(&mut random);
        let review = if random.below(2) == 0 { full(day.n) } else { set(&mut random, day.n) };
        let least = [1 + random.below(3), 1 + random.below(3), 2 + random.below(3)];
        let groups = model::kept(&Cores::of(&day, review).groups(), least);
        let [ticks, order, members] = least.map(|number| number.to_string());
        let options = ["--least-ticks", &ticks, "--least-order", &order, "--least-members", &members, "--review", &argument(review)];
        let (text, json) = both(&[&["list"], &options[..]].concat(), &log_of(&day));
        assert_eq!(text, model::group_lines(day.n, day.ticks, &groups).concat());
        assert_eq!(json.names(), ["badges", "ticks", "groups"]);
        assert_eq!((json.at("badges").number(), json.at("ticks").number()), (day.n, day.ticks));
        assert_eq!(records(json.at("groups"), "order"), groups);

        let all = Cores::of(&day, full(day.n)).groups();
        assert_eq!(fed(&["list", "-"], &log_of(&day)).done(), model::group_lines(day.n, day.ticks, &all).concat());
    }
}

#[test]
fn core_numbers() {
    let mut random = Random(32);
    for _ in 0..60 {
        let day = some_day(&mut random);
        let first = random.below(day.ticks);
        let last = first + random.below(day.ticks - first);
        let review = set(&mut random, day.n);
        let numbers: Vec<usize> = Graph::throughout(&day, first, last).core_numbers(review).iter().map(|number| (*number).into()).collect();
        let (text, json) = both(&["numbers", "--span", &format!("{first}-{last}"), "--review", &argument(review)], &log_of(&day));
        let lines: String = numbers.iter().enumerate().map(|(u, number)| format!("badge {u} core number {number}\n")).collect();
        assert_eq!(text, format!("badges {} ticks {} span {first} to {last}\n{lines}", day.n, day.ticks));
        assert_eq!(json.names(), ["badges", "ticks", "first", "last", "numbers"]);
        assert_eq!([json.at("first").number(), json.at("last").number()], [first, last]);
        assert_eq!(json.at("numbers").numbers(), numbers);
    }
}

#[test]
fn plans() {
    let mut random = Random(33);
    for _ in 0..60 {
        let day = some_day(&mut random);
        let review = set(&mut random, day.n);
        let query = badges(review).into_iter().filter(|_| random.below(3) == 0).take(3).fold(0, |set, u| set | 1 << u);
        let parts = 1 + random.below(day.ticks);
        let cores = Cores::of(&day, review);
        let expected = cores.parts(query, &cores.ends(query, parts));
        let sum: usize = expected.iter().map(|part| part.0).sum();
        let (h, q, r) = (parts.to_string(), argument(query), argument(review));
        let asked: &[&str] = if query == 0 { &[] } else { &["--query", &q] };
        let (text, json) = both(&[&["plan", "--parts", &h, "--review", &r], asked].concat(), &log_of(&day));
        let around = if query == 0 { String::from("nobody") } else { q.replace(',', " ") };
        let head = format!("badges {} ticks {} parts {parts} sum {sum} around {around}\n", day.n, day.ticks);
        assert_eq!(text, head + &lines("score", &expected));
        assert_eq!(json.names(), ["badges", "ticks", "query", "parts", "sum"]);
        assert_eq!((json.at("sum").number(), json.at("query").numbers()), (sum, badges(query)));
        assert_eq!(records(json.at("parts"), "score"), expected);
    }
}

/// The lines of a trace, and from the tree in it the source of each badge again.
#[test]
fn traces() {
    let mut random = Random(34);
    for _ in 0..60 {
        let day = some_day(&mut random);
        let (index, start) = (random.below(day.n), random.below(day.ticks));
        let bytes = model::trace(&day, index, start);
        let (ticks, sources) = bytes.split_at(day.n);
        let (text, json) = both(&["trace", "--index", &index.to_string(), "--start", &start.to_string()], &log_of(&day));
        let mut reached: Vec<usize> = (0..day.n).filter(|u| ticks[*u] != 255).collect();
        reached.sort_by_key(|u| (ticks[*u], *u != index, *u));
        let line = |u: &usize| match *u == index {
            true => format!("badge {index} from tick {start}\n"),
            false => format!("badge {u} in tick {} from badge {}\n", ticks[*u], sources[*u]),
        };
        let never: Vec<usize> = (0..day.n).filter(|u| ticks[*u] == 255).collect();
        let last = match never.len() {
            0 => String::from("everybody is reached\n"),
            _ => format!("never reached: badges{}\n", never.iter().map(|u| format!(" {u}")).collect::<String>()),
        };
        let (printed, tree) = text.split_once("\n\n").expect("the tree");
        assert_eq!(format!("{printed}\n"), reached.iter().map(line).collect::<String>() + &last);
        assert_eq!(sources_of_tree(tree), reached.iter().map(|u| (*u, ticks[*u].into(), (*u != index).then_some(sources[*u].into()))).collect());

        assert_eq!(json.names(), ["badges", "ticks", "index", "start", "reached", "never"]);
        assert_eq!([json.at("index").number(), json.at("start").number()], [index, start]);
        let source = |u: usize| if u == index { Json::Null } else { Json::Number(sources[u].into()) };
        for (object, u) in json.at("reached").list().iter().zip(&reached) {
            assert_eq!((object.at("badge").number(), object.at("tick").number(), object.at("source")), (*u, ticks[*u].into(), &source(*u)));
        }
        assert_eq!((json.at("reached").list().len(), json.at("never").numbers()), (reached.len(), never));
    }
}

/// The badges of a tree with their ticks and sources: a badge's source is the last one above it that is one step further to the left.
fn sources_of_tree(tree: &str) -> std::collections::BTreeSet<(usize, usize, Option<usize>)> {
    let mut above: Vec<usize> = Vec::new();
    let mut badges = std::collections::BTreeSet::new();
    for line in tree.lines() {
        let words: Vec<&str> = line.trim_start_matches(['│', '├', '└', '─', ' ']).split(' ').collect();
        let depth = (line.chars().count() - words.join(" ").chars().count()) / 3;
        let number = |place: usize| words[place].parse::<usize>().expect("a number");
        above.truncate(depth);
        assert_eq!((above.len(), &words[1..words.len() - 1]), (depth, if depth == 0 { &["from", "tick"][..] } else { &["in", "tick"] }));
        assert!(badges.insert((number(0), number(3), above.last().copied())));
        above.push(number(0));
    }
    badges
}

/// Joined logs, listed and written.
#[test]
fn joined_logs() {
    let mut random = Random(35);
    let folder = Folder::new();
    for _ in 0..30 {
        let first = some_day(&mut random);
        let count = 2 + random.below(3);
        let logs: Vec<Vec<u8>> =
            (0..count).map(|_| log_of(&random_day(&mut random, first.n, first.ticks, if first.n < 60 { 30 } else { 4 }, 50))).collect();
        let names: Vec<String> = logs.iter().enumerate().map(|(place, log)| folder.file(&place.to_string(), log)).collect();
        let names: Vec<&str> = names.iter().map(String::as_str).collect();
        let (quorum, out) = (1 + random.below(count), folder.at("out"));
        let lengths: Vec<usize> = logs.iter().map(Vec::len).collect();
        let day = model::join(&logs.concat(), &lengths, quorum, 24576, 4 * 24576).expect("a joined day");
        let groups = Cores::of(&day, full(day.n)).groups();
        let q = quorum.to_string();
        assert_eq!(ward(&[&["join", "--quorum", &q], &names[..]].concat()).done(), model::group_lines(day.n, day.ticks, &groups).concat());
        assert_eq!(ward(&[&["join", "--quorum", &q, "-o", &out], &names[..]].concat()).done(), "");
        assert_eq!(std::fs::read(&out).expect("the log"), model::log_bytes(day.n as u8, day.ticks as u8, &day.runs()));
    }
}
