//! Pictures: each is XML, its bars are the records of the report or the plan, or the badges that a trace reaches, by what is written on them and by
//! where they stand; and nothing is drawn over anything else.

use super::answers::records;
use crate::model::{Day, Record};
use crate::support::days::{day_by, log_of, random_day};
use crate::support::json::Json;
use crate::support::prompt::{Folder, command, fed, run, ward};
use crate::support::random::Random;
use crate::support::xml::Element;
use std::collections::BTreeMap;
use std::fs;

/// The width of a picture, and of a letter for its height, in the fonts that it asks for.
const WIDTH: f64 = 1200.0;
const LETTER: f64 = 0.602;

/// What a picture says of its axis: where ticks start, and how wide one is.
fn axis(picture: &Element, ticks: usize) -> impl Fn(usize) -> f64 {
    let edges: Vec<[f64; 2]> = picture.of("edge").iter().map(|edge| [edge.number("x1"), edge.number("x2")]).collect();
    assert!(edges.len() >= 2 && edges.iter().all(|edge| *edge == edges[0]), "one axis for all panels");
    let [left, right] = edges[0];
    let x = move |tick: usize| left + (right - left) * tick as f64 / ticks as f64;
    for mark in picture.of("tick") {
        assert!((mark.number("x") - x(mark.text.parse().expect("a tick"))).abs() < 0.01, "{mark:?}");
    }
    x
}

fn one<'a>(element: &'a Element, name: &str) -> &'a Element {
    let found: Vec<&Element> = element.children.iter().filter(|child| child.name == name).collect();
    assert_eq!(found.len(), 1, "{name} in {element:?}");
    found[0]
}

/// The badges that a text names, as in `0-7 12`; none where it is cut short.
fn named(text: &str) -> Option<u128> {
    let number = |text: &str| text.parse::<u32>().expect("a badge");
    let piece =
        |piece: &str| piece.split_once('-').map(|(first, last)| (number(first), number(last))).unwrap_or_else(|| (number(piece), number(piece)));
    let pieces = text.split(' ').map(piece);
    if text.contains('…') { None } else { Some(pieces.fold(0, |set, (first, last)| (first..=last).fold(set, |set, u| set | 1 << u))) }
}

/// The records that a picture shows, each read four times: in its data, in the words that hovering shows, on its label and by its place and colour.
fn shown(picture: &Element, what: &str, ticks: usize) -> Vec<Record> {
    let x = axis(picture, ticks);
    let texts = picture.of("key").into_iter().map(|key| key.text.clone());
    let swatches = picture.children.iter().filter(|child| child.is("bar")).map(|swatch| swatch.at("fill").to_string());
    let legend: BTreeMap<String, String> = texts.zip(swatches).collect();
    let record = |element: &&Element| {
        let number = |name: &str| element.at(name).parse::<usize>().expect("a number");
        let badges: Vec<&str> = element.at("data-members").split(' ').collect();
        let members = badges.iter().fold(0, |set, u| set | 1u128 << u.parse::<u32>().expect("a badge"));
        let (order, first, last) = (number(&format!("data-{what}")), number("data-first"), number("data-last"));
        assert_eq!(one(element, "title").text, format!("{what} {order} ticks {first} to {last} badges {}", badges.join(" ")));
        assert!(named(&one(element, "text").text).is_none_or(|label| label == members), "{element:?}");
        let bar = one(element, "rect");
        assert_eq!(legend.get(&format!("{what} {order}")).map(String::as_str), Some(bar.at("fill")));
        let [start, end] = [bar.number("x"), bar.number("x") + bar.number("width")];
        assert!((start - x(first)).abs() < 0.6 && (end - x(last + 1)).abs() < 0.6, "{bar:?}");
        (order, first, last, members)
    };
    picture.of("record").iter().map(record).collect()
}

/// Where something stands: left, top, right, bottom.
type Place = [f64; 4];

fn place(element: &Element) -> Option<Place> {
    match element.name.as_str() {
        "rect" if element.is("bar") => {
            let [x, y, width, height] = ["x", "y", "width", "height"].map(|name| element.number(name));
            Some([x, y, x + width, y + height])
        }
        "text" => {
            let size = if element.is("title") { 15.0 } else { 11.0 };
            let width = element.text.chars().count() as f64 * size * LETTER;
            let x = element.number("x")
                - if !element.has("text-anchor") {
                    0.0
                } else if element.at("text-anchor") == "end" {
                    width
                } else {
                    width / 2.0
                };
            Some([x, element.number("y") - 0.76 * size, x + width, element.number("y") + 0.24 * size])
        }
        _ => None,
    }
}

fn over(a: Place, b: Place) -> bool {
    a[0] < b[2] && b[0] < a[2] && a[1] < b[3] && b[1] < a[3]
}

fn within(inner: Place, outer: Place) -> bool {
    inner[0] >= outer[0] && inner[2] <= outer[2] && inner[1] >= outer[1] && inner[3] <= outer[3]
}

/// No bar or text stands over another, but for a text that is wholly on the bar that it belongs to; all are within the picture.
fn nothing_overlaps(picture: &Element) {
    let mut places: Vec<(Place, bool, usize)> = Vec::new();
    for (group, element) in picture.children.iter().enumerate() {
        let own = element.all().into_iter().filter_map(|one| place(one).map(|place| (place, one.name == "text", group)));
        places.extend(own);
    }
    let (whole, groups) = ([0.0, 0.0, WIDTH, picture.number("height")], &picture.children);
    places.sort_by(|a, b| a.0[1].total_cmp(&b.0[1]));
    for (at, (a, is_text, group)) in places.iter().enumerate() {
        assert!(within(*a, whole), "outside: {a:?} of {:?}", groups[*group]);
        for (b, other_text, other) in places[at + 1..].iter().take_while(|other| other.0[1] < a[3]) {
            let on_its_bar = group == other && is_text != other_text && (within(*a, *b) || within(*b, *a));
            assert!(!over(*a, *b) || on_its_bar, "{:?} over {:?}", groups[*group], groups[*other]);
        }
    }
}

/// The values of the lines below the lanes, each by its heights, its largest number and 0.
fn lines(picture: &Element, ticks: usize) -> Vec<Vec<usize>> {
    let x = axis(picture, ticks);
    let panels: Vec<usize> = (0..picture.children.len()).filter(|at| picture.children[*at].is("line")).collect();
    let line = |at: &usize| {
        // after the path its largest number stands, and 0
        let most: usize = picture.children[at + 1].text.parse().expect("a number");
        let steps: Vec<&str> = picture.children[*at].at("d").split('V').skip(1).collect();
        assert_eq!(steps.len(), ticks);
        let edge = picture.children[..*at].iter().rev().find(|child| child.is("edge")).expect("the axis").number("y1");
        let value = |(tick, step): (usize, &&str)| {
            let (y, to) = step.split_once('H').expect("a step");
            assert!((to.parse::<f64>().expect("a place") - x(tick + 1)).abs() < 0.01);
            ((edge - y.parse::<f64>().expect("a height")) / 82.0 * most as f64).round() as usize
        };
        steps.iter().enumerate().map(value).collect()
    };
    panels.iter().map(line).collect()
}

fn contacts(day: &Day) -> Vec<usize> {
    (0..day.ticks).map(|t| (0..day.n).map(|u| day.contacts(t, u).count_ones() as usize).sum::<usize>() / 2).collect()
}

fn picture(arguments: &[&str], log: &[u8]) -> Element {
    let picture = Element::read(&fed(&[&["chart", "-"], arguments].concat(), log).done());
    assert_eq!((picture.name.as_str(), picture.at("xmlns"), picture.at("width")), ("svg", "http://www.w3.org/2000/svg", "1200"));
    assert_eq!(picture.at("viewBox"), format!("0 0 1200 {}", picture.at("height")));
    nothing_overlaps(&picture);
    picture
}

fn days() -> Vec<Day> {
    let mut random = Random(71);
    let some = [(5, 4, 40), (1, 1, 0), (2, 1, 100), (12, 96, 30), (40, 96, 5), (64, 20, 3), (65, 20, 3), (128, 96, 1), (30, 7, 90), (9, 50, 0)];
    let mut days: Vec<Day> = some.map(|(n, ticks, density)| random_day(&mut random, n, ticks, density, 80)).into();
    // every other one of 128 badges with every other, so that no two members are in a row; and teams that move, of which cores fall apart
    days.push(day_by(128, 3, |_, u, v| u % 2 == 0 && v % 2 == 0));
    days.push(day_by(64, 96, |t, u, v| (u + t) / 4 % 16 == (v + t) / 4 % 16));
    days
}

/// The bars are the report's records, each once, the highest orders first, in lanes that are the taller the higher the order.
#[test]
fn groups() {
    for day in days() {
        let log = log_of(&day);
        let picture = picture(&[], &log);
        let mut drawn = shown(&picture, "order", day.ticks);
        let heights: Vec<(f64, f64)> =
            picture.of("record").iter().map(|record| one(record, "rect")).map(|bar| (bar.number("y"), bar.number("height"))).collect();
        for (pair, ys) in drawn.windows(2).zip(heights.windows(2)) {
            assert!(pair[0].0 >= pair[1].0 && ys[0].0 <= ys[1].0 && ys[0].1 >= ys[1].1, "{pair:?}");
        }
        drawn.sort_by_key(|(order, first, last, members)| (*first, *last, members.trailing_zeros(), *order));
        let json = Json::read(&fed(&["list", "--json", "-"], &log).done());
        assert_eq!(drawn, records(json.at("groups"), "order"));
        assert_eq!(lines(&picture, day.ticks), [contacts(&day)]);
        assert_eq!(picture.of("note").len(), usize::from(drawn.is_empty()));
    }
}

#[test]
fn groups_that_are_kept() {
    for options in [&["--least-ticks", "3"][..], &["--least-order", "4"], &["--least-members", "6"], &["--review", "0-15,20"]] {
        let log = fs::read("../../examples/shift.log").expect("the example");
        let mut drawn = shown(&picture(options, &log), "order", 96);
        drawn.sort_by_key(|(_, first, last, members)| (*first, *last, members.trailing_zeros()));
        let json = Json::read(&fed(&[&["list", "--json", "-"], options].concat(), &log).done());
        let kept = records(json.at("groups"), "order");
        assert_eq!(drawn, kept);
        assert!(!kept.is_empty() && kept.len() < 48);
    }
}

#[test]
fn parts_of_a_plan() {
    let mut random = Random(72);
    for day in days() {
        let log = log_of(&day);
        for _ in 0..4 {
            let (parts, query) = ((1 + random.below(day.ticks)).to_string(), random.below(day.n).to_string());
            let options = ["--parts", &parts, "--query", &query];
            let picture = picture(&[&["--plan"], &options[..]].concat(), &log);
            let mut drawn = shown(&picture, "score", day.ticks);
            drawn.sort_by_key(|part| part.1);
            let json = Json::read(&fed(&[&["plan", "--json", "-"], &options[..]].concat(), &log).done());
            assert_eq!(drawn, records(json.at("parts"), "score"));
            assert_eq!(lines(&picture, day.ticks), [contacts(&day)]);
        }
    }
}

/// A bar for each badge that is reached, from its tick to the end of the day; a link to each but the index, from its source; and no link goes through
/// a bar.
#[test]
fn the_reach_of_a_badge() {
    let mut random = Random(73);
    for day in days() {
        let log = log_of(&day);
        for _ in 0..4 {
            let (index, start) = (random.below(day.n).to_string(), random.below(day.ticks).to_string());
            let options = ["--index", &index, "--start", &start];
            let picture = picture(&[&["--trace"], &options[..]].concat(), &log);
            let json = Json::read(&fed(&[&["trace", "--json", "-"], &options[..]].concat(), &log).done());
            let x = axis(&picture, day.ticks);
            let mut bars = BTreeMap::new();
            for lane in picture.of("reached") {
                let (badge, tick) =
                    (lane.at("data-badge").parse::<usize>().expect("a badge"), lane.at("data-tick").parse::<usize>().expect("a tick"));
                let bar = place(one(lane, "rect")).expect("a bar");
                assert!((bar[0] - x(tick)).abs() < 0.02 && (bar[2] - x(day.ticks)).abs() < 0.02);
                assert!(bars.insert(badge, (tick, bar)).is_none());
            }
            let reached = json.at("reached").list();
            assert_eq!(reached.len(), bars.len());
            let mut links: Vec<[f64; 3]> = Vec::new();
            for object in reached {
                let (tick, bar) = bars[&object.at("badge").number()];
                assert_eq!(tick, object.at("tick").number());
                if let Json::Number(source) = object.at("source") {
                    links.push([bar[0], bars[source].1[3], bar[3]]);
                }
            }
            let drawn: Vec<[f64; 3]> = picture.of("link").iter().map(|link| ["x1", "y1", "y2"].map(|name| link.number(name))).collect();
            let near = |a: &[f64; 3], b: &[f64; 3]| (0..3).all(|at| (a[at] - b[at]).abs() < 0.02);
            assert_eq!(drawn.len(), links.len());
            assert!(links.iter().all(|link| drawn.iter().any(|other| near(link, other))), "{links:?}");
            let through = |link: &[f64; 3], bar: &Place| bar[0] + 0.02 < link[0] && bar[1] + 0.02 > link[1] && bar[3] < link[2] - 0.02;
            assert!(drawn.iter().all(|link| bars.values().all(|(_, bar)| !through(link, bar))));
            let by = |t: usize| bars.values().filter(|(tick, _)| *tick <= t).count();
            assert_eq!(lines(&picture, day.ticks), [(0..day.ticks).map(by).collect(), contacts(&day)]);
        }
    }
}

/// The pictures in the documentation are those of the larger example.
#[test]
fn pictures_in_the_documentation() {
    for (name, options) in [
        ("shift", &[][..]),
        ("shift-plan", &["--plan", "--query", "16", "--parts", "6"]),
        ("shift-trace", &["--trace", "--index", "16", "--start", "10"]),
    ] {
        let drawn = ward(&[&["chart", "examples/shift.log"], options].concat()).done();
        nothing_overlaps(&Element::read(&drawn));
        assert!(fs::read_to_string(format!("../../docs/{name}.svg")).expect("the picture") == drawn, "docs/{name}.svg is another picture");
    }
}

/// The name of a file stands in the picture's title: whatever it is, the picture is XML, and the title has room.
#[test]
fn names_in_titles() {
    let folder = Folder::new();
    for name in ["a<b>&\"c'.log", "bell\u{7}\u{1b}[1m.log", "\u{fffe}\u{ffff}.log", &"long".repeat(60), "]]>.log"] {
        fs::copy("../../examples/ward.log", folder.path().join(name)).expect("a copy");
        let ran = run(command(&["chart", name]).current_dir(folder.path()));
        let picture = Element::read(&ran.done());
        nothing_overlaps(&picture);
        let title = &picture.of("title")[0].text;
        let (start, _) = name.split_at(name.find(['\u{7}', '\u{fffe}']).unwrap_or(name.len().min(100)));
        assert!(title.starts_with(start), "{title}");
    }
}
