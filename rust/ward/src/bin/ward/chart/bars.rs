//! Groups or parts as bars from their first to their last tick, in lanes, with their members as text.

use super::colours::{hex, of, text_on};
use super::frame::Frame;
use super::svg::{self, LETTER};
use crate::commands::record_line;
use crate::day::{Record, members};

/// Members are shown in so many letters at most; hovering over a bar shows all.
const LETTERS: usize = 40;
/// The room between two things in a lane, and between a bar and its text.
const SPACE: f64 = 9.0;
const PAD: f64 = 4.0;

/// A bar: where it stands, with its text inside, to its right or to its left.
struct Bar<'a> {
    record: &'a Record,
    x: f64,
    width: f64,
    label: String,
    label_x: f64,
    inside: bool,
    /// From where to where bar and text reach.
    start: f64,
    end: f64,
}

impl Bar<'_> {
    fn of<'a>(frame: &Frame, record: &'a Record) -> Bar<'a> {
        let (x, width) = (frame.x(record.first), frame.x(record.last + 1) - frame.x(record.first));
        let label = label(record.members);
        let room = label.chars().count() as f64 * LETTER;
        let inside = room + 2.0 * PAD <= width;
        let right = x + width + PAD + room <= frame.right();
        let (label_x, start, end) = match (inside, right) {
            (true, _) => (x + PAD, x, x + width),
            (false, true) => (x + width + PAD, x, x + width + PAD + room),
            (false, false) => (x - PAD - room, x - PAD - room, x + width),
        };
        Bar { record, x, width, label, label_x, inside, start, end }
    }

    fn draw(&self, what: &str, y: f64, height: f64, falling: &[usize]) -> String {
        let Record { order, first, last, members } = *self.record;
        let colour = of(order, falling);
        let badges: Vec<String> = crate::day::members(members).map(|badge| badge.to_string()).collect();
        let data = format!("data-{what}=\"{order}\" data-first=\"{first}\" data-last=\"{last}\" data-members=\"{}\"", badges.join(" "));
        let title = svg::escaped(&record_line(what, self.record));
        let rect = svg::rect(self.x + 0.5, y, self.width - 1.0, height, &format!("class=\"bar\" fill=\"{}\"", hex(colour)));
        let fill = if self.inside { text_on(colour) } else { "#222222" };
        let text = svg::text(self.label_x, y + height / 2.0 + 4.0, &format!("style=\"fill:{fill}\" class=\"label\""), &self.label);
        format!("<g class=\"record\" {data}><title>{title}</title>\n{rect}{text}</g>\n")
    }
}

/// A block of lanes with a name. A lane is the taller the higher its order or score.
pub fn block(frame: &mut Frame, what: &str, name: &str, records: &[Record], falling: &[usize]) {
    let top = frame.y;
    let mut bars: Vec<Bar> = records.iter().map(|record| Bar::of(frame, record)).collect();
    bars.sort_by(|a, b| a.start.total_cmp(&b.start));
    for lane in lanes(bars) {
        let height = lane.iter().map(|bar| height(bar.record.order)).fold(0.0, f64::max);
        let drawn: String = lane
            .iter()
            .map(|bar| bar.draw(what, frame.y + height - self::height(bar.record.order), self::height(bar.record.order), falling))
            .collect();
        frame.put(&drawn);
        frame.y += height + 3.0;
    }
    frame.name(top + height(records.first().map_or(0, |record| record.order)) / 2.0 + 4.0, name);
    frame.y += 6.0;
}

fn height(order: usize) -> f64 {
    14.0 + 1.5 * order.min(10) as f64
}

/// Puts bars, by where they start, each into the first lane in which there is room.
fn lanes(bars: Vec<Bar>) -> Vec<Vec<Bar>> {
    let mut lanes: Vec<Vec<Bar>> = Vec::new();
    for bar in bars {
        let free = lanes.iter_mut().find(|lane| lane.last().is_none_or(|last| last.end + SPACE <= bar.start));
        match free {
            Some(lane) => lane.push(bar),
            None => lanes.push(vec![bar]),
        }
    }
    lanes
}

/// The members of a record in as many letters as there is room for.
fn label(set: u128) -> String {
    let text = ranges(set);
    if text.len() <= LETTERS {
        return text;
    }
    let all = format!("… {} in all", members(set).count());
    let room = &text[..LETTERS - all.chars().count()];
    format!("{} {all}", &room[..room.rfind(' ').unwrap_or(0)])
}

/// The badges of a set, three or more in a row as a range.
pub fn ranges(set: u128) -> String {
    let mut pieces = Vec::new();
    let mut first = 0;
    while let Some(start) = (first..ward::BADGES).find(|badge| set >> badge & 1 == 1) {
        let end = (start..ward::BADGES).find(|badge| set >> badge & 1 == 0).unwrap_or(ward::BADGES);
        match end - start {
            1 | 2 => pieces.extend((start..end).map(|badge| badge.to_string())),
            _ => pieces.push(format!("{start}-{}", end - 1)),
        }
        first = end;
    }
    pieces.join(" ")
}
