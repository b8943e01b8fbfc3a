//! The frame of a picture: its title and legend, lanes over an axis of ticks, and lines below them.

use super::colours::{Colour, hex};
use super::svg::{self, LETTER};

const WIDTH: f64 = 1200.0;
const LEFT: f64 = 84.0;
/// Room on the right, for most pictures.
pub const MARGIN: f64 = 20.0;
/// The height of a line's panel, and the room for the numbers of ticks below a panel.
const LINE: f64 = 90.0;
const NUMBERS: f64 = 30.0;

/// A picture that grows downwards.
pub struct Frame {
    ticks: usize,
    right: f64,
    /// What stands above the lanes, and the lanes themselves, which stand before the grid that they need.
    head: String,
    lanes: String,
    top: f64,
    pub y: f64,
}

impl Frame {
    pub fn new(title: &str, ticks: usize, margin: f64) -> Frame {
        let most = ((WIDTH - LEFT) / 9.1) as usize;
        let head = svg::text(LEFT, 24.0, "class=\"title\"", &cut(title, most));
        Frame { ticks, right: WIDTH - margin, head, lanes: String::new(), top: 40.0, y: 40.0 }
    }

    /// Where a tick starts; the number of ticks gives the end of the day.
    pub fn x(&self, tick: usize) -> f64 {
        LEFT + (self.right - LEFT) * tick as f64 / self.ticks as f64
    }

    pub fn right(&self) -> f64 {
        self.right
    }

    /// What the colours mean, in rows.
    pub fn legend(&mut self, entries: impl Iterator<Item = (String, Colour)>) {
        let entries: Vec<(String, Colour)> = entries.collect();
        let step = entries.iter().map(|entry| entry.0.len()).max().unwrap_or(0) as f64 * LETTER + 34.0;
        let row = ((WIDTH - MARGIN - LEFT) / step).max(1.0) as usize;
        for (place, (text, colour)) in entries.iter().enumerate() {
            let (x, y) = (LEFT + step * (place % row) as f64, self.y + 18.0 * (place / row) as f64);
            self.head += &svg::rect(x, y, 14.0, 11.0, &format!("class=\"bar\" fill=\"{}\"", hex(*colour)));
            self.head += &svg::text(x + 19.0, y + 10.0, "class=\"key\"", text);
        }
        self.y += 18.0 * entries.len().div_ceil(row) as f64 + 12.0;
        self.top = self.y;
    }

    /// Puts something among the lanes.
    pub fn put(&mut self, element: &str) {
        self.lanes += element;
    }

    /// A name to the left of the lanes, at a height.
    pub fn name(&mut self, y: f64, name: &str) {
        self.lanes += &svg::text(LEFT - 8.0, y, "text-anchor=\"end\" class=\"name\"", name);
    }

    /// The picture, with a note below the lanes, and a line of a number for each tick in a panel each.
    pub fn finish(mut self, note: &str, lines: &[(&str, &[usize])]) -> String {
        if !note.is_empty() {
            let most = ((WIDTH - LEFT) / LETTER) as usize - 4;
            self.lanes += &svg::text(LEFT + 4.0, self.y + 14.0, "class=\"quiet note\"", &cut(note, most));
            self.y += 22.0;
        }
        let mut body = self.head.clone() + &self.axis(self.top, self.y) + &self.lanes;
        self.y += NUMBERS;
        for (name, values) in lines {
            body += &self.axis(self.y, self.y + LINE);
            body += &self.line(name, values);
            self.y += LINE + NUMBERS;
        }
        svg::document(WIDTH, self.y + 4.0, &body)
    }

    /// The grid of a panel, with the numbers of ticks below it.
    fn axis(&self, top: f64, bottom: f64) -> String {
        let width = self.x(1) - self.x(0);
        let step = [1, 2, 3, 4, 6, 8, 12, 24].into_iter().find(|step| *step as f64 * width >= 44.0).unwrap_or(self.ticks);
        let mark = |tick: usize| {
            let x = self.x(tick);
            let number = svg::text(x, bottom + 14.0, "text-anchor=\"middle\" class=\"quiet tick\"", &tick.to_string());
            svg::line([x, top], [x, bottom], "class=\"grid\"") + &number
        };
        let marks: String = (0..self.ticks).step_by(step).map(mark).collect();
        let name = svg::text(LEFT - 20.0, bottom + 14.0, "text-anchor=\"end\" class=\"quiet\"", "tick");
        marks + &svg::line([LEFT, bottom], [self.right, bottom], "class=\"edge\"") + &name
    }

    /// A line that steps from tick to tick, with its largest number and 0 beside it.
    fn line(&self, name: &str, values: &[usize]) -> String {
        let most = values.iter().copied().max().unwrap_or(0);
        let height = |value: usize| self.y + LINE - (LINE - 8.0) * value as f64 / most.max(1) as f64;
        let step = |(tick, value): (usize, &usize)| format!("V{:.2}H{:.2}", height(*value), self.x(tick + 1));
        let path: String = values.iter().enumerate().map(step).collect();
        // the largest number hangs below its height, and 0 stands on the axis
        let number = |value: usize| {
            let y = if value == 0 { height(0) - 1.0 } else { height(value) + 8.0 };
            svg::text(LEFT - 8.0, y, "text-anchor=\"end\" class=\"quiet\"", &value.to_string())
        };
        let numbers = if most == 0 { number(0) } else { number(most) + &number(0) };
        let name = svg::text(LEFT - 8.0, self.y + LINE / 2.0 + 4.0, "text-anchor=\"end\" class=\"name\"", name);
        let start = values.first().map_or(self.y + LINE, |value| height(*value));
        format!("<path d=\"M{LEFT:.2} {start:.2}{path}\" class=\"line\"/>\n") + &numbers + &name
    }
}

/// A text of so many letters at most.
pub fn cut(text: &str, most: usize) -> String {
    if text.chars().count() <= most {
        return text.to_string();
    }
    text.chars().take(most - 2).chain(" …".chars()).collect()
}
