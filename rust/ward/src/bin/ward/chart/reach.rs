//! The reach of a badge: a lane for each badge that was reached, from its tick to the end of the day, and a link to it from the lane of its source.

use super::bars::ranges;
use super::colours::{hex, of};
use super::frame::Frame;
use super::svg;
use crate::day::Trace;
use crate::tree::children;

/// Room on the right for what is said of each lane.
pub const MARGIN: f64 = 200.0;
const LANE: f64 = 16.0;
const BAR: f64 = 11.0;

/// A badge that was reached, and through how many others from the index on.
struct Lane {
    badge: usize,
    steps: usize,
}

/// Draws the lanes, and says who was never reached.
pub fn lanes(frame: &mut Frame, trace: &Trace) -> String {
    let mut lanes = Vec::new();
    below(trace, Lane { badge: trace.index, steps: 0 }, &mut lanes);
    let most = lanes.iter().map(|lane| lane.steps).max().unwrap_or(0);
    // the index is the darkest
    let colour = |steps: usize| of(most - steps, &(0..=most).rev().collect::<Vec<_>>());
    frame.legend((0..=most).map(|steps| (counted(steps), colour(steps))));
    let top = frame.y;
    let height = |badge: usize| top + LANE * lanes.iter().position(|lane| lane.badge == badge).unwrap_or(0) as f64;
    for lane in &lanes {
        let tick = trace.ticks[lane.badge].unwrap_or(trace.start);
        let (x, y) = (frame.x(tick), height(lane.badge));
        if let Some(source) = trace.sources[lane.badge] {
            frame.put(&svg::line([x, height(source) + BAR], [x, y + BAR], "class=\"link\""));
        }
        let bar = svg::rect(x, y, frame.right() - x, BAR, &format!("class=\"bar\" fill=\"{}\"", hex(colour(lane.steps))));
        let words = said(trace, lane.badge, tick);
        let text = svg::text(frame.right() + 8.0, y + 9.5, "class=\"label\"", &words);
        let data = format!("data-badge=\"{}\" data-tick=\"{tick}\"", lane.badge);
        frame.put(&format!("<g class=\"reached\" {data}><title>{words}</title>\n{bar}{text}</g>\n"));
        frame.y += LANE;
    }
    frame.y += 4.0;
    frame.name(top + 9.5, &format!("badge {}", trace.index));
    if trace.never() == 0 { String::new() } else { format!("never reached: {}", ranges(trace.never())) }
}

fn counted(steps: usize) -> String {
    match steps {
        0 => String::from("index"),
        1 => String::from("1 step"),
        _ => format!("{steps} steps"),
    }
}

fn said(trace: &Trace, badge: usize, tick: usize) -> String {
    match trace.sources[badge] {
        Some(source) => format!("{badge} in tick {tick} from {source}"),
        None => format!("{badge} from tick {tick}"),
    }
}

/// A badge and those below it in the tree. Those that are reached last come first, so that a link, which starts below all bars of the lanes that it
/// passes, crosses none.
fn below(trace: &Trace, lane: Lane, lanes: &mut Vec<Lane>) {
    let Lane { badge, steps } = lane;
    lanes.push(lane);
    for child in children(trace, badge).into_iter().rev() {
        below(trace, Lane { badge: child, steps: steps + 1 }, lanes);
    }
}
