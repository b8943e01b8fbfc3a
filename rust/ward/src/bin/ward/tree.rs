//! The tree of a trace: the index, and below each badge those that it is the source of.

use crate::day::Trace;

/// The badges that a badge is the source of, in the order of their ticks and then of their numbers.
pub fn children(trace: &Trace, badge: usize) -> Vec<usize> {
    trace.reached().into_iter().filter(|child| trace.sources[*child] == Some(badge)).collect()
}

/// The tree in lines, a badge each.
pub fn text(trace: &Trace) -> String {
    format!("{} from tick {}\n", trace.index, trace.start) + &below(trace, trace.index, "")
}

/// The lines below a badge. Ticks rise from a badge to those below it, so there are no more levels than ticks.
fn below(trace: &Trace, badge: usize, margin: &str) -> String {
    let children = children(trace, badge);
    let line = |(place, child): (usize, &usize)| {
        let (branch, further) = if place + 1 == children.len() { ("└─", "   ") } else { ("├─", "│  ") };
        let tick = trace.ticks[*child].unwrap_or_default();
        format!("{margin}{branch} {child} in tick {tick}\n") + &below(trace, *child, &(margin.to_string() + further))
    };
    children.iter().enumerate().map(line).collect()
}
