//! The tool at a prompt, `ward`, as a program: what it prints, its status, and the files that it leaves.

mod answers;
mod charts;
mod help;
mod import;
mod limits;
mod outputs;
mod refusals;
mod same;
#[path = "../../../examples/shift/shift.rs"]
mod shift;
mod stored;
mod usage;

use crate::support::random;
