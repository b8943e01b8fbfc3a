//! Writes the log of the made-up shift to standard output. From this folder's package:
//!     cargo run --offline --release --example shift > ../../examples/shift.log

#[path = "../../tests/all/support/random.rs"]
mod random;
mod shift;

use std::io::Write;

fn main() -> std::io::Result<()> {
    std::io::stdout().write_all(&shift::log())
}
