//! Reads a part byte and a recording, and prints what they tell of the part's memory.

use reference::input::read_input;
use reference::knowledge::replay_from_nothing;
use reference::show::report;
use std::io::{self, Write};

/// A byte that names no part, and so stands in for the one that empty input lacks.
const NO_PART: u8 = 0;

fn main() -> io::Result<()> {
    let input = read_input(1)?;
    let (&part, recording) = input.split_first().unwrap_or((&NO_PART, &[]));
    let (answer, knowledge) = replay_from_nothing(part, recording);
    io::stdout().write_all(report(answer, knowledge.as_ref()).as_bytes())
}
