//! Reads a part byte, the start of a temperature field and a recording, and prints what the field then shows.

use reference::input::read_input;
use reference::show::temperature_line;
use reference::thermo_input::{temperature_in, IN_FRONT};
use std::io::{self, Write};

fn main() -> io::Result<()> {
    let input = read_input(IN_FRONT)?;
    io::stdout().write_all(temperature_line(&temperature_in(&input)).as_bytes())
}
