//! The input of the program `thermo`: a part byte, the address at which the field starts, and a recording.

use crate::temperature::{temperature_from_nothing, Temperature};

/// The bytes in front of the recording.
pub const IN_FRONT: usize = 2;

/// A byte that names no part, and so stands in for the one that empty input lacks.
const NO_PART: u8 = 0;
/// No field starts here, so it stands in for a start that is not given.
const NO_START: u8 = 255;

/// The temperature that the input asks for.
pub fn temperature_in(input: &[u8]) -> Temperature {
    match *input {
        [] => temperature_from_nothing(NO_PART, NO_START, &[]),
        [part] => temperature_from_nothing(part, NO_START, &[]),
        [part, start, ref recording @ ..] => temperature_from_nothing(part, start, recording),
    }
}
