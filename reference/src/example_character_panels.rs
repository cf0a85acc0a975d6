//! What the words of a line of `panel_examples` tell of a PT6302.

use crate::character_panel::{Lights, Position, Pt6302};
use crate::example_lines::{Saying, Told};

/// The cells of DCRAM, the columns of CGRAM and the pairs of ADRAM, by the words that speak of them.
pub const TEXT: usize = 16;
const SHAPES: usize = 40;
const MARKS: usize = 16;

/// Where everything is known, the panel is in the middle of writing.
const USUAL_FACTS: [(char, u8); 9] = [
    ('d', 5), // DCRAM's address
    ('g', 6), // glyph, CGRAM's address
    ('a', 7), // ADRAM's address
    ('c', 3), // column
    ('o', 2), // out, the port
    ('b', 5), // bright, the duty
    ('w', 4), // width, the digits code: 12 in use
    ('l', 2), // lights: on
    ('p', 2), // position: DCRAM
];
/// What every cell of DCRAM and every column of CGRAM holds then, and every pair of ADRAM.
const USUAL_CELL: u8 = 0x6E;
const USUAL_MARK: u8 = 2;

/// The values of the facts that are no numbers, in the order of the numbers that words use.
const LIGHTS: [Lights; 3] = [Lights::Normal, Lights::Off, Lights::On];
const POSITIONS: [Position; 6] = [
    Position::Idle,
    Position::FirstByte,
    Position::Dcram,
    Position::Cgram,
    Position::Adram,
    Position::Ignoring,
];

pub fn everything() -> Told {
    let mut told = Told::everything(&USUAL_FACTS);
    told.say_all('t', TEXT, Saying::Known(USUAL_CELL));
    told.say_all('s', SHAPES, Saying::Known(USUAL_CELL));
    told.say_all('m', MARKS, Saying::Known(USUAL_MARK));
    told
}

/// The knowledge, or none where a fact is said to be what it cannot be held as here.
pub fn panel(told: &Told) -> Option<Pt6302> {
    Some(Pt6302 {
        dcram: told.cells('t'),
        cgram: told.cells('s'),
        adram: told.cells('m'),
        dcram_address: told.byte('d', 0)?,
        cgram_address: told.byte('g', 0)?,
        adram_address: told.byte('a', 0)?,
        column: told.byte('c', 0)?,
        port: told.bits('o', 0),
        duty: told.byte('b', 0)?,
        digits: told.byte('w', 0)?,
        lights: told.one_of('l', &LIGHTS)?,
        position: told.one_of('p', &POSITIONS)?,
    })
}
