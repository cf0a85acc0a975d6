//! What the words of a line of `panel_examples` tell of a PT6312 or PT6315.

use crate::example_lines::{Saying, Told, Word};
use crate::key_panel::{Address, DataMode, Display, KeyPanel, Position, Stepping};

/// Words speak of as many cells as any part has, and a part takes its own.
pub const MOST_CELLS: usize = 36;

/// Where everything is known, the panel is in the middle of writing.
const USUAL_FACTS: [(char, u8); 10] = [
    ('a', 5), // address
    ('d', 0), // data mode: write display
    ('f', 0), // fixed: increment
    ('m', 3), // mode
    ('b', 5), // bright, the dimming
    ('o', 1), // on
    ('l', 9), // LED
    ('s', 6), // switches
    ('r', 2), // reads, the read count
    ('p', 2), // position: open
];
/// What every cell holds then.
pub const USUAL_CELL: u8 = 0x6E;
const USUAL_KEYS: [u8; 4] = [0xA1, 0xA2, 0xA3, 0xA4];

/// The values of the facts that are no numbers, in the order of the numbers that words use.
const DATA_MODES: [DataMode; 4] = [
    DataMode::WriteDisplay,
    DataMode::WriteLed,
    DataMode::ReadKeys,
    DataMode::ReadSwitches,
];
const STEPPINGS: [Stepping; 2] = [Stepping::Increment, Stepping::Fixed];
const DISPLAYS: [Display; 2] = [Display::Off, Display::On];
const POSITIONS: [Position; 4] = [
    Position::Idle,
    Position::FirstByte,
    Position::Open,
    Position::Ignoring,
];

pub fn everything() -> Told {
    let mut told = Told::everything(&USUAL_FACTS);
    for (at, key) in USUAL_KEYS.into_iter().enumerate() {
        told.say('k', at, Saying::Known(key));
    }
    told.say_all('c', MOST_CELLS, Saying::Known(USUAL_CELL));
    told
}

/// `invalid` and `every` are words of PT6312 and PT6315 alone.
pub fn tell(told: &mut Told, word: &Word) {
    match word.name {
        'i' => told.say('a', 0, Saying::Invalid),
        'e' => told.say_all('c', MOST_CELLS, word.saying),
        _ => told.tell(word),
    }
}

/// The knowledge, or none where a fact of the part is said to be what it cannot be held as here.
pub fn panel<const CELLS: usize, const KEYS: usize>(told: &Told) -> Option<KeyPanel<CELLS, KEYS>> {
    Some(KeyPanel {
        cells: told.cells('c'),
        address: address(told)?,
        data_mode: told.one_of('d', &DATA_MODES)?,
        stepping: told.one_of('f', &STEPPINGS)?,
        mode: told.byte('m', 0)?,
        dimming: told.byte('b', 0)?,
        display: told.one_of('o', &DISPLAYS)?,
        led: told.bits('l', 0),
        keys: told.row('k')?,
        switches: told.byte('s', 0)?,
        read_count: told.byte('r', 0)?,
        position: told.one_of('p', &POSITIONS)?,
    })
}

fn address(told: &Told) -> Option<Option<Address>> {
    match told.saying('a', 0) {
        Saying::Invalid => Some(Some(Address::Invalid)),
        _ => Some(told.byte('a', 0)?.map(Address::Cell)),
    }
}
