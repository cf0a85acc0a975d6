//! Turns a row of facts into knowledge of a PT6312 or PT6315, and back.

use crate::bit_facts::{bits_in, cells_in, facts_in, facts_of};
use crate::key_chip::{
    ADDRESS, CELL, DATA_MODE, DIMMING, DISPLAY, KEY, LED, MODE, POSITION, READ_COUNT, STEPPING,
    SWITCHES,
};
use crate::Facts;
use reference::key_panel::{Address, DataMode, Differences, Display, KeyPanel, Position, Stepping};

const DATA_MODES: [DataMode; 4] = [
    DataMode::WriteDisplay,
    DataMode::WriteLed,
    DataMode::ReadKeys,
    DataMode::ReadSwitches,
];
const STEPPINGS: [Stepping; 2] = [Stepping::Increment, Stepping::Fixed];
const DISPLAYS: [Display; 2] = [Display::Off, Display::On];
const POSITIONS: [Position; 4] = [
    Position::Idle,
    Position::FirstByte,
    Position::Open,
    Position::Ignoring,
];

/// The value that stands at this number in the list of all values.
pub fn named<T: Copy>(all: &[T], fact: Option<u8>) -> Option<T> {
    fact.map(|number| all[usize::from(number)])
}

pub fn numbered<T: PartialEq>(all: &[T], fact: Option<T>) -> Option<u8> {
    fact.map(|value| all.iter().position(|other| *other == value).unwrap() as u8)
}

impl<const CELLS: usize, const KEYS: usize> Facts for KeyPanel<CELLS, KEYS>
where
    Self: Differences,
{
    fn from_row(row: &[Option<u8>]) -> Self {
        let address = |number: u8| match usize::from(number) < CELLS {
            true => Address::Cell(number),
            false => Address::Invalid,
        };
        KeyPanel {
            cells: cells_in(&row[CELL..]),
            address: row[ADDRESS].map(address),
            data_mode: named(&DATA_MODES, row[DATA_MODE]),
            stepping: named(&STEPPINGS, row[STEPPING]),
            mode: row[MODE],
            dimming: row[DIMMING],
            display: named(&DISPLAYS, row[DISPLAY]),
            led: bits_in(&row[LED..CELL]),
            keys: row[KEY..KEY + KEYS].try_into().unwrap(),
            switches: row[SWITCHES],
            read_count: row[READ_COUNT],
            position: named(&POSITIONS, row[POSITION]),
        }
    }

    fn to_row(&self) -> Vec<Option<u8>> {
        let mut row = vec![None; LED];
        row[ADDRESS] = self.address.map(|address| match address {
            Address::Cell(number) => number,
            Address::Invalid => CELLS as u8,
        });
        row[DATA_MODE] = numbered(&DATA_MODES, self.data_mode);
        row[STEPPING] = numbered(&STEPPINGS, self.stepping);
        row[MODE] = self.mode;
        row[DIMMING] = self.dimming;
        row[DISPLAY] = numbered(&DISPLAYS, self.display);
        row[KEY..KEY + KEYS].copy_from_slice(&self.keys);
        row[SWITCHES] = self.switches;
        row[READ_COUNT] = self.read_count;
        row[POSITION] = numbered(&POSITIONS, self.position);
        row.extend(facts_of(self.led));
        row.extend(facts_in(&self.cells));
        row
    }
}
