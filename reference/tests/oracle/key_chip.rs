//! The moves of one PT6312 or PT6315, written down from the paper for a chip whose facts all have values.

use crate::join::{store, After, Changes, Chip};
use After::{Anything, Value};

pub const ADDRESS: usize = 0;
pub const DATA_MODE: usize = 1;
pub const STEPPING: usize = 2;
pub const MODE: usize = 3;
pub const READ_COUNT: usize = 4;
pub const POSITION: usize = 5;
pub const READ_FACTS: usize = 6;
pub const DIMMING: usize = 6;
pub const DISPLAY: usize = 7;
pub const SWITCHES: usize = 8;
pub const KEY: usize = 9;
pub const LED: usize = 13;
/// The bits of each cell stand together.
pub const CELL: usize = LED + LED_BITS;

pub const LED_BITS: usize = 4;
pub const CELL_BITS: usize = 8;

const WRITE_DISPLAY: u8 = 0;
const WRITE_LED: u8 = 1;
const READ_KEYS: u8 = 2;
const READ_SWITCHES: u8 = 3;

const INCREMENT: u8 = 0;
const FIXED: u8 = 1;

const IDLE: u8 = 0;
const FIRST_BYTE: u8 = 1;
const OPEN: u8 = 2;
const IGNORING: u8 = 3;

pub struct KeyChip {
    pub is_6315: bool,
}

impl KeyChip {
    /// The number of cells, which also stands for the invalid address.
    pub fn cells(&self) -> u8 {
        if self.is_6315 {
            36
        } else {
            22
        }
    }

    fn all_facts(&self) -> std::ops::Range<usize> {
        0..CELL + CELL_BITS * usize::from(self.cells())
    }

    fn power(&self, changes: &mut Changes) {
        for fact in self.all_facts() {
            changes.push((fact, Anything));
        }
        changes.push((ADDRESS, Value(0)));
        changes.push((DATA_MODE, Value(WRITE_DISPLAY)));
        changes.push((STEPPING, Value(INCREMENT)));
        changes.push((DISPLAY, Value(0)));
        changes.push((DIMMING, Value(0)));
        changes.push((READ_COUNT, Value(0)));
        changes.push((POSITION, Value(IDLE)));
        changes.push((MODE, Value(if self.is_6315 { 8 } else { 7 })));
        store(changes, LED, LED_BITS, if self.is_6315 { 0 } else { 15 });
    }

    fn first_byte(&self, chip: &[u8], byte: u8, changes: &mut Changes) {
        match byte & 0b1100_0000 {
            0b0000_0000 => self.mode(chip, byte, changes),
            0b0100_0000 if byte & 0b1000 != 0 => self.test_mode(changes),
            0b0100_0000 => self.data_setting(byte, changes),
            0b1000_0000 => {
                changes.push((DIMMING, Value(byte & 7)));
                changes.push((DISPLAY, Value(byte >> 3 & 1)));
                changes.push((POSITION, Value(IGNORING)));
            }
            _ => {
                let wanted = byte & if self.is_6315 { 63 } else { 31 };
                changes.push((ADDRESS, Value(wanted.min(self.cells()))));
                changes.push((POSITION, Value(OPEN)));
            }
        }
    }

    fn mode(&self, chip: &[u8], byte: u8, changes: &mut Changes) {
        let mode = match byte & 15 {
            low if !self.is_6315 => low & 7,
            8..=15 => 8,
            low => low,
        };
        if mode != chip[MODE] {
            changes.push((MODE, Value(mode)));
            changes.push((DISPLAY, Value(0)));
        }
        changes.push((POSITION, Value(IGNORING)));
    }

    fn test_mode(&self, changes: &mut Changes) {
        for fact in self.all_facts() {
            let latched = fact == SWITCHES || (KEY..KEY + 4).contains(&fact);
            if !latched {
                changes.push((fact, Anything));
            }
        }
        changes.push((POSITION, Value(IGNORING)));
    }

    fn data_setting(&self, byte: u8, changes: &mut Changes) {
        let undefined = self.is_6315 && byte & 3 == READ_SWITCHES;
        let data_mode = if undefined { Anything } else { Value(byte & 3) };
        changes.push((DATA_MODE, data_mode));
        changes.push((
            STEPPING,
            Value(if byte & 4 != 0 { FIXED } else { INCREMENT }),
        ));
        changes.push((READ_COUNT, Value(0)));
        changes.push((POSITION, Value(OPEN)));
    }

    fn open_byte(&self, chip: &[u8], byte: u8, changes: &mut Changes) {
        let address = chip[ADDRESS];
        match chip[DATA_MODE] {
            WRITE_DISPLAY if address < self.cells() => {
                let cell = CELL + CELL_BITS * usize::from(address);
                store(changes, cell, CELL_BITS, byte);
                if chip[STEPPING] == INCREMENT {
                    changes.push((ADDRESS, Value((address + 1) % self.cells())));
                }
            }
            WRITE_LED => store(changes, LED, LED_BITS, byte),
            _ => {}
        }
    }
}

impl Chip for KeyChip {
    fn ranges(&self) -> Vec<usize> {
        let cells = usize::from(self.cells());
        let mut ranges = vec![2; CELL + CELL_BITS * cells];
        ranges[ADDRESS] = cells + 1;
        ranges[DATA_MODE] = if self.is_6315 { 3 } else { 4 };
        ranges[MODE] = if self.is_6315 { 9 } else { 8 };
        ranges[READ_COUNT] = 5;
        ranges[POSITION] = 4;
        ranges[DIMMING] = 8;
        ranges[KEY..KEY + 4].fill(256);
        if self.is_6315 {
            ranges[SWITCHES] = 0;
        } else {
            ranges[SWITCHES] = 16;
            ranges[KEY + 3] = 0;
        }
        ranges
    }

    fn bytes(&self) -> Vec<(usize, usize)> {
        let cells = 0..usize::from(self.cells());
        let mut bytes = vec![(LED, LED_BITS)];
        bytes.extend(cells.map(|at| (CELL + CELL_BITS * at, CELL_BITS)));
        bytes
    }

    fn read_facts(&self) -> usize {
        READ_FACTS
    }

    fn moves(&self, chip: &[u8], record: &[u8], changes: &mut Changes) {
        let position = chip[POSITION];
        match record[0] {
            0x01 => self.power(changes),
            0x02 => changes.push((POSITION, Value(FIRST_BYTE))),
            0x03 if position == FIRST_BYTE => self.first_byte(chip, record[1], changes),
            0x03 if position == OPEN => self.open_byte(chip, record[1], changes),
            0x03 => {}
            0x04 | 0x06 => changes.push((POSITION, Value(IDLE))),
            0x05 => changes.extend(self.all_facts().map(|fact| (fact, Anything))),
            0x07 => {
                let keys = if self.is_6315 { 4 } else { 3 };
                changes.extend((0..keys).map(|key| (KEY + key, Value(record[1 + key]))));
            }
            0x08 => changes.push((SWITCHES, Value(record[1]))),
            0x09 => {
                let reads = chip[DATA_MODE] == READ_KEYS || chip[DATA_MODE] == READ_SWITCHES;
                if position == OPEN && reads {
                    changes.push((READ_COUNT, Value(4.min(chip[READ_COUNT] + 1))));
                }
            }
            kind => unreachable!("no such kind {kind}"),
        }
    }
}
