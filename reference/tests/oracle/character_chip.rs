//! The moves of one PT6302, written down from the paper for a chip whose facts all have values.

use crate::join::{store, After, Changes, Chip};
use After::{Anything, Value};

pub const DCRAM_ADDRESS: usize = 0;
pub const CGRAM_ADDRESS: usize = 1;
pub const ADRAM_ADDRESS: usize = 2;
pub const COLUMN: usize = 3;
pub const POSITION: usize = 4;
pub const READ_FACTS: usize = 5;
pub const DUTY: usize = 5;
pub const DIGITS: usize = 6;
pub const LIGHTS: usize = 7;
/// The bits of the port, and of each byte, column and pair, stand together.
pub const PORT: usize = 8;
pub const DCRAM: usize = PORT + PORT_BITS;
pub const CGRAM: usize = DCRAM + 16 * BYTE_BITS;
pub const ADRAM: usize = CGRAM + 40 * COLUMN_BITS;
pub const FACTS: usize = ADRAM + 16 * PAIR_BITS;

pub const PORT_BITS: usize = 2;
pub const BYTE_BITS: usize = 8;
pub const COLUMN_BITS: usize = 7;
pub const PAIR_BITS: usize = 2;

const NORMAL: u8 = 0;
const OFF: u8 = 1;
const ON: u8 = 2;

const IDLE: u8 = 0;
const FIRST_BYTE: u8 = 1;
const IN_DCRAM: u8 = 2;
const IN_CGRAM: u8 = 3;
const IN_ADRAM: u8 = 4;
const IGNORING: u8 = 5;

pub struct CharacterChip;

impl CharacterChip {
    fn power(&self, changes: &mut Changes) {
        changes.extend((DCRAM..FACTS).map(|fact| (fact, Anything)));
        changes.extend((0..LIGHTS).map(|fact| (fact, Value(0))));
        store(changes, PORT, PORT_BITS, 0);
        changes.push((LIGHTS, Value(OFF)));
        changes.push((POSITION, Value(IDLE)));
    }

    fn first_byte(&self, byte: u8, changes: &mut Changes) {
        let low = byte & 15;
        let position = match byte >> 4 {
            1 => IN_DCRAM,
            2 => IN_CGRAM,
            3 => IN_ADRAM,
            _ => IGNORING,
        };
        match byte >> 4 {
            1 => changes.push((DCRAM_ADDRESS, Value(low))),
            2 => {
                changes.push((CGRAM_ADDRESS, Value(low & 7)));
                changes.push((COLUMN, Value(0)));
            }
            3 => changes.push((ADRAM_ADDRESS, Value(low))),
            4 => store(changes, PORT, PORT_BITS, low),
            5 => changes.push((DUTY, Value(low & 7))),
            6 => changes.push((DIGITS, Value(low & 7))),
            7 if low & 2 != 0 => changes.push((LIGHTS, Value(ON))),
            7 if low & 1 != 0 => changes.push((LIGHTS, Value(OFF))),
            7 => changes.push((LIGHTS, Value(NORMAL))),
            _ if byte == 0x80 || byte == 0x88 => {}
            _ => changes.extend((0..FACTS).map(|fact| (fact, Anything))),
        }
        changes.push((POSITION, Value(position)));
    }

    fn cgram_byte(&self, chip: &[u8], byte: u8, changes: &mut Changes) {
        let (character, column) = (chip[CGRAM_ADDRESS], chip[COLUMN]);
        let at = 5 * usize::from(character) + usize::from(column);
        store(changes, CGRAM + COLUMN_BITS * at, COLUMN_BITS, byte);
        if column == 4 {
            changes.push((COLUMN, Value(0)));
            changes.push((CGRAM_ADDRESS, Value((character + 1) % 8)));
        } else {
            changes.push((COLUMN, Value(column + 1)));
        }
    }

    fn byte_in(&self, chip: &[u8], byte: u8, changes: &mut Changes) {
        match chip[POSITION] {
            FIRST_BYTE => self.first_byte(byte, changes),
            IN_DCRAM => {
                let address = chip[DCRAM_ADDRESS];
                let cell = DCRAM + BYTE_BITS * usize::from(address);
                store(changes, cell, BYTE_BITS, byte);
                changes.push((DCRAM_ADDRESS, Value((address + 1) % 16)));
            }
            IN_CGRAM => self.cgram_byte(chip, byte, changes),
            IN_ADRAM => {
                let address = chip[ADRAM_ADDRESS];
                let pair = ADRAM + PAIR_BITS * usize::from(address);
                store(changes, pair, PAIR_BITS, byte);
                changes.push((ADRAM_ADDRESS, Value((address + 1) % 16)));
            }
            _ => {}
        }
    }
}

impl Chip for CharacterChip {
    fn ranges(&self) -> Vec<usize> {
        let mut ranges = vec![16, 8, 16, 5, 6, 8, 8, 3];
        ranges.resize(FACTS, 2);
        ranges
    }

    fn bytes(&self) -> Vec<(usize, usize)> {
        let mut bytes = vec![(PORT, PORT_BITS)];
        bytes.extend((0..16).map(|at| (DCRAM + BYTE_BITS * at, BYTE_BITS)));
        bytes.extend((0..40).map(|at| (CGRAM + COLUMN_BITS * at, COLUMN_BITS)));
        bytes.extend((0..16).map(|at| (ADRAM + PAIR_BITS * at, PAIR_BITS)));
        bytes
    }

    fn read_facts(&self) -> usize {
        READ_FACTS
    }

    fn moves(&self, chip: &[u8], record: &[u8], changes: &mut Changes) {
        match record[0] {
            0x01 => self.power(changes),
            0x02 => changes.push((POSITION, Value(FIRST_BYTE))),
            0x03 => self.byte_in(chip, record[1], changes),
            0x04 | 0x06 => changes.push((POSITION, Value(IDLE))),
            0x05 => changes.extend((0..FACTS).map(|fact| (fact, Anything))),
            kind => unreachable!("no such kind {kind}"),
        }
    }
}
