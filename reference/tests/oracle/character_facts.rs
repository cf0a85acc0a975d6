//! Turns a row of facts into knowledge of a PT6302, and back.

use crate::bit_facts::{bits_in, cells_in, facts_in, facts_of};
use crate::character_chip::{
    ADRAM, ADRAM_ADDRESS, CGRAM, CGRAM_ADDRESS, COLUMN, DCRAM, DCRAM_ADDRESS, DIGITS, DUTY, LIGHTS,
    PORT, POSITION,
};
use crate::key_facts::{named, numbered};
use crate::Facts;
use reference::character_panel::{Lights, Position, Pt6302};

const ALL_LIGHTS: [Lights; 3] = [Lights::Normal, Lights::Off, Lights::On];
const POSITIONS: [Position; 6] = [
    Position::Idle,
    Position::FirstByte,
    Position::Dcram,
    Position::Cgram,
    Position::Adram,
    Position::Ignoring,
];

impl Facts for Pt6302 {
    fn from_row(row: &[Option<u8>]) -> Self {
        Pt6302 {
            dcram: cells_in(&row[DCRAM..CGRAM]),
            cgram: cells_in(&row[CGRAM..ADRAM]),
            adram: cells_in(&row[ADRAM..]),
            dcram_address: row[DCRAM_ADDRESS],
            cgram_address: row[CGRAM_ADDRESS],
            adram_address: row[ADRAM_ADDRESS],
            column: row[COLUMN],
            port: bits_in(&row[PORT..DCRAM]),
            duty: row[DUTY],
            digits: row[DIGITS],
            lights: named(&ALL_LIGHTS, row[LIGHTS]),
            position: named(&POSITIONS, row[POSITION]),
        }
    }

    fn to_row(&self) -> Vec<Option<u8>> {
        let mut row = vec![None; PORT];
        row[DCRAM_ADDRESS] = self.dcram_address;
        row[CGRAM_ADDRESS] = self.cgram_address;
        row[ADRAM_ADDRESS] = self.adram_address;
        row[COLUMN] = self.column;
        row[DUTY] = self.duty;
        row[DIGITS] = self.digits;
        row[LIGHTS] = numbered(&ALL_LIGHTS, self.lights);
        row[POSITION] = numbered(&POSITIONS, self.position);
        row.extend(facts_of(self.port));
        row.extend(facts_in(&self.dcram));
        row.extend(facts_in(&self.cgram));
        row.extend(facts_in(&self.adram));
        row
    }
}
