//! Knowledge of a PT6302, the part that shows characters.

mod bytes;
mod moves;

use crate::bits::Pair;
use crate::cells::Cells;
use crate::fact::at_most;
use crate::knowledge::Forgotten;

pub const CHARACTERS: u8 = 8;
pub const COLUMNS: u8 = 5;

#[derive(Clone, Copy, Debug, PartialEq, Eq)]
pub enum Lights {
    Normal,
    Off,
    On,
}

#[derive(Clone, Copy, Debug, PartialEq, Eq)]
pub enum Position {
    Idle,
    FirstByte,
    Dcram,
    Cgram,
    Adram,
    Ignoring,
}

/// The facts, where `None` is unknown; the RAMs and the port are known bit by bit. CGRAM's columns stand character by
/// character.
#[derive(Clone, Copy, Debug, PartialEq, Eq)]
pub struct Pt6302 {
    pub dcram: Cells<16, 0xFF>,
    pub cgram: Cells<40, 0x7F>,
    pub adram: Cells<16, 0x03>,
    pub dcram_address: Option<u8>,
    pub cgram_address: Option<u8>,
    pub adram_address: Option<u8>,
    pub column: Option<u8>,
    pub port: Pair,
    pub duty: Option<u8>,
    pub digits: Option<u8>,
    pub lights: Option<Lights>,
    pub position: Option<Position>,
}

impl Pt6302 {
    pub fn forget(&mut self, forgotten: Forgotten) {
        if forgotten.position {
            self.position = None;
        }
        if forgotten.addresses {
            self.dcram_address = None;
            self.cgram_address = None;
            self.adram_address = None;
            self.column = None;
        }
    }

    fn facts_in_range(&self) -> bool {
        at_most(self.dcram_address, 15)
            && at_most(self.cgram_address, CHARACTERS - 1)
            && at_most(self.adram_address, 15)
            && at_most(self.column, COLUMNS - 1)
            && at_most(self.duty, 7)
            && at_most(self.digits, 7)
            && self.port.in_range()
            && self.dcram.in_range()
            && self.cgram.in_range()
            && self.adram.in_range()
    }
}
