//! Knowledge of a PT6312 or PT6315, the parts that also read keys.

mod bytes;
mod moves;

use crate::bits::Nibble;
use crate::cells::Cells;
use crate::fact::at_most;
use crate::knowledge::Forgotten;

/// Where the next write goes; every address past the last cell is the same "invalid".
#[derive(Clone, Copy, Debug, PartialEq, Eq)]
pub enum Address {
    Cell(u8),
    Invalid,
}

#[derive(Clone, Copy, Debug, PartialEq, Eq)]
pub enum DataMode {
    WriteDisplay,
    WriteLed,
    ReadKeys,
    ReadSwitches,
}

#[derive(Clone, Copy, Debug, PartialEq, Eq)]
pub enum Stepping {
    Increment,
    Fixed,
}

#[derive(Clone, Copy, Debug, PartialEq, Eq)]
pub enum Display {
    Off,
    On,
}

#[derive(Clone, Copy, Debug, PartialEq, Eq)]
pub enum Position {
    Idle,
    FirstByte,
    Open,
    Ignoring,
}

/// The facts, where `None` is unknown; cells and LED are known bit by bit. PT6315 has no switches, so nothing looks at
/// them there.
#[derive(Clone, Copy, Debug, PartialEq, Eq)]
pub struct KeyPanel<const CELLS: usize, const KEYS: usize> {
    pub cells: Cells<CELLS, 0xFF>,
    pub address: Option<Address>,
    pub data_mode: Option<DataMode>,
    pub stepping: Option<Stepping>,
    pub mode: Option<u8>,
    pub dimming: Option<u8>,
    pub display: Option<Display>,
    pub led: Nibble,
    pub keys: [Option<u8>; KEYS],
    pub switches: Option<u8>,
    pub read_count: Option<u8>,
    pub position: Option<Position>,
}

pub type Pt6312 = KeyPanel<22, 3>;
pub type Pt6315 = KeyPanel<36, 4>;

impl<const CELLS: usize, const KEYS: usize> KeyPanel<CELLS, KEYS> {
    pub fn forget(&mut self, forgotten: Forgotten) {
        if forgotten.position {
            self.position = None;
        }
        if forgotten.data_mode {
            self.data_mode = None;
        }
        if forgotten.addresses {
            self.address = None;
        }
    }
}

/// What sets the two parts apart, beside the number of cells and key bytes.
pub trait Differences {
    const SWITCHES: bool;
    const HIGHEST_MODE: u8;
    const MODE_BITS: u8;
    const ADDRESS_BITS: u8;
    const LED_AT_POWER: u8;
}

impl Differences for Pt6312 {
    const SWITCHES: bool = true;
    const HIGHEST_MODE: u8 = 7;
    const MODE_BITS: u8 = 0x07;
    const ADDRESS_BITS: u8 = 0x1F;
    const LED_AT_POWER: u8 = 15;
}

impl Differences for Pt6315 {
    const SWITCHES: bool = false;
    const HIGHEST_MODE: u8 = 8;
    const MODE_BITS: u8 = 0x0F;
    const ADDRESS_BITS: u8 = 0x3F;
    const LED_AT_POWER: u8 = 0;
}

const HIGHEST_DIMMING: u8 = 7;
const HIGHEST_SWITCHES: u8 = 15;
const HIGHEST_READ_COUNT: u8 = 4;

impl<const CELLS: usize, const KEYS: usize> KeyPanel<CELLS, KEYS>
where
    Self: Differences,
{
    fn facts_in_range(&self) -> bool {
        let address_good = match self.address {
            Some(Address::Cell(at)) => usize::from(at) < CELLS,
            _ => true,
        };
        let data_mode_good = Self::SWITCHES || self.data_mode != Some(DataMode::ReadSwitches);
        let switches_good = !Self::SWITCHES || at_most(self.switches, HIGHEST_SWITCHES);
        address_good
            && data_mode_good
            && switches_good
            && at_most(self.mode, Self::HIGHEST_MODE)
            && at_most(self.dimming, HIGHEST_DIMMING)
            && at_most(self.read_count, HIGHEST_READ_COUNT)
            && self.led.in_range()
            && self.cells.in_range()
    }
}
