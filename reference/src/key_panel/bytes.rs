//! What the bits of a command byte say; bits that a command does not name are passed over.

use super::{Address, DataMode, Differences, Display, KeyPanel, Stepping};

/// A first byte's meaning, which depends on nothing that the chip holds.
pub(super) enum Command {
    Mode(u8),
    /// No data mode stands for any data mode, as after setting 11 on PT6315.
    DataSetting(Option<DataMode>, Stepping),
    TestMode,
    Control(u8, Display),
    Address(Address),
}

impl<const CELLS: usize, const KEYS: usize> KeyPanel<CELLS, KEYS>
where
    Self: Differences,
{
    #[inline]
    pub(super) fn command_in(byte: u8) -> Command {
        match byte >> 6 {
            0 => Command::Mode((byte & Self::MODE_BITS).min(Self::HIGHEST_MODE)),
            1 if byte & 0x08 != 0 => Command::TestMode,
            1 => Command::DataSetting(Self::data_mode_in(byte), stepping_in(byte)),
            2 => Command::Control(byte & 0x07, display_in(byte)),
            _ => Command::Address(Self::address_of(byte & Self::ADDRESS_BITS)),
        }
    }

    /// Setting 11 means the switches, and so is undefined on the part that has none.
    #[inline]
    fn data_mode_in(byte: u8) -> Option<DataMode> {
        match byte & 0x03 {
            0 => Some(DataMode::WriteDisplay),
            1 => Some(DataMode::WriteLed),
            2 => Some(DataMode::ReadKeys),
            _ => Self::SWITCHES.then_some(DataMode::ReadSwitches),
        }
    }

    #[inline]
    pub(super) fn address_of(number: u8) -> Address {
        if usize::from(number) < CELLS {
            Address::Cell(number)
        } else {
            Address::Invalid
        }
    }

    /// The cells are a ring: behind the last one stands the first.
    #[inline]
    pub(super) fn cell_behind(at: u8) -> u8 {
        if usize::from(at) + 1 == CELLS {
            0
        } else {
            at + 1
        }
    }
}

#[inline]
fn stepping_in(byte: u8) -> Stepping {
    if byte & 0x04 == 0 {
        Stepping::Increment
    } else {
        Stepping::Fixed
    }
}

#[inline]
fn display_in(byte: u8) -> Display {
    if byte & 0x08 == 0 {
        Display::Off
    } else {
        Display::On
    }
}
