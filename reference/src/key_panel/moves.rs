//! How each event moves the knowledge of a PT6312 or PT6315.

use super::bytes::Command;
use super::HIGHEST_READ_COUNT;
use super::{Address, DataMode, Differences, Display, KeyPanel, Position, Stepping};
use crate::bits::Bits;
use crate::cells::Cells;
use crate::fact::may_become;
use crate::replay::Panel;

impl<const CELLS: usize, const KEYS: usize> KeyPanel<CELLS, KEYS>
where
    Self: Differences,
{
    /// A byte that is not sure to be data.
    /// It stays out of line because nearly all bytes of a recording are written to the display.
    #[inline(never)]
    fn byte_while_not_open(&mut self, byte: u8) {
        match self.position {
            Some(Position::FirstByte) => self.command(byte),
            Some(_) => {}
            None => {
                // What data does depends on the data mode, which the command may then change.
                self.may_be_data(byte);
                self.may_be_command(byte);
            }
        }
    }

    /// A byte that is surely the first of its strobe.
    #[inline]
    fn command(&mut self, byte: u8) {
        match Self::command_in(byte) {
            Command::Mode(mode) => {
                self.set_mode(mode);
                self.position = Some(Position::Ignoring);
            }
            Command::DataSetting(data_mode, stepping) => {
                self.data_mode = data_mode;
                self.stepping = Some(stepping);
                self.read_count = Some(0);
                self.position = Some(Position::Open);
            }
            Command::TestMode => {
                self.forget_all_but_latched();
                self.position = Some(Position::Ignoring);
            }
            Command::Control(dimming, display) => {
                self.dimming = Some(dimming);
                self.display = Some(display);
                self.position = Some(Position::Ignoring);
            }
            Command::Address(address) => {
                self.address = Some(address);
                self.position = Some(Position::Open);
            }
        }
    }

    /// Another mode darkens the display; where the mode was unknown, it was another one only for some chips.
    #[inline]
    fn set_mode(&mut self, mode: u8) {
        match self.mode {
            Some(old) if old == mode => {}
            Some(_) => self.display = Some(Display::Off),
            None => may_become(&mut self.display, Display::Off),
        }
        self.mode = Some(mode);
    }

    /// A byte that is the first of its strobe for some chips and passes by the others.
    fn may_be_command(&mut self, byte: u8) {
        match Self::command_in(byte) {
            Command::Mode(mode) => {
                if self.mode != Some(mode) {
                    self.mode = None;
                    may_become(&mut self.display, Display::Off);
                }
            }
            Command::DataSetting(data_mode, stepping) => {
                if self.data_mode != data_mode {
                    self.data_mode = None;
                }
                may_become(&mut self.stepping, stepping);
                may_become(&mut self.read_count, 0);
            }
            Command::TestMode => self.forget_all_but_latched(),
            Command::Control(dimming, display) => {
                may_become(&mut self.dimming, dimming);
                may_become(&mut self.display, display);
            }
            Command::Address(address) => may_become(&mut self.address, address),
        }
    }

    /// Keys and switches come from outside, so even undefined behaviour leaves them alone.
    #[inline]
    fn forget_all_but_latched(&mut self) {
        self.cells.forget_all();
        self.address = None;
        self.data_mode = None;
        self.stepping = None;
        self.mode = None;
        self.dimming = None;
        self.display = None;
        self.led = Bits::UNKNOWN;
        self.read_count = None;
        self.position = None;
    }

    /// A byte while surely open, but not in the mode that writes to the display.
    #[inline(never)]
    fn data_not_to_display(&mut self, byte: u8) {
        match self.data_mode {
            Some(DataMode::WriteLed) => self.led = Bits::all_known(byte & 0x0F),
            Some(_) => {}
            None => self.may_be_data(byte),
        }
    }

    /// A byte that some chips take as data, as far as the data mode allows, and that passes by the others.
    fn may_be_data(&mut self, byte: u8) {
        if matches!(self.data_mode, None | Some(DataMode::WriteDisplay)) {
            self.may_write(byte);
        }
        if matches!(self.data_mode, None | Some(DataMode::WriteLed)) {
            self.led.may_become(byte & 0x0F);
        }
    }

    #[inline]
    fn write(&mut self, byte: u8) {
        match self.address {
            Some(Address::Cell(at)) => {
                self.cells.store(usize::from(at), byte);
                match self.stepping {
                    Some(Stepping::Increment) => {
                        self.address = Some(Address::Cell(Self::cell_behind(at)));
                    }
                    Some(Stepping::Fixed) => {}
                    None => self.address = None,
                }
            }
            Some(Address::Invalid) => {}
            None => self.cells.may_store_anywhere(byte),
        }
    }

    fn may_write(&mut self, byte: u8) {
        match self.address {
            Some(Address::Cell(at)) => {
                self.cells.may_store(usize::from(at), byte);
                if self.stepping != Some(Stepping::Fixed) {
                    self.address = None;
                }
            }
            Some(Address::Invalid) => {}
            None => self.cells.may_store_anywhere(byte),
        }
    }
}

impl<const CELLS: usize, const KEYS: usize> Panel for KeyPanel<CELLS, KEYS>
where
    Self: Differences,
{
    const UNKNOWN: Self = KeyPanel {
        cells: Cells::UNKNOWN,
        address: None,
        data_mode: None,
        stepping: None,
        mode: None,
        dimming: None,
        display: None,
        led: Bits::UNKNOWN,
        keys: [None; KEYS],
        switches: None,
        read_count: None,
        position: None,
    };
    const HAS_KEYS: bool = true;
    const HAS_SWITCHES: bool = Self::SWITCHES;

    fn in_range(&self) -> bool {
        self.facts_in_range()
    }

    #[inline]
    fn power(&mut self) {
        self.gap();
        self.address = Some(Address::Cell(0));
        self.data_mode = Some(DataMode::WriteDisplay);
        self.stepping = Some(Stepping::Increment);
        self.mode = Some(Self::HIGHEST_MODE);
        self.dimming = Some(0);
        self.display = Some(Display::Off);
        self.led = Bits::all_known(Self::LED_AT_POWER);
        self.read_count = Some(0);
        self.position = Some(Position::Idle);
    }

    #[inline]
    fn gap(&mut self) {
        self.forget_all_but_latched();
        self.keys = [None; KEYS];
        self.switches = None;
    }

    #[inline]
    fn strobe_falls(&mut self) {
        self.position = Some(Position::FirstByte);
    }

    #[inline]
    fn strobe_rises(&mut self) {
        self.position = Some(Position::Idle);
    }

    #[inline]
    fn byte_in(&mut self, byte: u8) {
        if self.position != Some(Position::Open) {
            self.byte_while_not_open(byte);
        } else if self.data_mode == Some(DataMode::WriteDisplay) {
            self.write(byte);
        } else {
            self.data_not_to_display(byte);
        }
    }

    /// Where only some chips count this byte, a count that is already at its top is the same for all.
    #[inline]
    fn byte_out(&mut self) {
        let open = self.position.map(|position| position == Position::Open);
        let reads = self
            .data_mode
            .map(|mode| matches!(mode, DataMode::ReadKeys | DataMode::ReadSwitches));
        match (open, reads) {
            (Some(false), _) | (_, Some(false)) => {}
            (Some(true), Some(true)) => {
                let counted = |count: u8| (count + 1).min(HIGHEST_READ_COUNT);
                self.read_count = self.read_count.map(counted);
            }
            _ => may_become(&mut self.read_count, HIGHEST_READ_COUNT),
        }
    }

    /// A record has room for four key bytes, and those that the part lacks must be 0.
    #[inline]
    fn keys_allowed(keys: [u8; 4]) -> bool {
        keys[KEYS..].iter().all(|&key| key == 0)
    }

    #[inline]
    fn keys_latched(&mut self, keys: [u8; 4]) {
        for (fact, key) in self.keys.iter_mut().zip(keys) {
            *fact = Some(key);
        }
    }

    #[inline]
    fn switches_latched(&mut self, switches: u8) {
        self.switches = Some(switches);
    }
}
