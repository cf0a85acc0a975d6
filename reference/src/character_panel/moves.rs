//! How each event moves the knowledge of a PT6302.

use super::bytes::{command_in, Command};
use super::{Lights, Position, Pt6302, CHARACTERS, COLUMNS};
use crate::bits::Bits;
use crate::cells::Cells;
use crate::fact::may_become;
use crate::replay::Panel;
use std::ops::Range;

const LAST_COLUMN: u8 = COLUMNS - 1;

impl Pt6302 {
    /// A byte that is surely the first of its strobe.
    #[inline]
    fn command(&mut self, byte: u8) {
        self.position = Some(Position::Ignoring);
        match command_in(byte) {
            Command::Dcram(address) => {
                self.dcram_address = Some(address);
                self.position = Some(Position::Dcram);
            }
            Command::Cgram(address) => {
                self.cgram_address = Some(address);
                self.column = Some(0);
                self.position = Some(Position::Cgram);
            }
            Command::Adram(address) => {
                self.adram_address = Some(address);
                self.position = Some(Position::Adram);
            }
            Command::Port(port) => self.port = Bits::all_known(port),
            Command::Duty(duty) => self.duty = Some(duty),
            Command::Digits(digits) => self.digits = Some(digits),
            Command::Lights(lights) => self.lights = Some(lights),
            Command::Nothing => {}
            Command::Undefined => {
                self.gap();
                self.position = Some(Position::Ignoring);
            }
        }
    }

    /// A byte that is the first of its strobe for some chips and passes by the others.
    fn may_be_command(&mut self, byte: u8) {
        match command_in(byte) {
            Command::Dcram(address) => may_become(&mut self.dcram_address, address),
            Command::Cgram(address) => {
                may_become(&mut self.cgram_address, address);
                may_become(&mut self.column, 0);
            }
            Command::Adram(address) => may_become(&mut self.adram_address, address),
            Command::Port(port) => self.port.may_become(port),
            Command::Duty(duty) => may_become(&mut self.duty, duty),
            Command::Digits(digits) => may_become(&mut self.digits, digits),
            Command::Lights(lights) => may_become(&mut self.lights, lights),
            Command::Nothing => {}
            Command::Undefined => self.gap(),
        }
    }

    /// A byte that some chips store in one RAM, others in another, and that passes by the rest.
    /// A chip that stores it steps on, so no address or column that could step stays known.
    fn may_be_data(&mut self, byte: u8) {
        may_store_at(&mut self.dcram, self.dcram_address, byte);
        self.dcram_address = None;
        may_store_at(&mut self.adram, self.adram_address, byte & 0x03);
        self.adram_address = None;
        self.may_store_column(byte & 0x7F);
        if self.column.is_none_or(|column| column == LAST_COLUMN) {
            self.cgram_address = None;
        }
        self.column = None;
    }

    /// The next character follows only behind a last column.
    #[inline]
    fn store_column(&mut self, value: u8) {
        match (self.cgram_address, self.column) {
            (Some(character), Some(column)) => {
                self.cgram.store(column_at(character, column), value);
            }
            _ => self.may_store_column(value),
        }
        match self.column {
            Some(LAST_COLUMN) => {
                self.column = Some(0);
                self.cgram_address = self.cgram_address.map(|at| (at + 1) % CHARACTERS);
            }
            Some(column) => self.column = Some(column + 1),
            None => self.cgram_address = None,
        }
    }

    /// Every character and column that fits may be the one to take the value.
    fn may_store_column(&mut self, value: u8) {
        if self.cgram_address.is_none() && self.column.is_none() {
            self.cgram.may_store_anywhere(value);
            return;
        }
        for character in fitting(self.cgram_address, CHARACTERS) {
            for column in fitting(self.column, COLUMNS) {
                self.cgram.may_store(column_at(character, column), value);
            }
        }
    }
}

/// An unknown address steps on to an unknown one.
#[inline]
fn store_at<const ALL: u8>(cells: &mut Cells<16, ALL>, address: &mut Option<u8>, value: u8) {
    match *address {
        Some(at) => {
            cells.store(usize::from(at), value);
            *address = Some((at + 1) % 16);
        }
        None => cells.may_store_anywhere(value),
    }
}

fn may_store_at<const ALL: u8>(cells: &mut Cells<16, ALL>, address: Option<u8>, value: u8) {
    match address {
        Some(at) => cells.may_store(usize::from(at), value),
        None => cells.may_store_anywhere(value),
    }
}

#[inline]
fn column_at(character: u8, column: u8) -> usize {
    usize::from(character * COLUMNS + column)
}

/// The values below `end` that a chip may have for this fact.
fn fitting(fact: Option<u8>, end: u8) -> Range<u8> {
    match fact {
        Some(value) => value..value + 1,
        None => 0..end,
    }
}

impl Panel for Pt6302 {
    const UNKNOWN: Self = Pt6302 {
        dcram: Cells::UNKNOWN,
        cgram: Cells::UNKNOWN,
        adram: Cells::UNKNOWN,
        dcram_address: None,
        cgram_address: None,
        adram_address: None,
        column: None,
        port: Bits::UNKNOWN,
        duty: None,
        digits: None,
        lights: None,
        position: None,
    };
    const HAS_KEYS: bool = false;
    const HAS_SWITCHES: bool = false;

    fn in_range(&self) -> bool {
        self.facts_in_range()
    }

    #[inline]
    fn power(&mut self) {
        self.gap();
        self.dcram_address = Some(0);
        self.cgram_address = Some(0);
        self.adram_address = Some(0);
        self.column = Some(0);
        self.port = Bits::all_known(0);
        self.duty = Some(0);
        self.digits = Some(0);
        self.lights = Some(Lights::Off);
        self.position = Some(Position::Idle);
    }

    #[inline]
    fn gap(&mut self) {
        self.dcram.forget_all();
        self.cgram.forget_all();
        self.adram.forget_all();
        self.dcram_address = None;
        self.cgram_address = None;
        self.adram_address = None;
        self.column = None;
        self.port = Bits::UNKNOWN;
        self.duty = None;
        self.digits = None;
        self.lights = None;
        self.position = None;
    }

    #[inline]
    fn strobe_falls(&mut self) {
        self.position = Some(Position::FirstByte);
    }

    #[inline]
    fn strobe_rises(&mut self) {
        self.position = Some(Position::Idle);
    }

    #[inline]
    fn byte_in(&mut self, byte: u8) {
        match self.position {
            Some(Position::Dcram) => store_at(&mut self.dcram, &mut self.dcram_address, byte),
            Some(Position::Cgram) => self.store_column(byte & 0x7F),
            Some(Position::Adram) => {
                store_at(&mut self.adram, &mut self.adram_address, byte & 0x03)
            }
            Some(Position::FirstByte) => self.command(byte),
            Some(Position::Idle | Position::Ignoring) => {}
            None => {
                self.may_be_data(byte);
                self.may_be_command(byte);
            }
        }
    }
}
