//! What the bits of a command byte say; bits that a command does not name are passed over.

use super::Lights;

/// A first byte's meaning, which depends on nothing that the chip holds.
pub(super) enum Command {
    Dcram(u8),
    Cgram(u8),
    Adram(u8),
    Port(u8),
    Duty(u8),
    Digits(u8),
    Lights(Lights),
    Nothing,
    Undefined,
}

#[inline]
pub(super) fn command_in(byte: u8) -> Command {
    match byte >> 4 {
        1 => Command::Dcram(byte & 0x0F),
        2 => Command::Cgram(byte & 0x07),
        3 => Command::Adram(byte & 0x0F),
        4 => Command::Port(byte & 0x03),
        5 => Command::Duty(byte & 0x07),
        6 => Command::Digits(byte & 0x07),
        7 => Command::Lights(lights_in(byte)),
        8 if byte & 0x07 == 0 => Command::Nothing,
        _ => Command::Undefined,
    }
}

/// Bit 1 wins over bit 0.
#[inline]
fn lights_in(byte: u8) -> Lights {
    match byte & 0x03 {
        0 => Lights::Normal,
        1 => Lights::Off,
        _ => Lights::On,
    }
}
