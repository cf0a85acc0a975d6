//! Paintings: the strobes that put a whole picture on a panel.

use crate::knowledge::{PT6302, PT6312, PT6315};
use crate::random::Random;
use crate::recording::Recording;

/// A picture for PT6312 or PT6315, which is as long as its part's memory.
pub struct KeyPicture {
    pub cells: Vec<u8>,
    pub mode: u8,
    pub led: u8,
    pub dimming: u8,
    pub on: bool,
}

/// A picture for PT6302: 16 bytes, 40 columns and 16 pairs, and four settings.
pub struct CharacterPicture {
    pub dcram: Vec<u8>,
    pub cgram: Vec<u8>,
    pub adram: Vec<u8>,
    pub port: u8,
    pub duty: u8,
    pub digits: u8,
    pub lights: u8,
}

pub fn paint_key_panel(recording: &mut Recording, picture: &KeyPicture) {
    recording.strobe(picture.mode, &[]);
    recording.strobe(0x40, &[]);
    recording.strobe(0xC0, &picture.cells);
    recording.strobe(0x41, &[picture.led]);
    recording.strobe(0x80 | u8::from(picture.on) << 3 | picture.dimming, &[]);
}

pub fn paint_character_panel(recording: &mut Recording, picture: &CharacterPicture) {
    recording.strobe(0x10, &picture.dcram);
    recording.strobe(0x20, &picture.cgram);
    recording.strobe(0x30, &picture.adram);
    recording.strobe(0x40 | picture.port, &[]);
    recording.strobe(0x50 | picture.duty, &[]);
    recording.strobe(0x60 | picture.digits, &[]);
    recording.strobe(0x70 | picture.lights, &[]);
}

/// Paints a picture made up of the given bytes, each cut to its fact's range.
pub fn paint_from(recording: &mut Recording, part: u8, random: &mut Random, pool: &[u8]) {
    match part {
        PT6302 => paint_character_panel(recording, &character_picture(random, pool)),
        PT6312 => paint_key_panel(recording, &key_picture(random, pool, 22, 8)),
        PT6315 => paint_key_panel(recording, &key_picture(random, pool, 36, 9)),
        _ => unreachable!("only the three parts are painted"),
    }
}

/// Paints a picture with any bytes.
pub fn paint_any(recording: &mut Recording, part: u8, random: &mut Random) {
    let every_byte: Vec<u8> = (0..=255).collect();
    paint_from(recording, part, random, &every_byte);
}

fn key_picture(random: &mut Random, pool: &[u8], cells: usize, modes: usize) -> KeyPicture {
    KeyPicture {
        cells: picks(random, pool, cells, 0xFF),
        mode: random.below(modes) as u8,
        led: random.byte() & 0x0F,
        dimming: random.byte() & 0x07,
        on: random.once_in(2),
    }
}

fn character_picture(random: &mut Random, pool: &[u8]) -> CharacterPicture {
    CharacterPicture {
        dcram: picks(random, pool, 16, 0xFF),
        cgram: picks(random, pool, 40, 0x7F),
        adram: picks(random, pool, 16, 0x03),
        port: random.byte() & 0x03,
        duty: random.byte() & 0x07,
        digits: random.byte() & 0x07,
        lights: random.below(3) as u8,
    }
}

fn picks(random: &mut Random, pool: &[u8], count: usize, bits: u8) -> Vec<u8> {
    (0..count).map(|_| random.pick(pool) & bits).collect()
}
