//! Good recordings of a PT6302 whose master shows a temperature, with a mishap now and then.

use crate::random::Random;
use crate::recording::Recording;
use crate::temperature::FIELD;
use crate::trial_fields::any_field;

/// More than any of these recordings needs.
const ROOM: usize = 1_000;

/// Text, digits and lights in any turn, each missing now and then, so that the field stays unknown or dark.
pub fn any_field_recording(start: u8, random: &mut Random) -> Vec<u8> {
    let mut recording = Recording::up_to(ROOM);
    if random.once_in(3) {
        recording.power();
    }
    let first = random.below(3);
    for turn in 0..3 {
        mishap(&mut recording, random);
        if random.once_in(14) {
            continue;
        }
        match (first + turn) % 3 {
            0 => text(&mut recording, start, random),
            1 => recording.strobe(0x60 | any_digits(start, random), &[]),
            _ => recording.strobe(0x70 | any_lights(random), &[]),
        }
    }
    mishap(&mut recording, random);
    recording.into_bytes()
}

/// Most often nothing; then what forgets all, what changes other facts, and what changes none.
fn mishap(recording: &mut Recording, random: &mut Random) {
    let byte = random.byte();
    match random.below(60) {
        0 => recording.gap(),
        1 => recording.power(),
        2 => recording.strobe(random.pick(&[0x00, 0x0F, 0x81, 0x90, 0xFF]), &[byte]),
        3 => recording.byte_in(byte),
        4 => recording.unfinished(1 + byte % 7),
        5 => recording.strobe(random.pick(&[0x80, 0x88]), &[byte]),
        6 => recording.strobe(0x20 | byte & 0x0F, &[byte, byte]),
        7 => recording.strobe(0x30 | byte & 0x0F, &[byte]),
        8 => recording.strobe(0x40 | byte & 0x1F, &[byte]),
        _ => {}
    }
}

/// The field in one strobe, which may begin before it and go on behind it, and may end too early or not at all;
/// sometimes one of its cells is then written again.
fn text(recording: &mut Recording, start: u8, random: &mut Random) {
    let before = random.pick(&[0, 0, 0, 1, 2, 7]);
    let behind = random.below(3);
    let mut bytes: Vec<u8> = (0..before).map(|_| random.byte()).collect();
    bytes.extend(any_field(random));
    bytes.extend((0..behind).map(|_| random.byte()));
    if random.once_in(16) {
        bytes.truncate(random.below(bytes.len()));
    }
    write(recording, start.wrapping_sub(before), &bytes, random);
    if random.once_in(8) {
        let at = random.below(FIELD);
        let cell = any_field(random)[at];
        write(recording, start.wrapping_add(at as u8), &[cell], random);
    }
}

/// Addresses go round behind 15.
fn write(recording: &mut Recording, address: u8, bytes: &[u8], random: &mut Random) {
    recording.strobe_falls();
    recording.byte_in(0x10 | address & 0x0F);
    for &byte in bytes {
        recording.byte_in(byte);
    }
    match random.below(10) {
        0 => recording.unfinished(1 + random.below(7) as u8),
        1 => {}
        _ => recording.strobe_rises(),
    }
}

/// Just enough digits, one too few, all of them, or any; bit 3 does not count.
fn any_digits(start: u8, random: &mut Random) -> u8 {
    let last_digit = usize::from(start) + FIELD;
    let code = match random.below(8) {
        0 => random.byte() & 0x07,
        1 => code_of(last_digit - 1),
        2..=4 => 0,
        _ => code_of(last_digit),
    };
    code | random.pick(&[0x00, 0x08])
}

/// The nearest number of digits that there is.
fn code_of(digits: usize) -> u8 {
    match digits {
        0..=9 => 1,
        10..=15 => (digits - 8) as u8,
        _ => 0,
    }
}

/// Mostly normal; the upper two bits do not count.
fn any_lights(random: &mut Random) -> u8 {
    match random.below(8) {
        0 => random.byte() & 0x0F,
        _ => random.byte() & 0x0C,
    }
}
