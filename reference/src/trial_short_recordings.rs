//! Short recordings, good and damaged, of which many fit into one input of `panel_examples`.

use crate::damage::{bad_body, bad_record, byte_changed, cut_record, cut_short};
use crate::knowledge::PARTS;
use crate::random::Random;
use crate::trial_recordings::any_recording;

/// A part, and now and then a byte that names none.
pub fn any_part(random: &mut Random) -> u8 {
    if random.once_in(25) {
        random.pick(&[0x00, 0x01, 0x03, 0x13, 0x14, 0xFF])
    } else {
        random.pick(&PARTS)
    }
}

/// Good or damaged; now and then it was made for another part, whose kinds this one may lack.
pub fn short_recording(part: u8, random: &mut Random) -> Vec<u8> {
    let made_for = if PARTS.contains(&part) && !random.once_in(12) {
        part
    } else {
        random.pick(&PARTS)
    };
    let length = any_length(random);
    match random.below(16) {
        0 => kinds_everywhere(length, random),
        1 => byte_changed(any_recording(made_for, 1 + length, random), random),
        2 => cut_short(any_recording(made_for, length, random), random),
        3 => [
            any_recording(made_for, length, random),
            cut_record(random).0,
        ]
        .concat(),
        4 | 5 => among_good_ones(&bad_record(random), made_for, length, random),
        6..=9 => among_good_ones(&bad_body(random), made_for, length, random),
        _ => any_recording(made_for, length, random),
    }
}

fn any_length(random: &mut Random) -> usize {
    match random.below(40) {
        0 => random.below(600),
        1..=14 => random.below(12),
        _ => random.below(61),
    }
}

/// Bodies that look like kinds, and all kinds in any order.
fn kinds_everywhere(length: usize, random: &mut Random) -> Vec<u8> {
    let highest = random.pick(&[0x06, 0x09, 0x0A]);
    let lowest = random.pick(&[0, 1, 1, 1]);
    let kinds = highest + 1 - lowest;
    (0..length)
        .map(|_| (lowest + random.below(kinds)) as u8)
        .collect()
}

/// A record in front of good ones, behind them or in their midst.
fn among_good_ones(record: &[u8], part: u8, length: usize, random: &mut Random) -> Vec<u8> {
    let before = match random.below(4) {
        0 => 0,
        1 => length,
        _ => random.below(length + 1),
    };
    let front = any_recording(part, before, random);
    let back = any_recording(part, length - before, random);
    [&front, record, &back].concat()
}
