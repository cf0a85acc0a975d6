//! Lines of the section `recordings`, on which a program is compared with the replay and the tail finder here.

use crate::damage::{bad_body, bad_record};
use crate::example_key_panels::USUAL_CELL;
use crate::example_lines::{bytes_in, bytes_in_words};
use crate::knowledge::PT6315;
use crate::random::Random;
use crate::recording::{record_starts, Recording};
use crate::trial_short_recordings::{any_part, short_recording};

/// No line asks for a longer recording; this is one byte more than is taken.
const MOST_BYTES: usize = 0x1_0000;

/// The line with this number, which depends on nothing but the seed and the number.
/// Few recordings are long, since each of these takes the time of many short ones.
pub fn trial_recording(seed: u64, number: usize) -> String {
    let random = &mut Random::for_trial(seed, number);
    let part = any_part(random);
    let known = any_known(random);
    let recording = if random.once_in(80) {
        long_recording(random)
    } else {
        let recording = short_recording(part, random);
        bytes_in_words(&[recording, lost_address(part, random)].concat())
    };
    let start = any_start(&bytes_in(&recording), random);
    format!("{part:02X}{known}{start}{recording}")
}

/// What makes a PT6315 known in part, if it is known at all: behind data setting 11 a byte moves only some chips on,
/// and the next one may go anywhere. Both are but a bit away from what every cell is known to hold where all is known.
/// No words of this section say single bits, and on the other parts nothing but a gap loses the address.
fn lost_address(part: u8, random: &mut Random) -> Vec<u8> {
    if part != PT6315 || !random.once_in(3) {
        return Vec::new();
    }
    let mut near = || USUAL_CELL ^ 1 << random.below(8);
    let mut recording = Recording::up_to(20);
    recording.strobe(0x43, &[near()]);
    recording.strobe(0x40, &[near()]);
    recording.into_bytes()
}

/// Words on what is known before, and on what cannot be known so; half of the lines know nothing.
fn any_known(random: &mut Random) -> &'static str {
    match random.below(32) {
        0..=15 => "",
        16..=26 => " known",
        27 => " led",
        28 => " port",
        29 => " led port",
        30 => " known led",
        _ => " known port",
    }
}

/// No start place, or one at the start of a record, in its midst, at the end or beyond.
fn any_start(recording: &[u8], random: &mut Random) -> String {
    let end = recording.len();
    let place = match random.below(16) {
        0..=5 => return String::new(),
        6 => 0,
        7..=9 => any_of(&record_starts(recording), random),
        10..=12 => random.below(end + 1),
        13 => end,
        14 => end + 1 + random.below(9),
        _ => random.pick(&[0xFF, 0xFFFF, 0x1_0000, 0xF_FFFF]),
    };
    format!(" @{place:04X}")
}

/// The empty recording has no record, and its start is its end.
fn any_of(places: &[usize], random: &mut Random) -> usize {
    match places {
        [] => 0,
        _ => random.pick(places),
    }
}

/// About as long as is taken: good records, as a row that repeats them, and behind them perhaps a bad one.
fn long_recording(random: &mut Random) -> String {
    let repeated = random.pick(&["04", "05", "03 5A", "03 05", "02 03 C0 04", "06 07"]);
    let last = match random.below(4) {
        0 => bad_record(random),
        1 => bad_body(random),
        _ => Vec::new(),
    };
    let length = MOST_BYTES - last.len() - random.below(3);
    let last = bytes_in_words(&last);
    format!(" ( {repeated} )*{length:X}{last}")
}
