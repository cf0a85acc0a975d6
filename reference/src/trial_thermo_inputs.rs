//! Inputs on which two thermometer programs are compared: a part byte, a start and a recording, good or damaged.

use crate::answer::LONGEST;
use crate::damage::{bad_record, byte_changed, cut_short};
use crate::knowledge::{PT6302, PT6312, PT6315};
use crate::random::Random;
use crate::trial_field_recordings::any_field_recording;
use crate::trial_recordings::any_recording;

/// The input with this number, which depends on nothing but the seed and the number.
/// The first few are the same for every seed but for their contents, so that no edge is left to chance.
pub fn trial_thermo_input(seed: u64, number: usize) -> Vec<u8> {
    let random = &mut Random::for_trial(seed, number);
    match edge_cases().get(number) {
        Some(Edge::Bytes(bytes)) => bytes.clone(),
        Some(&Edge::Length(part, length)) => {
            let mut input = vec![part, 0];
            input.extend(any_recording(PT6302, length, random));
            input
        }
        None => by_chance(random),
    }
}

enum Edge {
    /// The whole input.
    Bytes(Vec<u8>),
    /// The part, and the length of the recording.
    Length(u8, usize),
}

/// Inputs without a recording, and recordings of lengths around the limit.
fn edge_cases() -> Vec<Edge> {
    let mut edges = vec![Edge::Bytes(Vec::new())];
    for part in [PT6302, PT6312, PT6315, 0x00, 0x14] {
        edges.push(Edge::Bytes(vec![part]));
        for start in [0, 11, 12, 255] {
            edges.push(Edge::Bytes(vec![part, start]));
        }
    }
    for part in [PT6302, PT6312, 0x00] {
        for length in [LONGEST - 1, LONGEST, LONGEST + 1, 70_000] {
            edges.push(Edge::Length(part, length));
        }
    }
    edges
}

fn by_chance(random: &mut Random) -> Vec<u8> {
    let (part, start) = (any_part(random), any_start(random));
    let mut input = vec![part, start];
    match random.below(10) {
        0 => {
            let recorded_from = if part == PT6315 { PT6315 } else { PT6302 };
            let length = random.below(200);
            input.extend(any_recording(recorded_from, length, random));
        }
        1 if random.once_in(2) => input.extend(bad_record(random)),
        _ => {}
    }
    input.extend(any_field_recording(start, random));
    match random.below(30) {
        0 => {
            input.extend(bad_record(random));
            input
        }
        1 => byte_changed(input, random),
        2 => cut_short(input, random),
        _ => input,
    }
}

fn any_part(random: &mut Random) -> u8 {
    match random.below(30) {
        0 => PT6312,
        1 => PT6315,
        2 => random.pick(&[0x00, 0x14, 0xFF]),
        _ => PT6302,
    }
}

fn any_start(random: &mut Random) -> u8 {
    match random.below(40) {
        0 => random.pick(&[13, 15, 16, 255]),
        _ => random.below(13) as u8,
    }
}
