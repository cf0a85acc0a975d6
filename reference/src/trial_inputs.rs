//! Inputs on which two programs are compared: a part byte and a recording, good or damaged.

use crate::answer::LONGEST;
use crate::damage::{bad_record, byte_changed, cut_short};
use crate::knowledge::{PARTS, PT6302, PT6312, PT6315};
use crate::random::Random;
use crate::trial_recordings::any_recording;

/// The input with this number, which depends on nothing but the seed and the number.
/// The first few are the same for every seed but for their contents, so that no edge is left to chance.
pub fn trial_input(seed: u64, number: usize) -> Vec<u8> {
    let mut random = Random::for_trial(seed, number);
    let edges = edge_cases();
    match edges.get(number) {
        Some(Edge::Empty) => Vec::new(),
        Some(&Edge::Length(part, length)) => good_input(part, length, &mut random),
        None => by_chance(&mut random),
    }
}

enum Edge {
    Empty,
    Length(u8, usize),
}

/// The lengths around the limit, with every part and with a byte that names none.
fn edge_cases() -> Vec<Edge> {
    let mut edges = vec![Edge::Empty];
    for part in [PT6302, PT6312, PT6315, 0x00, 0xFF] {
        for length in [0, 1, LONGEST - 1, LONGEST, LONGEST + 1, 70_000] {
            edges.push(Edge::Length(part, length));
        }
    }
    edges
}

fn by_chance(random: &mut Random) -> Vec<u8> {
    let part = random.pick(&PARTS);
    let length = any_length(random);
    match random.below(12) {
        0 => byte_changed(good_input(part, length, random), random),
        1 => cut_short(good_input(part, length, random), random),
        2 | 3 => with_bad_record(part, length, random),
        4 => with_other_part(good_input(part, length, random), random),
        _ => good_input(part, length, random),
    }
}

/// Most are short, because a short input shows best what went wrong.
fn any_length(random: &mut Random) -> usize {
    match random.below(100) {
        0..=24 => random.below(30),
        25..=79 => random.below(400),
        80..=95 => random.below(4_000),
        96..=98 => random.below(LONGEST),
        _ => random.pick(&[LONGEST - 1, LONGEST, LONGEST + 1, 70_000]),
    }
}

fn good_input(part: u8, length: usize, random: &mut Random) -> Vec<u8> {
    let recorded_from = if PARTS.contains(&part) { part } else { PT6312 };
    let mut input = vec![part];
    input.extend(any_recording(recorded_from, length, random));
    input
}

/// The same recording for another part, or for none.
fn with_other_part(mut input: Vec<u8>, random: &mut Random) -> Vec<u8> {
    input[0] = match random.below(3) {
        0 => random.byte(),
        _ => random.pick(&PARTS),
    };
    input
}

/// Good records, a bad one, and good ones behind it that must not count.
fn with_bad_record(part: u8, length: usize, random: &mut Random) -> Vec<u8> {
    let mut input = good_input(part, length / 2, random);
    input.extend(bad_record(random));
    input.extend(any_recording(part, length / 2, random));
    input
}
