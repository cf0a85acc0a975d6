//! What can go wrong with an input on its way.

use crate::random::Random;

pub fn byte_changed(mut input: Vec<u8>, random: &mut Random) -> Vec<u8> {
    let at = random.below(input.len());
    input[at] = random.byte();
    input
}

pub fn cut_short(mut input: Vec<u8>, random: &mut Random) -> Vec<u8> {
    let cut = random.below(6).min(input.len());
    input.truncate(input.len() - cut);
    input
}

/// Some of these are bad for one part only, or when they stand at the end.
pub fn bad_record(random: &mut Random) -> Vec<u8> {
    let byte = random.byte();
    match random.below(12) {
        0 => vec![0x00],
        1 => vec![0x0A],
        2 => vec![0xFF],
        3 => vec![byte],
        4 => vec![0x06, 0x00],
        5 => vec![0x06, 0x08],
        6 => vec![0x06, byte],
        7 => vec![0x08, 0x10],
        8 => vec![0x08, byte],
        9 => vec![0x07, 0x12, 0x34, 0x05, byte],
        10 => vec![0x09],
        _ => vec![0x08, byte & 0x0F],
    }
}

/// Of each kind whose body can be bad, a bad one. On a part that lacks the kind, it is the kind that is refused.
pub fn bad_body(random: &mut Random) -> Vec<u8> {
    let kind = random.pick(&[0x06, 0x07, 0x08]);
    let (lowest_bad, edges) = match kind {
        0x06 => (0x08, [0x00, 0x08, 0xFF]),
        0x07 => (0x01, [0x01, 0x80, 0xFF]),
        _ => (0x10, [0x10, 0x80, 0xFF]),
    };
    let at_fault = match random.below(2) {
        0 => random.pick(&edges),
        _ => random.byte().max(lowest_bad),
    };
    match kind {
        0x07 => {
            let [a, b, c] = any_keys(random);
            vec![kind, a, b, c, at_fault]
        }
        _ => vec![kind, at_fault],
    }
}

/// The front of a record that goes on, and what it lacks, which may make it bad. Some parts lack some of the kinds.
pub fn cut_record(random: &mut Random) -> (Vec<u8>, Vec<u8>) {
    let [a, b, c] = any_keys(random);
    let mut front = match random.below(6) {
        0 | 1 => vec![0x07, a, b, c, random.byte()],
        2 => vec![0x07, a, b, c, 0x00],
        3 => vec![0x03, random.byte()],
        4 => vec![random.pick(&[0x06, 0x08]), 1 + random.below(7) as u8],
        _ => bad_body(random),
    };
    let lacking = front.split_off(1 + random.below(front.len() - 1));
    (front, lacking)
}

/// Also bytes that would be kinds if they stood elsewhere, or bad bodies.
fn any_keys(random: &mut Random) -> [u8; 3] {
    [(); 3].map(|()| match random.below(3) {
        0 => random.byte(),
        _ => random.pick(&[0x00, 0x05, 0x06, 0x07, 0x08, 0xFF]),
    })
}
