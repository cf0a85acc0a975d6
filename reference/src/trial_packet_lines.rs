//! Lines of the section `packets`, on which a program is compared with the packets here.

use crate::example_lines::bytes_in_words;
use crate::random::Random;
use crate::trial_openings::Opening;
use crate::trial_short_recordings::{any_part, short_recording};

/// The lines with this number, which depend on nothing but the seed and the number: what is kept before, and packets.
/// Few packets are long, since each of these takes the time of many short ones.
pub fn trial_packets(seed: u64, number: usize) -> String {
    let random = &mut Random::for_trial(seed, number);
    let part = any_part(random);
    let opening = Opening::any(part, random);
    let mut recording = short_recording(part, random);
    if !random.once_in(6) {
        recording = [&opening.lacking, &recording[..]].concat();
    }
    let mut packets = cut(&recording, random);
    for _ in 0..random.below(3) {
        packets.push(packet(&short_recording(part, random)));
    }
    if random.once_in(80) {
        packets.insert(random.below(packets.len() + 1), long_packet(random));
    }
    packets.insert(0, opening.line());
    packets.join("\n")
}

fn packet(bytes: &[u8]) -> String {
    format!("/{}", bytes_in_words(bytes))
}

/// Cut at random, a byte a packet, or whole, with empty packets between. Behind a bad record the packets go on.
/// A long recording is not cut small, since all that is known is written behind every packet.
fn cut(mut recording: &[u8], random: &mut Random) -> Vec<String> {
    let most = random.pick(&[1, 1, 2, 4, 12, 600]);
    let most = most.max(recording.len() / 30);
    let empty_once_in = random.pick(&[3, 12, 1_000_000]);
    let mut packets = Vec::new();
    while !recording.is_empty() {
        if random.once_in(empty_once_in) {
            packets.push(packet(&[]));
        }
        let length = 1 + random.below(most);
        let (now, later) = recording.split_at(length.min(recording.len()));
        packets.push(packet(now));
        recording = later;
    }
    packets
}

/// The longest that is taken, or one byte more.
fn long_packet(random: &mut Random) -> String {
    let repeated = random.pick(&["04", "05", "03", "03 04", "07 01 02 03 00", "00"]);
    let length = random.pick(&["FFFF", "10000"]);
    format!("/ ( {repeated} )*{length}")
}
