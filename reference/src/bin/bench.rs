//! Takes one recording many times in memory, whole or in packets, and prints a checksum over all that came out.
//!
//! It reads what the proved program reads. Every round's answer goes into the checksum, and then what is known at the
//! end of the last round.

use reference::answer::Answer;
use reference::bench_input::BenchInput;
use reference::checksum::Checksum;
use reference::knowledge::Knowledge;
use reference::packets::Packets;
use std::hint::black_box;
use std::io::{self, Read};

fn main() -> io::Result<()> {
    let mut input = Vec::new();
    io::stdin().read_to_end(&mut input)?;
    let input = BenchInput::read(&input);
    let mut checksum = Checksum::default();
    let mut knowledge = input.start;
    for _ in 0..input.rounds {
        // The compiler may not assume that a round starts as the one before, nor that nothing looks at what it left.
        knowledge = *black_box(&input.start);
        let recording = black_box(input.recording);
        let answer = match input.packet {
            0 => whole(&mut knowledge, recording),
            size => in_packets(&mut knowledge, recording, size),
        };
        checksum.take_answer(answer);
        black_box(&knowledge);
    }
    if let Some(knowledge) = &knowledge {
        checksum.take_knowledge(knowledge);
    }
    println!("{}", checksum.value());
    Ok(())
}

fn whole(knowledge: &mut Option<Knowledge>, recording: &[u8]) -> Answer {
    match knowledge {
        Some(knowledge) => knowledge.replay(recording, 0),
        None => Answer::refused(Answer::NO_SUCH_PART, 0),
    }
}

/// The last packet is whatever is left, so that an empty recording is one empty packet.
fn in_packets(knowledge: &mut Option<Knowledge>, mut recording: &[u8], size: usize) -> Answer {
    let mut packets = Packets::opened(*knowledge);
    while recording.len() > size {
        let (packet, rest) = recording.split_at(size);
        packets.take(packet);
        recording = rest;
    }
    packets.take(recording);
    let answer = packets.close();
    *knowledge = packets.knowledge;
    answer
}
