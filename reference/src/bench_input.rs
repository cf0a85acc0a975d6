//! What the benchmark programs read: how often a recording is taken, how, from what is known before it, and itself.

use crate::knowledge::{replay_from_nothing, Forgotten, Knowledge};

/// The bytes in front of the prelude.
const IN_FRONT: usize = 12;

/// The benchmark's input, with the start worked out.
pub struct BenchInput<'a> {
    pub rounds: u32,
    /// The size of a packet, or 0 where the recording is replayed whole.
    pub packet: usize,
    /// What is known before each round, or none where the byte names no part.
    pub start: Option<Knowledge>,
    pub recording: &'a [u8],
}

impl<'a> BenchInput<'a> {
    /// The rounds in four bytes, the size of a packet and of the prelude in two each, the low byte first; a mark each
    /// for the position, the data mode and the addresses; the part byte, the prelude and the recording. What is missing
    /// counts as 0.
    pub fn read(input: &'a [u8]) -> Self {
        let byte = |place: usize| input.get(place).copied().unwrap_or(0);
        let number = |place: usize| u16::from_le_bytes([byte(place), byte(place + 1)]);
        let forgotten = Forgotten {
            position: byte(8) != 0,
            data_mode: byte(9) != 0,
            addresses: byte(10) != 0,
        };
        let rest = input.get(IN_FRONT..).unwrap_or(&[]);
        let (prelude, recording) = rest.split_at(rest.len().min(usize::from(number(6))));
        BenchInput {
            rounds: u32::from(number(0)) | u32::from(number(2)) << 16,
            packet: usize::from(number(4)),
            start: start(byte(11), prelude, forgotten),
            recording,
        }
    }
}

/// What a prelude tells to one who knew nothing, but for what is forgotten then.
fn start(part: u8, prelude: &[u8], forgotten: Forgotten) -> Option<Knowledge> {
    let (_, knowledge) = replay_from_nothing(part, prelude);
    knowledge.map(|knowledge| knowledge.without(forgotten))
}

/// All of an input that stands behind the rounds and the size of a packet.
pub fn load_bytes(part: u8, prelude: &[u8], forgotten: Forgotten, recording: &[u8]) -> Vec<u8> {
    let mut load = Vec::new();
    load.extend((prelude.len() as u16).to_le_bytes());
    let Forgotten {
        position,
        data_mode,
        addresses,
    } = forgotten;
    load.extend([position, data_mode, addresses].map(u8::from));
    load.push(part);
    load.extend_from_slice(prelude);
    load.extend_from_slice(recording);
    load
}
