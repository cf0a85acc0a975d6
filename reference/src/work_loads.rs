//! The recordings that the benchmark takes: for each part a panel painted over and over, one whose address is lost and
//! one with many gaps, each as long as may be; the first bytes of the paintings; and short ones from a start of which
//! all but a fact is known.

use crate::answer::LONGEST;
use crate::knowledge::{PARTS, PT6302, PT6315};
use crate::painting::{paint_any, paint_from};
use crate::random::Random;
use crate::recording::Recording;
use crate::work_load_starts::{partly_known, Start};

/// What a packet holds at most, and how long the recordings from partly known starts are.
pub const SHORT: usize = 1_500;

type Maker = fn(part: u8, length: usize, random: &mut Random) -> Recording;

const MAKERS: [(&str, Maker); 3] = [
    ("repainted", repainted),
    ("lost", lost_address),
    ("gaps", many_gaps),
];

/// A painting of PT6312 behind power is 67 bytes long.
const CALLS: [usize; 3] = [0, 67, SHORT];
const GROWING: [usize; 3] = [1_000, 10_000, LONGEST];

/// A recording, what is known before it, and the table of the benchmark that it is for.
pub struct WorkLoad {
    pub table: &'static str,
    pub name: String,
    pub part: u8,
    pub start: Start,
    pub recording: Recording,
}

/// All of them, table by table, and always the same.
pub fn all() -> Vec<WorkLoad> {
    let [characters, keys, more_keys] = PARTS;
    let parts = [keys, more_keys, characters];
    let mut loads = Vec::new();
    for part in parts {
        for (kind, make) in MAKERS {
            loads.push(from_nothing(
                "long",
                kind,
                part,
                make(part, LONGEST, &mut seeded(part)),
            ));
        }
    }
    for (table, lengths) in [("growing", GROWING), ("call", CALLS)] {
        for part in parts {
            for length in lengths {
                let recording = repainted(part, length, &mut seeded(part));
                let kind = format!("first-{length}");
                loads.push(from_nothing(table, &kind, part, recording));
            }
        }
    }
    for part in parts {
        loads.extend(partly_known(part, &mut seeded(part)));
    }
    loads
}

fn seeded(part: u8) -> Random {
    Random::new(u64::from(part))
}

/// The parts go by their makers' numbers.
pub fn named(part: u8, kind: &str) -> String {
    format!("63{part:02X}-{kind}")
}

fn from_nothing(table: &'static str, kind: &str, part: u8, recording: Recording) -> WorkLoad {
    WorkLoad {
        table,
        name: named(part, kind),
        part,
        start: Start::nothing(),
        recording,
    }
}

/// Everything becomes known, and stays so. The shorter of two is the longer's front, up to its last record or strobe.
fn repainted(part: u8, length: usize, random: &mut Random) -> Recording {
    let mut recording = Recording::up_to(length);
    recording.power();
    while !recording.is_full() {
        paint_any(&mut recording, part, random);
    }
    recording
}

/// Long runs of bytes fall at an unknown address; now and then a painting makes the panel known again.
fn lost_address(part: u8, length: usize, random: &mut Random) -> Recording {
    let mut recording = Recording::up_to(length);
    while !recording.is_full() {
        if random.once_in(4) {
            paint_any(&mut recording, part, random);
        }
        match part {
            PT6302 => lost_position(&mut recording, random),
            PT6315 if random.once_in(2) => lost_among_known_cells(&mut recording, random),
            _ => lost_by_gap(&mut recording, random),
        }
    }
    recording
}

fn run_length(random: &mut Random) -> usize {
    200 + random.below(400)
}

/// Behind a gap PT6302 learns its position and its address only together, so here both stay unknown.
fn lost_position(recording: &mut Recording, random: &mut Random) {
    recording.gap();
    for _ in 0..run_length(random) {
        recording.byte_in(random.byte());
    }
    recording.strobe_rises();
}

/// Behind a gap a data setting tells all that a write needs but the address.
fn lost_by_gap(recording: &mut Recording, random: &mut Random) {
    let data: Vec<u8> = (0..run_length(random)).map(|_| random.byte()).collect();
    recording.gap();
    recording.strobe(0x40, &data);
}

/// The undefined data setting of PT6315 is the one way to lose the address and keep known cells.
/// Writing what many cells already hold keeps those known for the whole run.
fn lost_among_known_cells(recording: &mut Recording, random: &mut Random) {
    let pool = [random.byte(), random.byte(), random.byte()];
    paint_from(recording, PT6315, random, &pool);
    recording.strobe(0xC0, &[]);
    recording.strobe(0x43, &[pool[0]]);
    recording.strobe(0x40, &vec![pool[0]; run_length(random)]);
}

/// About one record in twenty is a gap; strobes and any bytes stand between them.
fn many_gaps(_part: u8, length: usize, random: &mut Random) -> Recording {
    let mut recording = Recording::up_to(length);
    while !recording.is_full() {
        match random.below(20) {
            0 => recording.gap(),
            1..=4 => recording.strobe_falls(),
            5..=6 => recording.strobe_rises(),
            _ => recording.byte_in(random.byte()),
        }
    }
    recording
}
