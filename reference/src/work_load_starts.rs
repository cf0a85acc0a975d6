//! Recordings from a start of which all is known but the position, the data mode or the addresses.
//!
//! No recording leads there: what loses one of these facts loses others with it. So a prelude makes all known, and the
//! fact is then forgotten.

use crate::knowledge::{Forgotten, PT6302, PT6312};
use crate::painting::paint_from;
use crate::random::Random;
use crate::recording::Recording;
use crate::work_loads::{named, WorkLoad, SHORT};

/// What is known before a recording: what a prelude tells, but for what is forgotten.
pub struct Start {
    pub prelude: Recording,
    pub forgotten: Forgotten,
}

impl Start {
    /// The start that an empty prelude gives.
    pub fn nothing() -> Self {
        Start {
            prelude: Recording::up_to(0),
            forgotten: Forgotten::default(),
        }
    }
}

/// What is unknown, and how the bytes come in.
#[derive(Clone, Copy)]
enum Case {
    /// No strobe ever tells where they stand.
    Position,
    /// The same, where data goes to the display.
    Shown,
    /// Strobes with an address and a few bytes.
    DataMode,
    /// One long strobe that writes to the display.
    Address,
    /// One long strobe, which began before the recording with this byte.
    Ram(u8),
}

const KEY_CASES: [(&str, Case); 4] = [
    ("position", Case::Position),
    ("data-mode", Case::DataMode),
    ("address", Case::Address),
    ("shown", Case::Shown),
];
/// Data goes to the display, and the address counts up.
const WRITE_DISPLAY: u8 = 0x40;
const CHARACTER_CASES: [(&str, Case); 4] = [
    ("position", Case::Position),
    ("dcram", Case::Ram(0x10)),
    ("cgram", Case::Ram(0x20)),
    ("adram", Case::Ram(0x30)),
];

/// Three bytes of which none, as a command, makes all unknown, so that some bits stay known to the end.
const FEW_TO_KEYS: [u8; 3] = [0x05, 0x8B, 0xC3];
const FEW_TO_CHARACTERS: [u8; 3] = [0x13, 0x24, 0x55];

/// Room for a painting of any part, and for the records around it.
const LONGEST_PRELUDE: usize = 200;
const BYTES_A_STROBE: usize = 12;

/// Each case with bytes of every kind, and with bytes from a pool of three that the panel is painted with, too.
pub fn partly_known(part: u8, random: &mut Random) -> Vec<WorkLoad> {
    let (cases, few): (&[_], _) = match part {
        PT6302 => (&CHARACTER_CASES, FEW_TO_CHARACTERS),
        _ => (&KEY_CASES, FEW_TO_KEYS),
    };
    let every_byte: Vec<u8> = (0..=255).collect();
    let mut loads = Vec::new();
    for &(kind, case) in cases {
        for (name, pool) in [("any", &every_byte[..]), ("few", &few[..])] {
            loads.push(WorkLoad {
                table: "partly",
                name: named(part, &format!("{kind}-{name}")),
                part,
                start: case.start(part, pool, random),
                recording: case.recording(pool, random),
            });
        }
    }
    loads
}

impl Case {
    fn start(self, part: u8, pool: &[u8], random: &mut Random) -> Start {
        let mut prelude = Recording::up_to(LONGEST_PRELUDE);
        prelude.power();
        if part != PT6302 {
            prelude.keys([random.byte(), random.byte(), random.byte(), 0]);
        }
        if part == PT6312 {
            prelude.switches(random.byte() & 0x0F);
        }
        paint_from(&mut prelude, part, random, pool);
        if let Case::Shown = self {
            prelude.strobe(WRITE_DISPLAY, &[]);
        }
        if let Case::Ram(first) = self {
            prelude.strobe_falls();
            prelude.byte_in(first);
        }
        let forgotten = Forgotten {
            position: matches!(self, Case::Position | Case::Shown),
            data_mode: matches!(self, Case::DataMode),
            addresses: matches!(self, Case::Address | Case::Ram(_)),
        };
        Start { prelude, forgotten }
    }

    fn recording(self, pool: &[u8], random: &mut Random) -> Recording {
        let mut recording = Recording::up_to(SHORT);
        if let Case::Address = self {
            recording.strobe_falls();
            recording.byte_in(WRITE_DISPLAY);
        }
        while !recording.is_full() {
            if let Case::DataMode = self {
                let data: Vec<u8> = (0..BYTES_A_STROBE).map(|_| random.pick(pool)).collect();
                recording.strobe(0xC0 | random.byte() & 0x0F, &data);
            } else {
                recording.byte_in(random.pick(pool));
            }
        }
        recording
    }
}
