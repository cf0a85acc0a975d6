//! Good recordings of many kinds, on which much becomes known and much stays unknown.

use crate::knowledge::{PT6302, PT6312, PT6315};
use crate::painting::paint_from;
use crate::random::Random;
use crate::recording::Recording;

/// A good recording of just this length; it may be longer than is taken.
pub fn any_recording(part: u8, length: usize, random: &mut Random) -> Vec<u8> {
    let mut talk = Talk::new(part, length, random);
    match random.below(8) {
        0 => talk.paintings(random),
        1 => talk.noise(random),
        2 | 3 => talk.writes_while_lost(random),
        _ => talk.mixed(random),
    }
    talk.recording.into_bytes()
}

/// A recording in the making, and the habits of the panel that it comes from.
struct Talk {
    part: u8,
    recording: Recording,
    /// Few different bytes make it likely that a write finds its own value already there, or most bits of it.
    pool: Vec<u8>,
    /// One step in so many is a gap.
    gap_once_in: usize,
}

impl Talk {
    fn new(part: u8, length: usize, random: &mut Random) -> Self {
        let pool = match random.below(5) {
            0 => (0..=255).collect(),
            4 => a_bit_apart(random),
            size => (0..size).map(|_| random.byte()).collect(),
        };
        let mut recording = Recording::up_to(length);
        if !random.once_in(4) {
            recording.power();
        }
        Talk {
            part,
            recording,
            pool,
            gap_once_in: random.pick(&[8, 40, 1_000_000]),
        }
    }

    fn has_keys(&self) -> bool {
        self.part != PT6302
    }

    fn paintings(&mut self, random: &mut Random) {
        while !self.recording.is_full() {
            paint_from(&mut self.recording, self.part, random, &self.pool);
        }
    }

    /// Any records in any order.
    fn noise(&mut self, random: &mut Random) {
        while !self.recording.is_full() {
            match random.below(16) {
                0 if random.once_in(6) => self.recording.power(),
                0 => self.recording.gap(),
                1..=3 => self.recording.strobe_falls(),
                4 => self.recording.strobe_rises(),
                5 => self.recording.unfinished(1 + random.below(7) as u8),
                6..=7 => self.latch_or_send(random),
                _ => self.recording.byte_in(random.byte()),
            }
        }
    }

    /// What a panel and its master would do, with a mishap now and then.
    fn mixed(&mut self, random: &mut Random) {
        while !self.recording.is_full() {
            if random.once_in(self.gap_once_in) {
                self.recording.gap();
            }
            match random.below(60) {
                0 => self.recording.power(),
                1..=3 => paint_from(&mut self.recording, self.part, random, &self.pool),
                4..=6 => self.latch_or_send(random),
                7..=8 => self.recording.byte_in(random.pick(&self.pool)),
                _ => self.strobe(random),
            }
        }
    }

    /// The address is lost, and bytes go on falling; paintings are few, since they would hide what those did.
    fn writes_while_lost(&mut self, random: &mut Random) {
        while !self.recording.is_full() {
            if random.once_in(3) {
                paint_from(&mut self.recording, self.part, random, &self.pool);
            }
            if self.part == PT6315 && !random.once_in(4) {
                self.lose_address(random);
            } else {
                self.recording.gap();
            }
            for _ in 0..random.below(4) {
                self.recording.strobe_falls();
                let setting = random.pick(&[0x40, 0x40, 0x41, 0x44]);
                self.recording.byte_in(setting);
                self.data(random);
            }
        }
    }

    /// Setting 11 leaves the data mode of a PT6315 open, so that a byte then steps only some chips.
    fn lose_address(&mut self, random: &mut Random) {
        let address = 0xC0 | random.byte() & 0x1F;
        self.recording.strobe(address, &[]);
        let byte = random.pick(&self.pool);
        self.recording
            .strobe(random.pick(&[0x43, 0x43, 0x47]), &[byte]);
    }

    /// Half of the runs repeat one byte, because different ones at an unknown address soon forget every bit.
    fn data(&mut self, random: &mut Random) {
        let bytes = match random.below(6) {
            0 => random.below(60),
            _ => random.below(6),
        };
        let repeats = random.once_in(2);
        let mut byte = random.pick(&self.pool);
        for _ in 0..bytes {
            self.recording.byte_in(byte);
            if !repeats {
                byte = random.pick(&self.pool);
            }
            if random.once_in(20) {
                self.latch_or_send(random);
            }
        }
    }

    /// One strobe with a command and what may follow; its end is sometimes unclean or missing.
    fn strobe(&mut self, random: &mut Random) {
        self.recording.strobe_falls();
        self.recording.byte_in(self.command(random));
        self.data(random);
        match random.below(12) {
            0 => self.recording.unfinished(1 + random.below(7) as u8),
            1 => {}
            _ => self.recording.strobe_rises(),
        }
    }

    fn command(&self, random: &mut Random) -> u8 {
        if random.once_in(25) {
            random.byte()
        } else if self.has_keys() {
            key_command(random)
        } else {
            character_command(random)
        }
    }

    /// PT6302 has nothing to latch or send, so there this is one more byte.
    fn latch_or_send(&mut self, random: &mut Random) {
        match random.below(4) {
            _ if !self.has_keys() => self.recording.byte_in(random.byte()),
            0 if self.part == PT6312 => self.recording.switches(random.byte() & 0x0F),
            0 | 1 => {
                let fourth = if self.part == PT6312 {
                    0
                } else {
                    random.byte()
                };
                let keys = [random.byte(), random.byte(), random.byte(), fourth];
                self.recording.keys(keys);
            }
            _ => self.recording.byte_out(),
        }
    }
}

/// Bytes that cost each other just a bit or two where the address is lost.
fn a_bit_apart(random: &mut Random) -> Vec<u8> {
    let byte = random.byte();
    let (one, other) = (1 << random.below(8), 1 << random.below(8));
    vec![byte, byte ^ one, byte ^ other]
}

/// Test mode is left out, since it would forget too much too often.
fn key_command(random: &mut Random) -> u8 {
    let byte = random.byte();
    match random.below(10) {
        0 => byte & 0x3F,
        1 => 0x80 | byte & 0x3F,
        2..=4 => 0x40 | byte & 0x37,
        _ => 0xC0 | byte & 0x3F,
    }
}

/// Undefined bytes are left out for the same reason.
fn character_command(random: &mut Random) -> u8 {
    let byte = random.byte();
    match random.below(10) {
        0..=2 => 0x10 | byte & 0x0F,
        3..=5 => 0x20 | byte & 0x0F,
        6..=7 => 0x30 | byte & 0x0F,
        8 => 0x40 | byte & 0x3F,
        _ => 0x80 | byte & 0x08,
    }
}
