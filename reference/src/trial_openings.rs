//! What is kept before the first packet, as a line of the section `packets` says it.

use crate::damage::cut_record;
use crate::example_lines::bytes_in_words;
use crate::knowledge::{PT6302, PT6312, PT6315};
use crate::random::Random;
use crate::trial_bits::{any_bits_word, bad_bits_word};

/// A line with a part byte in the making.
pub struct Opening {
    part: u8,
    words: Vec<String>,
    unfinished: Vec<u8>,
    /// What the unfinished record lacks, so that the packets can go on with it.
    pub lacking: Vec<u8>,
    total: Option<u32>,
    /// The number and place of a refusal.
    standing: Option<(u8, u32)>,
}

impl Opening {
    /// Most keep nothing, or an unfinished record. Few keep what is not good, since then nothing is done.
    pub fn any(part: u8, random: &mut Random) -> Self {
        let mut opening = Opening {
            part,
            words: any_knowledge(part, random),
            unfinished: Vec::new(),
            lacking: Vec::new(),
            total: None,
            standing: None,
        };
        if random.once_in(3) {
            opening.cut_a_record(random);
        }
        if random.once_in(4) || !opening.unfinished.is_empty() {
            let least = opening.unfinished.len() as u32;
            opening.total = Some(any_total(random).max(least));
        }
        if random.once_in(20) {
            let number = random.pick(&[5, 6, 8]);
            opening.standing = Some((number, any_total(random)));
        }
        if random.once_in(20) {
            opening.spoil(random);
        }
        opening
    }

    /// A record of a kind that the part lacks cannot be kept; of those made, few are left.
    fn cut_a_record(&mut self, random: &mut Random) {
        (self.unfinished, self.lacking) = cut_record(random);
        let of_this_part = match self.unfinished[0] {
            0x07 => self.part != PT6302,
            0x08 => self.part == PT6312,
            _ => true,
        };
        if !of_this_part && !random.once_in(8) {
            (self.unfinished, self.lacking) = (vec![0x06], vec![random.below(10) as u8]);
        }
    }

    /// Makes it what is not good, whatever it was.
    fn spoil(&mut self, random: &mut Random) {
        match random.below(5) {
            0 => self.words.push(out_of_range(self.part, random).into()),
            1 => self.words.push(bad_bits_word(self.part, random)),
            2 => {
                self.unfinished = random.pick(NOT_CUT).to_vec();
                self.total = Some(any_total(random).max(4));
            }
            3 => {
                self.unfinished = vec![0x07, 0x12, 0x34];
                self.total = Some(random.below(3) as u32);
            }
            _ => {
                let number = random.pick(&NEVER_STANDING);
                self.standing = Some((number, any_total(random)));
            }
        }
    }

    pub fn line(&self) -> String {
        let mut line = format!("{:02X}", self.part);
        for word in &self.words {
            line += &format!(" {word}");
        }
        line += &bytes_in_words(&self.unfinished);
        if let Some(total) = self.total {
            line += &format!(" @{total:08X}");
        }
        if let Some((number, place)) = self.standing {
            line += &format!(" ${number:02X}={place:04X}");
        }
        line
    }
}

/// Bytes that are not the cut-off start of a record on any part: whole ones, more than one, and kinds that are none.
const NOT_CUT: &[&[u8]] = &[
    &[0x01],
    &[0x05],
    &[0x09],
    &[0x03, 0x11],
    &[0x06, 0x00],
    &[0x06, 0x03, 0x06],
    &[0x03, 0x01, 0x03],
    &[0x00],
    &[0x0A],
    &[0xFF, 0x03],
];

/// The other numbers that a replay gives. No line has further ones, which the program could not hold.
const NEVER_STANDING: [u8; 6] = [0, 1, 2, 3, 4, 7];

/// Totals also serve as the places of refusals. Many are near the highest, so that the packets pass it.
fn any_total(random: &mut Random) -> u32 {
    match random.below(6) {
        0 => 0,
        1 => random.below(300) as u32,
        2 => random.pick(&[0xFF, 0xFFFF, 0x00FF_FFFF]) - random.below(20) as u32,
        3 => random.number() as u32,
        _ => u32::MAX - random.below(40) as u32,
    }
}

/// Everything, nothing, or either but for some facts that the next bytes lean on, and for some bits.
fn any_knowledge(part: u8, random: &mut Random) -> Vec<String> {
    let facts: &[&str] = match part {
        PT6302 => &CHARACTER_FACTS,
        _ => &KEY_FACTS,
    };
    let mut words: Vec<String> = Vec::new();
    if random.once_in(3) {
        words.push("nothing".into());
    }
    for _ in 0..random.below(5).saturating_sub(1) {
        words.push(random.pick(facts).into());
    }
    if random.once_in(2) {
        let count = 1 + random.below(3);
        words.extend((0..count).map(|_| any_bits_word(part, random)));
    }
    words
}

const CHARACTER_FACTS: [&str; 16] = [
    "position=00",
    "position=01",
    "position=02",
    "position=03",
    "position=04",
    "position?",
    "dcram=0F",
    "dcram?",
    "glyph=07",
    "glyph?",
    "column=04",
    "column?",
    "adram?",
    "text0F?",
    "shape00=7F",
    "mark0F=03",
];
const KEY_FACTS: [&str; 18] = [
    "position=00",
    "position=01",
    "position=02",
    "position?",
    "address=15",
    "address?",
    "invalid",
    "data=00",
    "data=01",
    "data=02",
    "data?",
    "fixed=00",
    "fixed=01",
    "fixed?",
    "reads=04",
    "every=00",
    "cell15?",
    "key02?",
];

/// A value just above a fact's highest.
fn out_of_range(part: u8, random: &mut Random) -> &'static str {
    let words: &[&str] = match part {
        PT6302 => &CHARACTER_FACTS_TOO_HIGH,
        PT6315 => &PT6315_FACTS_TOO_HIGH,
        _ => &PT6312_FACTS_TOO_HIGH,
    };
    random.pick(words)
}

const CHARACTER_FACTS_TOO_HIGH: [&str; 9] = [
    "dcram=10",
    "glyph=08",
    "adram=10",
    "column=05",
    "out=04",
    "bright=08",
    "width=08",
    "shape27=80",
    "mark0F=04",
];
const PT6312_FACTS_TOO_HIGH: [&str; 6] = [
    "address=16",
    "mode=08",
    "bright=08",
    "led=10",
    "switches=10",
    "reads=05",
];
const PT6315_FACTS_TOO_HIGH: [&str; 6] = [
    "address=24",
    "mode=09",
    "bright=08",
    "led=10",
    "data=03",
    "reads=05",
];
