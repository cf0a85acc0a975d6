//! Lines of the section `updates`, on which a program is compared with the update here.

use crate::bits::{Bits, Byte};
use crate::example_key_panels::USUAL_CELL;
use crate::example_updates::{Example, MOST_ROOM};
use crate::knowledge::{PT6302, PT6312, PT6315};
use crate::random::Random;
use crate::trial_bits::{any_bits_word, bad_bits_word, said_of, some_bits_of};

/// The line with this number, which depends on nothing but the seed and the number.
pub fn trial_update(seed: u64, number: usize) -> String {
    let random = &mut Random::for_trial(seed, number);
    let part = any_part(random);
    let mut words = vec![format!("{part:02X}")];
    let wanted = match part {
        PT6302 => {
            words.extend(character_words(random));
            any_bytes(random, 16)
        }
        _ => {
            let panel = Wish::any(part, random);
            words.extend(panel.words(random));
            panel.wanted
        }
    };
    let wanted: Vec<String> = wanted.iter().map(|byte| format!("{byte:02X}")).collect();
    if random.once_in(2) {
        let unhindered = [&words[..], &wanted].concat().join(" ");
        words.push(any_room(&unhindered, random));
    }
    words.extend(wanted);
    words.join(" ")
}

fn any_part(random: &mut Random) -> u8 {
    match random.below(40) {
        0 | 1 => PT6302,
        2 => random.pick(&[0x00, 0x14, 0xFF]),
        number if number % 2 == 0 => PT6312,
        _ => PT6315,
    }
}

/// Lengths around that of the stream, which is looked up where there is room for any, and lengths far from it.
fn any_room(unhindered: &str, random: &mut Random) -> String {
    let length = Example::read(unhindered).update().stream.len();
    let room = match random.below(8) {
        0 | 1 => length,
        2 | 3 => length.saturating_sub(1),
        4 => length + 1,
        5 => 0,
        6 => MOST_ROOM,
        _ => random.below(MOST_ROOM + 1),
    };
    format!("@{:04X}", room.min(MOST_ROOM))
}

fn any_bytes(random: &mut Random, most: usize) -> Vec<u8> {
    let length = random.below(most + 1);
    (0..length).map(|_| random.byte()).collect()
}

/// Words of the part that has no update, good and bad.
fn character_words(random: &mut Random) -> Vec<String> {
    let words = [
        "nothing",
        "text0F=41/FE",
        "out=00/04",
        "position?",
        "text0F?",
        "text03=41",
        "shape27=80",
        "lights=03",
        "out=04",
        "width=08",
    ];
    let count = random.below(3);
    (0..count).map(|_| random.pick(&words).into()).collect()
}

/// A known number, or unknown.
type Standing = Option<u8>;

/// What is known of the cells before any single cell is spoken of.
#[derive(Clone, Copy)]
enum Base {
    Usual,
    Every(Byte),
    Nothing,
}

impl Base {
    fn any(random: &mut Random) -> Self {
        match random.below(9) {
            0 | 1 => Base::Every(Bits::all_known(random.byte())),
            2 => Base::Every(Bits::UNKNOWN),
            3 => Base::Nothing,
            4 => Base::Every(some_bits_of(random.pick(&[USUAL_CELL, 0x00]), random)),
            _ => Base::Usual,
        }
    }

    fn word(self) -> Option<String> {
        match self {
            Base::Usual => None,
            Base::Every(cell) => Some(format!("every{}", said_of(cell))),
            Base::Nothing => Some("nothing".into()),
        }
    }

    fn cell(self) -> Byte {
        match self {
            Base::Usual => Bits::all_known(USUAL_CELL),
            Base::Every(cell) => cell,
            Base::Nothing => Bits::UNKNOWN,
        }
    }

    /// What is known of data mode and stepping, whose numbers are both 0.
    fn setting(self) -> Standing {
        match self {
            Base::Nothing => None,
            _ => Some(0),
        }
    }
}

fn said(standing: Standing) -> String {
    standing.map_or("?".into(), |value| format!("={value:02X}"))
}

/// A PT6312 or PT6315, or what a byte that names no part is asked for: the cells that are known and those wanted.
struct Wish {
    part: u8,
    base: Base,
    known: Vec<Byte>,
    /// Those that are given, from 00H on; there may be fewer than cells.
    wanted: Vec<u8>,
}

impl Wish {
    fn any(part: u8, random: &mut Random) -> Self {
        let cells = if part == PT6315 { 36 } else { 22 };
        let base = Base::any(random);
        let pool = [USUAL_CELL, 0x00, random.byte(), random.byte()];
        let given = match random.below(3) {
            0 => 0,
            1 => random.below(cells + 1),
            _ => cells,
        };
        let wanted: Vec<u8> = (0..given).map(|_| random.pick(&pool)).collect();
        let pattern = any_pattern(cells, random);
        let known = (0..cells)
            .map(|at| {
                let wish = wanted.get(at).copied().unwrap_or(USUAL_CELL);
                if pattern[at] {
                    other_than(wish, base, random)
                } else {
                    Bits::all_known(wish)
                }
            })
            .collect();
        Wish {
            part,
            base,
            known,
            wanted,
        }
    }

    fn words(&self, random: &mut Random) -> Vec<String> {
        let mut words: Vec<String> = self.base.word().into_iter().collect();
        for (at, &cell) in self.known.iter().enumerate() {
            if cell != self.base.cell() {
                words.push(format!("cell{at:02X}{}", said_of(cell)));
            }
        }
        let data_modes = [Some(0), Some(0), Some(0), Some(0), Some(1), Some(2), None];
        let data_mode = if self.part == PT6312 && random.once_in(8) {
            Some(3)
        } else {
            random.pick(&data_modes)
        };
        let stepping = random.pick(&[Some(0), Some(0), Some(1), None]);
        for (name, value) in [("data", data_mode), ("fixed", stepping)] {
            if value != self.base.setting() || random.once_in(4) {
                words.push(name.to_string() + &said(value));
            }
        }
        words.extend(self.beside_the_point(random));
        match random.below(16) {
            0 => words.push(self.at_the_ranges(random)),
            1 => words.push(bad_bits_word(self.part, random)),
            2 | 3 => words.push(any_bits_word(self.part, random)),
            _ => {}
        }
        words
    }

    /// Facts that an update does not ask for.
    fn beside_the_point(&self, random: &mut Random) -> Vec<String> {
        let mut words = Vec::new();
        let last_cell = self.known.len() - 1;
        let highest_mode = if self.part == PT6315 { 8 } else { 7 };
        let facts = [
            ("address", last_cell),
            ("mode", highest_mode),
            ("bright", 7),
            ("on", 1),
            ("led", 15),
            ("key02", 255),
            ("switches", 15),
            ("reads", 4),
            ("position", 3),
        ];
        for (name, highest) in facts {
            if random.once_in(5) {
                let value = random.below(highest + 1) as u8;
                let standing = random.pick(&[Some(value), Some(highest as u8), None]);
                words.push(name.to_string() + &said(standing));
            }
        }
        if random.once_in(6) {
            words.push("invalid".into());
        }
        words
    }

    /// Values outside a range, and some that are so on one part only, or in what is no fact of one.
    fn at_the_ranges(&self, random: &mut Random) -> String {
        let words = [
            "cell00!",
            "cell15!",
            "cell16!",
            "cell23!",
            "every!",
            "address=15",
            "address=16",
            "address=23",
            "address=24",
            "address=FF",
            "data=03",
            "data=04",
            "fixed=02",
            "mode=08",
            "mode=09",
            "bright=08",
            "on=02",
            "led=10",
            "led=FF",
            "led=05/0D",
            "led=00/1F",
            "cell15=00/7F",
            "cell15=80/7F",
            "key02!",
            "key03!",
            "switches=10",
            "reads=05",
            "position=04",
        ];
        random.pick(&words).into()
    }
}

/// Which cells are to differ.
fn any_pattern(cells: usize, random: &mut Random) -> Vec<bool> {
    let start = random.below(cells);
    let length = 1 + random.below(cells);
    let from_start = |at: usize| (at + cells - start) % cells;
    match random.below(10) {
        0 => vec![false; cells],
        1 => vec![true; cells],
        2 => (0..cells).map(|at| at % 2 == start % 2).collect(),
        3 => (0..cells).map(|at| at == start).collect(),
        4 => (0..cells).map(|at| at != start).collect(),
        5 | 6 => (0..cells).map(|at| from_start(at) < length).collect(),
        7 => (0..cells).map(|_| random.once_in(6)).collect(),
        8 => (0..cells).map(|_| !random.once_in(6)).collect(),
        _ => (0..cells).map(|_| random.once_in(2)).collect(),
    }
}

/// Unknown or different, in all bits or in some, and where it can be what is known anyway.
fn other_than(wish: u8, base: Base, random: &mut Random) -> Byte {
    let different = match random.byte() {
        byte if byte == wish => !wish,
        byte => byte,
    };
    let one_bit_off = wish ^ 1 << random.below(8);
    match random.below(8) {
        0 => Bits::UNKNOWN,
        1 => Bits::all_known(different),
        2 => Bits::all_known(one_bit_off),
        3 => some_bits_of(wish, random),
        4 => some_bits_of(different, random),
        _ if base.cell() != Bits::all_known(wish) => base.cell(),
        _ => some_bits_of(wish, random),
    }
}
