//! Lines of the section `temperatures`, on which a program is compared with the temperature here.

use crate::bits::{Bits, Byte};
use crate::knowledge::PT6302;
use crate::random::Random;
use crate::temperature::FIELD;
use crate::trial_bits::{any_bits_word, bad_bits_word, said_of, some_bits_of};
use crate::trial_fields::any_field;

/// A known number, or unknown.
type Standing = Option<u8>;

const CELLS: usize = 16;

/// The line with this number, which depends on nothing but the seed and the number.
pub fn trial_temperature(seed: u64, number: usize) -> String {
    let random = &mut Random::for_trial(seed, number);
    let digits = any_digits(random);
    let start = any_start(digits, random);
    let cells = any_cells(random);
    let mut line = Draft::new(start);
    if random.once_in(15) {
        line.of_another_part(random);
        line.bytes = any_field(random).to_vec();
    } else {
        line.nothing = random.once_in(6);
        line.say_beside_the_point(random);
        line.say("width", Some(4), digits, random);
        line.say("lights", Some(2), any_lights(random), random);
        line.say_cells(&cells, random);
        match random.below(24) {
            0 | 1 => line.words.push(at_the_ranges(random)),
            2 => line.words.push(bad_bits_word(PT6302, random)),
            _ => {}
        }
        shuffle(&mut line.words, random);
    }
    line.text(random)
}

fn any_digits(random: &mut Random) -> Standing {
    match random.below(10) {
        0 => None,
        1..=3 => Some(0),
        _ => Some(random.below(8) as u8),
    }
}

/// Starts on both sides of the last one that the digits in use have room for, and of the last one that there is.
fn any_start(digits: Standing, random: &mut Random) -> usize {
    let last_start = match digits {
        None => 4,
        Some(0) => 11,
        Some(code) => usize::from(code) + 3,
    };
    match random.below(12) {
        0 | 1 => 0,
        2..=4 => last_start,
        5 => last_start + 1,
        6..=8 => random.below(last_start + 1),
        9 | 10 => random.below(12),
        _ => random.pick(&[11, 12, 13, 15, 16, 100, 255]),
    }
}

fn any_lights(random: &mut Random) -> Standing {
    match random.below(12) {
        0 => None,
        1 => Some(1),
        2 => Some(2),
        _ => Some(0),
    }
}

fn any_cells(random: &mut Random) -> [Byte; FIELD] {
    let field = any_field(random);
    let mut cells = field.map(Bits::all_known);
    let at = random.below(FIELD);
    match random.below(12) {
        0 => cells[at] = Bits::UNKNOWN,
        1 => cells[at] = some_bits_of(field[at], random),
        2 => {
            cells = field.map(|byte| match random.below(3) {
                0 => some_bits_of(byte, random),
                _ => Bits::all_known(byte),
            });
        }
        _ => {}
    }
    cells
}

/// Values on both sides of each fact's range.
fn at_the_ranges(random: &mut Random) -> String {
    let words = [
        "text00!",
        "text0B!",
        "text0F!",
        "text0F=FF",
        "shape00!",
        "shape27=7F",
        "shape27=80",
        "mark00!",
        "mark0F=03",
        "mark0F=04",
        "dcram=0F",
        "dcram=10",
        "glyph=07",
        "glyph=08",
        "adram=0F",
        "adram=10",
        "column=04",
        "column=05",
        "out=03",
        "out=04",
        "out=00/04",
        "text0F=2D/FE",
        "text0F=2C/FE",
        "shape27=00/FF",
        "mark0F=02/02",
        "bright=07",
        "bright=08",
        "width=07",
        "width=08",
        "lights=03",
        "lights=FF",
        "position=05",
        "position=06",
    ];
    random.pick(&words).into()
}

/// The later of two words on one fact counts, so their order matters.
fn shuffle(words: &mut [String], random: &mut Random) {
    for at in 1..words.len() {
        words.swap(at, random.below(at + 1));
    }
}

/// A line in the making.
struct Draft {
    part: u8,
    /// Nothing is known but what the words say.
    nothing: bool,
    words: Vec<String>,
    start: usize,
    bytes: Vec<u8>,
}

impl Draft {
    fn new(start: usize) -> Self {
        Draft {
            part: PT6302,
            nothing: false,
            words: Vec::new(),
            start,
            bytes: Vec::new(),
        }
    }

    /// Words of parts that have no field, good and bad.
    fn of_another_part(&mut self, random: &mut Random) {
        self.part = random.pick(&[0x12, 0x12, 0x15, 0x15, 0x00, 0x14, 0xFF]);
        let words = [
            "nothing",
            "invalid",
            "cell07?",
            "cell00=2D",
            "every=2D",
            "led=09",
            "led=10",
            "led=01/0E",
            "every=2C/FE",
            "position=04",
        ];
        for _ in 0..random.below(3) {
            self.words.push(random.pick(&words).into());
        }
    }

    /// A fact that is known anyway, or is unknown anyway, is spoken of only now and then.
    fn say(&mut self, name: &str, usual: Standing, standing: Standing, random: &mut Random) {
        let anyway = if self.nothing { None } else { usual };
        if standing != anyway || random.once_in(4) {
            self.words.push(name.to_string() + &said(standing));
        }
    }

    /// The same of a cell.
    fn say_cell(&mut self, at: usize, cell: Byte, random: &mut Random) {
        let anyway = match self.nothing {
            true => Bits::UNKNOWN,
            false => Bits::all_known(0x6E),
        };
        if cell != anyway || random.once_in(4) {
            self.words.push(format!("text{at:02X}{}", said_of(cell)));
        }
    }

    /// Facts that the field does not ask for: those beside DCRAM, and its cells to both sides of the field.
    fn say_beside_the_point(&mut self, random: &mut Random) {
        let facts = [
            ("mark00", 3),
            ("mark05", 3),
            ("shape0C", 127),
            ("dcram", 15),
            ("glyph", 7),
            ("adram", 15),
            ("column", 4),
            ("out", 3),
            ("bright", 7),
            ("position", 5),
        ];
        for (name, highest) in facts {
            if random.once_in(8) {
                let value = random.below(highest + 1) as u8;
                let standing = random.pick(&[Some(value), Some(highest as u8), None]);
                self.words.push(name.to_string() + &said(standing));
            }
        }
        for at in [self.start.wrapping_sub(1), self.start + FIELD] {
            if at < CELLS && random.once_in(4) {
                let said = random.pick(&["=2D", "=30", "=2C/FE", "=00/02", "?"]);
                self.words.push(format!("text{at:02X}{said}"));
            }
        }
        if random.once_in(12) {
            self.words.push(any_bits_word(PT6302, random));
        }
    }

    /// The first cells are given as bytes, up to any with an unknown bit, and the others in words.
    /// What words say of a cell that has a byte does not count.
    fn say_cells(&mut self, cells: &[Byte; FIELD], random: &mut Random) {
        let known = cells.iter().map_while(|cell| cell.whole());
        let most = if random.once_in(4) {
            random.below(FIELD)
        } else {
            FIELD
        };
        self.bytes = known.take(most).collect();
        let given = self.bytes.len();
        let in_dcram = (self.start..CELLS).zip(cells).enumerate();
        for (number, (at, &cell)) in in_dcram {
            if number >= given {
                self.say_cell(at, cell, random);
            } else if random.once_in(20) {
                let beaten = random.pick(&["?", "!", "=00", "=2D", "=2C/FE", "=2D/FE"]);
                self.words.push(format!("text{at:02X}{beaten}"));
            }
        }
        if given == FIELD && random.once_in(6) {
            let more = random.below(8);
            self.bytes.extend((0..more).map(|_| random.byte()));
        }
    }

    fn text(&self, random: &mut Random) -> String {
        let mut pieces = vec![format!("{:02X}", self.part)];
        if self.nothing {
            pieces.push("nothing".into());
        }
        pieces.extend_from_slice(&self.words);
        if self.start != 0 || random.once_in(2) {
            pieces.push(format!("@{:02X}", self.start));
        }
        pieces.extend(self.bytes.iter().map(|byte| format!("{byte:02X}")));
        pieces.join(" ")
    }
}

fn said(standing: Standing) -> String {
    standing.map_or("?".into(), |value| format!("={value:02X}"))
}
