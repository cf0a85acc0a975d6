//! What the words of a line say of facts that are known bit by bit: of which any bits are unknown, and now and then
//! stored as they cannot be.

use crate::bits::{Bits, Byte};
use crate::example_key_panels::MOST_CELLS;
use crate::knowledge::{PT6302, PT6312};
use crate::random::Random;

/// Facts that one name speaks of.
#[derive(Clone, Copy)]
struct Named {
    name: &'static str,
    /// From this number up to that one; none where the name has no number.
    numbers: Option<(usize, usize)>,
    /// A 1 for each bit that such a fact has.
    all: u8,
}

const fn row(name: &'static str, from: usize, to: usize, all: u8) -> Named {
    let numbers = Some((from, to));
    Named { name, numbers, all }
}

const fn single(name: &'static str, all: u8) -> Named {
    let numbers = None;
    Named { name, numbers, all }
}

const CHARACTER_BITS: [Named; 4] = [
    row("text", 0, 16, 0xFF),
    row("shape", 0, 40, 0x7F),
    row("mark", 0, 16, 0x03),
    single("out", 0x03),
];
const PT6312_BITS: [Named; 4] = [
    row("cell", 0, 22, 0xFF),
    row("cell", 0, 22, 0xFF),
    single("led", 0x0F),
    single("every", 0xFF),
];
const PT6315_BITS: [Named; 4] = [
    row("cell", 0, 36, 0xFF),
    row("cell", 0, 36, 0xFF),
    single("led", 0x0F),
    single("every", 0xFF),
];
/// Words speak of so many cells on every part.
const NO_CELLS_OF_PT6312: Named = row("cell", 22, MOST_CELLS, 0xFF);

impl Named {
    /// Any that is a fact of the part; words for a byte that names none are those of PT6315.
    fn any(part: u8, random: &mut Random) -> Self {
        random.pick(match part {
            PT6302 => &CHARACTER_BITS,
            PT6312 => &PT6312_BITS,
            _ => &PT6315_BITS,
        })
    }

    fn word(self, said: &str, random: &mut Random) -> String {
        let name = self.name;
        match self.numbers {
            None => format!("{name}{said}"),
            Some((from, to)) => format!("{name}{:02X}{said}", from + random.below(to - from)),
        }
    }
}

/// A word that leaves a fact in range. Cells that words can speak of but the part lacks may hold what they like.
pub fn any_bits_word(part: u8, random: &mut Random) -> String {
    if part == PT6312 && random.once_in(12) {
        let said = bad_bits(0xFF, random);
        return NO_CELLS_OF_PT6312.word(&said, random);
    }
    let named = Named::any(part, random);
    let said = any_bits(named.all, random);
    named.word(&said, random)
}

/// A word that leaves a fact out of range.
pub fn bad_bits_word(part: u8, random: &mut Random) -> String {
    let named = Named::any(part, random);
    let said = bad_bits(named.all, random);
    named.word(&said, random)
}

/// Any bits of these, which are the lowest of a byte, and at least one: all of them, one, all but one, or whichever.
fn any_marks(all: u8, random: &mut Random) -> u8 {
    let one = 1 << random.below(all.count_ones() as usize);
    match random.below(4) {
        0 => all,
        1 => one,
        2 => all & !one,
        _ => one | random.byte() & all,
    }
}

/// The byte, of which at least one bit is unknown.
pub fn some_bits_of(byte: u8, random: &mut Random) -> Byte {
    let known = !any_marks(0xFF, random);
    Bits::new(byte & known, known)
}

/// Some bits are unknown, or all are, or none. What has a short form is sometimes said in full.
fn any_bits(all: u8, random: &mut Random) -> String {
    let known = all & !any_marks(all, random);
    let known = if random.once_in(6) { all } else { known };
    let values = random.byte() & known;
    if random.once_in(6) {
        in_full(values, known)
    } else {
        said(values, known, all)
    }
}

/// A 1 in a bit that is not marked, or a mark on a bit that the fact lacks, whose value may well be 0.
fn bad_bits(all: u8, random: &mut Random) -> String {
    let known = any_marks(all, random);
    let values = random.byte() & known;
    let bit = 1 << random.below(8);
    match random.below(6) {
        0 => "!".into(),
        1 if all & bit == 0 => format!("={:02X}", values | bit),
        2 | 3 if all & bit == 0 => in_full(values | random.byte() & bit, known | bit),
        _ => said(values | bit, known & !bit, all),
    }
}

fn in_full(values: u8, known: u8) -> String {
    format!("={values:02X}/{known:02X}")
}

/// In the shortest form, which needs no marks where all bits are known, or none.
fn said(values: u8, known: u8, all: u8) -> String {
    match (values, known) {
        (0, 0) => "?".into(),
        _ if known == all => format!("={values:02X}"),
        _ => in_full(values, known),
    }
}

/// What a word says of a fact that is known so.
pub fn said_of<const ALL: u8>(bits: Bits<ALL>) -> String {
    said(bits.values, bits.known, ALL)
}
