//! Holds the temperature against chips that fit, whose text is read as a person would read it: a handful for each
//! knowledge.

use crate::bit_facts::byte_of;
use crate::cases::{any_knowledge, any_of_them, put_bits};
use crate::character_chip::{CharacterChip, BYTE_BITS, DCRAM, DIGITS, LIGHTS};
use crate::join::Chip;
use crate::Facts;
use reference::answer::Answer;
use reference::character_panel::Pt6302;
use reference::knowledge::Knowledge;
use reference::random::Random;
use reference::temperature::{temperature, Field, FIELD};
use reference::trial_fields::any_field;
use std::ops::Range;

const CASES: usize = 60_000;
const CHIPS: usize = 4;

const NORMAL: u8 = 0;
/// The digits code.
const ALL_16: u8 = 0;

type Row = Vec<Option<u8>>;

/// Fields that are often in the digits in use and often known, on panels of which all else is known or not.
fn any_case(random: &mut Random) -> (Row, u8) {
    let pool = [random.byte(), random.byte(), 0x2D];
    let mut known = any_knowledge(&CharacterChip, &pool, random);
    let start = random.below(12);
    let unknown_once_in = random.pick(&[4, 1_000_000]);
    for (at, cell) in any_field(random).into_iter().enumerate() {
        let is_unknown = random.once_in(unknown_once_in);
        let unknown_bits = if is_unknown {
            any_of_them(random)
        } else {
            0x00
        };
        put_bits(&mut known[cell_at(start + at)], cell, !unknown_bits);
    }
    if random.once_in(2) {
        (known[DIGITS], known[LIGHTS]) = (Some(ALL_16), Some(NORMAL));
    }
    (known, start as u8)
}

/// The facts of a cell of DCRAM.
fn cell_at(at: usize) -> Range<usize> {
    let first = DCRAM + BYTE_BITS * at;
    first..first + BYTE_BITS
}

/// Some of the facts that are unknown become known, as a chip that fits may have them.
fn learn(known: &Row, once_in: usize, random: &mut Random) -> Row {
    let facts = known.iter().zip(CharacterChip.ranges());
    facts
        .map(|(fact, range)| {
            let learnt = random.below(range) as u8;
            fact.or(random.once_in(once_in).then_some(learnt))
        })
        .collect()
}

fn field(known: &Row, start: u8) -> Field {
    let knowledge = Knowledge::Pt6302(Pt6302::from_row(known));
    let shown = temperature(Some(&knowledge), start);
    assert_eq!(shown.answer, Answer::done(0), "{start} {known:02X?}");
    shown.field
}

/// Minus nought and plus nought are not the same here.
fn same(one: Field, other: Field) -> bool {
    match (one, other) {
        (Field::Reading(one), Field::Reading(other)) => one.to_bits() == other.to_bits(),
        _ => one == other,
    }
}

/// What a chip shows, of which every fact has a value: its digits from left to right, as far as they are in use.
fn shown_by(chip: &Row, start: u8) -> Field {
    let value = |fact: usize| chip[fact].expect("a chip has a value for every fact");
    let in_use = [16, 9, 10, 11, 12, 13, 14, 15][usize::from(value(DIGITS))];
    let cell = |at: usize| byte_of(&cell_at(at).map(value).collect::<Vec<u8>>());
    let digits: Vec<u8> = (0..in_use).map(cell).collect();
    let from = usize::from(start);
    match digits.get(from..from + FIELD) {
        Some(cells) if value(LIGHTS) == NORMAL => read(cells),
        _ => Field::Dark,
    }
}

/// Goes by the letters, and leaves the number to the parser of the standard library.
fn read(cells: &[u8]) -> Field {
    if cells == b"-----" {
        return Field::NoReading;
    }
    let well_formed = b" -".contains(&cells[0])
        && (cells[1] == b' ' || cells[1].is_ascii_digit())
        && cells[2].is_ascii_digit()
        && (cells.ends_with(b".0") || cells.ends_with(b".5"));
    if !well_formed {
        return Field::NotAReading;
    }
    let text: String = cells.iter().map(|&cell| char::from(cell)).collect();
    let degrees: f32 = text.replace(' ', "").parse().unwrap();
    // Of the two noughts the parser knows minus as well.
    Field::Reading(if degrees == 0.0 { 0.0 } else { degrees })
}

/// How often each answer came up.
#[derive(Default, Debug)]
struct Seen {
    readings: usize,
    noughts: usize,
    no_reading: usize,
    dark: usize,
    unknown: usize,
    not_a_reading: usize,
}

impl Seen {
    fn take(&mut self, field: Field) {
        match field {
            Field::Reading(degrees) => {
                self.readings += 1;
                self.noughts += usize::from(degrees == 0.0);
            }
            Field::NoReading => self.no_reading += 1,
            Field::Dark => self.dark += 1,
            Field::Unknown => self.unknown += 1,
            Field::NotAReading => self.not_a_reading += 1,
        }
    }
}

/// Of all chips that fit, this one is dark only if all of them are.
fn brightest(known: &Row) -> Row {
    let mut chip: Row = known.iter().map(|fact| fact.or(Some(0))).collect();
    chip[LIGHTS] = known[LIGHTS].or(Some(NORMAL));
    chip[DIGITS] = known[DIGITS].or(Some(ALL_16));
    chip
}

fn is_all_known(known: &Row, start: u8) -> bool {
    let first = usize::from(start);
    let mut bits = (first..first + FIELD).flat_map(cell_at);
    bits.all(|bit| known[bit].is_some()) && known[LIGHTS].is_some() && known[DIGITS].is_some()
}

/// Where the field is not unknown, more knowledge does not change it, and every chip that fits shows it.
/// It is dark exactly where all those are, and otherwise unknown exactly where lights, digits or a cell are.
#[test]
fn what_is_told_of_a_field_holds_for_every_fitting_chip() {
    let mut random = Random::new(103);
    let mut seen = Seen::default();
    for _ in 0..CASES {
        let (known, start) = any_case(&mut random);
        let told = field(&known, start);
        seen.take(told);
        let dark = shown_by(&brightest(&known), start) == Field::Dark;
        let unknown = !dark && !is_all_known(&known, start);
        assert_eq!(told == Field::Dark, dark, "{start} {known:02X?}");
        assert_eq!(told == Field::Unknown, unknown, "{start} {known:02X?}");
        for _ in 0..CHIPS {
            let more = learn(&known, 3, &mut random);
            let chip = learn(&more, 1, &mut random);
            let shown = shown_by(&chip, start);
            let told_more = field(&more, start);
            for (before, behind) in [(told, told_more), (told_more, shown), (told, shown)] {
                let kept = before == Field::Unknown || same(before, behind);
                assert!(
                    kept,
                    "{before:?} {behind:?} {start} {known:02X?} {chip:02X?}"
                );
            }
            assert!(same(field(&chip, start), shown), "{start} {chip:02X?}");
        }
    }
    println!("{CASES} fields: {seen:?}");
    let times = [
        seen.readings,
        seen.noughts,
        seen.no_reading,
        seen.dark,
        seen.unknown,
        seen.not_a_reading,
    ];
    assert!(times.iter().all(|&times| times > CASES / 100), "{seen:?}");
}
