//! The temperature field of paper 02 (M-103): what five cells of a PT6302 show, or why that cannot be told.
//!
//! The reading is counted in half degrees, as a whole number, and becomes floating degrees only at the end: a whole
//! number has but one nought, and half of so small a one is exact.

use crate::answer::Answer;
use crate::character_panel::{Lights, Pt6302};
use crate::knowledge::{replay_from_nothing, Knowledge};
use crate::replay::Panel;

/// The cells of a field: sign, tens, units, point and half.
pub const FIELD: usize = 5;
/// From here the field's last cell is that of DCRAM.
const LAST_START: u8 = 11;

const SPACE: u8 = 0x20;
/// The minus, and what stands in every cell where there is no reading.
const DASH: u8 = 0x2D;
const POINT: u8 = 0x2E;
const NOUGHT: u8 = 0x30;
const NINE: u8 = 0x39;
const FIVE: u8 = 0x35;

/// What the field says.
#[derive(Clone, Copy, Debug, PartialEq)]
pub enum Field {
    /// Degrees. Two that are equal may differ in the sign of nought, so a comparison must look at the bits.
    Reading(f32),
    NoReading,
    Dark,
    Unknown,
    NotAReading,
}

/// What is given back; where it is refused, the field is unknown.
#[derive(Clone, Copy, Debug, PartialEq)]
pub struct Temperature {
    pub answer: Answer,
    pub field: Field,
}

impl Temperature {
    pub fn refused(answer: Answer) -> Self {
        Temperature {
            answer,
            field: Field::Unknown,
        }
    }
}

/// The field that starts at this address of DCRAM. There is no knowledge where the part byte names no part.
pub fn temperature(knowledge: Option<&Knowledge>, start: u8) -> Temperature {
    let refused = |number| Temperature::refused(Answer::refused(number, 0));
    let Some(Knowledge::Pt6302(panel)) = knowledge else {
        return refused(Answer::NO_SUCH_PART);
    };
    if !panel.in_range() {
        return refused(Answer::KNOWLEDGE_OUT_OF_RANGE);
    }
    if start > LAST_START {
        return refused(Answer::FIELD_STARTS_TOO_HIGH);
    }
    Temperature {
        answer: Answer::done(0),
        field: field_at(panel, start),
    }
}

/// The field behind a whole recording that is replayed from knowing nothing.
/// A refusal of the replay comes first, and keeps its place.
pub fn temperature_from_nothing(part: u8, start: u8, recording: &[u8]) -> Temperature {
    let (replayed, knowledge) = replay_from_nothing(part, recording);
    if replayed.number != Answer::DONE {
        return Temperature::refused(replayed);
    }
    temperature(knowledge.as_ref(), start)
}

/// Dark comes first, then unknown, then what the cells hold.
/// Unknown digits count even at a start that no digits code makes dark, and so do unknown cells beside others that
/// are in no reading.
fn field_at(panel: &Pt6302, start: u8) -> Field {
    if is_dark(panel, start) {
        return Field::Dark;
    }
    match (panel.lights, panel.digits, known_cells(panel, start)) {
        (Some(_), Some(_), Some(cells)) => field_of(cells),
        _ => Field::Unknown,
    }
}

/// Lights that are all on show as little as lights that are off.
fn is_dark(panel: &Pt6302, start: u8) -> bool {
    // Cell n stands on digit n plus 1, and the digits count from 1.
    let last_digit = start + FIELD as u8;
    matches!(panel.lights, Some(Lights::Off | Lights::On))
        || panel
            .digits
            .is_some_and(|code| last_digit > digits_in_use(code))
}

fn digits_in_use(code: u8) -> u8 {
    match code {
        0 => 16,
        _ => 8 + code,
    }
}

/// None where a bit of any cell is unknown.
fn known_cells(panel: &Pt6302, start: u8) -> Option<[u8; FIELD]> {
    let mut cells = [0; FIELD];
    for (cell, at) in cells.iter_mut().zip(usize::from(start)..) {
        *cell = panel.dcram.get(at).whole()?;
    }
    Some(cells)
}

fn field_of(cells: [u8; FIELD]) -> Field {
    if cells == [DASH; FIELD] {
        return Field::NoReading;
    }
    match half_degrees(cells) {
        Some(half_degrees) => Field::Reading(f32::from(half_degrees) / 2.0),
        None => Field::NotAReading,
    }
}

/// None where a cell holds what it may not in a reading.
fn half_degrees([sign, tens, units, point, half]: [u8; FIELD]) -> Option<i16> {
    let sign = match sign {
        SPACE => 1,
        DASH => -1,
        _ => return None,
    };
    let tens = match tens {
        SPACE => 0,
        _ => digit(tens)?,
    };
    let units = digit(units)?;
    if point != POINT {
        return None;
    }
    let half = match half {
        NOUGHT => 0,
        FIVE => 1,
        _ => return None,
    };
    Some(sign * (2 * (10 * tens + units) + half))
}

fn digit(cell: u8) -> Option<i16> {
    match cell {
        NOUGHT..=NINE => Some(i16::from(cell - NOUGHT)),
        _ => None,
    }
}
