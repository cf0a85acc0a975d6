//! What the programs print: the mirror its answer, then the memory; the thermometer a single line.

use crate::answer::Answer;
use crate::character_panel::COLUMNS;
use crate::knowledge::Knowledge;
use crate::temperature::{Field, Temperature};

/// A refusal is a single line; what is known is shown only behind a replay that was done.
pub fn report(answer: Answer, knowledge: Option<&Knowledge>) -> String {
    let line = answer_in_words(answer) + "\n";
    match knowledge {
        Some(knowledge) if answer.number == Answer::DONE => line + &memory(knowledge),
        _ => line,
    }
}

/// The field, unless it was refused.
pub fn temperature_line(temperature: &Temperature) -> String {
    match temperature.answer.number {
        Answer::DONE => field_in_words(temperature.field) + "\n",
        _ => answer_in_words(temperature.answer) + "\n",
    }
}

/// A refusal that is none, as a line of `panel_examples` may have one, reads as done.
pub fn answer_in_words(answer: Answer) -> String {
    let Answer { number, place } = answer;
    match number {
        Answer::DONE => format!("done at {place}"),
        _ => format!("refused {number} at {place}"),
    }
}

/// A reading in degrees with one decimal, which is all that half degrees need.
pub fn field_in_words(field: Field) -> String {
    match field {
        Field::Reading(degrees) => format!("{degrees:.1}"),
        Field::NoReading => "no reading".into(),
        Field::Dark => "dark".into(),
        Field::Unknown => "unknown".into(),
        Field::NotAReading => "not a reading".into(),
    }
}

/// A cell of which any bit is unknown is shown as unknown.
fn memory(knowledge: &Knowledge) -> String {
    match knowledge {
        Knowledge::Pt6312(panel) => by_digit(panel.cells.wholes().collect(), 2),
        Knowledge::Pt6315(panel) => by_digit(panel.cells.wholes().collect(), 3),
        Knowledge::Pt6302(panel) => {
            let columns: Vec<_> = panel.cgram.wholes().collect();
            let mut text = line("D", panel.dcram.wholes());
            for (number, character) in columns.chunks(COLUMNS as usize).enumerate() {
                text += &line(&format!("G{number}"), character.iter().copied());
            }
            text + &line("A", panel.adram.wholes())
        }
    }
}

/// One line for each digit, named after its first cell.
fn by_digit(cells: Vec<Option<u8>>, cells_a_digit: usize) -> String {
    let digits = cells.chunks(cells_a_digit).enumerate();
    digits
        .map(|(number, digit)| {
            let first_cell = format!("{:02X}", number * cells_a_digit);
            line(&first_cell, digit.iter().copied())
        })
        .collect()
}

fn line(name: &str, values: impl Iterator<Item = Option<u8>>) -> String {
    let values: String = values
        .map(|value| " ".to_string() + &in_hex(value))
        .collect();
    format!("{name}:{values}\n")
}

pub fn in_hex(fact: Option<u8>) -> String {
    fact.map_or("??".into(), |value| format!("{value:02X}"))
}
