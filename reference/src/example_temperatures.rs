//! Lines of the section `temperatures` of the program `panel_examples`: what a line asks for, and what must be written
//! behind it.
//!
//! The number behind the `@` is the address at which the field starts, and the bytes are what DCRAM is known to hold
//! from there on, as far as it reaches. Everything else is known unless words say otherwise.

use crate::answer::Answer;
use crate::example_character_panels::{everything, panel, TEXT};
use crate::example_lines::{Line, Saying, Told};
use crate::knowledge::{Knowledge, PT6302};
use crate::show::{answer_in_words, field_in_words};
use crate::temperature::{temperature, Field, Temperature};

pub struct Example {
    part: u8,
    told: Told,
    start: u8,
}

impl Example {
    pub fn read(line: &str) -> Self {
        let Line {
            part,
            words,
            number,
            bytes,
            ..
        } = Line::read(line);
        let start = number.unwrap_or(0);
        let mut told = everything();
        words.iter().for_each(|word| told.tell(word));
        // The bytes come behind all words, wherever these stand.
        for (at, byte) in (start..TEXT).zip(bytes) {
            told.say('t', at, Saying::Known(byte));
        }
        Example {
            part,
            told,
            start: u8::try_from(start).expect("a start is one byte"),
        }
    }

    /// None where the words say what no fact here can hold, or where the part has no field.
    pub fn knowledge(&self) -> Option<Knowledge> {
        match self.part {
            PT6302 => panel(&self.told).map(Knowledge::Pt6302),
            _ => None,
        }
    }

    /// Where the words say what no fact here can hold, the knowledge is as little in range as any; but the part
    /// comes first. What is known of a part that has no field does not matter.
    pub fn temperature(&self) -> Temperature {
        if self.part != PT6302 {
            let no_field = Knowledge::unknown(self.part);
            return temperature(no_field.as_ref(), self.start);
        }
        match self.knowledge() {
            Some(knowledge) => temperature(Some(&knowledge), self.start),
            None => Temperature::refused(Answer::refused(Answer::KNOWLEDGE_OUT_OF_RANGE, 0)),
        }
    }

    /// The line that must stand behind the example.
    pub fn written(&self) -> String {
        let Temperature { answer, field } = self.temperature();
        let words = field_in_words(field);
        match field {
            Field::Reading(degrees) => {
                let [a, b, c, d] = degrees.to_be_bytes();
                let halves = (2.0 * degrees) as i16;
                let reads = format!("    reads {a:02X} {b:02X} {c:02X} {d:02X}");
                format!("{reads}, half degrees {halves}, degrees {words}")
            }
            _ if answer.number == Answer::DONE => format!("    {words}"),
            _ => format!("    {words}, {}", answer_in_words(answer)),
        }
    }
}
