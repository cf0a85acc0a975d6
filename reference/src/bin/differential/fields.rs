//! What came up of temperature fields, so that one sees that no rule was passed by.

use reference::answer::Answer;
use reference::temperature::{Field, Temperature};

#[derive(Default)]
pub struct Tally {
    readings: usize,
    below_nought: usize,
    noughts: usize,
    no_reading: usize,
    dark: usize,
    unknown: usize,
    not_a_reading: usize,
    refused_by_number: [usize; 12],
}

impl Tally {
    pub fn take(&mut self, temperature: &Temperature) {
        let number = temperature.answer.number;
        if number != Answer::DONE {
            self.refused_by_number[usize::from(number)] += 1;
            return;
        }
        match temperature.field {
            Field::Reading(degrees) => {
                self.readings += 1;
                self.below_nought += usize::from(degrees < 0.0);
                self.noughts += usize::from(degrees == 0.0);
            }
            Field::NoReading => self.no_reading += 1,
            Field::Dark => self.dark += 1,
            Field::Unknown => self.unknown += 1,
            Field::NotAReading => self.not_a_reading += 1,
        }
    }

    pub fn summary(&self) -> String {
        let mut summary = format!("{} readings", self.readings);
        summary += &format!(" (below nought {},", self.below_nought);
        summary += &format!(" nought {}),", self.noughts);
        summary += &format!(" {} times no reading,", self.no_reading);
        summary += &format!(" {} dark,", self.dark);
        summary += &format!(" {} unknown,", self.unknown);
        summary += &format!(" {} not a reading", self.not_a_reading);
        for (number, times) in self.refused_by_number.iter().enumerate() {
            if *times > 0 {
                summary += &format!(", {times} refused with {number}");
            }
        }
        summary
    }
}
