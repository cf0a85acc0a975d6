//! Compares two thermometer programs on recordings that write a temperature field.

use crate::fields::Tally;
use crate::pairs::Pair;
use reference::thermo_input::temperature_in;
use reference::trial_thermo_inputs::trial_thermo_input;
use std::io;

pub fn compare(pair: &Pair) -> io::Result<bool> {
    let mut tally = Tally::default();
    let same = pair.prints_the_same(|number| {
        let input = trial_thermo_input(pair.seed, number);
        tally.take(&temperature_in(&input));
        input
    })?;
    if same {
        let (count, summary) = (pair.count, tally.summary());
        println!("{count} recordings compared, no difference: {summary}");
    }
    Ok(same)
}
