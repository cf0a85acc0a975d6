//! Compares the temperatures that a program reads with those read here.

use crate::fields::Tally;
use crate::sections::{are_all, Section};
use reference::example_temperatures::Example;
use reference::trial_temperatures::trial_temperature;
use std::io;

const SECTION: Section = Section {
    name: "temperatures",
    trial: trial_temperature,
    expected: |line| vec![Example::read(line).written()],
    is_good: are_all,
};

pub fn compare(program: &str, seed: u64, count: usize) -> io::Result<bool> {
    let mut tally = Tally::default();
    let mut partly_known = 0;
    let batches = SECTION.compare(program, seed, count, |line| {
        let example = Example::read(line);
        let known = example.knowledge();
        partly_known += usize::from(known.is_some_and(|known| known.is_partly_known()));
        tally.take(&example.temperature());
    })?;
    if let Some(batches) = batches {
        let summary = tally.summary();
        println!("{count} temperatures compared in {batches} runs, no difference: {summary}");
        println!("with some bits unknown: {partly_known}");
    }
    Ok(batches.is_some())
}
