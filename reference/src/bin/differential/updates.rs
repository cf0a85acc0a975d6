//! Compares the updates that a program makes, and what it says is known behind them, with those made here and with their
//! replay.

use crate::sections::{are_all, Section};
use reference::answer::Answer;
use reference::example_updates::Example;
use reference::knowledge::{Knowledge, PT6315};
use reference::recording::strobes_in;
use reference::trial_updates::trial_update;
use std::io;

const SECTION: Section = Section {
    name: "updates",
    trial: trial_update,
    expected: |line| vec![Example::read(line).rows().join("\n")],
    is_good: are_all,
};

/// What came up, so that one sees that no rule was passed by.
#[derive(Default)]
struct Tally {
    by_number: [usize; 11],
    nothing_sent: usize,
    setting_sent: usize,
    round_the_ring: usize,
    just_full: usize,
    partly_known: usize,
}

pub fn compare(program: &str, seed: u64, count: usize) -> io::Result<bool> {
    let mut tally = Tally::default();
    let batches = SECTION.compare(program, seed, count, |line| tally.take(line))?;
    if let Some(batches) = batches {
        tally.print(batches);
    }
    Ok(batches.is_some())
}

impl Tally {
    fn take(&mut self, line: &str) {
        let example = Example::read(line);
        let update = example.update();
        self.by_number[usize::from(update.answer.number)] += 1;
        if update.answer.number != Answer::DONE {
            return;
        }
        let parted = |known: Knowledge| known.is_partly_known();
        self.partly_known += usize::from(example.knowledge().is_some_and(parted));
        let strobes = strobes_in(&update.stream);
        let cells = if example.part == PT6315 { 36 } else { 22 };
        let goes_round = |run: &Vec<u8>| usize::from(run[0] & 0x3F) + run.len() - 1 > cells;
        self.nothing_sent += usize::from(strobes.is_empty());
        self.setting_sent += usize::from(strobes.first().is_some_and(|first| first == &[0x40]));
        self.round_the_ring += usize::from(strobes.last().is_some_and(goes_round));
        self.just_full += usize::from(update.stream.len() == example.room);
    }

    fn print(&self, batches: usize) {
        let all: usize = self.by_number.iter().sum();
        let mut summary = format!("{} done", self.by_number[0]);
        summary += &format!(" (nothing sent {},", self.nothing_sent);
        summary += &format!(" the data setting first {},", self.setting_sent);
        summary += &format!(" round the ring {},", self.round_the_ring);
        summary += &format!(" the output just full {},", self.just_full);
        summary += &format!(" with some bits unknown {})", self.partly_known);
        for (number, times) in self.by_number.iter().enumerate().skip(1) {
            if *times > 0 {
                summary += &format!(", {times} refused with {number}");
            }
        }
        println!("{all} updates compared in {batches} runs, no difference: {summary}");
    }
}
