//! Compares what a program makes of recordings, and of their tails, with what is made of them here.

use crate::answers::Answers;
use crate::bad_bodies::BadBodies;
use crate::sections::{are_all, Section};
use reference::answer::Answer;
use reference::example_lines::Line;
use reference::example_recordings::{outcome, written, Outcome};
use reference::recording::record_starts;
use reference::trial_recording_lines::trial_recording;
use std::io;

const SECTION: Section = Section {
    name: "recordings",
    trial: trial_recording,
    expected: |line| vec![written(line).join("\n")],
    is_good: are_all,
};

/// What came up, so that one sees that no rule was passed by.
#[derive(Default)]
struct Tally {
    replays: Answers,
    /// Replays that leave some bits of a byte known and others not.
    partly_known: usize,
    tails: Answers,
    behind_a_gap: usize,
    /// Those that the tail finder met, which looks at every recording from its front.
    bad_bodies: BadBodies,
    starts: Starts,
    /// Replay and tail finder met different faults.
    faults_apart: usize,
}

/// The start places that a line gives.
#[derive(Default)]
struct Starts {
    all: usize,
    inside_a_record: usize,
    at_the_end: usize,
    before_a_bad_body: usize,
}

pub fn compare(program: &str, seed: u64, count: usize) -> io::Result<bool> {
    let mut tally = Tally::default();
    let batches = SECTION.compare(program, seed, count, |line| tally.take(&Line::read(line)))?;
    if let Some(batches) = batches {
        tally.print(batches);
    }
    Ok(batches.is_some())
}

impl Tally {
    fn take(&mut self, line: &Line) {
        let Outcome {
            replay,
            knowledge,
            tail,
        } = outcome(line);
        let parted = knowledge.is_some_and(|known| known.is_partly_known());
        self.partly_known += usize::from(parted && replay.number == Answer::DONE);
        self.replays.take(replay);
        self.tails.take(tail.answer);
        self.behind_a_gap += usize::from(tail.places.start > 0);
        if tail.answer.number == Answer::BODY_NOT_ALLOWED {
            self.bad_bodies.take(&line.bytes, tail.answer.place);
        }
        let by_a_record = |answer: Answer| answer.number >= Answer::KIND_NOT_LISTED;
        let both = by_a_record(replay) && by_a_record(tail.answer);
        self.faults_apart += usize::from(both && replay != tail.answer);
        if let Some(start) = line.number {
            self.starts.take(start, &line.bytes, replay);
        }
    }

    fn print(&self, batches: usize) {
        let lines = self.replays.all();
        println!("{lines} recordings compared in {batches} runs, no difference");
        println!("replays: {}", self.replays.summary());
        println!("done, with some bits unknown: {}", self.partly_known);
        println!("start places: {}", self.starts.summary());
        println!("tails: {}", self.tails.summary());
        println!("tails behind a gap: {}", self.behind_a_gap);
        println!("bad bodies in tails: {}", self.bad_bodies.summary());
        println!(
            "replay and tail refused by different records: {}",
            self.faults_apart
        );
    }
}

impl Starts {
    fn take(&mut self, start: usize, recording: &[u8], replay: Answer) {
        let end = recording.len();
        let inside = start < end && !record_starts(recording).contains(&start);
        let bad_body = replay.number == Answer::BODY_NOT_ALLOWED;
        self.all += 1;
        self.inside_a_record += usize::from(inside);
        self.at_the_end += usize::from(start == end);
        self.before_a_bad_body += usize::from(bad_body && start > 0);
    }

    fn summary(&self) -> String {
        let mut summary = format!("{} (inside a record", self.all);
        summary += &format!(" {},", self.inside_a_record);
        summary += &format!(" at the end {},", self.at_the_end);
        summary += &format!(" above 0 and refused with 8 {})", self.before_a_bad_body);
        summary
    }
}
