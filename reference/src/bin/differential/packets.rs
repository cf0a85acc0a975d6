//! Compares what a program makes of packets with what is made of them here.

use crate::answers::Answers;
use crate::sections::{are_all, Section};
use reference::answer::Answer;
use reference::example_packets::Example;
use reference::packets::Kept;
use reference::recording::record_length;
use reference::trial_packet_lines::trial_packets;
use std::io;

const SECTION: Section = Section {
    name: "packets",
    trial: trial_packets,
    expected: rows_behind_lines,
    is_good: are_all,
};

/// The first line says what is kept, and each behind it is a packet.
fn opened(trial: &str) -> (Example, impl Iterator<Item = &str>) {
    let mut lines = trial.lines();
    let opening = lines.next().expect("a trial has lines");
    (Example::read(opening), lines)
}

fn rows_behind_lines(trial: &str) -> Vec<String> {
    let (mut example, packets) = opened(trial);
    let mut rows = vec![example.written().join("\n")];
    rows.extend(packets.map(|line| example.written_behind(line).join("\n")));
    rows
}

/// What came up, so that one sees that no rule was passed by.
#[derive(Default)]
struct Tally {
    openings: usize,
    packets: Answers,
    closings: Answers,
    empty: usize,
    /// Bad bodies whose kind came in an earlier packet, or was kept from one: of 06, 07 and 08.
    split: [usize; 3],
    met_standing: usize,
    /// Packets behind which some bits of a byte are known and others are not.
    partly_known: usize,
}

pub fn compare(program: &str, seed: u64, count: usize) -> io::Result<bool> {
    let mut tally = Tally::default();
    let batches = SECTION.compare(program, seed, count, |trial| tally.take(trial))?;
    if let Some(batches) = batches {
        tally.print(batches);
    }
    Ok(batches.is_some())
}

impl Tally {
    fn take(&mut self, trial: &str) {
        let (mut example, packets) = opened(trial);
        self.openings += 1;
        self.closings.take(example.packets().close());
        for line in packets {
            let before = example.packets().kept.clone();
            let answer = example.take(line);
            self.packets.take(answer);
            self.closings.take(example.packets().close());
            self.empty += usize::from(line == "/");
            let known = example.packets().knowledge;
            let parted = known.is_some_and(|known| known.is_partly_known());
            self.partly_known += usize::from(parted && answer.number == Answer::DONE);
            self.met_standing += usize::from(is_standing(&before, answer));
            if let Some(kind) = kind_before_its_fault(&before, answer) {
                self.split[usize::from(kind - 6)] += 1;
            }
        }
    }

    fn print(&self, batches: usize) {
        let (openings, packets) = (self.openings, self.packets.all());
        print!(
            "{openings} openings and {packets} packets ({} empty)",
            self.empty
        );
        println!(" compared in {batches} runs, no difference");
        println!("packets: {}", self.packets.summary());
        println!("closings: {}", self.closings.summary());
        let [bits, keys, switches] = self.split;
        println!("split before the byte at fault: {bits} of 06, {keys} of 07, {switches} of 08");
        println!("standing refusals met: {}", self.met_standing);
        println!("done, with some bits unknown: {}", self.partly_known);
    }
}

/// What is kept as a refusal but cannot stand may be the very answer that says so.
fn is_standing(before: &Kept, answer: Answer) -> bool {
    before.standing == Some(answer) && answer.number != Answer::KNOWLEDGE_OUT_OF_RANGE
}

/// The kind of the unfinished record, where the packet brought the byte that made it bad.
fn kind_before_its_fault(before: &Kept, answer: Answer) -> Option<u8> {
    if before.standing.is_some() || answer.number != Answer::BODY_NOT_ALLOWED {
        return None;
    }
    let kind = *before.unfinished.first()?;
    let start = before.total as usize - before.unfinished.len();
    (answer.place < start + record_length(kind)).then_some(kind)
}
