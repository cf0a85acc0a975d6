//! Compares two mirror programs, or two benchmark programs, on recordings of every part.

use crate::answers::Answers;
use crate::pairs::Pair;
use reference::bench_input::load_bytes;
use reference::knowledge::{replay_from_nothing, Forgotten, PARTS, PT6312};
use reference::random::Random;
use reference::trial_inputs::trial_input;
use reference::trial_recordings::any_recording;
use std::io;

/// Benchmark programs expect numbers and a start in front and print a checksum.
pub fn compare(pair: &Pair, bench: bool) -> io::Result<bool> {
    let mut answers = Answers::default();
    let same = pair.prints_the_same(|number| {
        let trial = trial_input(pair.seed, number);
        let (&part, recording) = trial.split_first().unwrap_or((&0, &[]));
        let (answer, _) = replay_from_nothing(part, recording);
        answers.take(answer);
        if bench {
            bench_input(number, &trial)
        } else {
            trial
        }
    })?;
    // The numbers are those that this package's own replay gives for the same recordings.
    if same {
        let (all, summary) = (answers.all(), answers.summary());
        println!("{all} recordings compared, no difference: {summary}");
    }
    Ok(same)
}

/// A benchmark program gets few rounds, once none; twelve of its inputs are too short to hold all that stands in front.
/// Every other recording is taken from what a prelude tells, but for what is forgotten then.
fn bench_input(number: usize, trial: &[u8]) -> Vec<u8> {
    let mut random = Random::new(number as u64);
    let rounds = if number == 12 { 0 } else { 1 + number % 3 };
    let size = packet_size(number, &mut random);
    let (&part, recording) = trial.split_first().unwrap_or((&0, &[]));
    let (prelude, forgotten) = match random.below(2) {
        0 => (Vec::new(), Forgotten::default()),
        _ => (prelude(part, &mut random), some_forgotten(&mut random)),
    };
    let mut input = Vec::new();
    input.extend((rounds as u32).to_le_bytes());
    input.extend((size as u16).to_le_bytes());
    input.extend(load_bytes(part, &prelude, forgotten, recording));
    if number < 12 {
        input.truncate(number);
    }
    input
}

/// Every other recording is asked for whole, which is the size 0.
fn packet_size(number: usize, random: &mut Random) -> usize {
    if number % 2 == 1 {
        let most = random.pick(&[4, 40, 1_500, 65_535]);
        1 + random.below(most)
    } else {
        0
    }
}

/// Once in eight times it is cut short, and so refused.
fn prelude(part: u8, random: &mut Random) -> Vec<u8> {
    let recorded_from = if PARTS.contains(&part) { part } else { PT6312 };
    let length = random.below(600);
    let mut prelude = any_recording(recorded_from, length, random);
    if random.once_in(8) {
        prelude.pop();
    }
    prelude
}

fn some_forgotten(random: &mut Random) -> Forgotten {
    Forgotten {
        position: random.once_in(2),
        data_mode: random.once_in(2),
        addresses: random.once_in(2),
    }
}
