//! The lines on which a program is compared say any bits, and now and then such as cannot be.

use reference::answer::Answer;
use reference::example_lines::Line;
use reference::example_packets::Example;
use reference::example_recordings::outcome;
use reference::trial_packet_lines::trial_packets;
use reference::trial_recording_lines::trial_recording;
use reference::trial_temperatures::trial_temperature;
use reference::trial_updates::trial_update;
use reference::{example_temperatures, example_updates};

const TRIALS: usize = 4_000;

/// How many of the trials were such.
fn count(is_such: impl Fn(usize) -> bool) -> usize {
    (0..TRIALS).filter(|&number| is_such(number)).count()
}

/// Whether a word of the line says marks, or `!`, of a fact whose name begins so.
fn has_marks(line: &str, name: &str) -> bool {
    let mut words = line.split(' ');
    words.any(|word| word.starts_with(name) && (word.contains('/') || word.ends_with('!')))
}

#[test]
fn openings_have_unknown_bits_of_every_kind() {
    let opening = |number| trial_packets(7, number).lines().next().unwrap().to_string();
    for name in ["cell", "every", "led", "text", "shape", "mark", "out"] {
        let times = count(|number| has_marks(&opening(number), name));
        assert!(times > TRIALS / 100, "{name}: {times}");
    }
    let partly_known = count(|number| {
        let packets = Example::read(&opening(number));
        let known = packets.packets().knowledge;
        known.is_some_and(|known| known.is_partly_known())
    });
    assert!(partly_known > TRIALS / 4, "{partly_known}");
}

/// With nothing else that could be refused.
#[test]
fn openings_have_bits_that_cannot_be() {
    let refused = count(|number| {
        let trial = trial_packets(7, number);
        let opening = trial.lines().next().unwrap();
        let line = Line::read(opening);
        let nothing_kept = line.bytes.is_empty() && line.number.is_none() && line.refusal.is_none();
        let answer = Example::read(opening).packets().close();
        nothing_kept && opening.contains('/') && answer.number == Answer::KNOWLEDGE_OUT_OF_RANGE
    });
    assert!(refused > TRIALS / 400, "{refused}");
}

/// From knowing all or nothing, only PT6315 comes to be known in part.
#[test]
fn recordings_leave_unknown_bits() {
    let partly_known = count(|number| {
        let line = trial_recording(7, number);
        let outcome = outcome(&Line::read(&line));
        let parted = outcome
            .knowledge
            .is_some_and(|known| known.is_partly_known());
        assert!(!parted || line.starts_with("15"), "{line}");
        parted && outcome.replay.number == Answer::DONE
    });
    assert!(partly_known > TRIALS / 100, "{partly_known}");
}

#[test]
fn updates_and_temperatures_have_unknown_bits() {
    let sent = count(|number| {
        let example = example_updates::Example::read(&trial_update(7, number));
        let known = example.knowledge();
        known.is_some_and(|known| known.is_partly_known())
            && example.update().answer.number == Answer::DONE
    });
    assert!(sent > TRIALS / 4, "{sent}");
    let told = count(|number| {
        let example = example_temperatures::Example::read(&trial_temperature(7, number));
        let known = example.knowledge();
        known.is_some_and(|known| known.is_partly_known())
            && example.temperature().answer.number == Answer::DONE
    });
    assert!(told > TRIALS / 10, "{told}");
}

#[test]
fn updates_and_temperatures_have_bits_that_cannot_be() {
    let refused = count(|number| {
        let line = trial_update(7, number);
        let answer = example_updates::Example::read(&line).update().answer;
        line.contains('/') && answer.number == Answer::KNOWLEDGE_OUT_OF_RANGE
    });
    assert!(refused > TRIALS / 50, "{refused}");
    let refused = count(|number| {
        let line = trial_temperature(7, number);
        let answer = example_temperatures::Example::read(&line)
            .temperature()
            .answer;
        line.contains('/') && answer.number == Answer::KNOWLEDGE_OUT_OF_RANGE
    });
    assert!(refused > TRIALS / 100, "{refused}");
}
