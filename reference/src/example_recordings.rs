//! Lines of the section `recordings` of the program `panel_examples`: what a line asks for, and what must be written
//! behind it.
//!
//! The number behind the `@` is the place at which the replay starts, and the bytes are the recording. Nothing is known
//! unless words say otherwise, and where they do, both halves of the knowledge are shown.

use crate::answer::Answer;
use crate::example_halves::Halves;
use crate::example_known::known;
use crate::example_lines::{bytes_in_words, Line, Saying};
use crate::knowledge::Knowledge;
use crate::show::answer_in_words;
use crate::tail::{tail_of, Tail};
use crate::{example_character_panels, example_key_panels};

/// So much of a tail is shown.
const SHOWN: usize = 16;

/// The rows that must stand behind the line.
pub fn written(line: &str) -> Vec<String> {
    let line = Line::read(line);
    let (answer, mut halves) = replayed(&line);
    let mut rows = vec![format!("    replay {}", answer_in_words(answer))];
    match halves.of_part() {
        Some(knowledge) if line.words.is_empty() => rows.push(known(knowledge)),
        _ => rows.extend(halves.rows()),
    }
    rows.push(tail_row(&line));
    rows
}

/// What a line comes to.
pub struct Outcome {
    pub replay: Answer,
    /// Behind the replay, as far as the line names a part.
    pub knowledge: Option<Knowledge>,
    pub tail: Tail,
}

pub fn outcome(line: &Line) -> Outcome {
    let (replay, mut halves) = replayed(line);
    Outcome {
        replay,
        knowledge: halves.of_part().copied(),
        tail: tail_of(line.part, &line.bytes),
    }
}

/// The answer, and what is known behind it.
fn replayed(line: &Line) -> (Answer, Halves) {
    let mut halves = halves(line);
    let answer = match halves.of_part() {
        Some(knowledge) => knowledge.replay(&line.bytes, line.number.unwrap_or(0)),
        None => Answer::refused(Answer::NO_SUCH_PART, 0),
    };
    (answer, halves)
}

/// `known` stands before the others, which make the LED or the port known, as what it cannot be.
fn halves(line: &Line) -> Halves {
    let mut keys = example_key_panels::everything();
    let mut characters = example_character_panels::everything();
    let says = |name: char| line.words.iter().any(|word| word.name == name);
    if !says('k') {
        keys.forget_all();
        characters.forget_all();
    }
    if says('l') {
        keys.say('l', 0, Saying::Known(16));
    }
    if says('p') {
        characters.say('o', 0, Saying::Known(4));
    }
    Halves::told(line.part, &keys, &characters)
}

/// The tail finder looks at the whole recording, wherever the replay starts.
fn tail_row(line: &Line) -> String {
    let tail = tail_of(line.part, &line.bytes);
    let (start, end) = (tail.places.start, tail.places.end);
    let bytes = &line.bytes[tail.places];
    let (shown, more) = match bytes.get(..SHOWN) {
        Some(front) if bytes.len() > SHOWN => (front, " .."),
        _ => (bytes, ""),
    };
    let answer = answer_in_words(tail.answer);
    let (length, shown) = (bytes.len(), bytes_in_words(shown));
    format!("    tail {answer}, from {start} to {end}, length {length}:{shown}{more}")
}
