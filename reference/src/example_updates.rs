//! Lines of the section `updates` of the program `panel_examples`: what a line asks for, and what must be written
//! behind it.
//!
//! The number behind the `@` is the length of the lent output, and the bytes are the wanted cells from 00H on.
//! Everything is known unless words say otherwise.

use crate::answer::Answer;
use crate::example_key_panels::{everything, panel, tell, MOST_CELLS, USUAL_CELL};
use crate::example_known::known;
use crate::example_lines::{bytes_in_words, Line, Told};
use crate::knowledge::{Knowledge, PT6312, PT6315};
use crate::show::answer_in_words;
use crate::update::{update, Update};

/// The length of the output where a line has none; no line may ask for more.
pub const MOST_ROOM: usize = 112;

pub struct Example {
    pub part: u8,
    told: Told,
    /// The length of the lent output.
    pub room: usize,
    wanted: [u8; MOST_CELLS],
}

impl Example {
    pub fn read(line: &str) -> Self {
        let Line {
            part,
            words,
            number,
            bytes,
            ..
        } = Line::read(line);
        let room = number.unwrap_or(MOST_ROOM);
        assert!(room <= MOST_ROOM, "no such output is lent: {line}");
        let mut told = everything();
        for word in &words {
            tell(&mut told, word);
        }
        // Cells that a line does not give are wanted as they are where everything is known.
        let mut wanted = [USUAL_CELL; MOST_CELLS];
        wanted[..bytes.len()].copy_from_slice(&bytes);
        Example {
            part,
            told,
            room,
            wanted,
        }
    }

    /// None where the words say what no fact here can hold, or where the part has no update.
    pub fn knowledge(&self) -> Option<Knowledge> {
        match self.part {
            PT6312 => panel(&self.told).map(Knowledge::Pt6312),
            PT6315 => panel(&self.told).map(Knowledge::Pt6315),
            _ => None,
        }
    }

    /// Where the words say what no fact here can hold, the knowledge is as little in range as any; but the part
    /// comes first.
    pub fn update(&self) -> Update {
        let no_key_panel = Knowledge::unknown(self.part);
        match (self.part, self.knowledge()) {
            (PT6312 | PT6315, None) => Update::refused(Answer::KNOWLEDGE_OUT_OF_RANGE),
            (PT6312 | PT6315, known) => update(known.as_ref(), &self.wanted, self.room),
            _ => update(no_key_panel.as_ref(), &self.wanted, self.room),
        }
    }

    /// The line that must stand behind the example. All that the stream leaves of the output is as it was.
    pub fn written(&self) -> String {
        let update = self.update();
        let outcome = answer_in_words(update.answer);
        let stream = bytes_in_words(&update.stream);
        let (count, behind) = (update.count, self.room - update.stream.len());
        format!("    update {outcome}, wire {count}:{stream}, behind {behind} as before")
    }

    /// All rows that must stand behind the example: the update, and of one that is sent what a replay of its stream
    /// answers, and what is known then.
    pub fn rows(&self) -> Vec<String> {
        let mut rows = vec![self.written()];
        if let Some((answer, knowledge)) = self.replayed() {
            rows.push(format!("    replay {}", answer_in_words(answer)));
            rows.push(known(&knowledge));
        }
        rows
    }

    /// The replay of the stream, where it is sent, from what is known.
    fn replayed(&self) -> Option<(Answer, Knowledge)> {
        let update = self.update();
        if update.answer.number != Answer::DONE {
            return None;
        }
        let mut knowledge = self.knowledge()?;
        let answer = knowledge.replay(&update.stream, 0);
        Some((answer, knowledge))
    }
}
