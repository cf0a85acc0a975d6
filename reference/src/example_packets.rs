//! Lines of the section `packets` of the program `panel_examples`: what a line says is kept or brings, and what must be
//! written behind it.
//!
//! A line with a part byte says what is kept before the first packet: its bytes are unfinished ones, the number behind
//! the `@` is the total, and the refusal behind the `$` stands. Everything is known unless words say otherwise. Each
//! line behind it that begins with `/` is a packet.

use crate::answer::Answer;
use crate::example_halves::Halves;
use crate::example_known::known;
use crate::example_lines::{bytes_in, bytes_in_words, Line};
use crate::knowledge::PT6302;
use crate::packets::{Kept, Packets};
use crate::show::answer_in_words;
use crate::{example_character_panels, example_key_panels};

/// Of a line's bytes no more are taken; a record that is cut off has no more.
const MOST_UNFINISHED: usize = 4;

pub struct Example {
    packets: Packets,
    /// What is said of each half; no packet changes that of a part which is none.
    told: Halves,
}

impl Example {
    /// What a line with a part byte says.
    pub fn read(line: &str) -> Self {
        let line = Line::read(line);
        let mut told = halves(&line);
        let unfinished = line.bytes.into_iter().take(MOST_UNFINISHED);
        let total = u32::try_from(line.number.unwrap_or(0));
        let kept = Kept {
            unfinished: unfinished.collect(),
            total: total.expect("a total has four bytes"),
            standing: line.refusal,
        };
        let knowledge = told.of_part().copied();
        let packets = Packets { knowledge, kept };
        Example { packets, told }
    }

    /// The rows that must stand behind the line with the part byte.
    pub fn written(&self) -> Vec<String> {
        let mut rows = match &self.packets.knowledge {
            Some(knowledge) => vec![known(knowledge)],
            None => self.told.rows(),
        };
        rows.push(kept_row(&self.packets.kept));
        let closing = answer_in_words(self.packets.close());
        rows.push(format!("    closing {closing}"));
        rows
    }

    /// What is kept, and what is known, behind the lines so far.
    pub fn packets(&self) -> &Packets {
        &self.packets
    }

    /// The answer to the packet of a line.
    pub fn take(&mut self, line: &str) -> Answer {
        let packet = line.strip_prefix('/').expect("a packet begins with /");
        self.packets.take(&bytes_in(packet))
    }

    /// The rows that must stand behind the line of a packet, which is taken.
    pub fn written_behind(&mut self, line: &str) -> Vec<String> {
        let answer = self.take(line);
        let mut rows = vec![format!("    packet {}", answer_in_words(answer))];
        rows.extend(self.written());
        rows
    }
}

/// Words speak of the half of the line's part, or of the one with keys if the part is none.
fn halves(line: &Line) -> Halves {
    let mut keys = example_key_panels::everything();
    let mut characters = example_character_panels::everything();
    for word in &line.words {
        match line.part {
            PT6302 => characters.tell(word),
            _ => example_key_panels::tell(&mut keys, word),
        }
    }
    Halves::told(line.part, &keys, &characters)
}

fn kept_row(kept: &Kept) -> String {
    let unfinished = match kept.unfinished[..] {
        [] => " nothing".into(),
        _ => bytes_in_words(&kept.unfinished),
    };
    let standing = kept.standing.map(answer_in_words);
    let standing = standing.map_or(String::new(), |refusal| format!(", standing {refusal}"));
    format!("    unfinished{unfinished}, total {}{standing}", kept.total)
}
