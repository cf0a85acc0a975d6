//! The two halves of what `panel_examples` knows: that of a PT6312 or PT6315 and that of a PT6302. The part of a line has
//! one of them, and a byte that names no part has neither.

use crate::example_known::known;
use crate::example_lines::Told;
use crate::knowledge::{Knowledge, PT6302, PT6312, PT6315};
use crate::{example_character_panels, example_key_panels};

pub struct Halves {
    part: u8,
    keys: Knowledge,
    characters: Knowledge,
}

impl Halves {
    /// The half with keys is one of PT6315 unless the part is PT6312.
    /// Lines whose knowledge is shown say nothing that cannot be held here.
    pub fn told(part: u8, keys: &Told, characters: &Told) -> Self {
        let keys = match part {
            PT6312 => example_key_panels::panel(keys).map(Knowledge::Pt6312),
            _ => example_key_panels::panel(keys).map(Knowledge::Pt6315),
        };
        let characters = example_character_panels::panel(characters).map(Knowledge::Pt6302);
        Halves {
            part,
            keys: keys.expect("words say what can be held of a panel with keys"),
            characters: characters.expect("words say what can be held of a PT6302"),
        }
    }

    pub fn of_part(&mut self) -> Option<&mut Knowledge> {
        match self.part {
            PT6302 => Some(&mut self.characters),
            PT6312 | PT6315 => Some(&mut self.keys),
            _ => None,
        }
    }

    /// The rows of both.
    pub fn rows(&self) -> Vec<String> {
        vec![known(&self.keys), known(&self.characters)]
    }
}
