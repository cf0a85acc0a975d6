//! Knowledge of whichever part the part byte names.

use crate::answer::Answer;
use crate::character_panel::Pt6302;
use crate::key_panel::{Pt6312, Pt6315};
use crate::replay::{replay, Panel};

/// Knowledge beside its part.
#[derive(Clone, Copy, Debug, PartialEq, Eq)]
pub enum Knowledge {
    Pt6302(Pt6302),
    Pt6312(Pt6312),
    Pt6315(Pt6315),
}

/// Which facts one no longer knows, in the words of all parts.
#[derive(Clone, Copy, Debug, Default, PartialEq, Eq)]
pub struct Forgotten {
    pub position: bool,
    /// PT6302 has none.
    pub data_mode: bool,
    /// All that the part has, and the column.
    pub addresses: bool,
}

pub const PT6302: u8 = 0x02;
pub const PT6312: u8 = 0x12;
pub const PT6315: u8 = 0x15;
pub const PARTS: [u8; 3] = [PT6302, PT6312, PT6315];

impl Knowledge {
    /// Nothing is known of the part, or the byte names none.
    pub fn unknown(part: u8) -> Option<Self> {
        match part {
            PT6302 => Some(Knowledge::Pt6302(Pt6302::UNKNOWN)),
            PT6312 => Some(Knowledge::Pt6312(Pt6312::UNKNOWN)),
            PT6315 => Some(Knowledge::Pt6315(Pt6315::UNKNOWN)),
            _ => None,
        }
    }

    /// Whether there is a cell, or the LED or the port, of which some bits are known and others are not.
    pub fn is_partly_known(&self) -> bool {
        match self {
            Knowledge::Pt6302(panel) => {
                let rams = panel.dcram.is_partly_known()
                    || panel.cgram.is_partly_known()
                    || panel.adram.is_partly_known();
                rams || panel.port.is_partly_known()
            }
            Knowledge::Pt6312(panel) => {
                panel.cells.is_partly_known() || panel.led.is_partly_known()
            }
            Knowledge::Pt6315(panel) => {
                panel.cells.is_partly_known() || panel.led.is_partly_known()
            }
        }
    }

    /// The same knowledge, with some facts forgotten.
    pub fn without(mut self, forgotten: Forgotten) -> Self {
        match &mut self {
            Knowledge::Pt6302(panel) => panel.forget(forgotten),
            Knowledge::Pt6312(panel) => panel.forget(forgotten),
            Knowledge::Pt6315(panel) => panel.forget(forgotten),
        }
        self
    }

    /// The part is looked at here and nowhere further in.
    pub fn replay(&mut self, recording: &[u8], start: usize) -> Answer {
        match self {
            Knowledge::Pt6302(panel) => replay(panel, recording, start),
            Knowledge::Pt6312(panel) => replay(panel, recording, start),
            Knowledge::Pt6315(panel) => replay(panel, recording, start),
        }
    }
}

/// Replays a whole recording from knowing nothing; there is no knowledge where the byte names no part.
pub fn replay_from_nothing(part: u8, recording: &[u8]) -> (Answer, Option<Knowledge>) {
    match Knowledge::unknown(part) {
        Some(mut knowledge) => (knowledge.replay(recording, 0), Some(knowledge)),
        None => (Answer::refused(Answer::NO_SUCH_PART, 0), None),
    }
}
