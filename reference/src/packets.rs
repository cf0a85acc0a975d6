//! A recording as it comes in (M-100): in packets of any size, which may split a record.
//!
//! A packet is taken byte by byte. Each byte joins those of the record that is not finished yet, and as soon as these
//! make a record, or can no longer make one, it is dealt with.

use crate::answer::{Answer, LONGEST};
use crate::knowledge::Knowledge;
use crate::record::record_in_front;
use crate::replay::{move_by, Panel};

/// One panel, between two packets.
#[derive(Clone, Debug, PartialEq, Eq)]
pub struct Packets {
    /// There is no knowledge where the byte names no part.
    pub knowledge: Option<Knowledge>,
    pub kept: Kept,
}

/// What is kept beside the knowledge.
#[derive(Clone, Debug, Default, PartialEq, Eq)]
pub struct Kept {
    /// The record that the last packet cut off, as far as it came.
    pub unfinished: Vec<u8>,
    /// The bytes so far, with the unfinished ones. Its highest number is the highest total that the paper allows.
    pub total: u32,
    /// A refusal by 5, 6 or 8, which is the answer to every later packet.
    pub standing: Option<Answer>,
}

impl Packets {
    pub fn opened(knowledge: Option<Knowledge>) -> Self {
        Packets {
            knowledge,
            kept: Kept::default(),
        }
    }

    pub fn take(&mut self, packet: &[u8]) -> Answer {
        let kept = &mut self.kept;
        match &mut self.knowledge {
            Some(Knowledge::Pt6302(panel)) => kept.take(panel, packet),
            Some(Knowledge::Pt6312(panel)) => kept.take(panel, packet),
            Some(Knowledge::Pt6315(panel)) => kept.take(panel, packet),
            None => Answer::refused(Answer::NO_SUCH_PART, 0),
        }
    }

    /// Changes nothing, so that packets may follow.
    pub fn close(&self) -> Answer {
        let kept = &self.kept;
        match &self.knowledge {
            Some(Knowledge::Pt6302(panel)) => kept.close(panel),
            Some(Knowledge::Pt6312(panel)) => kept.close(panel),
            Some(Knowledge::Pt6315(panel)) => kept.close(panel),
            None => Answer::refused(Answer::NO_SUCH_PART, 0),
        }
    }
}

impl Kept {
    fn take<P: Panel>(&mut self, panel: &mut P, packet: &[u8]) -> Answer {
        if !self.is_good(panel) {
            return Answer::refused(Answer::KNOWLEDGE_OUT_OF_RANGE, 0);
        }
        if let Some(refusal) = self.standing {
            return refusal;
        }
        let Some(total) = self.total_with(packet) else {
            return Answer::refused(Answer::TOO_LONG, 0);
        };
        match self.take_bytes(panel, packet) {
            Ok(()) => {
                self.total = total;
                Answer::done(total as usize)
            }
            Err(refusal) => {
                self.unfinished.clear();
                self.standing = Some(refusal);
                refusal
            }
        }
    }

    /// Stops at the first record that is refused; the knowledge stays as it was behind the last good one.
    fn take_bytes<P: Panel>(&mut self, panel: &mut P, packet: &[u8]) -> Result<(), Answer> {
        let mut record = self.unfinished_from();
        for &byte in packet {
            self.unfinished.push(byte);
            match record_in_front::<P>(&self.unfinished) {
                Ok(length) => {
                    let unread = move_by(panel, &self.unfinished);
                    assert!(unread.is_empty(), "a good record is not left unread");
                    self.unfinished.clear();
                    record += length;
                }
                Err(fault) if fault.number == Answer::BODY_CUT_SHORT => {}
                Err(fault) => return Err(fault.in_record_at(record)),
            }
        }
        Ok(())
    }

    /// An unfinished record comes before a standing refusal.
    fn close<P: Panel>(&self, panel: &P) -> Answer {
        if !self.is_good(panel) {
            return Answer::refused(Answer::KNOWLEDGE_OUT_OF_RANGE, 0);
        }
        if !self.unfinished.is_empty() {
            return Answer::refused(Answer::BODY_CUT_SHORT, self.unfinished_from());
        }
        self.standing.unwrap_or(Answer::done(self.total as usize))
    }

    /// Where the unfinished record starts, or the next one if there is none.
    fn unfinished_from(&self) -> usize {
        self.total as usize - self.unfinished.len()
    }

    /// The total behind a packet, unless that is too long by itself or takes the total too high.
    fn total_with(&self, packet: &[u8]) -> Option<u32> {
        if packet.len() > LONGEST {
            return None;
        }
        self.total.checked_add(packet.len() as u32)
    }

    /// Whether this can be kept of such a panel; where it was kept by packets, it can.
    fn is_good<P: Panel>(&self, panel: &P) -> bool {
        let stands = |refusal: Answer| {
            matches!(
                refusal.number,
                Answer::KIND_NOT_LISTED | Answer::KIND_NOT_OF_THIS_PART | Answer::BODY_NOT_ALLOWED
            )
        };
        panel.in_range()
            && (self.unfinished.is_empty() || is_cut_off::<P>(&self.unfinished))
            && self.unfinished.len() <= self.total as usize
            && self.standing.is_none_or(stands)
    }
}

/// Whether a record of the part starts so and goes on.
fn is_cut_off<P: Panel>(bytes: &[u8]) -> bool {
    record_in_front::<P>(bytes).is_err_and(|fault| fault.number == Answer::BODY_CUT_SHORT)
}
