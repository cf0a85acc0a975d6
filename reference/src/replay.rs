//! The replay: the tests that come first, then the records from the front.

use crate::answer::{Answer, LONGEST};
use crate::record::{record_in_front, FEWEST_BITS, HIGHEST_SWITCHES, MOST_BITS};

/// Knowledge of one part, with the moves of that part.
pub trait Panel: Copy {
    /// Nothing is known.
    const UNKNOWN: Self;
    const HAS_KEYS: bool;
    const HAS_SWITCHES: bool;

    fn in_range(&self) -> bool;
    fn power(&mut self);
    fn gap(&mut self);
    fn strobe_falls(&mut self);
    fn strobe_rises(&mut self);
    fn byte_in(&mut self, byte: u8);

    /// These three are for parts with keys only, so that the others need not have them.
    fn byte_out(&mut self) {}
    fn keys_allowed(_keys: [u8; 4]) -> bool {
        false
    }
    fn keys_latched(&mut self, _keys: [u8; 4]) {}

    /// This one is for parts with switches only.
    fn switches_latched(&mut self, _switches: u8) {}
}

/// Moves the knowledge by the records from `start` on; a refusal leaves it as it was.
pub fn replay<P: Panel>(panel: &mut P, recording: &[u8], start: usize) -> Answer {
    if !panel.in_range() {
        return Answer::refused(Answer::KNOWLEDGE_OUT_OF_RANGE, 0);
    }
    if recording.len() > LONGEST {
        return Answer::refused(Answer::TOO_LONG, 0);
    }
    let Some(records) = recording.get(start..) else {
        return Answer::refused(Answer::START_BEYOND_LENGTH, 0);
    };
    let before = *panel;
    let unread = move_by(panel, records);
    if unread.is_empty() {
        return Answer::done(recording.len());
    }
    *panel = before;
    refusal::<P>(recording, unread)
}

/// The records stopped at what is unread, and places count from the front of the whole recording.
#[cold]
fn refusal<P: Panel>(recording: &[u8], unread: &[u8]) -> Answer {
    let fault = record_in_front::<P>(unread).expect_err("a good record is not left unread");
    fault.in_record_at(recording.len() - unread.len())
}

/// Handles the records in turn up to one that must be refused, and gives back what stands from there on.
/// A loop of its own, kept out of its caller, leaves the compiler the most room for what happens at every record.
#[inline(never)]
pub(crate) fn move_by<'a, P: Panel>(panel: &mut P, mut records: &'a [u8]) -> &'a [u8] {
    loop {
        records = match *records {
            [0x03, byte, ref rest @ ..] => {
                panel.byte_in(byte);
                rest
            }
            [0x01, ref rest @ ..] => {
                panel.power();
                rest
            }
            [0x02, ref rest @ ..] => {
                panel.strobe_falls();
                rest
            }
            [0x04, ref rest @ ..] | [0x06, FEWEST_BITS..=MOST_BITS, ref rest @ ..] => {
                panel.strobe_rises();
                rest
            }
            [0x05, ref rest @ ..] => {
                panel.gap();
                rest
            }
            [0x07, a, b, c, d, ref rest @ ..] if P::HAS_KEYS && P::keys_allowed([a, b, c, d]) => {
                panel.keys_latched([a, b, c, d]);
                rest
            }
            [0x08, switches @ 0..=HIGHEST_SWITCHES, ref rest @ ..] if P::HAS_SWITCHES => {
                panel.switches_latched(switches);
                rest
            }
            [0x09, ref rest @ ..] if P::HAS_KEYS => {
                panel.byte_out();
                rest
            }
            _ => return records,
        }
    }
}
