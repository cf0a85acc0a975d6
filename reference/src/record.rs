//! A single record: how long it is, whether it may stand, and which of its bytes is shown if not.

use crate::answer::Answer;
use crate::replay::Panel;

/// Of an unfinished byte, whose kind is 06, at least one bit has come, but not all eight.
pub const FEWEST_BITS: u8 = 1;
pub const MOST_BITS: u8 = 7;
/// Of switches, whose kind is 08, there are four, one to a bit.
pub const HIGHEST_SWITCHES: u8 = 15;

/// Why a record is refused, and which of its bytes is shown, counted from the kind.
pub struct Fault {
    pub number: u8,
    byte: usize,
}

impl Fault {
    /// Of a body that is not allowed the byte at fault is shown (M-104): the fourth one of keys, whose kind is 07, and
    /// the only one of the other kinds. All else is shown by the kind.
    fn new(number: u8, kind: u8) -> Self {
        let byte = match (number, kind) {
            (Answer::BODY_NOT_ALLOWED, 0x07) => 4,
            (Answer::BODY_NOT_ALLOWED, _) => 1,
            _ => 0,
        };
        Fault { number, byte }
    }

    /// The refusal, where the record starts at this place.
    pub fn in_record_at(self, start: usize) -> Answer {
        Answer::refused(self.number, start + self.byte)
    }
}

/// Tests the record in front by 5, 6, 7 and 8, and gives its length; there must be a byte.
pub fn record_in_front<P: Panel>(bytes: &[u8]) -> Result<usize, Fault> {
    let kind = bytes[0];
    let fault = |number| Err(Fault::new(number, kind));
    let (body_length, of_this_part) = match kind {
        0x01 | 0x02 | 0x04 | 0x05 => (0, true),
        0x03 | 0x06 => (1, true),
        0x07 => (4, P::HAS_KEYS),
        0x08 => (1, P::HAS_SWITCHES),
        0x09 => (0, P::HAS_KEYS),
        _ => return fault(Answer::KIND_NOT_LISTED),
    };
    if !of_this_part {
        return fault(Answer::KIND_NOT_OF_THIS_PART);
    }
    let length = 1 + body_length;
    match bytes.get(..length) {
        None => fault(Answer::BODY_CUT_SHORT),
        Some(record) if is_allowed::<P>(record) => Ok(length),
        Some(_) => fault(Answer::BODY_NOT_ALLOWED),
    }
}

/// Of a whole record.
fn is_allowed<P: Panel>(record: &[u8]) -> bool {
    match *record {
        [0x06, bits] => (FEWEST_BITS..=MOST_BITS).contains(&bits),
        [0x07, a, b, c, d] => P::keys_allowed([a, b, c, d]),
        [0x08, switches] => switches <= HIGHEST_SWITCHES,
        _ => true,
    }
}
