//! The numbers given back, each with its place.

/// The longest recording that is taken.
pub const LONGEST: usize = 65_535;

/// What a replay gives back, a tail, a packet, an update and a temperature: a number from the papers' table, and a place
/// counted from the front of the recording or of the first packet.
#[derive(Clone, Copy, Debug, PartialEq, Eq)]
pub struct Answer {
    pub number: u8,
    pub place: usize,
}

impl Answer {
    pub const DONE: u8 = 0;
    pub const NO_SUCH_PART: u8 = 1;
    pub const KNOWLEDGE_OUT_OF_RANGE: u8 = 2;
    pub const START_BEYOND_LENGTH: u8 = 3;
    pub const TOO_LONG: u8 = 4;
    pub const KIND_NOT_LISTED: u8 = 5;
    pub const KIND_NOT_OF_THIS_PART: u8 = 6;
    pub const BODY_CUT_SHORT: u8 = 7;
    pub const BODY_NOT_ALLOWED: u8 = 8;
    pub const OUTPUT_TOO_SMALL: u8 = 10;
    pub const FIELD_STARTS_TOO_HIGH: u8 = 11;

    pub fn done(length: usize) -> Self {
        Answer {
            number: Self::DONE,
            place: length,
        }
    }

    pub fn refused(number: u8, place: usize) -> Self {
        Answer { number, place }
    }
}
