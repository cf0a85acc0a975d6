//! The tail finder: what stands behind the last gap of a recording.

use crate::answer::{Answer, LONGEST};
use crate::character_panel::Pt6302;
use crate::key_panel::{Pt6312, Pt6315};
use crate::knowledge::{PT6302, PT6312, PT6315};
use crate::record::record_in_front;
use crate::replay::Panel;
use std::ops::Range;

const GAP: u8 = 0x05;

/// The answer, and the tail's places in the recording; a refused tail is the empty one at the front.
#[derive(Debug, PartialEq, Eq)]
pub struct Tail {
    pub answer: Answer,
    pub places: Range<usize>,
}

impl Tail {
    fn refused(answer: Answer) -> Self {
        Tail {
            answer,
            places: 0..0,
        }
    }
}

/// The tail of a recording of the part that this byte names, if it names one.
pub fn tail_of(part: u8, recording: &[u8]) -> Tail {
    match part {
        PT6302 => tail::<Pt6302>(recording),
        PT6312 => tail::<Pt6312>(recording),
        PT6315 => tail::<Pt6315>(recording),
        _ => Tail::refused(Answer::refused(Answer::NO_SUCH_PART, 0)),
    }
}

/// The whole is looked at, so that a bad record before the last gap is refused as well.
fn tail<P: Panel>(recording: &[u8]) -> Tail {
    let end = recording.len();
    if end > LONGEST {
        return Tail::refused(Answer::refused(Answer::TOO_LONG, 0));
    }
    let (mut start, mut record) = (0, 0);
    while record < end {
        match record_in_front::<P>(&recording[record..]) {
            Ok(length) => {
                let is_gap = recording[record] == GAP;
                record += length;
                if is_gap {
                    start = record;
                }
            }
            Err(fault) => return Tail::refused(fault.in_record_at(record)),
        }
    }
    Tail {
        answer: Answer::done(end),
        places: start..end,
    }
}
