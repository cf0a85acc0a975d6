//! In which records a body was refused, so that one sees that each kind came up in each place.

use reference::recording::{record_length, record_starts};

/// First, in the middle and last, of the kinds 06, 07 and 08.
#[derive(Default)]
pub struct BadBodies {
    by_kind: [[usize; 3]; 3],
}

impl BadBodies {
    /// The place is one in the record that was refused, which is the first bad one from the recording's front.
    pub fn take(&mut self, recording: &[u8], place: usize) {
        let starts = record_starts(recording);
        let start = starts.into_iter().rfind(|&start| start <= place);
        let start = start.expect("a recording that was refused has a record");
        let kind = recording[start];
        let ends = start + record_length(kind) == recording.len();
        let stands = match (start, ends) {
            (0, _) => 0,
            (_, false) => 1,
            (_, true) => 2,
        };
        self.by_kind[usize::from(kind - 6)][stands] += 1;
    }

    pub fn summary(&self) -> String {
        let kinds = ["06", "07", "08"].iter().zip(&self.by_kind);
        let each = kinds.map(|(kind, [first, middle, last])| {
            format!("{kind} first {first}, in the middle {middle}, last {last}")
        });
        each.collect::<Vec<_>>().join("; ")
    }
}
