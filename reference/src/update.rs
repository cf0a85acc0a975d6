//! The update of paper 02 (M-102): of the wanted cells only those are sent of which a bit is unknown or
//! different.
//!
//! It is written to be read, not to be quick: the cells to send are a set, the runs are found by asking that set.

use crate::answer::{Answer, LONGEST};
use crate::key_panel::{DataMode, Differences, KeyPanel, Stepping};
use crate::knowledge::Knowledge;
use crate::recording::Recording;
use crate::replay::Panel;
use std::collections::BTreeSet;

/// Write display and increment, nothing else.
const DATA_SETTING: u8 = 0x40;
/// The address command; the low bits are the address.
const ADDRESS: u8 = 0xC0;

/// What an update gives back; a refused one has the count 0 and no stream.
#[derive(Clone, Debug, PartialEq, Eq)]
pub struct Update {
    pub answer: Answer,
    /// The bytes that go over the wire: cells and runs, and one for the data setting where it is sent.
    pub count: usize,
    /// What is written to the front of the lent output.
    pub stream: Vec<u8>,
}

impl Update {
    pub fn refused(number: u8) -> Self {
        Update {
            answer: Answer::refused(number, 0),
            count: 0,
            stream: Vec::new(),
        }
    }
}

/// The update for an output of `room` bytes. There is no knowledge where the part byte names no part.
/// `wanted` has a byte for each cell of the part, from 00H on.
pub fn update(knowledge: Option<&Knowledge>, wanted: &[u8], room: usize) -> Update {
    match knowledge {
        Some(Knowledge::Pt6312(panel)) => update_key_panel(panel, wanted, room),
        Some(Knowledge::Pt6315(panel)) => update_key_panel(panel, wanted, room),
        Some(Knowledge::Pt6302(_)) | None => Update::refused(Answer::NO_SUCH_PART),
    }
}

fn update_key_panel<const CELLS: usize, const KEYS: usize>(
    panel: &KeyPanel<CELLS, KEYS>,
    wanted: &[u8],
    room: usize,
) -> Update
where
    KeyPanel<CELLS, KEYS>: Differences,
{
    if !panel.in_range() {
        return Update::refused(Answer::KNOWLEDGE_OUT_OF_RANGE);
    }
    let to_send: BTreeSet<usize> = (0..CELLS)
        .filter(|&at| panel.cells.get(at).whole() != Some(wanted[at]))
        .collect();
    let runs = runs_around(&to_send, CELLS);
    let setting_known = panel.data_mode == Some(DataMode::WriteDisplay)
        && panel.stepping == Some(Stepping::Increment);
    let sends_setting = !setting_known && !to_send.is_empty();

    let mut recording = Recording::up_to(LONGEST);
    if sends_setting {
        recording.strobe(DATA_SETTING, &[]);
    }
    for run in &runs {
        let bytes: Vec<u8> = run.iter().map(|&at| wanted[at]).collect();
        recording.strobe(ADDRESS | run[0] as u8, &bytes);
    }
    let stream = recording.into_bytes();
    if stream.len() > room {
        return Update::refused(Answer::OUTPUT_TOO_SMALL);
    }
    Update {
        answer: Answer::done(stream.len()),
        count: to_send.len() + runs.len() + usize::from(sends_setting),
        stream,
    }
}

/// The runs of a ring, each as its cells in turn, in rising order of the first one.
/// A run starts at a cell whose neighbour before it is not in the set; only a full ring has none, and starts at 00H.
fn runs_around(set: &BTreeSet<usize>, ring: usize) -> Vec<Vec<usize>> {
    if set.len() == ring {
        return vec![(0..ring).collect()];
    }
    let before = |at: usize| (at + ring - 1) % ring;
    let starts = set.iter().filter(|&&at| !set.contains(&before(at)));
    starts
        .map(|start| {
            let onwards = (0..ring).map(|step| (start + step) % ring);
            onwards.take_while(|at| set.contains(at)).collect()
        })
        .collect()
}
