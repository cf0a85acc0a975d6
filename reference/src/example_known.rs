//! What is known of a panel, in one row as `panel_examples` writes it: memory and keys, and single facts where they are
//! known.

use crate::bits::Bits;
use crate::cells::Cells;
use crate::character_panel::{self, Lights, Pt6302};
use crate::key_panel::{Address, DataMode, Display, KeyPanel, Position, Stepping};
use crate::knowledge::Knowledge;
use crate::show::in_hex;

/// The switches that a PT6315 is said to have are no fact of it, and are not shown.
pub fn known(knowledge: &Knowledge) -> String {
    match knowledge {
        Knowledge::Pt6302(panel) => character_row(panel),
        Knowledge::Pt6312(panel) => key_row(panel, panel.switches),
        Knowledge::Pt6315(panel) => key_row(panel, None),
    }
}

fn key_row<const CELLS: usize, const KEYS: usize>(
    panel: &KeyPanel<CELLS, KEYS>,
    switches: Option<u8>,
) -> String {
    let keys: String = panel.keys.map(|key| format!(" {}", in_hex(key))).concat();
    let facts = [
        panel.position.map(position_in_words),
        panel.data_mode.map(data_mode_in_words),
        panel.stepping.map(stepping_in_words),
        panel.address.map(address_in_words),
        panel.read_count.map(|count| format!("read count {count}")),
        panel.mode.map(|mode| format!("mode {mode}")),
        panel.dimming.map(|dimming| format!("dimming {dimming}")),
        panel.display.map(display_in_words),
        bits_if_known("LED", panel.led),
        switches.map(|switches| format!("switches {switches}")),
    ];
    let cells = runs(&panel.cells);
    format!("    cells{cells}, keys{keys}{}", those_known(&facts))
}

fn character_row(panel: &Pt6302) -> String {
    let address = |ram: &str, at: u8| format!("{ram} at {at:02X}");
    let facts = [
        panel.position.map(character_position_in_words),
        panel.dcram_address.map(|at| address("DCRAM", at)),
        panel.cgram_address.map(|at| address("CGRAM", at)),
        panel.column.map(|column| format!("column {column}")),
        panel.adram_address.map(|at| address("ADRAM", at)),
        bits_if_known("port", panel.port),
        panel.duty.map(|duty| format!("duty {duty}")),
        panel.digits.map(|digits| format!("digits {digits}")),
        panel.lights.map(lights_in_words),
    ];
    let dcram = runs(&panel.dcram);
    let cgram = runs(&panel.cgram);
    let adram = runs(&panel.adram);
    let facts = those_known(&facts);
    format!("    DCRAM{dcram}, CGRAM{cgram}, ADRAM{adram}{facts}")
}

fn those_known(facts: &[Option<String>]) -> String {
    let known = facts.iter().flatten();
    known.map(|fact| format!(", {fact}")).collect()
}

/// Neighbours that are alike stand as one, such as `00-06=6E`.
fn runs<const N: usize, const ALL: u8>(cells: &Cells<N, ALL>) -> String {
    let cells: Vec<_> = cells.iter().collect();
    let mut text = String::new();
    let mut first = 0;
    for run in cells.chunk_by(|one, next| one == next) {
        let last = first + run.len() - 1;
        text += &match run.len() {
            1 => format!(" {first:02X}={}", bits_in_words(run[0])),
            _ => format!(" {first:02X}-{last:02X}={}", bits_in_words(run[0])),
        };
        first = last + 1;
    }
    text
}

/// Where only some bits are known, values and marks stand as in a word that says so, and so does what is not in range.
fn bits_in_words<const ALL: u8>(bits: Bits<ALL>) -> String {
    match bits.whole() {
        None if bits != Bits::UNKNOWN => values_and_marks(bits),
        whole => in_hex(whole),
    }
}

/// A single fact of bits, whose value is no address and so stands in decimal.
fn bits_if_known<const ALL: u8>(name: &str, bits: Bits<ALL>) -> Option<String> {
    match bits.whole() {
        Some(value) => Some(format!("{name} {value}")),
        None if bits == Bits::UNKNOWN => None,
        None => Some(format!("{name} {}", values_and_marks(bits))),
    }
}

fn values_and_marks<const ALL: u8>(bits: Bits<ALL>) -> String {
    format!("{:02X}/{:02X}", bits.values, bits.known)
}

fn address_in_words(address: Address) -> String {
    match address {
        Address::Cell(at) => format!("address {at:02X}"),
        Address::Invalid => "address invalid".into(),
    }
}

fn position_in_words(position: Position) -> String {
    let position = match position {
        Position::Idle => "idle",
        Position::FirstByte => "first byte",
        Position::Open => "open",
        Position::Ignoring => "ignoring",
    };
    format!("position {position}")
}

fn data_mode_in_words(data_mode: DataMode) -> String {
    let data_mode = match data_mode {
        DataMode::WriteDisplay => "write display",
        DataMode::WriteLed => "write LED",
        DataMode::ReadKeys => "read keys",
        DataMode::ReadSwitches => "read switches",
    };
    format!("data mode {data_mode}")
}

fn stepping_in_words(stepping: Stepping) -> String {
    match stepping {
        Stepping::Increment => "stepping increment".into(),
        Stepping::Fixed => "stepping fixed".into(),
    }
}

fn display_in_words(display: Display) -> String {
    match display {
        Display::Off => "display off".into(),
        Display::On => "display on".into(),
    }
}

fn character_position_in_words(position: character_panel::Position) -> String {
    let position = match position {
        character_panel::Position::Idle => "idle",
        character_panel::Position::FirstByte => "first byte",
        character_panel::Position::Dcram => "to DCRAM",
        character_panel::Position::Cgram => "to CGRAM",
        character_panel::Position::Adram => "to ADRAM",
        character_panel::Position::Ignoring => "ignoring",
    };
    format!("position {position}")
}

fn lights_in_words(lights: Lights) -> String {
    let lights = match lights {
        Lights::Normal => "normal",
        Lights::Off => "off",
        Lights::On => "on",
    };
    format!("lights {lights}")
}
