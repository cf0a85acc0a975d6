//! One number over everything that a replay gives back, so that two programs can be compared by a single line.

use crate::answer::Answer;
use crate::bits::Bits;
use crate::cells::Cells;
use crate::character_panel::Pt6302;
use crate::key_panel::{Address, KeyPanel};
use crate::knowledge::Knowledge;

const UNKNOWN_CODE: u64 = 256;
const INVALID_CODE: u64 = 255;
const MODULUS: u64 = 4_294_967_291;

#[derive(Default)]
pub struct Checksum {
    sum: u64,
}

impl Checksum {
    pub fn value(&self) -> u64 {
        self.sum
    }

    fn take(&mut self, code: u64) {
        self.sum = (self.sum * 31 + code) % MODULUS;
    }

    fn take_fact(&mut self, fact: Option<u8>) {
        self.take(fact.map_or(UNKNOWN_CODE, u64::from));
    }

    /// The marks count as well, so that knowing a bit to be 0 is not the same as not knowing it.
    fn take_bits<const ALL: u8>(&mut self, bits: Bits<ALL>) {
        self.take(u64::from(bits.code()));
    }

    fn take_cells<const N: usize, const ALL: u8>(&mut self, cells: &Cells<N, ALL>) {
        for cell in cells.iter() {
            self.take_bits(cell);
        }
    }

    /// Of the place the low two bytes count, and packets may bring more than those hold.
    pub fn take_answer(&mut self, answer: Answer) {
        self.take(u64::from(answer.number));
        self.take(answer.place as u64 % 65_536);
    }

    pub fn take_knowledge(&mut self, knowledge: &Knowledge) {
        match knowledge {
            Knowledge::Pt6302(panel) => self.take_character_panel(panel),
            Knowledge::Pt6312(panel) => self.take_key_panel(panel, true),
            Knowledge::Pt6315(panel) => self.take_key_panel(panel, false),
        }
    }

    /// The enums stand in the order of their codes, so their numbers are the codes.
    fn take_key_panel<const CELLS: usize, const KEYS: usize>(
        &mut self,
        panel: &KeyPanel<CELLS, KEYS>,
        has_switches: bool,
    ) {
        self.take_cells(&panel.cells);
        self.take(match panel.address {
            Some(Address::Cell(at)) => u64::from(at),
            Some(Address::Invalid) => INVALID_CODE,
            None => UNKNOWN_CODE,
        });
        self.take_fact(panel.data_mode.map(|mode| mode as u8));
        self.take_fact(panel.stepping.map(|stepping| stepping as u8));
        self.take_fact(panel.mode);
        self.take_fact(panel.dimming);
        self.take_fact(panel.display.map(|display| display as u8));
        self.take_bits(panel.led);
        for key in panel.keys {
            self.take_fact(key);
        }
        if has_switches {
            self.take_fact(panel.switches);
        }
        self.take_fact(panel.read_count);
        self.take_fact(panel.position.map(|position| position as u8));
    }

    fn take_character_panel(&mut self, panel: &Pt6302) {
        self.take_cells(&panel.dcram);
        self.take_cells(&panel.cgram);
        self.take_cells(&panel.adram);
        self.take_fact(panel.dcram_address);
        self.take_fact(panel.cgram_address);
        self.take_fact(panel.adram_address);
        self.take_fact(panel.column);
        self.take_bits(panel.port);
        self.take_fact(panel.duty);
        self.take_fact(panel.digits);
        self.take_fact(panel.lights.map(|lights| lights as u8));
        self.take_fact(panel.position.map(|position| position as u8));
    }
}
