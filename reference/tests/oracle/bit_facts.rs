//! Turns facts that are single bits into what is known of a byte or of a memory, and back.

use crate::cases::put_bits;
use reference::bits::Bits;
use reference::cells::Cells;

/// The facts of one byte, lowest bit first.
pub fn bits_in<const ALL: u8>(facts: &[Option<u8>]) -> Bits<ALL> {
    let mut bits = Bits::UNKNOWN;
    for (bit, fact) in facts.iter().enumerate() {
        if let Some(value) = fact {
            bits.known |= 1 << bit;
            bits.values |= value << bit;
        }
    }
    bits
}

/// The facts of a memory, cell by cell.
pub fn cells_in<const N: usize, const ALL: u8>(facts: &[Option<u8>]) -> Cells<N, ALL> {
    let cells: Vec<Bits<ALL>> = facts.chunks(width(ALL)).map(bits_in).collect();
    Cells::from_facts(cells.try_into().expect("there are as many facts as bits"))
}

pub fn facts_of<const ALL: u8>(bits: Bits<ALL>) -> Vec<Option<u8>> {
    let mut facts = vec![None; width(ALL)];
    put_bits(&mut facts, bits.values, bits.known);
    facts
}

pub fn facts_in<const N: usize, const ALL: u8>(cells: &Cells<N, ALL>) -> Vec<Option<u8>> {
    cells.iter().flat_map(facts_of).collect()
}

fn width(all: u8) -> usize {
    all.count_ones() as usize
}

/// The byte that a chip has, whose bits all have values.
pub fn byte_of(bits: &[u8]) -> u8 {
    let numbered = bits.iter().enumerate();
    numbered.fold(0, |byte, (bit, value)| byte | value << bit)
}
