//! The facts of one memory.

use crate::bits::Bits;

/// `N` facts that are known bit by bit, of which each has the bits of `ALL`.
/// Values and marks stand apart, so that a byte that may go anywhere meets many cells at a time.
#[derive(Clone, Copy, PartialEq, Eq, Debug)]
pub struct Cells<const N: usize, const ALL: u8> {
    values: [u8; N],
    known: [u8; N],
}

impl<const N: usize, const ALL: u8> Cells<N, ALL> {
    pub const UNKNOWN: Self = Cells {
        values: [0; N],
        known: [0; N],
    };

    pub fn from_facts(facts: [Bits<ALL>; N]) -> Self {
        Cells {
            values: facts.map(|cell| cell.values),
            known: facts.map(|cell| cell.known),
        }
    }

    #[inline]
    pub fn get(&self, at: usize) -> Bits<ALL> {
        Bits {
            values: self.values[at],
            known: self.known[at],
        }
    }

    #[inline]
    pub fn set(&mut self, at: usize, cell: Bits<ALL>) {
        self.values[at] = cell.values;
        self.known[at] = cell.known;
    }

    pub fn iter(&self) -> impl Iterator<Item = Bits<ALL>> + '_ {
        (0..N).map(|at| self.get(at))
    }

    /// The value of each cell of which every bit is known.
    pub fn wholes(&self) -> impl Iterator<Item = Option<u8>> + '_ {
        self.iter().map(Bits::whole)
    }

    pub fn is_partly_known(&self) -> bool {
        self.iter().any(Bits::is_partly_known)
    }

    pub fn in_range(&self) -> bool {
        // Every cell is looked at, whatever the others hold, because that is quicker than to stop at a bad one.
        self.iter().fold(true, |good, cell| good & cell.in_range())
    }

    #[inline]
    pub fn store(&mut self, at: usize, value: u8) {
        self.set(at, Bits::all_known(value));
    }

    #[inline]
    pub fn forget_all(&mut self) {
        *self = Self::UNKNOWN;
    }

    /// Some chips store the value in this cell and others do not, so only the bits stay known that it held before.
    #[inline]
    pub fn may_store(&mut self, at: usize, value: u8) {
        let mut cell = self.get(at);
        cell.may_become(value);
        self.set(at, cell);
    }

    /// Each chip stores the value in some cell or in none, and for every cell there is a chip that passes it by.
    #[inline]
    pub fn may_store_anywhere(&mut self, value: u8) {
        for at in 0..N {
            self.may_store(at, value);
        }
    }
}
