//! A fact that is known bit by bit (M-107): a cell, a column, a pair, the LED or the port.

/// The values of the bits, and a mark for each that is known. A bit that is unknown is stored as 0, so that two
/// knowledges that are the same are stored the same. `ALL` has a 1 for each bit that the fact has.
#[derive(Clone, Copy, Debug, PartialEq, Eq)]
pub struct Bits<const ALL: u8> {
    pub values: u8,
    pub known: u8,
}

pub type Byte = Bits<0xFF>;
pub type Nibble = Bits<0x0F>;
pub type Pair = Bits<0x03>;

impl<const ALL: u8> Bits<ALL> {
    pub const UNKNOWN: Self = Bits {
        values: 0,
        known: 0,
    };

    /// Any values and marks, also such as are not in range.
    pub const fn new(values: u8, known: u8) -> Self {
        Bits { values, known }
    }

    /// Every bit is known. A value that the fact has no room for stands as it is, and is then not in range.
    #[inline]
    pub const fn all_known(values: u8) -> Self {
        Bits { values, known: ALL }
    }

    /// The value, where every bit is known.
    #[inline]
    pub fn whole(self) -> Option<u8> {
        (self.known == ALL).then_some(self.values)
    }

    /// Some bits are known and others are not.
    pub fn is_partly_known(self) -> bool {
        self.known != 0 && self.known != ALL
    }

    /// Some chips get the value now and the others keep what they have, so only bits that already have it stay known.
    #[inline]
    pub fn may_become(&mut self, value: u8) {
        self.known &= !(self.values ^ value);
        self.values &= self.known;
    }

    /// A bit that the fact lacks must not be marked as known, and what is not marked must be stored as 0.
    #[inline]
    pub fn in_range(self) -> bool {
        (self.known & !ALL) | (self.values & !self.known) == 0
    }

    /// One number for both, the marks in the high byte.
    #[inline]
    pub fn code(self) -> u16 {
        u16::from(self.known) << 8 | u16::from(self.values)
    }
}
