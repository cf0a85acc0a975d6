//! Five cells for a temperature field: readings, dashes, and what is only just neither.

use crate::random::Random;
use crate::temperature::FIELD;

/// What each cell may hold in a reading.
const ALLOWED: [&[u8]; FIELD] = [b" -", b" 0123456789", b"0123456789", b".", b"05"];

/// What stands beside that, and what another cell may hold.
const NEAR: [&[u8]; FIELD] = [
    &[0x1F, 0x21, 0x2B, 0x2C, 0x2E, 0x30],
    &[0x1F, 0x21, 0x2D, 0x2E, 0x2F, 0x3A],
    &[0x20, 0x2D, 0x2E, 0x2F, 0x3A],
    &[0x20, 0x2C, 0x2D, 0x2F, 0x30],
    &[0x20, 0x2D, 0x2F, 0x31, 0x34, 0x36, 0x39],
];

const DASHES: [u8; FIELD] = [b'-'; FIELD];

pub fn any_field(random: &mut Random) -> [u8; FIELD] {
    let mut field = any_reading(random);
    let at = random.below(FIELD);
    match random.below(20) {
        0..=8 => {}
        9..=11 => field[at] = random.pick(NEAR[at]),
        12 => field[at] ^= 1 << random.below(8),
        13 => field[at] = random.byte(),
        14 => field[..2].copy_from_slice(b" -"),
        15 | 16 => field = DASHES,
        17 => {
            let other = field[at];
            field = DASHES;
            field[at] = other;
        }
        18 => {
            field = DASHES;
            field[at] = random.pick(NEAR[at]);
        }
        _ => field = std::array::from_fn(|_| random.pick(b" -.05")),
    }
    field
}

/// Noughts come up often, since theirs is the sign that gets lost or kept wrongly.
fn any_reading(random: &mut Random) -> [u8; FIELD] {
    let mut field = ALLOWED.map(|allowed| random.pick(allowed));
    if random.once_in(5) {
        field[1] = random.pick(b" 0");
        field[2] = b'0';
    }
    field
}
