//! Knowledge and records to try, made so that every rule and every kind of ignorance comes up often.

use crate::join::{fitting_chips, Chip};
use reference::random::Random;

/// More chips than this are tried only now and then, because they take long.
const FEW_CHIPS: usize = 1_500;

/// What to try with a part.
pub struct Trial<'a, C: Chip> {
    pub rules: &'a C,
    pub kinds: &'a [u8],
    pub position_fact: usize,
    pub has_fourth_key: bool,
}

pub struct Case {
    pub known: Vec<Option<u8>>,
    pub record: Vec<u8>,
}

/// Bytes come from a small pool, so that a write often meets its own value, or bits of it.
pub fn any_case(trial: &Trial<impl Chip>, random: &mut Random) -> Case {
    let pool = [random.byte(), random.byte(), random.byte()];
    let mut known = any_knowledge(trial.rules, &pool, random);
    if random.once_in(3) {
        known[trial.position_fact] = None;
    }
    if !random.once_in(200) {
        learn_until_few_chips(trial, &mut known, random);
    }
    let record = any_record(trial, &pool, random);
    Case { known, record }
}

pub fn any_knowledge(rules: &impl Chip, pool: &[u8], random: &mut Random) -> Vec<Option<u8>> {
    let unknown_in_ten = random.pick(&[0, 1, 3, 6, 9]);
    let mut known = Vec::new();
    for range in rules.ranges() {
        let unknown = range == 0 || random.below(10) < unknown_in_ten;
        known.push((!unknown).then(|| random.below(range) as u8));
    }
    for (first, width) in rules.bytes() {
        let is_unknown = random.below(10) < unknown_in_ten;
        let unknown_bits = if is_unknown {
            any_of_them(random)
        } else {
            0x00
        };
        let byte = random.pick(pool);
        put_bits(&mut known[first..first + width], byte, !unknown_bits);
    }
    known
}

/// Any bits of a byte, but at least one: all of them, a single one, all but that, or whichever.
pub fn any_of_them(random: &mut Random) -> u8 {
    let one = 1 << random.below(8);
    match random.below(5) {
        0 | 1 => 0xFF,
        2 => one,
        3 => !one,
        _ => one | random.byte(),
    }
}

/// The bits of a byte as facts, of which those that are not marked become unknown.
pub fn put_bits(facts: &mut [Option<u8>], byte: u8, marks: u8) {
    for (bit, fact) in facts.iter_mut().enumerate() {
        let is_known = marks >> bit & 1 == 1;
        *fact = is_known.then_some(byte >> bit & 1);
    }
}

/// The position is learnt last, since not knowing it is the hardest case.
fn learn_until_few_chips(trial: &Trial<impl Chip>, known: &mut [Option<u8>], random: &mut Random) {
    let ranges = trial.rules.ranges();
    while fitting_chips(trial.rules, known) > FEW_CHIPS {
        let fact = random.below(trial.rules.read_facts());
        if fact != trial.position_fact && known[fact].is_none() {
            known[fact] = Some(random.below(ranges[fact]) as u8);
        }
    }
}

/// Most records are bytes clocked in, because most rules are about those.
fn any_record(trial: &Trial<impl Chip>, pool: &[u8], random: &mut Random) -> Vec<u8> {
    let kind = match random.below(4) {
        0 => random.pick(trial.kinds),
        _ => 0x03,
    };
    match kind {
        0x03 if random.once_in(2) => vec![kind, random.pick(pool)],
        0x03 => vec![kind, random.byte()],
        0x06 => vec![kind, 1 + random.below(7) as u8],
        0x07 => {
            let fourth = random.byte() * u8::from(trial.has_fourth_key);
            vec![kind, random.byte(), random.byte(), random.byte(), fourth]
        }
        0x08 => vec![kind, random.byte() & 0x0F],
        _ => vec![kind],
    }
}
