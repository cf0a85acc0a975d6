//! Knowledge after one event, by going through every chip that fits the knowledge before.
//!
//! A fact is a number, and its values are numbers from 0 on. What is known bit by bit is a fact for each bit, with two
//! values, so that chips which agree on a single bit make it known.
//! The facts that the rules read come first, and every value that fits is tried for each of them.
//! No rule reads the others, so for them it is enough to see whether a chip keeps or changes them.

#[derive(Clone, Copy, PartialEq, Eq, Debug)]
pub enum After {
    Value(u8),
    Anything,
}

/// What one chip's move changes; the later of two changes of a fact counts.
pub type Changes = Vec<(usize, After)>;

pub trait Chip {
    /// How many values each fact has; 0 where the part has no such fact.
    fn ranges(&self) -> Vec<usize>;
    /// Where the bits of a byte start among the facts, lowest bit first, and how many there are.
    fn bytes(&self) -> Vec<(usize, usize)>;
    /// The facts below this number are those that the rules read.
    fn read_facts(&self) -> usize;
    /// The move of the chip whose read facts have these values, as the paper says it.
    fn moves(&self, chip: &[u8], record: &[u8], changes: &mut Changes);
}

/// A chip stores a byte, of which so many bits are facts.
pub fn store(changes: &mut Changes, first: usize, width: usize, byte: u8) {
    changes.extend((0..width).map(|bit| (first + bit, After::Value(byte >> bit & 1))));
}

/// What is common to all results so far.
#[derive(Clone, Copy, PartialEq, Eq)]
enum Joined {
    NoneYet,
    All(u8),
    Differ,
}

impl Joined {
    fn join(&mut self, after: After) {
        *self = match (*self, after) {
            (Joined::NoneYet, After::Value(value)) => Joined::All(value),
            (Joined::All(old), After::Value(value)) if old == value => Joined::All(old),
            _ => Joined::Differ,
        };
    }
}

pub fn fitting_chips(rules: &impl Chip, known: &[Option<u8>]) -> usize {
    let ranges = rules.ranges();
    (0..rules.read_facts())
        .map(|fact| known[fact].map_or(ranges[fact], |_| 1))
        .product()
}

pub fn knowledge_after(rules: &impl Chip, known: &[Option<u8>], record: &[u8]) -> Vec<Option<u8>> {
    let ranges = rules.ranges();
    let mut results = vec![Results::NONE_YET; ranges.len()];
    let mut changes = Changes::new();
    let mut chip: Vec<u8> = (0..rules.read_facts())
        .map(|fact| known[fact].unwrap_or(0))
        .collect();
    let mut chips = 0;
    loop {
        chips += 1;
        changes.clear();
        rules.moves(&chip, record, &mut changes);
        for &(fact, after) in changes.iter().rev() {
            results[fact].take(chips, after);
        }
        for (fact, &value) in chip.iter().enumerate() {
            results[fact].take(chips, After::Value(value));
        }
        if !next_chip(&mut chip, known, &ranges) {
            break;
        }
    }
    let facts = results.into_iter().zip(known).zip(ranges);
    facts
        .map(
            |((results, &before), range)| match results.among(chips, before) {
                Joined::All(value) if range > 0 => Some(value),
                _ => None,
            },
        )
        .collect()
}

/// What the chips make of one fact.
#[derive(Clone, Copy)]
struct Results {
    joined: Joined,
    chips: usize,
    last_chip: usize,
}

impl Results {
    const NONE_YET: Self = Results {
        joined: Joined::NoneYet,
        chips: 0,
        last_chip: 0,
    };

    /// Of what a chip, which has a number above 0, makes of the fact only the first counts.
    fn take(&mut self, chip: usize, after: After) {
        if self.last_chip != chip {
            self.last_chip = chip;
            self.chips += 1;
            self.joined.join(after);
        }
    }

    /// With those of so many chips that made nothing of it and so kept it as it was before.
    fn among(mut self, chips: usize, before: Option<u8>) -> Joined {
        if self.chips < chips {
            self.joined
                .join(before.map_or(After::Anything, After::Value));
        }
        self.joined
    }
}

/// Counts through the unknown read facts like through the digits of a number.
fn next_chip(chip: &mut [u8], known: &[Option<u8>], ranges: &[usize]) -> bool {
    for fact in 0..chip.len() {
        if known[fact].is_some() {
            continue;
        }
        chip[fact] += 1;
        if usize::from(chip[fact]) < ranges[fact] {
            return true;
        }
        chip[fact] = 0;
    }
    false
}
