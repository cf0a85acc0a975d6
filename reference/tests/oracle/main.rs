//! Holds the replay against an oracle that goes through every chip, and the update and the temperature against a few
//! chips each.

mod bit_facts;
mod cases;
mod character_chip;
mod character_facts;
mod join;
mod key_chip;
mod key_facts;
mod temperatures;
mod updates;

use cases::{any_case, Trial};
use character_chip::CharacterChip;
use join::{knowledge_after, Chip};
use key_chip::KeyChip;
use reference::answer::Answer;
use reference::character_panel::Pt6302;
use reference::key_panel::{Pt6312, Pt6315};
use reference::random::Random;
use reference::replay::{replay, Panel};

const CASES: usize = 60_000;

/// A part's knowledge that can be made from a row of facts and turned into one again.
trait Facts: Panel {
    fn from_row(row: &[Option<u8>]) -> Self;
    fn to_row(&self) -> Vec<Option<u8>>;
}

fn compare<P: Facts>(trial: &Trial<impl Chip>) {
    let mut random = Random::new(6312);
    let mut seen = Seen::default();
    for number in 0..CASES {
        let case = any_case(trial, &mut random);
        let expected = knowledge_after(trial.rules, &case.known, &case.record);
        let mut panel = P::from_row(&case.known);
        assert_eq!(panel.to_row(), case.known, "the row comes back as it was");
        let answer = replay(&mut panel, &case.record, 0);
        assert_eq!(answer, Answer::done(case.record.len()));
        assert_eq!(
            panel.to_row(),
            expected,
            "case {number}: record {:02X?} with {:?}",
            case.record,
            case.known
        );
        assert!(panel.in_range(), "case {number}: a 1 in an unknown bit");
        seen.take(trial.rules, &case.known, &expected);
    }
    println!("{CASES} cases: {seen:?}");
    assert!(seen.parted_by_the_event > CASES / 50, "{seen:?}");
}

/// What came up, to see that single bits are lost, and not always whole bytes.
#[derive(Default, Debug)]
struct Seen {
    facts_known_after: usize,
    facts_lost: usize,
    /// Bytes of which some bits were lost by the event and others stayed known.
    parted_by_the_event: usize,
    /// Bytes of which just some bits were known before the event, and that it left as they were.
    partly_known_throughout: usize,
}

impl Seen {
    fn take(&mut self, rules: &impl Chip, before: &[Option<u8>], after: &[Option<u8>]) {
        let lost = |fact: usize| before[fact].is_some() && after[fact].is_none();
        self.facts_known_after += after.iter().flatten().count();
        self.facts_lost += (0..after.len()).filter(|&fact| lost(fact)).count();
        for (first, width) in rules.bytes() {
            let bits = first..first + width;
            let known = after[bits.clone()].iter().flatten().count();
            let is_parted = known > 0 && bits.clone().any(lost);
            let is_same = before[bits.clone()] == after[bits];
            self.parted_by_the_event += usize::from(is_parted);
            self.partly_known_throughout += usize::from(is_same && known > 0 && known < width);
        }
    }
}

#[test]
fn pt6312_knows_what_all_fitting_chips_agree_on() {
    compare::<Pt6312>(&Trial {
        rules: &KeyChip { is_6315: false },
        kinds: &[1, 2, 4, 5, 6, 7, 8, 9, 9, 9],
        position_fact: key_chip::POSITION,
        has_fourth_key: false,
    });
}

#[test]
fn pt6315_knows_what_all_fitting_chips_agree_on() {
    compare::<Pt6315>(&Trial {
        rules: &KeyChip { is_6315: true },
        kinds: &[1, 2, 4, 5, 6, 7, 9, 9, 9],
        position_fact: key_chip::POSITION,
        has_fourth_key: true,
    });
}

#[test]
fn pt6302_knows_what_all_fitting_chips_agree_on() {
    compare::<Pt6302>(&Trial {
        rules: &CharacterChip,
        kinds: &[1, 2, 4, 5, 6],
        position_fact: character_chip::POSITION,
        has_fourth_key: false,
    });
}
