//! Each refusal, its place, and that it leaves the knowledge alone.

use reference::answer::{Answer, LONGEST};
use reference::bits::Bits;
use reference::character_panel::Pt6302;
use reference::example_lines::bytes_in;
use reference::key_panel::{Address, DataMode, Pt6312, Pt6315};
use reference::knowledge::{replay_from_nothing, Knowledge, PARTS, PT6302, PT6312, PT6315};
use reference::replay::{replay, Panel};

fn answer(part: u8, recording: &[u8]) -> (u8, usize) {
    let (answer, _) = replay_from_nothing(part, recording);
    (answer.number, answer.place)
}

#[test]
fn the_part_is_looked_at_before_the_length() {
    for part in [0x00, 0x01, 0x03, 0x14, 0xFF] {
        assert_eq!(answer(part, &[]), (1, 0));
        assert_eq!(answer(part, &[0x04; LONGEST + 1]), (1, 0));
    }
}

#[test]
fn the_longest_recording_is_taken_and_no_longer_one() {
    for part in PARTS {
        assert_eq!(answer(part, &[0x04; LONGEST]), (0, LONGEST));
        assert_eq!(answer(part, &[0x04; LONGEST + 1]), (4, 0));
        assert_eq!(answer(part, &[0x00; LONGEST + 1]), (4, 0));
        assert_eq!(answer(part, &[]), (0, 0));
    }
}

#[test]
fn a_start_beyond_the_length_comes_behind_the_length() {
    let mut panel = Pt6312::UNKNOWN;
    assert_eq!(replay(&mut panel, &[0x04], 1), Answer::done(1));
    assert_eq!(replay(&mut panel, &[0x04], 2), Answer::refused(3, 0));
    let too_long = [0x04; LONGEST + 1];
    let far = LONGEST + 2;
    assert_eq!(replay(&mut panel, &too_long, far), Answer::refused(4, 0));
}

#[test]
fn places_count_from_the_front_of_the_whole_recording() {
    let mut panel = Pt6312::UNKNOWN;
    let recording = [0xFF, 0x02, 0x04, 0x0A];
    assert_eq!(replay(&mut panel, &recording, 1), Answer::refused(5, 3));
    assert_eq!(replay(&mut panel, &recording[..3], 1), Answer::done(3));
}

#[test]
fn kinds_that_are_not_listed() {
    for part in PARTS {
        for kind in [0x00, 0x0A, 0x80, 0xFF] {
            assert_eq!(answer(part, &[0x01, kind]), (5, 1));
        }
    }
}

#[test]
fn kinds_of_another_part_are_refused_before_their_bodies() {
    for kind in [0x07, 0x08, 0x09] {
        assert_eq!(answer(PT6302, &[0x01, kind]), (6, 1));
    }
    assert_eq!(answer(PT6315, &[0x08]), (6, 0));
    assert_eq!(answer(PT6312, &[0x08]), (7, 0));
    assert_eq!(answer(PT6315, &[0x08, 0xFF]), (6, 0));
}

#[test]
fn bodies_cut_short() {
    for part in PARTS {
        assert_eq!(answer(part, &[0x01, 0x03]), (7, 1));
        assert_eq!(answer(part, &[0x01, 0x06]), (7, 1));
    }
    for part in [PT6312, PT6315] {
        for length in 1..5 {
            assert_eq!(answer(part, &[0x07, 1, 2, 3, 4][..length]), (7, 0));
        }
    }
}

#[test]
fn bodies_that_are_not_allowed() {
    for part in PARTS {
        for bits in 0..=255 {
            let expected = if (1..=7).contains(&bits) {
                (0, 2)
            } else {
                (8, 1)
            };
            assert_eq!(answer(part, &[0x06, bits]), expected);
        }
    }
    assert_eq!(answer(PT6312, &[0x08, 15]), (0, 2));
    assert_eq!(answer(PT6312, &[0x08, 16]), (8, 1));
    assert_eq!(answer(PT6312, &[0x07, 1, 2, 3, 0]), (0, 5));
    assert_eq!(answer(PT6312, &[0x07, 1, 2, 3, 4]), (8, 4));
    assert_eq!(answer(PT6315, &[0x07, 1, 2, 3, 4]), (0, 5));
}

fn answer_from(start: usize, part: u8, hex: &str) -> (u8, usize) {
    let mut knowledge = Knowledge::unknown(part).unwrap();
    let answer = knowledge.replay(&bytes_in(hex), start);
    assert_eq!(Some(knowledge), Knowledge::unknown(part), "{hex}");
    (answer.number, answer.place)
}

/// At the front of a recording, in its middle and at its end, from its front and from a start place.
#[test]
fn an_unfinished_byte_that_is_not_allowed_is_shown_by_its_body() {
    for part in PARTS {
        assert_eq!(answer_from(0, part, "06 00 04"), (8, 1));
        assert_eq!(answer_from(0, part, "01 06 08 04"), (8, 2));
        assert_eq!(answer_from(0, part, "01 02 03 C0 06 FF"), (8, 5));
        assert_eq!(answer_from(2, part, "00 FF 06 00 04"), (8, 3));
        assert_eq!(answer_from(2, part, "00 FF 01 06 08 04"), (8, 4));
        assert_eq!(answer_from(1, part, "06 01 02 06 80"), (8, 4));
        assert_eq!(answer_from(1, part, "03 06 00 04"), (8, 2));
    }
}

#[test]
fn switches_that_are_not_allowed_are_shown_by_their_body() {
    assert_eq!(answer_from(0, PT6312, "08 10 04"), (8, 1));
    assert_eq!(answer_from(0, PT6312, "01 08 FF 04"), (8, 2));
    assert_eq!(answer_from(0, PT6312, "01 03 08 08 0F 08 80"), (8, 6));
    assert_eq!(answer_from(1, PT6312, "0A 08 10 04"), (8, 2));
    assert_eq!(answer_from(1, PT6312, "0A 04 08 C8 04"), (8, 3));
    assert_eq!(answer_from(2, PT6312, "06 08 01 04 08 10"), (8, 5));
    assert_eq!(answer_from(1, PT6312, "06 08 10"), (8, 2));
}

#[test]
fn keys_that_are_not_allowed_are_shown_by_their_fourth_byte() {
    assert_eq!(answer_from(0, PT6312, "07 12 34 05 01 04"), (8, 4));
    assert_eq!(answer_from(0, PT6312, "01 07 12 34 05 80 04"), (8, 5));
    assert_eq!(answer_from(0, PT6312, "01 04 07 FF FF FF FF"), (8, 6));
    assert_eq!(answer_from(0, PT6312, "07 00 00 00 01"), (8, 4));
    assert_eq!(
        answer_from(0, PT6312, "07 10 00 FF 00 07 00 00 00 FF"),
        (8, 9)
    );
    assert_eq!(answer_from(3, PT6312, "FF FF FF 07 00 00 00 01 04"), (8, 7));
    assert_eq!(answer_from(1, PT6312, "00 02 07 12 34 05 80 04"), (8, 6));
    assert_eq!(answer_from(2, PT6312, "06 00 01 04 07 01 02 03 04"), (8, 8));
}

/// What the other numbers show is the kind, whatever the body holds.
#[test]
fn other_refusals_are_shown_by_the_kind() {
    for part in PARTS {
        assert_eq!(answer_from(1, part, "FF 04 0A 00 04"), (5, 2));
        assert_eq!(answer_from(1, part, "FF 04 06"), (7, 2));
    }
    assert_eq!(answer_from(1, PT6302, "FF 04 07 00 00 00 01"), (6, 2));
    assert_eq!(answer_from(1, PT6302, "FF 08 FF"), (6, 1));
    assert_eq!(answer_from(1, PT6315, "FF 04 08 10"), (6, 2));
    assert_eq!(answer_from(1, PT6312, "FF 04 07 FF FF FF"), (7, 2));
    assert_eq!(answer_from(1, PT6312, "FF 04 08"), (7, 2));
}

#[test]
fn the_last_byte_of_the_longest_recording() {
    for (part, record) in [
        (PT6302, "06 00"),
        (PT6312, "06 08"),
        (PT6312, "08 10"),
        (PT6312, "07 FF FF FF 01"),
        (PT6315, "06 FF"),
    ] {
        let mut recording = vec![0x04; LONGEST];
        let record = bytes_in(record);
        recording[LONGEST - record.len()..].copy_from_slice(&record);
        assert_eq!(answer(part, &recording), (8, 65_534));
    }
}

#[test]
fn a_refused_replay_leaves_the_knowledge_as_it_was() {
    let mut panel = Pt6312::UNKNOWN;
    replay(&mut panel, &[0x01, 0x02, 0x03, 0xC0, 0x03, 0x5A], 0);
    let before = panel;
    let moves_then_bad = [0x03, 0x11, 0x04, 0x05, 0x00];
    assert_eq!(
        replay(&mut panel, &moves_then_bad, 0),
        Answer::refused(5, 4)
    );
    assert_eq!(panel, before);
}

/// The recording is too long and bad throughout, so that the knowledge is seen to come first.
fn refused_with_2<P: Panel>(change: impl Fn(&mut P)) -> bool {
    let mut panel = P::UNKNOWN;
    change(&mut panel);
    replay(&mut panel, &[0x00; LONGEST + 1], 0) == Answer::refused(2, 0)
}

#[test]
fn known_values_out_of_range_on_pt6312() {
    let good = |change: fn(&mut Pt6312)| !refused_with_2(change);
    assert!(good(|_| {}));
    assert!(good(|panel| panel.address = Some(Address::Invalid)));
    assert!(good(|panel| panel.address = Some(Address::Cell(21))));
    assert!(!good(|panel| panel.address = Some(Address::Cell(22))));
    assert!(good(|panel| panel.data_mode = Some(DataMode::ReadSwitches)));
    assert!(good(|panel| panel.mode = Some(7)));
    assert!(!good(|panel| panel.mode = Some(8)));
    assert!(!good(|panel| panel.dimming = Some(8)));
    assert!(!good(|panel| panel.led = Bits::all_known(16)));
    assert!(!good(|panel| panel.switches = Some(16)));
    assert!(good(|panel| panel.read_count = Some(4)));
    assert!(!good(|panel| panel.read_count = Some(5)));
}

#[test]
fn known_values_out_of_range_on_pt6315() {
    let good = |change: fn(&mut Pt6315)| !refused_with_2(change);
    assert!(good(|panel| panel.address = Some(Address::Cell(35))));
    assert!(!good(|panel| panel.address = Some(Address::Cell(36))));
    assert!(!good(|panel| panel.data_mode = Some(DataMode::ReadSwitches)));
    assert!(good(|panel| panel.mode = Some(8)));
    assert!(!good(|panel| panel.mode = Some(9)));
    assert!(good(|panel| panel.switches = Some(99)));
}

#[test]
fn known_values_out_of_range_on_pt6302() {
    let good = |change: fn(&mut Pt6302)| !refused_with_2(change);
    assert!(good(|_| {}));
    assert!(!good(|panel| panel.dcram_address = Some(16)));
    assert!(!good(|panel| panel.cgram_address = Some(8)));
    assert!(!good(|panel| panel.adram_address = Some(16)));
    assert!(!good(|panel| panel.column = Some(5)));
    assert!(!good(|panel| panel.port = Bits::all_known(4)));
    assert!(!good(|panel| panel.duty = Some(8)));
    assert!(!good(|panel| panel.digits = Some(8)));
    assert!(good(|panel| panel.dcram.store(0, 0xFF)));
    assert!(!good(|panel| panel.cgram.store(39, 0x80)));
    assert!(!good(|panel| panel.adram.store(0, 4)));
}

/// Whether these bits are refused in each place that such bits have; the first and the last cell stand for all.
fn byte_refused(values: u8, known: u8) -> bool {
    let byte = Bits::new(values, known);
    let refused = [
        refused_with_2(|panel: &mut Pt6312| panel.cells.set(0, byte)),
        refused_with_2(|panel: &mut Pt6312| panel.cells.set(21, byte)),
        refused_with_2(|panel: &mut Pt6315| panel.cells.set(0, byte)),
        refused_with_2(|panel: &mut Pt6315| panel.cells.set(35, byte)),
        refused_with_2(|panel: &mut Pt6302| panel.dcram.set(0, byte)),
        refused_with_2(|panel: &mut Pt6302| panel.dcram.set(15, byte)),
    ];
    alike(&refused)
}

fn column_refused(values: u8, known: u8) -> bool {
    let column = Bits::new(values, known);
    let refused = [
        refused_with_2(|panel: &mut Pt6302| panel.cgram.set(0, column)),
        refused_with_2(|panel: &mut Pt6302| panel.cgram.set(39, column)),
    ];
    alike(&refused)
}

fn led_refused(values: u8, known: u8) -> bool {
    let led = Bits::new(values, known);
    let refused = [
        refused_with_2(|panel: &mut Pt6312| panel.led = led),
        refused_with_2(|panel: &mut Pt6315| panel.led = led),
    ];
    alike(&refused)
}

fn pair_refused(values: u8, known: u8) -> bool {
    let pair = Bits::new(values, known);
    let refused = [
        refused_with_2(|panel: &mut Pt6302| panel.adram.set(0, pair)),
        refused_with_2(|panel: &mut Pt6302| panel.adram.set(15, pair)),
        refused_with_2(|panel: &mut Pt6302| panel.port = pair),
    ];
    alike(&refused)
}

fn alike(refused: &[bool]) -> bool {
    assert!(refused.iter().all(|one| *one == refused[0]), "{refused:?}");
    refused[0]
}

type Refuses = fn(u8, u8) -> bool;

const OF_EACH_WIDTH: [(u32, Refuses); 4] = [
    (8, byte_refused),
    (7, column_refused),
    (4, led_refused),
    (2, pair_refused),
];

/// Number 2 also covers a bit that is marked unknown but not stored as 0 (M-107): each, alone and beside known ones.
#[test]
fn a_one_in_a_bit_that_is_unknown_is_2() {
    for (width, refused) in OF_EACH_WIDTH {
        let all = (0xFF >> (8 - width)) as u8;
        for bit in 0..8 {
            let one = 1 << bit;
            assert!(refused(one, 0x00), "width {width}, bit {bit}");
            assert!(refused(one, all & !one), "width {width}, bit {bit}");
            assert!(refused(all | one, all & !one), "width {width}, bit {bit}");
            assert!(!refused(one & all, one & all), "width {width}, bit {bit}");
            assert!(!refused(0x00, all & !one), "width {width}, bit {bit}");
        }
    }
}

/// Also where the value is 0. A byte has no further bits.
#[test]
fn a_mark_on_a_bit_that_the_fact_lacks_is_2() {
    for (width, refused) in OF_EACH_WIDTH {
        let all = (0xFF >> (8 - width)) as u8;
        for bit in width..8 {
            let mark = 1 << bit;
            for (values, known) in [
                (0, mark),
                (mark, mark),
                (0, all | mark),
                (all | mark, all | mark),
            ] {
                assert!(
                    refused(values, known),
                    "width {width}, {values:02X}/{known:02X}"
                );
            }
        }
    }
    assert!(led_refused(0x05, 0x1F));
    assert!(column_refused(0x00, 0x80));
    assert!(pair_refused(0x00, 0x04));
}

/// Every pair of values and marks, by the paper: no mark outside the width, and no 1 where no mark is.
#[test]
fn all_other_bits_are_taken() {
    for (width, refused) in OF_EACH_WIDTH {
        let has_bit = |bit: u32| bit < width;
        for code in 0..=u16::MAX {
            let [known, values] = code.to_be_bytes();
            let is_set = |byte: u8, bit: u32| byte >> bit & 1 == 1;
            let good = (0..8).all(|bit| match is_set(known, bit) {
                true => has_bit(bit),
                false => !is_set(values, bit),
            });
            assert_eq!(
                refused(values, known),
                !good,
                "{width} {values:02X}/{known:02X}"
            );
        }
    }
}
