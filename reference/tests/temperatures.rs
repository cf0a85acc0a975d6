//! The temperature field of M-103, with readings worked out by hand from the paper.

use reference::bits::Bits;
use reference::cells::Cells;
use reference::character_panel::{Lights, Pt6302};
use reference::key_panel::{Pt6312, Pt6315};
use reference::knowledge::Knowledge;
use reference::replay::Panel;
use reference::temperature::{temperature, Field, Temperature};

/// All 16 digits in use, lights normal, these cells from the start on, and nothing else known.
fn panel_with(start: usize, cells: &[u8]) -> Pt6302 {
    let mut dcram = Cells::UNKNOWN;
    for (at, &cell) in cells.iter().enumerate() {
        dcram.store(start + at, cell);
    }
    Pt6302 {
        dcram,
        digits: Some(0),
        lights: Some(Lights::Normal),
        ..Pt6302::UNKNOWN
    }
}

/// What is shown from a start that is not refused.
fn field_at(panel: Pt6302, start: u8) -> Field {
    let Temperature { answer, field } = temperature(Some(&Knowledge::Pt6302(panel)), start);
    assert_eq!((answer.number, answer.place), (0, 0));
    field
}

fn field(cells: &[u8; 5]) -> Field {
    field_at(panel_with(0, cells), 0)
}

fn bits(field: Field) -> u32 {
    match field {
        Field::Reading(degrees) => degrees.to_bits(),
        other => panic!("{other:?}"),
    }
}

fn assert_refused(knowledge: Option<&Knowledge>, start: u8, number: u8) {
    let Temperature { answer, field } = temperature(knowledge, start);
    assert_eq!((answer.number, answer.place), (number, 0));
    assert_eq!(field, Field::Unknown);
}

#[test]
fn readings_and_the_bits_of_their_floats() {
    let readings: [(&[u8; 5], f32, u32); 18] = [
        (b"  0.0", 0.0, 0x0000_0000),
        (b"  0.5", 0.5, 0x3F00_0000),
        (b"- 0.5", -0.5, 0xBF00_0000),
        (b"-00.5", -0.5, 0xBF00_0000),
        (b"  1.0", 1.0, 0x3F80_0000),
        (b" 01.5", 1.5, 0x3FC0_0000),
        (b"  7.5", 7.5, 0x40F0_0000),
        (b"- 7.5", -7.5, 0xC0F0_0000),
        (b"-07.5", -7.5, 0xC0F0_0000),
        (b"  9.5", 9.5, 0x4118_0000),
        (b" 10.0", 10.0, 0x4120_0000),
        (b" 12.0", 12.0, 0x4140_0000),
        (b"-12.0", -12.0, 0xC140_0000),
        (b" 20.5", 20.5, 0x41A4_0000),
        (b" 90.0", 90.0, 0x42B4_0000),
        (b"-19.0", -19.0, 0xC198_0000),
        (b" 99.5", 99.5, 0x42C7_0000),
        (b"-99.5", -99.5, 0xC2C7_0000),
    ];
    for (cells, degrees, float) in readings {
        assert_eq!(field(cells), Field::Reading(degrees), "{cells:?}");
        assert_eq!(bits(field(cells)), float, "{cells:?}");
    }
}

#[test]
fn minus_nought_is_plus_nought_in_every_bit() {
    for cells in [b"  0.0", b" 00.0", b"- 0.0", b"-00.0"] {
        assert_eq!(bits(field(cells)), 0);
    }
}

#[test]
fn a_minus_stands_in_the_first_cell_only() {
    assert_eq!(field(b"- 7.5"), Field::Reading(-7.5));
    for cells in [b" -7.5", b"--7.5", b"  -.5", b" --.-", b"-7.5-"] {
        assert_eq!(field(cells), Field::NotAReading, "{cells:?}");
    }
}

/// Spaces in other cells than the first two, no space at all, and shifted readings.
#[test]
fn other_ways_to_write_a_number_are_none() {
    let none = [
        b"     ", b"    0", b"   .0", b"   .5", b" 7 .5", b"  7. ", b"  7,5", b"+07.5", b"007.5",
        b"7.5  ", b" 7.5 ", b"17.55", b"  750", b".....", b"00000",
    ];
    for cells in none {
        assert_eq!(field(cells), Field::NotAReading, "{cells:?}");
    }
}

/// Every byte in each cell of a reading, with what it then reads.
#[test]
fn what_each_cell_may_hold() {
    for byte in 0..=255 {
        let sign = match byte {
            0x20 => Field::Reading(17.5),
            0x2D => Field::Reading(-17.5),
            _ => Field::NotAReading,
        };
        assert_eq!(field(&[byte, 0x31, 0x37, 0x2E, 0x35]), sign, "{byte:02X}");
        let tens = match byte {
            0x20 | 0x30 => Field::Reading(-7.5),
            0x31 => Field::Reading(-17.5),
            0x32 => Field::Reading(-27.5),
            0x33 => Field::Reading(-37.5),
            0x34 => Field::Reading(-47.5),
            0x35 => Field::Reading(-57.5),
            0x36 => Field::Reading(-67.5),
            0x37 => Field::Reading(-77.5),
            0x38 => Field::Reading(-87.5),
            0x39 => Field::Reading(-97.5),
            _ => Field::NotAReading,
        };
        assert_eq!(field(&[0x2D, byte, 0x37, 0x2E, 0x35]), tens, "{byte:02X}");
        let units = match byte {
            0x30 => Field::Reading(10.0),
            0x31 => Field::Reading(11.0),
            0x32 => Field::Reading(12.0),
            0x33 => Field::Reading(13.0),
            0x34 => Field::Reading(14.0),
            0x35 => Field::Reading(15.0),
            0x36 => Field::Reading(16.0),
            0x37 => Field::Reading(17.0),
            0x38 => Field::Reading(18.0),
            0x39 => Field::Reading(19.0),
            _ => Field::NotAReading,
        };
        assert_eq!(field(&[0x20, 0x31, byte, 0x2E, 0x30]), units, "{byte:02X}");
        let point = match byte {
            0x2E => Field::Reading(7.0),
            _ => Field::NotAReading,
        };
        assert_eq!(field(&[0x20, 0x20, 0x37, byte, 0x30]), point, "{byte:02X}");
        let half = match byte {
            0x30 => Field::Reading(-17.0),
            0x35 => Field::Reading(-17.5),
            _ => Field::NotAReading,
        };
        assert_eq!(field(&[0x2D, 0x31, 0x37, 0x2E, byte]), half, "{byte:02X}");
    }
}

/// Of the 399 values nought has four spellings, the 19 below ten on each side have two each, and all others one.
#[test]
fn every_spelling_is_read() {
    let mut times = [0; 399];
    for sign in *b" -" {
        for tens in *b" 0123456789" {
            for units in *b"0123456789" {
                for half in *b"05" {
                    let Field::Reading(degrees) = field(&[sign, tens, units, b'.', half]) else {
                        panic!("{sign} {tens} {units} {half}");
                    };
                    assert!(degrees != 0.0 || degrees.is_sign_positive());
                    let index = 199.0 + 2.0 * degrees;
                    assert_eq!(index.fract(), 0.0);
                    times[index as usize] += 1;
                }
            }
        }
    }
    for (index, &times) in times.iter().enumerate() {
        let expected = match index.abs_diff(199) {
            0 => 4,
            1..=19 => 2,
            _ => 1,
        };
        assert_eq!(times, expected, "{index}");
    }
}

#[test]
fn five_dashes_are_no_reading_and_four_are_not() {
    assert_eq!(field(b"-----"), Field::NoReading);
    for at in 0..5 {
        for byte in 0..=255 {
            let mut cells = *b"-----";
            cells[at] = byte;
            let expected = match byte {
                0x2D => Field::NoReading,
                _ => Field::NotAReading,
            };
            assert_eq!(field(&cells), expected, "{cells:?}");
        }
    }
}

/// On is all lit, which shows as little as off.
#[test]
fn lights_that_are_off_or_on_are_dark_whatever_else_is_known() {
    for lights in [Lights::Off, Lights::On] {
        for cells in [&b"  7.5"[..], b"-----", b"hello", b"  7", b""] {
            for digits in [None, Some(0), Some(1)] {
                let panel = Pt6302 {
                    lights: Some(lights),
                    digits,
                    ..panel_with(0, cells)
                };
                assert_eq!(field_at(panel, 0), Field::Dark, "{lights:?} {cells:?}");
            }
        }
    }
}

/// Code 1 has 9 digits in use, so that the field must end on digit 9, which is cell 8; and so on up to code 7.
#[test]
fn a_field_past_the_digits_in_use_is_dark() {
    let last_starts = [11, 4, 5, 6, 7, 8, 9, 10];
    for (code, last_start) in last_starts.into_iter().enumerate() {
        for start in 0..=11 {
            let mut panel = panel_with(usize::from(start), b"- 7.5");
            panel.digits = Some(code as u8);
            let (shown, unseen) = if start <= last_start {
                (Field::Reading(-7.5), Field::Unknown)
            } else {
                (Field::Dark, Field::Dark)
            };
            assert_eq!(field_at(panel, start), shown, "{code} {start}");
            panel.dcram = Cells::UNKNOWN;
            assert_eq!(field_at(panel, start), unseen, "{code} {start}");
            panel.lights = None;
            assert_eq!(field_at(panel, start), unseen, "{code} {start}");
        }
    }
}

/// Also at starts that no digits code makes dark.
#[test]
fn unknown_lights_or_digits_are_unknown() {
    for start in 0..=11 {
        for cells in [b"  7.5", b"-----", b"hello"] {
            let known = panel_with(usize::from(start), cells);
            let mut panel = known;
            panel.digits = None;
            assert_eq!(field_at(panel, start), Field::Unknown, "{start}");
            let mut panel = known;
            panel.lights = None;
            assert_eq!(field_at(panel, start), Field::Unknown, "{start}");
        }
    }
    assert_eq!(field_at(Pt6302::UNKNOWN, 0), Field::Unknown);
}

/// Also beside cells that no reading has.
#[test]
fn one_unknown_cell_is_unknown() {
    for start in [0, 3, 11] {
        for cells in [b"  7.5", b"-----", b"hello"] {
            for unknown in 0..5 {
                let mut panel = panel_with(start, cells);
                panel.dcram.set(start + unknown, Bits::UNKNOWN);
                assert_eq!(field_at(panel, start as u8), Field::Unknown, "{cells:?}");
            }
        }
    }
}

/// A cell with any bit unknown counts as unknown (M-107), even where the known ones are in no reading, as are those of
/// "hello"; all the other cells are known.
#[test]
fn one_unknown_bit_is_unknown() {
    for cells in [b"  7.5", b"-----", b"hello"] {
        for at in 0..5 {
            for bit in 0..8 {
                for known in [!(1 << bit), 1 << bit] {
                    let mut panel = panel_with(3, cells);
                    let values = cells[at] & known;
                    panel.dcram.set(3 + at, Bits::new(values, known));
                    assert_eq!(field_at(panel, 3), Field::Unknown, "{cells:?} {at} {bit}");
                    panel.lights = Some(Lights::Off);
                    assert_eq!(field_at(panel, 3), Field::Dark, "{cells:?} {at} {bit}");
                }
            }
        }
    }
}

/// The bits of cells to both sides do not matter.
#[test]
fn unknown_bits_beside_the_field_do_not_matter() {
    let mut panel = panel_with(3, b"- 7.5");
    for at in [2, 8] {
        panel.dcram.set(at, Bits::new(0x2C, 0xFE));
    }
    assert_eq!(field_at(panel, 3), Field::Reading(-7.5));
}

/// The cells to both sides hold what would make another field of them.
#[test]
fn a_field_may_start_at_any_cell_up_to_11() {
    for start in 0..=11 {
        let mut text = [0x2D; 16];
        text[start..start + 5].copy_from_slice(b" 23.5");
        let panel = panel_with(0, &text);
        assert_eq!(field_at(panel, start as u8), Field::Reading(23.5));
    }
    let panel = panel_with(0, b"-----------12.5-");
    assert_eq!(field_at(panel, 10), Field::Reading(-12.5));
    assert_eq!(field_at(panel, 9), Field::NotAReading);
    assert_eq!(field_at(panel, 6), Field::NoReading);
}

/// The lowest and the highest values that there are, of every fact that the field does not ask for.
#[test]
fn other_facts_do_not_matter() {
    for highest in [false, true] {
        let number = |most: u8| if highest { most } else { 0 };
        let value = |most: u8| Some(number(most));
        let mut panel = Pt6302 {
            dcram: Cells::from_facts([Bits::all_known(number(0xFF)); 16]),
            cgram: Cells::from_facts([Bits::all_known(number(0x7F)); 40]),
            adram: Cells::from_facts([Bits::all_known(number(3)); 16]),
            dcram_address: value(15),
            cgram_address: value(7),
            adram_address: value(15),
            column: value(4),
            port: Bits::all_known(number(3)),
            duty: value(7),
            ..panel_with(0, b"")
        };
        for (at, cell) in (5..).zip(*b"-45.0") {
            panel.dcram.store(at, cell);
        }
        assert_eq!(field_at(panel, 5), Field::Reading(-45.0));
    }
}

#[test]
fn another_part_or_none_is_1_before_all_else() {
    let bad = Pt6312 {
        led: Bits::all_known(16),
        ..Pt6312::UNKNOWN
    };
    let others = [
        None,
        Some(Knowledge::Pt6312(Pt6312::UNKNOWN)),
        Some(Knowledge::Pt6312(bad)),
        Some(Knowledge::Pt6315(Pt6315::UNKNOWN)),
    ];
    for knowledge in &others {
        for start in [0, 11, 12, 255] {
            assert_refused(knowledge.as_ref(), start, 1);
        }
    }
}

/// Facts that the field does not ask for are tested as well, and so where the field would be dark.
#[test]
fn knowledge_out_of_range_is_2_and_comes_before_11() {
    let changes: [fn(&mut Pt6302); 13] = [
        |panel| panel.digits = Some(8),
        |panel| panel.duty = Some(8),
        |panel| panel.port = Bits::all_known(4),
        |panel| panel.column = Some(5),
        |panel| panel.dcram_address = Some(16),
        |panel| panel.cgram_address = Some(8),
        |panel| panel.adram_address = Some(16),
        |panel| panel.cgram.store(39, 0x80),
        |panel| panel.adram.store(15, 4),
        |panel| panel.dcram.set(15, Bits::new(0x2D, 0xFE)),
        |panel| panel.cgram.set(39, Bits::new(0x00, 0x80)),
        |panel| panel.adram.set(15, Bits::new(0x01, 0x02)),
        |panel| panel.port = Bits::new(0x00, 0x04),
    ];
    for change in changes {
        let mut panel = panel_with(0, b"  7.5");
        change(&mut panel);
        for lights in [None, Some(Lights::Normal), Some(Lights::On)] {
            panel.lights = lights;
            for start in [0, 11, 12, 255] {
                assert_refused(Some(&Knowledge::Pt6302(panel)), start, 2);
            }
        }
    }
}

/// Also where the field would be dark or unknown.
#[test]
fn a_start_above_11_is_11() {
    let mut dark = panel_with(0, b"");
    dark.lights = Some(Lights::Off);
    for panel in [panel_with(0, &[0x2D; 16]), dark, Pt6302::UNKNOWN] {
        for start in 12..=255 {
            assert_refused(Some(&Knowledge::Pt6302(panel)), start, 11);
        }
        field_at(panel, 11);
    }
}
