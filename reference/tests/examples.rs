//! The paper's examples, and what the program prints.

use reference::answer::Answer;
use reference::bits::Bits;
use reference::character_panel;
use reference::example_lines::bytes_in;
use reference::key_panel::{Address, DataMode, Display, Position, Pt6312, Pt6315, Stepping};
use reference::knowledge::{replay_from_nothing, Knowledge, PT6302, PT6312, PT6315};
use reference::painting::{paint_character_panel, paint_key_panel, CharacterPicture, KeyPicture};
use reference::recording::Recording;
use reference::replay::{replay, Panel};
use reference::show::report;

/// The knowledge behind power and some strobes, each given by its bytes.
fn after_power<P: Panel>(strobes: &[&str]) -> P {
    let mut recording = Recording::up_to(1_000);
    recording.power();
    for strobe in strobes {
        let data = bytes_in(strobe);
        recording.strobe(data[0], &data[1..]);
    }
    let mut panel = P::UNKNOWN;
    let answer = replay(&mut panel, recording.bytes(), 0);
    assert_eq!(answer, Answer::done(recording.bytes().len()));
    panel
}

fn known_cells(cells: impl Iterator<Item = Option<u8>>) -> Vec<(usize, u8)> {
    let numbered = cells.enumerate();
    numbered
        .filter_map(|(at, cell)| Some((at, cell?)))
        .collect()
}

#[test]
fn p1_a_byte_behind_an_address_is_known() {
    let mut panel = Pt6312::UNKNOWN;
    let answer = replay(&mut panel, &bytes_in("01 02 03 C0 03 5A 04"), 0);
    assert_eq!(answer, Answer::done(7));
    assert_eq!(known_cells(panel.cells.wholes()), [(0, 0x5A)]);
    assert_eq!(panel.address, Some(Address::Cell(1)));
}

#[test]
fn p2_and_p3_the_last_cell_of_pt6312() {
    let panel: Pt6312 = after_power(&["D5 11 22"]);
    assert_eq!(
        known_cells(panel.cells.wholes()),
        [(0x00, 0x22), (0x15, 0x11)]
    );
    assert_eq!(panel.address, Some(Address::Cell(1)));
    let panel: Pt6312 = after_power(&["D6 33"]);
    assert_eq!(known_cells(panel.cells.wholes()), []);
    assert_eq!(panel.address, Some(Address::Invalid));
}

#[test]
fn p4_and_p5_the_last_cell_of_pt6315() {
    let panel: Pt6315 = after_power(&["E3 7F"]);
    assert_eq!(known_cells(panel.cells.wholes()), [(0x23, 0x7F)]);
    assert_eq!(panel.address, Some(Address::Cell(0)));
    let panel: Pt6315 = after_power(&["E4 7F"]);
    assert_eq!(known_cells(panel.cells.wholes()), []);
    assert_eq!(panel.address, Some(Address::Invalid));
}

#[test]
fn m101_a_fixed_address_stays_at_the_last_cell() {
    let panel: Pt6315 = after_power(&["44", "E3 7F 80"]);
    assert_eq!(known_cells(panel.cells.wholes()), [(0x23, 0x80)]);
    assert_eq!(panel.address, Some(Address::Cell(0x23)));
}

#[test]
fn p6_a_fixed_address() {
    let panel: Pt6312 = after_power(&["44", "C3 AA BB"]);
    assert_eq!(known_cells(panel.cells.wholes()), [(3, 0xBB)]);
    assert_eq!(panel.address, Some(Address::Cell(3)));
}

#[test]
fn p7_the_led() {
    let panel: Pt6312 = after_power(&["41 0E"]);
    assert_eq!(panel.led, Bits::all_known(14));
}

#[test]
fn p8_the_modes_of_pt6315() {
    let before: Pt6315 = after_power(&["88"]);
    assert_eq!((before.mode, before.display), (Some(8), Some(Display::On)));
    assert_eq!(after_power::<Pt6315>(&["88", "0F"]), before);
    let other: Pt6315 = after_power(&["88", "00"]);
    assert_eq!((other.mode, other.display), (Some(0), Some(Display::Off)));
}

#[test]
fn p9_a_gap_leaves_the_data_mode_unknown() {
    let mut panel = Pt6312::UNKNOWN;
    replay(&mut panel, &bytes_in("05 02 03 C5 03 33 04"), 0);
    assert_eq!(known_cells(panel.cells.wholes()), []);
    assert_eq!(panel.address, None);
}

#[test]
fn p10_a_byte_at_an_unknown_address() {
    let mut panel = p10();
    replay(&mut panel, &[0x03, 0x00], 0);
    // 09 is 0000 1001, so that a chip that stores 00 there differs in bits 0 and 3, and in no other.
    let cell_07 = Bits::new(0b0000_0000, 0b1111_0110);
    for at in 0..22 {
        let zero = Bits::all_known(0);
        let expected = if at == 7 { cell_07 } else { zero };
        assert_eq!(panel.cells.get(at), expected);
    }
    assert_eq!(panel.address, None);
}

/// Before its byte: open, write display, increment, address unknown, all cells 00 but cell 07H.
fn p10() -> Pt6312 {
    let mut panel: Pt6312 = after_power(&[]);
    for at in 0..22 {
        panel.cells.store(at, if at == 7 { 9 } else { 0 });
    }
    panel.position = Some(Position::Open);
    panel.data_mode = Some(DataMode::WriteDisplay);
    panel.stepping = Some(Stepping::Increment);
    panel.address = None;
    panel
}

#[test]
fn p11_the_address_of_pt6302_comes_round() {
    let panel: character_panel::Pt6302 = after_power(&["1F 41 42"]);
    assert_eq!(known_cells(panel.dcram.wholes()), [(0, 0x42), (15, 0x41)]);
}

#[test]
fn p12_an_unfinished_byte() {
    let mut panel = Pt6312::UNKNOWN;
    let answer = replay(&mut panel, &bytes_in("02 03 C0 06 03"), 0);
    assert_eq!(answer, Answer::done(5));
    assert_eq!(known_cells(panel.cells.wholes()), []);
    let answer = replay(&mut panel, &bytes_in("02 03 C0 06 08"), 0);
    assert_eq!(answer, Answer::refused(Answer::BODY_NOT_ALLOWED, 4));
}

#[test]
fn p13_bytes_sent_are_counted() {
    let mut panel = Pt6312::UNKNOWN;
    replay(&mut panel, &bytes_in("07 12 34 05 00 02 03 42"), 0);
    assert_eq!(panel.keys, [Some(0x12), Some(0x34), Some(0x05)]);
    for count in [0, 1, 2, 3, 4, 4] {
        assert_eq!(panel.read_count, Some(count));
        replay(&mut panel, &[0x09], 0);
    }
}

#[test]
fn p14_a_painting() {
    let mut recording = Recording::up_to(66);
    let picture = KeyPicture {
        cells: vec![0; 22],
        mode: 7,
        led: 15,
        dimming: 0,
        on: false,
    };
    paint_key_panel(&mut recording, &picture);
    let mut expected = bytes_in("02 03 07 04 02 03 40 04 02 03 C0");
    expected.extend([0x03, 0x00].repeat(22));
    expected.extend(bytes_in("04 02 03 41 03 0F 04 02 03 80 04"));
    assert_eq!(recording.bytes(), expected);
}

#[test]
fn a_painting_of_pt6302_is_as_long_as_the_paper_says() {
    let mut recording = Recording::up_to(1_000);
    let picture = CharacterPicture {
        dcram: vec![0x41; 16],
        cgram: vec![0x7F; 40],
        adram: vec![3; 16],
        port: 2,
        duty: 5,
        digits: 6,
        lights: 2,
    };
    paint_character_panel(&mut recording, &picture);
    assert_eq!(recording.bytes().len(), 172);
    let (_, knowledge) = replay_from_nothing(PT6302, recording.bytes());
    let Some(Knowledge::Pt6302(panel)) = knowledge else {
        panic!("the part was PT6302");
    };
    assert_eq!(known_cells(panel.cgram.wholes()).len(), 40);
    assert_eq!(
        (panel.port, panel.duty, panel.digits),
        (Bits::all_known(2), Some(5), Some(6))
    );
    assert_eq!(panel.lights, Some(character_panel::Lights::On));
}

fn printed(part: u8, recording: &str) -> String {
    let (answer, knowledge) = replay_from_nothing(part, &bytes_in(recording));
    report(answer, knowledge.as_ref())
}

#[test]
fn the_program_prints_the_cells_by_digit() {
    let text = printed(PT6312, "01 02 03 C0 03 5A 04");
    let lines: Vec<&str> = text.lines().collect();
    assert_eq!(lines[..3], ["done at 7", "00: 5A ??", "02: ?? ??"]);
    assert_eq!(lines.len(), 12);
    assert_eq!(lines[11], "14: ?? ??");
    assert!(text.ends_with('\n'));
    let text = printed(PT6315, "01 02 03 E3 03 0F 04");
    let lines: Vec<&str> = text.lines().collect();
    assert_eq!(lines.len(), 13);
    assert_eq!(lines[12], "21: ?? ?? 0F");
}

#[test]
fn the_program_prints_the_three_rams_of_pt6302() {
    let text = printed(PT6302, "01 02 03 1F 03 41 02 03 27 03 FF 02 03 30 03 07");
    let lines: Vec<&str> = text.lines().collect();
    assert_eq!(lines.len(), 11);
    assert_eq!(lines[1], format!("D:{} 41", " ??".repeat(15)));
    assert_eq!(lines[2], "G0: ?? ?? ?? ?? ??");
    assert_eq!(lines[9], "G7: 7F ?? ?? ?? ??");
    assert_eq!(lines[10], format!("A: 03{}", " ??".repeat(15)));
}

/// PT6315's data setting 43 leaves the data mode open, so that only some chips store 5B at 00H, which held 5A.
#[test]
fn the_program_prints_a_cell_with_an_unknown_bit_as_unknown() {
    let text = printed(
        PT6315,
        "01 02 03 C0 03 5A 03 5A 04 02 03 C0 04 02 03 43 03 5B 04",
    );
    let lines: Vec<&str> = text.lines().collect();
    assert_eq!(lines[1], "00: ?? 5A ??");
    let text = report(Answer::done(2), Some(&Knowledge::Pt6312(after_p10())));
    let lines: Vec<&str> = text.lines().collect();
    assert_eq!(lines[3..6], ["04: 00 00", "06: 00 ??", "08: 00 00"]);
}

fn after_p10() -> Pt6312 {
    let mut panel = p10();
    replay(&mut panel, &[0x03, 0x00], 0);
    panel
}

/// One unknown bit, or all but one, in a cell of each RAM.
#[test]
fn the_program_prints_unknown_bits_of_pt6302_as_unknown_cells() {
    let mut panel = character_panel::Pt6302::UNKNOWN;
    panel.dcram.set(1, Bits::new(0x41, 0xFE));
    panel.dcram.set(2, Bits::new(0x41, 0xFF));
    panel.cgram.set(0, Bits::new(0x00, 0x3F));
    panel.cgram.set(1, Bits::new(0x00, 0x7F));
    panel.adram.set(0, Bits::new(0x02, 0x02));
    panel.adram.set(1, Bits::new(0x02, 0x03));
    let text = report(Answer::done(0), Some(&Knowledge::Pt6302(panel)));
    let lines: Vec<&str> = text.lines().collect();
    assert_eq!(lines[1], format!("D: ?? ?? 41{}", " ??".repeat(13)));
    assert_eq!(lines[2], "G0: ?? 00 ?? ?? ??");
    assert_eq!(lines[10], format!("A: ?? 02{}", " ??".repeat(14)));
}

#[test]
fn the_program_prints_only_the_refusal() {
    assert_eq!(printed(0x14, ""), "refused 1 at 0\n");
    assert_eq!(printed(PT6302, "01 07"), "refused 6 at 1\n");
    assert_eq!(printed(PT6302, "01 06 08"), "refused 8 at 2\n");
    assert_eq!(printed(PT6312, "01 08 10"), "refused 8 at 2\n");
    assert_eq!(printed(PT6312, "01 07 12 34 05 01"), "refused 8 at 5\n");
}
