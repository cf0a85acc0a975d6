//! What each event leaves known of single bits (M-107), worked out by hand from the papers.

use reference::bits::{Bits, Byte};
use reference::cells::Cells;
use reference::character_panel::{self, Pt6302};
use reference::key_panel::{Address, DataMode, Position, Pt6312, Pt6315, Stepping};
use reference::replay::{replay, Panel};

/// Open, with the data setting of a painting; every cell is known as the same byte, and the LED as 9.
fn pt6312(cell: u8) -> Pt6312 {
    Pt6312 {
        cells: Cells::from_facts([Bits::all_known(cell); 22]),
        address: Some(Address::Cell(5)),
        data_mode: Some(DataMode::WriteDisplay),
        stepping: Some(Stepping::Increment),
        led: Bits::all_known(9),
        position: Some(Position::Open),
        ..Pt6312::UNKNOWN
    }
}

/// In the middle of writing to DCRAM, and everything known but duty, digits and lights.
fn pt6302() -> Pt6302 {
    Pt6302 {
        dcram: Cells::from_facts([Bits::all_known(0x6E); 16]),
        cgram: Cells::from_facts([Bits::all_known(0x6E); 40]),
        adram: Cells::from_facts([Bits::all_known(2); 16]),
        dcram_address: Some(5),
        cgram_address: Some(6),
        adram_address: Some(7),
        column: Some(3),
        port: Bits::all_known(3),
        position: Some(character_panel::Position::Dcram),
        ..Pt6302::UNKNOWN
    }
}

fn byte_in<P: Panel>(panel: &mut P, byte: u8) {
    assert_eq!(replay(panel, &[0x03, byte], 0).number, 0);
}

/// The cells that are not known as this byte throughout, with what is known of them.
fn others<const N: usize, const ALL: u8>(
    cells: &Cells<N, ALL>,
    byte: u8,
) -> Vec<(usize, Bits<ALL>)> {
    let numbered = cells.iter().enumerate();
    numbered
        .filter(|(_, cell)| *cell != Bits::all_known(byte))
        .collect()
}

#[test]
fn two_bytes_that_differ_in_one_bit_cost_that_bit_alone() {
    let mut panel = pt6312(0x55);
    panel.address = None;
    byte_in(&mut panel, 0x55);
    assert_eq!(others(&panel.cells, 0x55), []);
    for byte in [0x54, 0x55, 0x54] {
        byte_in(&mut panel, byte);
        assert!(panel.cells.iter().all(|cell| cell == Bits::new(0x54, 0xFE)));
    }
    byte_in(&mut panel, 0xAB);
    assert_eq!(panel.cells, Cells::UNKNOWN);
}

/// A bit that is unknown stays so even where the byte has what it was once known to be.
#[test]
fn a_byte_at_an_unknown_address_tells_nothing() {
    let mut panel = pt6312(0x00);
    panel.address = None;
    panel.cells.set(3, Bits::new(0x10, 0x30));
    byte_in(&mut panel, 0x10);
    assert_eq!(panel.cells.get(3), Bits::new(0x10, 0x30));
    byte_in(&mut panel, 0x30);
    assert_eq!(panel.cells.get(3), Bits::new(0x10, 0x10));
    byte_in(&mut panel, 0xEF);
    assert_eq!(panel.cells.get(3), Bits::UNKNOWN);
}

#[test]
fn a_byte_at_a_known_address_makes_every_bit_known() {
    for before in [Bits::UNKNOWN, Bits::new(0x10, 0x30), Bits::all_known(0xFF)] {
        let mut panel = pt6312(0x6E);
        panel.cells.set(5, before);
        byte_in(&mut panel, 0x81);
        assert_eq!(others(&panel.cells, 0x6E), [(5, Bits::all_known(0x81))]);
        assert_eq!(panel.address, Some(Address::Cell(6)));
    }
}

/// 6F is 6E but for bit 0. Of the LED's 1001 and the byte's 1111 bits 0 and 3 are alike.
#[test]
fn an_unknown_data_mode_forgets_bits_of_one_cell_and_of_the_led() {
    let mut panel = pt6312(0x6E);
    panel.data_mode = None;
    byte_in(&mut panel, 0x6F);
    assert_eq!(others(&panel.cells, 0x6E), [(5, Bits::new(0x6E, 0xFE))]);
    assert_eq!(panel.led, Bits::new(0x09, 0x09));
    assert_eq!(panel.address, None);
    byte_in(&mut panel, 0xFE);
    assert_eq!(panel.led, Bits::new(0x08, 0x08));
    panel.data_mode = Some(DataMode::WriteLed);
    byte_in(&mut panel, 0xF6);
    assert_eq!(panel.led, Bits::all_known(6));
}

/// Chips that ignore the byte and chips that store it in one mode or the other; an address command stores nothing.
#[test]
fn an_unknown_position_forgets_bits_of_the_mode_alone() {
    let mut panel = pt6312(0x6E);
    panel.position = None;
    byte_in(&mut panel, 0xEE);
    assert_eq!(others(&panel.cells, 0x6E), [(5, Bits::new(0x6E, 0x7F))]);
    assert_eq!(panel.led, Bits::all_known(9));
    let mut panel = pt6312(0x6E);
    panel.position = None;
    panel.data_mode = Some(DataMode::WriteLed);
    byte_in(&mut panel, 0x8B);
    assert_eq!(others(&panel.cells, 0x6E), []);
    assert_eq!(panel.led, Bits::new(0x09, 0x0D));
}

/// Data setting 11 leaves the data mode of a PT6315 open; 00H is written on, or the LED, or nothing.
#[test]
fn the_undefined_setting_of_pt6315() {
    let mut panel = Pt6315::UNKNOWN;
    let recording = [
        0x01, 0x02, 0x03, 0xC0, 0x03, 0x0F, 0x03, 0xF0, 0x04, 0x02, 0x03, 0xC0, 0x04, 0x02, 0x03,
        0x43, 0x03, 0x1C,
    ];
    assert_eq!(replay(&mut panel, &recording, 0).number, 0);
    // 0F and 1C differ in bits 0, 1 and 4; the LED was 0 at power, and C has bits 2 and 3.
    assert_eq!(panel.cells.get(0), Bits::new(0x0C, 0xEC));
    assert_eq!(panel.cells.get(1), Bits::all_known(0xF0));
    assert_eq!(panel.led, Bits::new(0x00, 0x03));
    assert_eq!(panel.address, None);
    // In write display the byte F0 then goes to any cell: 0F and F0 have nothing in common.
    let recording = [0x04, 0x02, 0x03, 0x40, 0x03, 0xF0];
    assert_eq!(replay(&mut panel, &recording, 0).number, 0);
    assert_eq!(panel.cells.get(0), Bits::UNKNOWN);
    assert_eq!(panel.cells.get(1), Bits::all_known(0xF0));
    assert_eq!(panel.cells.get(2), Bits::UNKNOWN);
    assert_eq!(panel.led, Bits::new(0x00, 0x03));
}

#[test]
fn what_forgets_all_forgets_every_bit() {
    for record in [&[0x05][..], &[0x02, 0x03, 0x48]] {
        let mut panel = pt6312(0x6E);
        panel.cells.set(7, Bits::new(0x02, 0x0F));
        panel.led = Bits::new(0x02, 0x06);
        assert_eq!(replay(&mut panel, record, 0).number, 0);
        assert_eq!((panel.cells, panel.led), (Cells::UNKNOWN, Bits::UNKNOWN));
    }
    let mut panel = pt6312(0x6E);
    panel.led = Bits::new(0x02, 0x06);
    assert_eq!(replay(&mut panel, &[0x01], 0).number, 0);
    assert_eq!(
        (panel.cells, panel.led),
        (Cells::UNKNOWN, Bits::all_known(15))
    );
}

#[test]
fn dcram_at_an_unknown_address() {
    let mut panel = pt6302();
    panel.dcram_address = None;
    panel.dcram.set(3, Bits::new(0x00, 0x81));
    byte_in(&mut panel, 0xEE);
    let expected: Vec<Byte> = (0..16)
        .map(|at| match at {
            3 => Bits::new(0x00, 0x01),
            _ => Bits::new(0x6E, 0x7F),
        })
        .collect();
    assert_eq!(panel.dcram.iter().collect::<Vec<_>>(), expected);
}

/// The byte's bit 7 is dropped, and so costs no column anything; its bit 0 costs column 3 of each character.
#[test]
fn cgram_at_an_unknown_character() {
    let mut panel = pt6302();
    panel.position = Some(character_panel::Position::Cgram);
    panel.cgram_address = None;
    byte_in(&mut panel, 0xEE);
    assert_eq!(others(&panel.cgram, 0x6E), []);
    panel.column = Some(3);
    byte_in(&mut panel, 0xEF);
    let columns = [3, 8, 13, 18, 23, 28, 33, 38];
    let expected = columns.map(|at| (at, Bits::new(0x6E, 0x7E)));
    assert_eq!(others(&panel.cgram, 0x6E), expected);
}

/// Pairs are 10, and of the byte only bits 0 and 1 count.
#[test]
fn adram_at_an_unknown_address() {
    let mut panel = pt6302();
    panel.position = Some(character_panel::Position::Adram);
    panel.adram_address = None;
    byte_in(&mut panel, 0xFE);
    assert_eq!(others(&panel.adram, 2), []);
    byte_in(&mut panel, 0x00);
    assert!(panel.adram.iter().all(|pair| pair == Bits::new(0, 1)));
    byte_in(&mut panel, 0x01);
    assert_eq!(panel.adram, Cells::UNKNOWN);
}

/// 42 may set the port to 10, which was 11, and may go to any RAM: 6E and 42 differ in bits 2, 3 and 5.
#[test]
fn an_unknown_position_of_pt6302() {
    let mut panel = pt6302();
    panel.position = None;
    byte_in(&mut panel, 0x42);
    assert_eq!(panel.port, Bits::new(2, 2));
    assert_eq!(others(&panel.dcram, 0x6E), [(5, Bits::new(0x42, 0xD3))]);
    assert_eq!(others(&panel.cgram, 0x6E), [(33, Bits::new(0x42, 0x53))]);
    assert_eq!(others(&panel.adram, 2), []);
    byte_in(&mut panel, 0x41);
    assert_eq!(panel.port, Bits::UNKNOWN);
    assert_eq!(replay(&mut panel, &[0x02, 0x03, 0x4D], 0).number, 0);
    assert_eq!(panel.port, Bits::all_known(1));
}

#[test]
fn power_and_gap_on_pt6302() {
    let mut panel = pt6302();
    panel.port = Bits::new(1, 1);
    assert_eq!(replay(&mut panel, &[0x01], 0).number, 0);
    assert_eq!(panel.port, Bits::all_known(0));
    assert_eq!(panel.dcram, Cells::UNKNOWN);
    for record in [&[0x05][..], &[0x02, 0x03, 0x81]] {
        let mut panel = pt6302();
        panel.port = Bits::new(1, 1);
        panel.adram.set(2, Bits::new(1, 1));
        assert_eq!(replay(&mut panel, record, 0).number, 0);
        let rams = (panel.dcram, panel.cgram, panel.adram);
        assert_eq!(rams, (Cells::UNKNOWN, Cells::UNKNOWN, Cells::UNKNOWN));
        assert_eq!(panel.port, Bits::UNKNOWN);
    }
}
