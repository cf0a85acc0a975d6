//! The update of M-102, with streams worked out by hand from the paper.

use reference::bits::Bits;
use reference::cells::Cells;
use reference::character_panel::Pt6302;
use reference::example_lines::bytes_in;
use reference::key_panel::{Address, DataMode, Position, Pt6312, Pt6315, Stepping};
use reference::knowledge::Knowledge;
use reference::replay::Panel;
use reference::update::{update, Update};

const PLENTY: usize = 1_000;

/// Every cell is known as 6E, and the data setting as write display and increment; nothing else is known.
fn pt6312() -> Pt6312 {
    Pt6312 {
        cells: Cells::from_facts([Bits::all_known(0x6E); 22]),
        data_mode: Some(DataMode::WriteDisplay),
        stepping: Some(Stepping::Increment),
        ..Pt6312::UNKNOWN
    }
}

fn pt6315() -> Pt6315 {
    Pt6315 {
        cells: Cells::from_facts([Bits::all_known(0x6E); 36]),
        data_mode: Some(DataMode::WriteDisplay),
        stepping: Some(Stepping::Increment),
        ..Pt6315::UNKNOWN
    }
}

/// 6E in every cell but those named.
fn picture(cells: usize, but: &[(usize, u8)]) -> Vec<u8> {
    let mut wanted = vec![0x6E; cells];
    for &(at, byte) in but {
        wanted[at] = byte;
    }
    wanted
}

fn update_6312(panel: Pt6312, but: &[(usize, u8)], room: usize) -> Update {
    update(Some(&Knowledge::Pt6312(panel)), &picture(22, but), room)
}

fn update_6315(panel: Pt6315, but: &[(usize, u8)], room: usize) -> Update {
    update(Some(&Knowledge::Pt6315(panel)), &picture(36, but), room)
}

fn assert_sent(update: &Update, count: usize, hex: &str) {
    assert_eq!(update.stream, bytes_in(hex));
    assert_eq!(
        (update.answer.number, update.answer.place),
        (0, update.stream.len())
    );
    assert_eq!(update.count, count);
}

fn assert_refused(update: &Update, number: u8) {
    assert_eq!((update.answer.number, update.answer.place), (number, 0));
    assert_eq!((update.count, update.stream.len()), (0, 0));
}

/// Number, place, count and the length of the stream.
fn sizes(update: &Update) -> (u8, usize, usize, usize) {
    let answer = update.answer;
    (
        answer.number,
        answer.place,
        update.count,
        update.stream.len(),
    )
}

#[test]
fn a_single_cell() {
    let sent = update_6312(pt6312(), &[(7, 0x11)], PLENTY);
    assert_sent(&sent, 2, "02 03 C7 03 11 04");
    let sent = update_6312(pt6312(), &[(0x15, 0x11)], PLENTY);
    assert_sent(&sent, 2, "02 03 D5 03 11 04");
    let sent = update_6315(pt6315(), &[(0x23, 0x00)], PLENTY);
    assert_sent(&sent, 2, "02 03 E3 03 00 04");
    let sent = update_6315(pt6315(), &[(0, 0xFF)], PLENTY);
    assert_sent(&sent, 2, "02 03 C0 03 FF 04");
}

#[test]
fn an_unknown_cell_is_sent_whatever_is_wanted() {
    let mut panel = pt6312();
    panel.cells.set(7, Bits::UNKNOWN);
    assert_sent(&update_6312(panel, &[], PLENTY), 2, "02 03 C7 03 6E 04");
    let sent = update_6312(panel, &[(7, 0x00)], PLENTY);
    assert_sent(&sent, 2, "02 03 C7 03 00 04");
}

/// A cell is sent unless every bit is known and equal (M-107), whichever bit is unknown, and however few are known.
#[test]
fn a_cell_with_an_unknown_bit_is_sent_whatever_is_wanted() {
    for bit in 0..8 {
        for known in [!(1 << bit), 1 << bit] {
            let mut panel = pt6312();
            let values = 0x6E & known;
            panel.cells.set(7, Bits::new(values, known));
            assert_sent(&update_6312(panel, &[], PLENTY), 2, "02 03 C7 03 6E 04");
            let sent = update_6312(panel, &[(7, 0x91)], PLENTY);
            assert_sent(&sent, 2, "02 03 C7 03 91 04");
            assert_refused(&update_6312(panel, &[], 5), 10);
        }
    }
}

/// A cell of which every known bit is as wanted still parts no run, and joins the ones beside it.
#[test]
fn cells_with_unknown_bits_belong_to_runs() {
    let mut panel = pt6315();
    for at in [0x00, 0x05, 0x23] {
        panel.cells.set(at, Bits::new(0x6C, 0xFD));
    }
    assert_sent(
        &update_6315(panel, &[(0x04, 0x44), (0x06, 0x66)], PLENTY),
        7,
        "02 03 C4 03 44 03 6E 03 66 04 02 03 E3 03 6E 03 6E 04",
    );
}

/// The unknown bits of the LED do not matter.
#[test]
fn an_led_with_unknown_bits_changes_nothing() {
    let mut panel = pt6312();
    panel.led = Bits::new(0x05, 0x0D);
    assert_sent(&update_6312(panel, &[], 0), 0, "");
}

#[test]
fn runs_in_rising_order_each_in_its_own_strobe() {
    let but = [(2, 0x22), (3, 0x33), (4, 0x44), (9, 0x99)];
    assert_sent(
        &update_6312(pt6312(), &but, PLENTY),
        6,
        "02 03 C2 03 22 03 33 03 44 04 02 03 C9 03 99 04",
    );
}

#[test]
fn a_single_equal_cell_is_not_bridged() {
    let but = [(3, 0x33), (5, 0x55)];
    assert_sent(
        &update_6315(pt6315(), &but, PLENTY),
        4,
        "02 03 C3 03 33 04 02 03 C5 03 55 04",
    );
}

#[test]
fn a_run_that_goes_round_is_one_run_and_comes_last() {
    let but = [(0, 0x10), (1, 0x11), (5, 0x15), (0x14, 0x24), (0x15, 0x25)];
    assert_sent(
        &update_6312(pt6312(), &but, PLENTY),
        7,
        "02 03 C5 03 15 04 02 03 D4 03 24 03 25 03 10 03 11 04",
    );
    let but = [(0, 0x10), (0x23, 0x33)];
    assert_sent(
        &update_6315(pt6315(), &but, PLENTY),
        3,
        "02 03 E3 03 33 03 10 04",
    );
}

#[test]
fn runs_at_both_ends_that_do_not_meet() {
    let but = [(1, 0x11), (0x15, 0x25)];
    assert_sent(
        &update_6312(pt6312(), &but, PLENTY),
        4,
        "02 03 C1 03 11 04 02 03 D5 03 25 04",
    );
    let but = [(0, 0x10), (0x14, 0x24)];
    assert_sent(
        &update_6312(pt6312(), &but, PLENTY),
        4,
        "02 03 C0 03 10 04 02 03 D4 03 24 04",
    );
}

/// PT6312's last cell is not PT6315's.
#[test]
fn the_ring_of_pt6315_goes_on_behind_15h() {
    let but = [(0, 0x10), (0x15, 0x25)];
    assert_sent(
        &update_6315(pt6315(), &but, PLENTY),
        4,
        "02 03 C0 03 10 04 02 03 D5 03 25 04",
    );
}

#[test]
fn all_cells_together_are_one_run_from_00h() {
    let every: Vec<(usize, u8)> = (0..36).map(|at| (at, at as u8)).collect();
    let sent = update_6312(pt6312(), &every[..22], PLENTY);
    assert_eq!(sizes(&sent), (0, 48, 23, 48));
    assert_eq!(sent.stream[..7], bytes_in("02 03 C0 03 00 03 01"));
    assert_eq!(sent.stream[43..], bytes_in("03 14 03 15 04")[..]);
    let sent = update_6315(pt6315(), &every, PLENTY);
    assert_eq!(sizes(&sent), (0, 76, 37, 76));
    assert_eq!(sent.stream[..7], bytes_in("02 03 C0 03 00 03 01"));
    assert_eq!(sent.stream[71..], bytes_in("03 22 03 23 04")[..]);
}

#[test]
fn knowing_nothing_all_cells_are_sent_behind_the_setting() {
    let sent = update_6312(Pt6312::UNKNOWN, &[], PLENTY);
    assert_eq!(sizes(&sent), (0, 52, 24, 52));
    assert_eq!(sent.stream[..9], bytes_in("02 03 40 04 02 03 C0 03 6E"));
    let sent = update_6315(Pt6315::UNKNOWN, &[], PLENTY);
    assert_eq!(sizes(&sent), (0, 80, 38, 80));
}

/// One run that starts behind the cell that stays, and goes round unless that is the last cell or the first.
#[test]
fn all_cells_but_one() {
    let all_but = |stays: usize| -> Vec<(usize, u8)> {
        let others = (0..22).filter(|&at| at != stays);
        others.map(|at| (at, at as u8)).collect()
    };
    for (stays, head, tail) in [
        (0x05, "02 03 C6 03 06 03 07", "03 03 03 04 04"),
        (0x00, "02 03 C1 03 01 03 02", "03 14 03 15 04"),
        (0x15, "02 03 C0 03 00 03 01", "03 13 03 14 04"),
    ] {
        let sent = update_6312(pt6312(), &all_but(stays), PLENTY);
        assert_eq!(sizes(&sent), (0, 46, 22, 46));
        assert_eq!(sent.stream[..7], bytes_in(head));
        assert_eq!(sent.stream[41..], bytes_in(tail)[..]);
    }
}

#[test]
fn alternating_cells_make_the_longest_streams() {
    let even: Vec<(usize, u8)> = (0..36).step_by(2).map(|at| (at, at as u8)).collect();
    let mut panel = pt6312();
    panel.data_mode = None;
    let sent = update_6312(panel, &even[..11], 70);
    assert_eq!(sizes(&sent), (0, 70, 23, 70));
    assert_eq!(
        sent.stream[..16],
        bytes_in("02 03 40 04 02 03 C0 03 00 04 02 03 C2 03 02 04")
    );
    assert_eq!(sent.stream[64..], bytes_in("02 03 D4 03 14 04")[..]);
    assert_refused(&update_6312(panel, &even[..11], 69), 10);

    let mut panel = pt6315();
    panel.stepping = None;
    let sent = update_6315(panel, &even, 112);
    assert_eq!(sizes(&sent), (0, 112, 37, 112));
    assert_eq!(sent.stream[106..], bytes_in("02 03 E2 03 22 04")[..]);
    assert_refused(&update_6315(panel, &even, 111), 10);

    assert_eq!(sizes(&update_6315(pt6315(), &even, 108)), (0, 108, 36, 108));
    assert_eq!(
        sizes(&update_6312(pt6312(), &even[..11], 66)),
        (0, 66, 22, 66)
    );
}

#[test]
fn the_setting_goes_first_unless_both_its_facts_are_known_to_be_right() {
    use DataMode::*;
    use Stepping::*;
    let data_modes = [
        None,
        Some(WriteDisplay),
        Some(WriteLed),
        Some(ReadKeys),
        Some(ReadSwitches),
    ];
    for data_mode in data_modes {
        for stepping in [None, Some(Increment), Some(Fixed)] {
            let panel = Pt6312 {
                data_mode,
                stepping,
                ..pt6312()
            };
            let sent = update_6312(panel, &[(7, 0x11)], PLENTY);
            if (data_mode, stepping) == (Some(WriteDisplay), Some(Increment)) {
                assert_sent(&sent, 2, "02 03 C7 03 11 04");
            } else {
                assert_sent(&sent, 3, "02 03 40 04 02 03 C7 03 11 04");
            }
        }
    }
}

/// The address is set for every run, even where it is known to stand there already.
#[test]
fn neither_address_nor_position_matters() {
    for address in [None, Some(Address::Invalid), Some(Address::Cell(7))] {
        for position in [None, Some(Position::Idle), Some(Position::Open)] {
            let panel = Pt6312 {
                address,
                position,
                ..pt6312()
            };
            let sent = update_6312(panel, &[(7, 0x11)], PLENTY);
            assert_sent(&sent, 2, "02 03 C7 03 11 04");
        }
    }
}

#[test]
fn nothing_to_change_sends_nothing_even_without_setting_and_room() {
    let mut panel = pt6312();
    (panel.data_mode, panel.stepping) = (None, Some(Stepping::Fixed));
    assert_sent(&update_6312(panel, &[], 0), 0, "");
    let mut panel = pt6315();
    (panel.data_mode, panel.stepping) = (Some(DataMode::ReadKeys), None);
    assert_sent(&update_6315(panel, &[], 0), 0, "");
    assert_sent(&update_6315(pt6315(), &[], PLENTY), 0, "");
}

#[test]
fn one_byte_too_few_is_10() {
    assert_sent(
        &update_6312(pt6312(), &[(7, 0x11)], 6),
        2,
        "02 03 C7 03 11 04",
    );
    assert_refused(&update_6312(pt6312(), &[(7, 0x11)], 5), 10);
    assert_refused(&update_6312(pt6312(), &[(7, 0x11)], 0), 10);
    let mut panel = pt6315();
    panel.stepping = Some(Stepping::Fixed);
    assert_eq!(sizes(&update_6315(panel, &[(7, 0x11)], 10)), (0, 10, 3, 10));
    assert_refused(&update_6315(panel, &[(7, 0x11)], 9), 10);
}

/// Facts that the update does not ask for are tested as well, and so where nothing is to be sent.
#[test]
fn knowledge_out_of_range_is_2_and_comes_before_10() {
    let mut panel = pt6312();
    panel.led = Bits::all_known(16);
    assert_refused(&update_6312(panel, &[(7, 0x11)], 0), 2);
    assert_refused(&update_6312(panel, &[(7, 0x11)], PLENTY), 2);
    assert_refused(&update_6312(panel, &[], 0), 2);
    let mut panel = pt6315();
    panel.data_mode = Some(DataMode::ReadSwitches);
    assert_refused(&update_6315(panel, &[(7, 0x11)], 0), 2);
    let mut panel = pt6312();
    panel.cells.set(7, Bits::new(0x6E, 0xFD));
    assert_refused(&update_6312(panel, &[], 0), 2);
    let mut panel = pt6315();
    panel.led = Bits::new(0x00, 0x10);
    assert_refused(&update_6315(panel, &[], 0), 2);
    let mut panel = pt6315();
    panel.address = Some(Address::Cell(0x24));
    assert_refused(&update_6315(panel, &[], PLENTY), 2);
}

#[test]
fn other_parts_are_1_before_all_else() {
    let mut panel = Pt6302::UNKNOWN;
    for room in [0, PLENTY] {
        assert_refused(&update(None, &picture(36, &[]), room), 1);
        let knowledge = Knowledge::Pt6302(panel);
        assert_refused(&update(Some(&knowledge), &picture(36, &[]), room), 1);
    }
    panel.port = Bits::all_known(4);
    let knowledge = Knowledge::Pt6302(panel);
    assert_refused(&update(Some(&knowledge), &picture(36, &[]), 0), 1);
}
