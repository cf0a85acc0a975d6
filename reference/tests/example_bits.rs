//! Words that say single bits, and the rows that show them, in lines of the run examples.

use reference::example_packets::Example;
use reference::{example_temperatures, example_updates};

/// What follows the cells where everything else is known as usual.
const REST_6312: &str =
    "keys A1 A2 A3, position open, data mode write display, stepping increment, \
    address 05, read count 2, mode 3, dimming 5, display on";

/// The first row behind a line of the section `packets`, which shows what is known.
fn shown(line: &str) -> String {
    Example::read(line).written()[0].clone()
}

/// The last row, which tells whether it is in range.
fn closing(line: &str) -> String {
    Example::read(line).written().pop().unwrap()
}

fn row_6312(cells: &str, led: &str) -> String {
    format!("    cells {cells}, {REST_6312}{led}, switches 6")
}

#[test]
fn words_say_values_and_marks_of_cells() {
    for (word, cells) in [
        ("cell07=12/F6", "00-06=6E 07=12/F6 08-15=6E"),
        ("cell07=12/FF", "00-06=6E 07=12 08-15=6E"),
        ("cell07=12", "00-06=6E 07=12 08-15=6E"),
        ("cell07=00/00", "00-06=6E 07=?? 08-15=6E"),
        ("cell07?", "00-06=6E 07=?? 08-15=6E"),
        ("cell07=00/10", "00-06=6E 07=00/10 08-15=6E"),
        ("cell07!", "00-06=6E 07=01/00 08-15=6E"),
        ("cell07=FF/7F", "00-06=6E 07=FF/7F 08-15=6E"),
        ("every=12/F6", "00-15=12/F6"),
        (
            "every=12/F6 cell07=12/FE",
            "00-06=12/F6 07=12/FE 08-15=12/F6",
        ),
        ("cell15=12/F6 cell16!", "00-14=6E 15=12/F6"),
    ] {
        let line = format!("12 {word}");
        assert_eq!(shown(&line), row_6312(cells, ", LED 9"), "{line}");
    }
}

#[test]
fn words_say_values_and_marks_of_the_led() {
    for (word, led) in [
        ("led=05", ", LED 5"),
        ("led=0F/0F", ", LED 15"),
        ("led=05/0D", ", LED 05/0D"),
        ("led=00/08", ", LED 00/08"),
        ("led?", ""),
        ("led=00/00", ""),
        ("led!", ", LED 01/00"),
        ("led=10", ", LED 16"),
        ("led=00/1F", ", LED 00/1F"),
    ] {
        let line = format!("12 {word}");
        assert_eq!(shown(&line), row_6312("00-15=6E", led), "{line}");
    }
}

#[test]
fn words_say_values_and_marks_of_pt6302() {
    let line = "02 text0F=40/C0 shape00=7F/7E shape01=7F mark03=02/02 mark04=02/03 out=01/01";
    let expected = "    DCRAM 00-0E=6E 0F=40/C0, CGRAM 00=7F/7E 01=7F 02-27=6E, \
        ADRAM 00-02=02 03=02/02 04-0F=02, position to DCRAM, DCRAM at 05, CGRAM at 06, column 3, \
        ADRAM at 07, port 01/01, duty 5, digits 4, lights on";
    assert_eq!(shown(line), expected);
    let line = "02 nothing shape27=00/80 mark0F! out=02/03";
    let expected = "    DCRAM 00-0F=??, CGRAM 00-26=?? 27=00/80, ADRAM 00-0E=?? 0F=01/00, port 2";
    assert_eq!(shown(line), expected);
}

/// P10, and what a later byte leaves of it.
#[test]
fn p10_is_shown_by_its_bits() {
    let mut example = Example::read("12 every=00 cell07=09 address?");
    let known = |cells: &str| row_6312(cells, ", LED 9").replace(", address 05", "");
    let rows = example.written_behind("/ 03 00");
    assert_eq!(rows[0], "    packet done at 2");
    assert_eq!(rows[1], known("00-06=00 07=00/F6 08-15=00"));
    let rows = example.written_behind("/ 03 01");
    assert_eq!(rows[1], known("00-06=00/FE 07=00/F6 08-15=00/FE"));
}

#[test]
fn storage_that_cannot_be_is_2() {
    for line in [
        "12 cell15!",
        "12 cell15=01/00",
        "12 every=6E/FD",
        "12 led=10",
        "12 led=00/10",
        "12 led=01/0E",
        "15 cell23=80/7F",
        "15 led=00/1F",
        "02 text00=01/FE",
        "02 shape27=80",
        "02 shape27=00/80",
        "02 shape27=40/3F",
        "02 mark0F=04",
        "02 mark0F=00/04",
        "02 mark0F=01/02",
        "02 out=04",
        "02 out=00/07",
        "02 out!",
    ] {
        assert_eq!(closing(line), "    closing refused 2 at 0", "{line}");
    }
    for line in [
        "12 cell16! cell23=01/00",
        "12 cell15=00/00 led=00/00",
        "12 every=6C/FD led=08/0E",
        "15 cell23=00/7F led=09/09",
        "02 text00=00/01 shape27=00/40 mark0F=00/01 out=02/02",
    ] {
        assert_eq!(closing(line), "    closing done at 0", "{line}");
    }
}

fn assert_update(line: &str, behind: &str) {
    let written = example_updates::Example::read(line).written();
    assert_eq!(written, format!("    update {behind}"), "{line}");
}

#[test]
fn an_update_sends_what_has_an_unknown_bit() {
    let sent = "done at 6, wire 2: 02 03 C7 03 6E 04, behind 106 as before";
    assert_update("12 cell07=6E/FE", sent);
    assert_update("12 cell07=00/01", sent);
    assert_update("12 cell07=02/02", sent);
    let nothing = "done at 0, wire 0:, behind 112 as before";
    assert_update("12 cell07=6E/FF", nothing);
    assert_update("12 led=01/01 cell16=6F/FE", nothing);
    let refused = "refused 2 at 0, wire 0:, behind 112 as before";
    assert_update("12 cell07=6F/FE", refused);
    assert_update("15 cell16=6F/FE", refused);
    assert_update("15 led=00/80", refused);
}

fn assert_temperature(line: &str, behind: &str) {
    let written = example_temperatures::Example::read(line).written();
    assert_eq!(written, format!("    {behind}"), "{line}");
}

#[test]
fn a_field_with_an_unknown_bit_is_unknown() {
    assert_temperature("02 lights=00 text04=34/FE 2D 2D 2D 2D", "unknown");
    assert_temperature(
        "02 lights=00 text04=35/FF 20 20 37 2E",
        "reads 40 F0 00 00, half degrees 15, degrees 7.5",
    );
    assert_temperature("02 text04=34/FE", "dark");
    assert_temperature("02 lights=00 text04=35/FE", "unknown, refused 2 at 0");
    assert_temperature("02 lights=00 text00=00/01 2D 2D 2D 2D 2D", "no reading");
    assert_temperature("02 lights=00 text05=00/01 2D 2D 2D 2D 2D", "no reading");
    assert_temperature("02 out=00/04", "unknown, refused 2 at 0");
}
