//! What the program `thermo` prints, for inputs worked out by hand from the papers.

use reference::answer::LONGEST;
use reference::example_lines::bytes_in;
use reference::show::temperature_line;
use reference::thermo_input::temperature_in;

fn assert_printed(hex: &str, line: &str) {
    assert_eq!(
        temperature_line(&temperature_in(&bytes_in(hex))),
        format!("{line}\n"),
        "{hex}"
    );
}

/// Strobes that set all 16 digits, or 9, and lights to normal, off or on.
const ALL_DIGITS: &str = "02 03 60 04";
const NINE_DIGITS: &str = "02 03 61 04";
const NORMAL: &str = "02 03 70 04";
const OFF: &str = "02 03 71 04";
const ON: &str = "02 03 72 04";

#[test]
fn a_field_that_is_written_is_read() {
    let text = "02 03 10 03 2D 03 20 03 37 03 2E 03 35 04";
    assert_printed(&format!("02 00 01 {text} {NORMAL}"), "-7.5");
    assert_printed(&format!("02 00 {NORMAL} {text} {ALL_DIGITS}"), "-7.5");
    assert_printed(&format!("02 00 {text} {NINE_DIGITS} {NORMAL}"), "-7.5");
    assert_printed(&format!("02 01 {text} {ALL_DIGITS} {NORMAL}"), "unknown");
    let nought = "02 03 10 03 2D 03 30 03 30 03 2E 03 30 04";
    assert_printed(&format!("02 00 01 {nought} {NORMAL}"), "0.0");
    let twelve = "02 03 1B 03 20 03 31 03 32 03 2E 03 30 04";
    assert_printed(&format!("02 0B 01 {twelve} {NORMAL}"), "12.0");
}

#[test]
fn the_other_lines() {
    let dashes = "02 03 10 03 2D 03 2D 03 2D 03 2D 03 2D 04";
    assert_printed(
        &format!("02 00 {dashes} {ALL_DIGITS} {NORMAL}"),
        "no reading",
    );
    assert_printed(&format!("02 00 {dashes} {OFF}"), "dark");
    assert_printed(&format!("02 00 {dashes} {ON}"), "dark");
    assert_printed(&format!("02 00 01 {dashes}"), "dark");
    assert_printed(&format!("02 04 {NINE_DIGITS}"), "unknown");
    assert_printed(&format!("02 05 {NINE_DIGITS}"), "dark");
    assert_printed(&format!("02 00 {dashes} {NORMAL}"), "unknown");
    assert_printed(
        &format!("02 00 {dashes} {ALL_DIGITS} {NORMAL} 05"),
        "unknown",
    );
    let none = "02 03 10 03 20 03 2D 03 37 03 2E 03 35 04";
    assert_printed(
        &format!("02 00 {none} {ALL_DIGITS} {NORMAL}"),
        "not a reading",
    );
    assert_printed("02 00", "unknown");
}

/// Places count neither the part byte nor the start, and the replay comes before the field.
#[test]
fn refusals() {
    assert_printed("", "refused 1 at 0");
    assert_printed("02", "refused 11 at 0");
    assert_printed("12", "refused 1 at 0");
    assert_printed("14", "refused 1 at 0");
    assert_printed("02 0C", "refused 11 at 0");
    assert_printed("02 FF 01", "refused 11 at 0");
    assert_printed("15 00 01 09", "refused 1 at 0");
    assert_printed("12 0C 01", "refused 1 at 0");
    assert_printed("02 0C 01 00", "refused 5 at 1");
    assert_printed("02 00 01 02 09", "refused 6 at 2");
    assert_printed("02 00 01 02 03", "refused 7 at 2");
    assert_printed("12 00 06 08", "refused 8 at 1");
    assert_printed("12 00 01 07 12 34 05 01", "refused 8 at 5");
    assert_printed("00 00 06 08", "refused 1 at 0");
}

#[test]
fn the_longest_recording_is_taken_and_no_longer_one() {
    for (part, done) in [(0x02, "unknown\n"), (0x12, "refused 1 at 0\n")] {
        let mut input = vec![part, 0];
        input.extend([0x04; LONGEST]);
        assert_eq!(temperature_line(&temperature_in(&input)), done);
        input.push(0x04);
        assert_eq!(
            temperature_line(&temperature_in(&input)),
            "refused 4 at 0\n"
        );
    }
}
