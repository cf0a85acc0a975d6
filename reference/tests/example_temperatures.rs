//! The lines of the section `temperatures`, and what must stand behind them.

use reference::example_temperatures::Example;

fn assert_written(line: &str, behind: &str) {
    assert_eq!(
        Example::read(line).written(),
        format!("    {behind}"),
        "{line}"
    );
}

#[test]
fn readings_have_bytes_half_degrees_and_degrees() {
    for (bytes, behind) in [
        (
            "2D 20 37 2E 35",
            "reads C0 F0 00 00, half degrees -15, degrees -7.5",
        ),
        (
            "20 20 30 2E 30",
            "reads 00 00 00 00, half degrees 0, degrees 0.0",
        ),
        (
            "2D 30 30 2E 30",
            "reads 00 00 00 00, half degrees 0, degrees 0.0",
        ),
        (
            "2D 20 30 2E 35",
            "reads BF 00 00 00, half degrees -1, degrees -0.5",
        ),
        (
            "20 31 32 2E 30",
            "reads 41 40 00 00, half degrees 24, degrees 12.0",
        ),
        (
            "20 39 39 2E 35",
            "reads 42 C7 00 00, half degrees 199, degrees 99.5",
        ),
        (
            "2D 39 39 2E 35",
            "reads C2 C7 00 00, half degrees -199, degrees -99.5",
        ),
    ] {
        assert_written(&format!("02 lights=00 {bytes}"), behind);
        assert_written(&format!("02 lights=00 @07 {bytes}"), behind);
        let known_alone = format!("02 nothing width=00 lights=00 @0B {bytes}");
        assert_written(&known_alone, behind);
    }
}

#[test]
fn the_other_answers() {
    assert_written("02 lights=00 2D 2D 2D 2D 2D", "no reading");
    assert_written("02 2D 2D 2D 2D 2D", "dark");
    assert_written("02 lights=00 @08 2D 2D 2D 2D 2D", "dark");
    assert_written("02 lights=00", "not a reading");
    assert_written("02 lights=00 2D 2D 2D 2D", "not a reading");
    assert_written("02 lights=00 text04? 2D 2D 2D 2D", "unknown");
    assert_written("02 lights? 2D 2D 2D 2D 2D", "unknown");
    assert_written("02 lights=00 width? 2D 2D 2D 2D 2D", "unknown");
    assert_written("02 nothing", "unknown");
    assert_written("02 nothing lights=01", "dark");
}

#[test]
fn words_are_taken_in_turn_and_bytes_behind_them() {
    let reading = "reads 40 F0 00 00, half degrees 15, degrees 7.5";
    assert_written("02 lights=03 lights=00 20 20 37 2E 35", reading);
    assert_written("02 lights=00 nothing 20 20 37 2E 35", "unknown");
    assert_written("02 20 20 37 lights=00 text02? 2E 35", reading);
    assert_written(
        "02 lights=00 text00? text01! text02=00 20 20 37 2E 35",
        reading,
    );
    assert_written("02 lights=00 text03=2E text04=35 20 20 37", reading);
    assert_written("02 lights=00 width=00 @0B 20 20 37 2E 35 30 30", reading);
    assert_written("02 lights=00 text05? 20 20 37 2E 35", reading);
}

#[test]
fn refusals() {
    assert_written("02 @0B", "dark");
    assert_written("02 @0C", "unknown, refused 11 at 0");
    assert_written("02 @FF 20 20 37 2E 35", "unknown, refused 11 at 0");
    for part in ["12", "15", "00", "14"] {
        for words in [
            "",
            " nothing",
            " led=10 cell07? invalid",
            " @0C",
            " every! 2D 2D 2D",
        ] {
            assert_written(&format!("{part}{words}"), "unknown, refused 1 at 0");
        }
    }
}

/// Also those that the facts here have no room for.
#[test]
fn values_out_of_range() {
    let bad = [
        "text0F!",
        "shape27=80",
        "shape27!",
        "mark0F=04",
        "mark0F!",
        "dcram=10",
        "glyph=08",
        "adram=10",
        "column=05",
        "out=04",
        "bright=08",
        "width=08",
        "lights=03",
        "position=06",
    ];
    for word in bad {
        assert_written(&format!("02 {word}"), "unknown, refused 2 at 0");
        assert_written(&format!("02 {word} @0C"), "unknown, refused 2 at 0");
    }
    let good = [
        "text0F=FF",
        "shape27=7F",
        "mark0F=03",
        "dcram=0F",
        "glyph=07",
        "adram=0F",
        "column=04",
        "out=03",
        "bright=07",
        "width=07",
        "lights=02",
        "position=05",
    ];
    for word in good {
        assert_written(&format!("02 {word}"), "dark");
    }
}
