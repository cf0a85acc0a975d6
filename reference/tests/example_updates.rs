//! The lines of the section `updates`, and what must stand behind them.

use reference::example_updates::Example;

fn assert_written(line: &str, behind: &str) {
    assert_eq!(
        Example::read(line).written(),
        format!("    update {behind}"),
        "{line}"
    );
}

#[test]
fn where_everything_is_known_only_other_bytes_are_sent() {
    assert_written("12", "done at 0, wire 0:, behind 112 as before");
    assert_written(
        "12 cell07?",
        "done at 6, wire 2: 02 03 C7 03 6E 04, behind 106 as before",
    );
    assert_written(
        "12 cell07=09",
        "done at 6, wire 2: 02 03 C7 03 6E 04, behind 106 as before",
    );
    assert_written(
        "15 6E 6E 11",
        "done at 6, wire 2: 02 03 C2 03 11 04, behind 106 as before",
    );
    assert_written(
        "15 cell23? 11",
        "done at 8, wire 3: 02 03 E3 03 6E 03 11 04, behind 104 as before",
    );
    assert_written(
        "12 cell01=11 6E 11",
        "done at 0, wire 0:, behind 112 as before",
    );
}

#[test]
fn words_are_taken_in_turn() {
    assert_written(
        "12 every=00 cell00=6E cell01=6E cell14=6E cell15=6E @0030",
        "done at 40, wire 19: 02 03 C2 03 6E 03 6E 03 6E 03 6E 03 6E 03 6E 03 6E 03 6E 03 6E 03 6E 03 6E 03 6E 03 6E 03 6E \
         03 6E 03 6E 03 6E 03 6E 04, behind 8 as before",
    );
    assert_written(
        "12 nothing every=6E cell07? data=00",
        "done at 10, wire 3: 02 03 40 04 02 03 C7 03 6E 04, behind 102 as before",
    );
    assert_written(
        "12 nothing every=6E cell07? data=00 fixed=00",
        "done at 6, wire 2: 02 03 C7 03 6E 04, behind 106 as before",
    );
    assert_written(
        "12 cell07? cell07=6E",
        "done at 0, wire 0:, behind 112 as before",
    );
    assert_written("12 led=10 led?", "done at 0, wire 0:, behind 112 as before");
}

#[test]
fn refusals_leave_the_whole_output_as_it_was() {
    assert_written(
        "12 cell07? @0005",
        "refused 10 at 0, wire 0:, behind 5 as before",
    );
    assert_written(
        "12 cell07? @0006",
        "done at 6, wire 2: 02 03 C7 03 6E 04, behind 0 as before",
    );
    assert_written(
        "12 led=10 cell07? @0000",
        "refused 2 at 0, wire 0:, behind 0 as before",
    );
    assert_written(
        "02 lights=03 @0000",
        "refused 1 at 0, wire 0:, behind 0 as before",
    );
    assert_written("14 led=10", "refused 1 at 0, wire 0:, behind 112 as before");
}

/// Also those that the facts here have no room for.
#[test]
fn values_out_of_range() {
    let bad = [
        "cell15!",
        "every!",
        "key02!",
        "address=16",
        "data=04",
        "fixed=02",
        "mode=08",
        "bright=08",
        "on=02",
        "led=10",
        "switches=10",
        "reads=05",
        "position=04",
    ];
    for word in bad {
        assert_written(
            &format!("12 {word}"),
            "refused 2 at 0, wire 0:, behind 112 as before",
        );
    }
    let bad = [
        "cell23!",
        "every!",
        "key03!",
        "address=24",
        "data=03",
        "mode=09",
    ];
    for word in bad {
        assert_written(
            &format!("15 {word}"),
            "refused 2 at 0, wire 0:, behind 112 as before",
        );
    }
    let good = [
        "cell16!",
        "key03!",
        "address=15",
        "invalid",
        "data=03",
        "mode=07",
    ];
    for word in good {
        assert_written(
            &format!("12 {word}"),
            "done at 0, wire 0:, behind 112 as before",
        );
    }
    let good = [
        "switches=10",
        "address=23",
        "data=02",
        "mode=08",
        "nothing every=6E",
    ];
    for word in good {
        assert_written(
            &format!("15 {word}"),
            "done at 0, wire 0:, behind 112 as before",
        );
    }
}
