//! The tail finder, with tails worked out by hand from the paper, and beside replay.

use reference::answer::{Answer, LONGEST};
use reference::example_lines::bytes_in;
use reference::knowledge::{Knowledge, PARTS, PT6302, PT6312, PT6315};
use reference::tail::{tail_of, Tail};
use reference::trial_inputs::trial_input;

fn assert_tail(part: u8, hex: &str, start: usize) {
    let length = bytes_in(hex).len();
    let wanted = Tail {
        answer: Answer::done(length),
        places: start..length,
    };
    assert_eq!(tail_of(part, &bytes_in(hex)), wanted, "{hex}");
}

/// The empty part at the front.
fn assert_refused(part: u8, recording: &[u8], number: u8, place: usize) {
    let wanted = Tail {
        answer: Answer::refused(number, place),
        places: 0..0,
    };
    assert_eq!(tail_of(part, recording), wanted);
}

#[test]
fn the_tail_is_what_stands_behind_the_last_gap() {
    for part in PARTS {
        assert_tail(part, "", 0);
        assert_tail(part, "01 02 03 10 04", 0);
        assert_tail(part, "05 01 04", 1);
        assert_tail(part, "01 05 02 04", 2);
        assert_tail(part, "05 01 05 02", 3);
        assert_tail(part, "05 05", 2);
        assert_tail(part, "01 04 05", 3);
    }
}

#[test]
fn a_body_byte_05_is_no_gap() {
    for part in PARTS {
        assert_tail(part, "03 05 06 05 04", 0);
        assert_tail(part, "01 05 03 05 06 05", 2);
    }
    assert_tail(PT6312, "07 05 05 05 00 08 05 04", 0);
    assert_tail(PT6315, "07 05 05 05 05 04", 0);
}

#[test]
fn the_tests_come_in_order() {
    for part in [0x00, 0x14, 0xFF] {
        assert_refused(part, &[], 1, 0);
        assert_refused(part, &[0x00; LONGEST + 1], 1, 0);
    }
    for part in PARTS {
        assert_refused(part, &[0x00; LONGEST + 1], 4, 0);
        assert_eq!(tail_of(part, &[0x05; LONGEST]).places, LONGEST..LONGEST);
    }
}

/// A bad record before the last gap is seen as well as one behind it.
#[test]
fn records_are_refused_as_by_replay() {
    for part in PARTS {
        assert_refused(part, &bytes_in("05 01 00 05"), 5, 2);
        assert_refused(part, &bytes_in("05 01 03"), 7, 2);
        assert_refused(part, &bytes_in("06 00 05 04"), 8, 1);
        assert_refused(part, &bytes_in("05 01 06 08 05"), 8, 3);
        assert_refused(part, &bytes_in("05 01 06 FF"), 8, 3);
    }
    assert_refused(PT6302, &bytes_in("05 07 12 34 05 01"), 6, 1);
    assert_refused(PT6315, &bytes_in("05 08 10"), 6, 1);
    assert_refused(PT6312, &bytes_in("08 10 05"), 8, 1);
    assert_refused(PT6312, &bytes_in("05 02 08 FF"), 8, 3);
    assert_refused(PT6312, &bytes_in("07 05 05 05 05"), 8, 4);
    assert_refused(PT6312, &bytes_in("05 02 07 00 00 00 01 05"), 8, 6);
}

/// Whatever the recording, the answer is replay's, and replay needs no more than the tail if there was a gap.
#[test]
fn a_tail_tells_as_much_as_the_whole() {
    let mut with_gap = 0;
    for number in 0..3_000 {
        let input = trial_input(104, number);
        let (&part, recording) = input.split_first().unwrap_or((&0, &[]));
        let tail = tail_of(part, recording);
        let Some(mut whole) = Knowledge::unknown(part) else {
            assert_refused(part, recording, 1, 0);
            continue;
        };
        assert_eq!(tail.answer, whole.replay(recording, 0));
        if tail.answer.number != Answer::DONE {
            assert_eq!(tail.places, 0..0);
            continue;
        }
        assert_eq!(tail.places.end, recording.len());
        let mut behind = Knowledge::unknown(part).unwrap();
        assert_eq!(behind.replay(recording, tail.places.start), tail.answer);
        assert_eq!(behind, whole);
        if tail.places.start > 0 {
            assert_eq!(recording[tail.places.start - 1], 0x05);
            with_gap += 1;
        }
        assert_eq!(tail_of(part, &recording[tail.places]).places.start, 0);
    }
    assert!(with_gap > 500, "{with_gap} recordings with a gap");
}
