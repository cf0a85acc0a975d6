//! A recording does what its records do one after the other, wherever it is taken up.

use reference::knowledge::{Knowledge, PARTS};
use reference::random::Random;
use reference::recording::record_length;
use reference::trial_recordings::any_recording;

#[test]
fn a_recording_is_its_records_in_turn() {
    let mut random = Random::new(2);
    for _ in 0..3_000 {
        let part = random.pick(&PARTS);
        let length = random.below(300);
        let recording = any_recording(part, length, &mut random);
        let mut at_once = Knowledge::unknown(part).unwrap();
        assert_eq!(at_once.replay(&recording, 0).number, 0);
        let mut in_turn = Knowledge::unknown(part).unwrap();
        let mut place = 0;
        while place < recording.len() {
            let mut from_here = in_turn;
            assert_eq!(from_here.replay(&recording, place).place, recording.len());
            assert_eq!(from_here, at_once);
            let next = place + record_length(recording[place]);
            assert_eq!(in_turn.replay(&recording[..next], place).place, next);
            place = next;
        }
        assert_eq!(in_turn, at_once);
    }
}
