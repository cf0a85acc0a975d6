//! Packets (M-100), with answers worked out by hand from the paper, and beside replay.

use reference::answer::{Answer, LONGEST};
use reference::bits::Bits;
use reference::example_lines::bytes_in;
use reference::key_panel::{Position, Pt6312};
use reference::knowledge::{Knowledge, PARTS, PT6302, PT6312, PT6315};
use reference::packets::{Kept, Packets};
use reference::random::Random;
use reference::replay::Panel;
use reference::trial_inputs::trial_input;

fn opened(part: u8) -> Packets {
    Packets::opened(Knowledge::unknown(part))
}

/// From unfinished bytes and a total, knowing nothing.
fn state(part: u8, unfinished: &str, total: u32) -> Packets {
    let mut packets = opened(part);
    packets.kept.unfinished = bytes_in(unfinished);
    packets.kept.total = total;
    packets
}

/// The answer to a packet and to closing behind it, each a number and a place.
fn take(packets: &mut Packets, packet: &str) -> [(u8, usize); 2] {
    let answer = packets.take(&bytes_in(packet));
    let closing = packets.close();
    [answer, closing].map(|answer| (answer.number, answer.place))
}

#[test]
fn a_record_may_be_split() {
    let mut packets = opened(PT6312);
    assert_eq!(take(&mut packets, ""), [(0, 0), (0, 0)]);
    assert_eq!(take(&mut packets, "01 07 12"), [(0, 3), (7, 1)]);
    assert_eq!(packets.kept.unfinished, [0x07, 0x12]);
    assert_eq!(take(&mut packets, ""), [(0, 3), (7, 1)]);
    assert_eq!(take(&mut packets, "34"), [(0, 4), (7, 1)]);
    assert_eq!(take(&mut packets, "05 00 02 03"), [(0, 8), (7, 7)]);
    assert_eq!(take(&mut packets, "C0"), [(0, 9), (0, 9)]);
    let Some(Knowledge::Pt6312(panel)) = packets.knowledge else {
        panic!("the part was PT6312");
    };
    assert_eq!(panel.keys, [Some(0x12), Some(0x34), Some(0x05)]);
    assert_eq!(panel.position, Some(Position::Open));
    assert_eq!(packets.kept.total, 9);
}

/// The total stays as before the packet although its good records count, unfinished bytes go, and the refusal stands.
#[test]
fn a_refusal_stands() {
    let mut packets = opened(PT6312);
    assert_eq!(take(&mut packets, "01 02 03"), [(0, 3), (7, 2)]);
    assert_eq!(take(&mut packets, "C0 04 00 02 03"), [(5, 5), (5, 5)]);
    let kept = Kept {
        unfinished: vec![],
        total: 3,
        standing: Some(Answer::refused(5, 5)),
    };
    assert_eq!(packets.kept, kept);
    let mut before = Knowledge::unknown(PT6312).unwrap();
    before.replay(&bytes_in("01 02 03 C0 04"), 0);
    assert_eq!(packets.knowledge, Some(before));
    for packet in ["", "02", "06 00"] {
        assert_eq!(take(&mut packets, packet), [(5, 5), (5, 5)]);
    }
    assert_eq!(packets.take(&[0x04; LONGEST + 1]), Answer::refused(5, 5));
    assert_eq!((packets.kept, packets.knowledge), (kept, Some(before)));
}

/// 5 and 6 are told by the kind, and 8 by the packet that ends the record, at the byte at fault.
#[test]
fn the_packet_that_tells_a_refusal() {
    let mut packets = opened(PT6315);
    assert_eq!(take(&mut packets, "02 08"), [(6, 1), (6, 1)]);
    for part in PARTS {
        let mut packets = opened(part);
        assert_eq!(take(&mut packets, "04 06"), [(0, 2), (7, 1)]);
        assert_eq!(take(&mut packets, "00 04"), [(8, 2), (8, 2)]);
        assert_eq!(packets.kept.total, 2);
    }
    let mut packets = opened(PT6312);
    assert_eq!(take(&mut packets, "08"), [(0, 1), (7, 0)]);
    assert_eq!(take(&mut packets, "10"), [(8, 1), (8, 1)]);
    let mut packets = opened(PT6312);
    assert_eq!(take(&mut packets, "04 07"), [(0, 2), (7, 1)]);
    assert_eq!(take(&mut packets, "FF FF"), [(0, 4), (7, 1)]);
    assert_eq!(take(&mut packets, "FF"), [(0, 5), (7, 1)]);
    assert_eq!(take(&mut packets, "01"), [(8, 5), (8, 5)]);
}

#[test]
fn places_count_from_the_first_packet() {
    let mut packets = state(PT6312, "07 12 34", 256);
    assert_eq!(take(&mut packets, ""), [(0, 256), (7, 253)]);
    assert_eq!(take(&mut packets, "05 01 02"), [(8, 257), (8, 257)]);
    assert_eq!(packets.kept.total, 256);
    let mut packets = state(PT6312, "08", 256);
    assert_eq!(take(&mut packets, "10"), [(8, 256), (8, 256)]);
    let mut packets = state(PT6302, "06", 256);
    assert_eq!(take(&mut packets, "08"), [(8, 256), (8, 256)]);
    let mut packets = state(PT6302, "03", 256);
    assert_eq!(take(&mut packets, "00 00"), [(5, 257), (5, 257)]);
}

#[test]
fn a_packet_or_a_total_that_is_too_high_changes_nothing() {
    let mut packets = opened(PT6312);
    assert_eq!(packets.take(&[0x05; LONGEST]), Answer::done(LONGEST));
    assert_eq!(
        packets.take(&[0x05; LONGEST + 1]),
        Answer::refused(Answer::TOO_LONG, 0)
    );
    assert_eq!(take(&mut packets, "02"), [(0, 65_536), (0, 65_536)]);
    let mut packets = state(PT6312, "03", u32::MAX - 1);
    let before = packets.clone();
    assert_eq!(take(&mut packets, "00 00"), [(4, 0), (7, 4_294_967_293)]);
    assert_eq!(packets, before);
    assert_eq!(
        take(&mut packets, "00"),
        [(0, 4_294_967_295), (0, 4_294_967_295)]
    );
    assert_eq!(take(&mut packets, "00"), [(4, 0), (0, 4_294_967_295)]);
}

#[test]
fn a_state_that_cannot_be_comes_before_all_but_the_part() {
    let refused = |mut packets: Packets| {
        let before = packets.clone();
        let answer = take(&mut packets, "00");
        assert_eq!(packets, before);
        answer == [(2, 0), (2, 0)]
    };
    for unfinished in ["01", "03 00", "06 00", "00", "03 01 03", "07 01 02 03 00"] {
        assert!(refused(state(PT6312, unfinished, 9)), "{unfinished}");
    }
    assert!(refused(state(PT6302, "07", 9)));
    assert!(refused(state(PT6315, "08", 9)));
    assert!(refused(state(PT6312, "07 01", 1)));
    for number in [0, 1, 2, 3, 4, 7, 9, 10, 255] {
        let mut packets = opened(PT6312);
        packets.kept.standing = Some(Answer::refused(number, 3));
        assert!(refused(packets), "{number}");
    }
    let out_of_range = Pt6312 {
        led: Bits::all_known(16),
        ..Pt6312::UNKNOWN
    };
    let knowledge = Some(Knowledge::Pt6312(out_of_range));
    assert!(refused(Packets::opened(knowledge)));
    let mut no_part = state(0x14, "00", 0);
    assert_eq!(take(&mut no_part, "00"), [(1, 0), (1, 0)]);
}

/// Closing gives the unfinished record first and a packet the standing refusal, whose place is not looked at.
#[test]
fn an_unfinished_record_and_a_standing_refusal() {
    for number in [5, 6, 8] {
        let mut packets = state(PT6312, "03", 5);
        packets.kept.standing = Some(Answer::refused(number, 900));
        let before = packets.clone();
        assert_eq!(take(&mut packets, "11"), [(number, 900), (7, 4)]);
        assert_eq!(packets, before);
    }
}

/// The answers to the packets of a recording, cut at random, up to the first that is refused; and what is kept then.
fn in_packets(part: u8, mut recording: &[u8], random: &mut Random) -> (Answer, Packets) {
    let mut packets = opened(part);
    let mut answer = packets.take(&[]);
    while !recording.is_empty() && answer.number == Answer::DONE {
        let most = random.pick(&[1, 2, 5, 300, LONGEST]);
        let length = random.below(most + 1).min(recording.len());
        let (packet, rest) = recording.split_at(length);
        answer = packets.take(packet);
        recording = rest;
    }
    (answer, packets)
}

/// However it is cut, a recording comes to what its replay comes to; but the records before a bad one count.
#[test]
fn packets_come_to_what_the_whole_comes_to() {
    let mut by_number = [0; 9];
    for number in 0..3_000 {
        let input = trial_input(100, number);
        let (&part, recording) = input.split_first().unwrap_or((&0, &[]));
        let Some(mut whole) = Knowledge::unknown(part) else {
            continue;
        };
        let wanted = whole.replay(recording, 0);
        if wanted.number == Answer::TOO_LONG {
            continue;
        }
        let mut random = Random::for_trial(101, number);
        let (answer, packets) = in_packets(part, recording, &mut random);
        assert_eq!(packets.close(), wanted);
        if wanted.number != Answer::DONE {
            let good = good_records(part, &recording[..wanted.place]);
            assert_eq!(whole.replay(&recording[..good], 0), Answer::done(good));
        }
        assert_eq!(packets.knowledge, Some(whole));
        match wanted.number {
            Answer::BODY_CUT_SHORT => assert_eq!(answer, Answer::done(recording.len())),
            _ => assert_eq!(answer, wanted),
        }
        by_number[usize::from(wanted.number)] += 1;
    }
    for number in [0, 5, 6, 7, 8] {
        assert!(by_number[number] > 20, "{by_number:?}");
    }
}

/// The length of the longest front that is accepted.
fn good_records(part: u8, recording: &[u8]) -> usize {
    let is_accepted = |length: &usize| {
        let mut knowledge = Knowledge::unknown(part).unwrap();
        knowledge.replay(&recording[..*length], 0).number == Answer::DONE
    };
    (0..=recording.len()).rev().find(is_accepted).unwrap()
}
