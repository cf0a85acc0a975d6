//! Holds the update against the replay, and against chips that fit: a handful for each knowledge and picture.

use crate::bit_facts::byte_of;
use crate::cases::{any_knowledge, put_bits};
use crate::join::{After, Changes, Chip};
use crate::key_chip::{
    KeyChip, ADDRESS, CELL, CELL_BITS, DATA_MODE, POSITION, READ_COUNT, READ_FACTS, STEPPING,
};
use crate::Facts;
use reference::answer::{Answer, LONGEST};
use reference::key_panel::{Pt6312, Pt6315};
use reference::knowledge::Knowledge;
use reference::painting::{paint_key_panel, KeyPicture};
use reference::random::Random;
use reference::recording::{strobes_in, Recording};
use reference::replay::replay;
use reference::update::{update, Update};

const CASES: usize = 20_000;
const CHIPS: usize = 5;

/// A knowledge as a row of facts, the wanted cells, and which of them have a bit that is unknown or different.
#[derive(Debug)]
struct Case {
    known: Vec<Option<u8>>,
    wanted: Vec<u8>,
    differing: Vec<usize>,
}

/// Bytes come from a small pool, and many are wanted as they are known, as far as they are, so that sets of every size
/// come up.
fn any_case(rules: &KeyChip, random: &mut Random) -> Case {
    let pool = [random.byte(), random.byte(), random.byte()];
    let mut known = any_knowledge(rules, &pool, random);
    if random.once_in(2) {
        (known[DATA_MODE], known[STEPPING]) = (Some(0), Some(0));
    }
    let cells = known[CELL..].chunks(CELL_BITS);
    let stay_in_ten = random.pick(&[0, 3, 7, 9, 10]);
    let wanted: Vec<u8> = cells
        .map(|cell| {
            let byte = random.pick(&pool);
            let stays = random.below(10) < stay_in_ten;
            match stay_in_ten {
                0 => !as_known(cell, byte),
                _ if stays => as_known(cell, byte),
                _ => byte,
            }
        })
        .collect();
    let bits_wanted = bits_of(&wanted);
    let differs = |bit: usize| known[CELL + bit] != bits_wanted[bit];
    let differing = (0..wanted.len())
        .filter(|at| (CELL_BITS * at..CELL_BITS * (at + 1)).any(differs))
        .collect();
    Case {
        known,
        wanted,
        differing,
    }
}

/// A byte with the known bits of a cell, and for the rest those of another byte.
fn as_known(cell: &[Option<u8>], other: u8) -> u8 {
    let bits: Vec<u8> = cell
        .iter()
        .enumerate()
        .map(|(bit, fact)| fact.unwrap_or(other >> bit & 1))
        .collect();
    byte_of(&bits)
}

/// The facts of a memory that is known throughout.
fn bits_of(bytes: &[u8]) -> Vec<Option<u8>> {
    let mut facts = vec![None; CELL_BITS * bytes.len()];
    for (bits, &byte) in facts.chunks_mut(CELL_BITS).zip(bytes) {
        put_bits(bits, byte, 0xFF);
    }
    facts
}

/// The memory of a chip.
fn cells_of(chip: &[u8]) -> Vec<u8> {
    chip[CELL..].chunks(CELL_BITS).map(byte_of).collect()
}

/// A chip that fits: known facts have their value, and all others any in their range.
fn any_fitting_chip(rules: &KeyChip, known: &[Option<u8>], random: &mut Random) -> Vec<u8> {
    let ranges = rules.ranges();
    let facts = known.iter().zip(ranges);
    facts
        .map(|(fact, range)| fact.unwrap_or_else(|| random.below(range.max(1)) as u8))
        .collect()
}

/// The records of a stream, which has only falls, bytes and rises.
fn records_in(stream: &[u8]) -> Vec<&[u8]> {
    let mut records = Vec::new();
    let mut place = 0;
    while place < stream.len() {
        let length = if stream[place] == 0x03 { 2 } else { 1 };
        records.push(&stream[place..place + length]);
        place += length;
    }
    records
}

/// Moves the chip by each record, and gives the writes to memory in turn; nothing may be left open.
fn run(rules: &KeyChip, chip: &mut [u8], stream: &[u8]) -> Vec<(usize, u8)> {
    let mut writes = Vec::new();
    let mut changes = Changes::new();
    for record in records_in(stream) {
        changes.clear();
        rules.moves(&chip[..READ_FACTS], record, &mut changes);
        for &(fact, after) in &changes {
            let After::Value(value) = after else {
                panic!("record {record:02X?} leaves fact {fact} open");
            };
            chip[fact] = value;
        }
        let written = changes.iter().find(|(fact, _)| *fact >= CELL);
        if let Some((bit, _)) = written {
            let at = (bit - CELL) / CELL_BITS;
            writes.push((at, cells_of(chip)[at]));
        }
    }
    writes
}

fn painting(wanted: &[u8]) -> Vec<u8> {
    let picture = KeyPicture {
        cells: wanted.to_vec(),
        mode: 3,
        led: 5,
        dimming: 1,
        on: true,
    };
    let mut recording = Recording::up_to(LONGEST);
    paint_key_panel(&mut recording, &picture);
    recording.into_bytes()
}

/// What came up, to see that the cases are of every kind.
#[derive(Default, Debug)]
struct Seen {
    nothing: usize,
    all: usize,
    round: usize,
    settings: usize,
    runs: usize,
    cells: usize,
}

fn compare<P: Facts>(rules: &KeyChip, knowledge: fn(P) -> Knowledge) -> Seen {
    let mut random = Random::new(102);
    let mut seen = Seen::default();
    for _ in 0..CASES {
        let case = any_case(rules, &mut random);
        let panel = P::from_row(&case.known);
        let known = knowledge(panel);
        let sent = update(Some(&known), &case.wanted, LONGEST);
        check_answer(&case, &known, &sent);
        check_strobes(&case, &sent, &mut seen);
        check_replay(&case, panel, &sent);
        for _ in 0..CHIPS {
            let chip = any_fitting_chip(rules, &case.known, &mut random);
            check_chip(rules, &case, &chip, &sent);
        }
    }
    seen
}

/// The output may be just as long as the stream, and no shorter; the count is that of the bytes on the wire.
fn check_answer(case: &Case, known: &Knowledge, sent: &Update) {
    let length = sent.stream.len();
    assert_eq!(sent.answer, Answer::done(length), "{case:02X?}");
    let just_enough = update(Some(known), &case.wanted, length);
    assert_eq!(just_enough, *sent, "{case:02X?}");
    if length > 0 {
        let refused = update(Some(known), &case.wanted, length - 1);
        assert_eq!(refused.answer, Answer::refused(10, 0), "{case:02X?}");
        assert_eq!((refused.count, refused.stream.len()), (0, 0));
    }
    let records = records_in(&sent.stream);
    let bytes_in = records.iter().filter(|record| record[0] == 0x03);
    assert_eq!(sent.count, bytes_in.count(), "{case:02X?}");
}

/// The setting stands first where it must, and there alone; the runs rise, and none could be longer.
fn check_strobes(case: &Case, sent: &Update, seen: &mut Seen) {
    let mut strobes = strobes_in(&sent.stream);
    let cells = case.wanted.len();
    let setting_known = (case.known[DATA_MODE], case.known[STEPPING]) == (Some(0), Some(0));
    if !setting_known && !case.differing.is_empty() {
        assert_eq!(strobes.remove(0), [0x40], "{case:02X?}");
        seen.settings += 1;
    }
    let runs: Vec<(usize, usize)> = strobes
        .iter()
        .map(|strobe| (usize::from(strobe[0] - 0xC0), strobe.len() - 1))
        .collect();
    let rising = runs.windows(2).all(|pair| pair[0].0 < pair[1].0);
    assert!(rising, "{case:02X?}");
    if case.differing.len() == cells {
        assert_eq!(runs, [(0, cells)], "{case:02X?}");
        seen.all += 1;
    } else {
        for &(start, length) in &runs {
            assert!((1..cells).contains(&length), "{case:02X?}");
            for neighbour in [start + cells - 1, start + length] {
                let joins = case.differing.contains(&(neighbour % cells));
                assert!(!joins, "{neighbour} {case:02X?}");
            }
        }
    }
    seen.nothing += usize::from(case.differing.is_empty());
    seen.round += usize::from(runs.iter().any(|(start, length)| start + length > cells));
    seen.runs += runs.len();
    seen.cells += case.differing.len();
}

/// From the same knowledge the stream is accepted, and then every cell is known as it is wanted.
fn check_replay<P: Facts>(case: &Case, panel: P, sent: &Update) {
    let mut after = panel;
    let answer = replay(&mut after, &sent.stream, 0);
    assert_eq!(answer, Answer::done(sent.stream.len()), "{case:02X?}");
    assert_eq!(after.to_row()[CELL..], bits_of(&case.wanted), "{case:02X?}");
}

/// The chip ends with the memory that a painting gives it; the differing cells are written, each once, and nothing
/// else changes but the address, the position, and with the setting what belongs to that.
fn check_chip(rules: &KeyChip, case: &Case, chip: &[u8], sent: &Update) {
    let mut after = chip.to_vec();
    let mut writes = run(rules, &mut after, &sent.stream);
    assert_eq!(cells_of(&after), case.wanted, "{case:02X?}");
    let mut painted = chip.to_vec();
    run(rules, &mut painted, &painting(&case.wanted));
    assert_eq!(after[CELL..], painted[CELL..], "{case:02X?}");

    writes.sort();
    let differing = case.differing.iter();
    let expected: Vec<(usize, u8)> = differing.map(|&at| (at, case.wanted[at])).collect();
    assert_eq!(writes, expected, "{case:02X?}");

    let mut may_change = Vec::new();
    if !sent.stream.is_empty() {
        may_change.extend([ADDRESS, POSITION]);
        assert_eq!(after[POSITION], 0, "idle: {case:02X?}");
    }
    if sent.stream.starts_with(&[0x02, 0x03, 0x40]) {
        may_change.extend([DATA_MODE, STEPPING, READ_COUNT]);
        let setting = (after[DATA_MODE], after[STEPPING], after[READ_COUNT]);
        assert_eq!(setting, (0, 0, 0), "write display, increment: {case:02X?}");
    }
    for fact in (0..CELL).filter(|fact| !may_change.contains(fact)) {
        assert_eq!(after[fact], chip[fact], "fact {fact}: {case:02X?}");
    }
}

/// The cases must be of every kind, many times over.
fn assert_varied(seen: &Seen) {
    println!("{CASES} updates: {seen:?}");
    for times in [seen.nothing, seen.all, seen.round, seen.settings] {
        assert!(times > CASES / 50, "{seen:?}");
    }
    assert!(seen.cells > 2 * seen.runs && seen.runs > CASES, "{seen:?}");
}

#[test]
fn updates_bring_every_fitting_pt6312_to_the_wanted_cells() {
    let rules = KeyChip { is_6315: false };
    assert_varied(&compare::<Pt6312>(&rules, Knowledge::Pt6312));
}

#[test]
fn updates_bring_every_fitting_pt6315_to_the_wanted_cells() {
    let rules = KeyChip { is_6315: true };
    assert_varied(&compare::<Pt6315>(&rules, Knowledge::Pt6315));
}
