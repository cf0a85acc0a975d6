//! Feeds the same inputs to two programs and compares what they print, byte for byte; or feeds lines to one program,
//! and compares what it writes behind them with the replay, the packets, the update or the temperature here.
//!
//! `differential [--bench | --thermo] ONE OTHER [SEED] [COUNT]`
//! `differential --recordings | --packets | --updates | --temperatures PROGRAM [SEED] [COUNT]`

mod answers;
mod bad_bodies;
mod fields;
mod mirrors;
mod packets;
mod pairs;
mod programs;
mod recordings;
mod sections;
mod temperatures;
mod thermometers;
mod updates;

use pairs::Pair;
use std::{env, io, process};

fn main() -> io::Result<()> {
    let Some(compared) = compare() else {
        eprintln!("usage: differential [--bench | --thermo] ONE OTHER [SEED] [COUNT]");
        eprintln!("       differential --recordings | --packets | --updates | --temperatures PROGRAM [SEED] [COUNT]");
        process::exit(2);
    };
    let no_difference = compared?;
    if !no_difference {
        process::exit(1);
    }
    Ok(())
}

/// Whether what the arguments ask for shows no difference, or none where they cannot be read.
fn compare() -> Option<io::Result<bool>> {
    let mut words = env::args().skip(1).peekable();
    let option = words.next_if(|word| word.starts_with("--"));
    let option = option.as_deref().unwrap_or("");
    let one = words.next()?;
    if let Some(compare_lines) = comparison_of_lines(option) {
        let (seed, count) = seed_and_count(words)?;
        return Some(compare_lines(&one, seed, count));
    }
    let other = words.next()?;
    let (seed, count) = seed_and_count(words)?;
    let pair = Pair {
        one,
        other,
        seed,
        count,
    };
    match option {
        "" => Some(mirrors::compare(&pair, false)),
        "--bench" => Some(mirrors::compare(&pair, true)),
        "--thermo" => Some(thermometers::compare(&pair)),
        _ => None,
    }
}

/// Of a program, a seed and a count.
type ComparisonOfLines = fn(&str, u64, usize) -> io::Result<bool>;

fn comparison_of_lines(option: &str) -> Option<ComparisonOfLines> {
    match option {
        "--recordings" => Some(recordings::compare),
        "--packets" => Some(packets::compare),
        "--updates" => Some(updates::compare),
        "--temperatures" => Some(temperatures::compare),
        _ => None,
    }
}

fn seed_and_count(mut words: impl Iterator<Item = String>) -> Option<(u64, usize)> {
    let seed = words.next().map_or(Some(1), |word| word.parse().ok())?;
    let count = words.next().map_or(Some(2_000), |word| word.parse().ok())?;
    Some((seed, count))
}
