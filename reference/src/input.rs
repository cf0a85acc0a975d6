//! The standard input of a program that takes a recording.

use crate::answer::LONGEST;
use std::io::{self, Read};

/// All of the input, as far as it counts; so many of its bytes stand in front of the recording.
/// Keeps one byte more than is taken, which is enough to see that there is too much, and lets the rest run by.
pub fn read_input(in_front: usize) -> io::Result<Vec<u8>> {
    let mut stdin = io::stdin().lock();
    let mut input = Vec::new();
    let kept = in_front + LONGEST + 1;
    stdin.by_ref().take(kept as u64).read_to_end(&mut input)?;
    io::copy(&mut stdin, &mut io::sink())?;
    Ok(input)
}
