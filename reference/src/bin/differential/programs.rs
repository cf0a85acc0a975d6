//! Running a program on an input.

use reference::random::Random;
use std::io::{self, Write};
use std::process::{ChildStdin, Command, Stdio};
use std::thread;
use std::time::Duration;

#[derive(PartialEq, Eq)]
pub struct Outcome {
    pub exit_code: Option<i32>,
    pub output: Vec<u8>,
}

/// A program may know its answer before it has read all, so a pipe that it closed is no fault.
pub fn run(program: &str, input: &[u8], number: usize) -> io::Result<Outcome> {
    let mut child = Command::new(program)
        .stdin(Stdio::piped())
        .stdout(Stdio::piped())
        .spawn()?;
    let mut stdin = child.stdin.take().expect("the pipe was asked for");
    match hand_over(&mut stdin, input, number) {
        Err(error) if error.kind() != io::ErrorKind::BrokenPipe => return Err(error),
        _ => drop(stdin),
    }
    let finished = child.wait_with_output()?;
    Ok(Outcome {
        exit_code: finished.status.code(),
        output: finished.stdout,
    })
}

/// Every fourth input comes in small pieces, the first of them slowly, as from a slow pipe.
fn hand_over(stdin: &mut ChildStdin, input: &[u8], number: usize) -> io::Result<()> {
    if number % 4 != 3 {
        return stdin.write_all(input);
    }
    let mut random = Random::new(number as u64);
    let mut left = input;
    for piece in 0.. {
        if left.is_empty() {
            break;
        }
        let most = if piece < 20 { 7 } else { 9_000 };
        let (now, later) = left.split_at(left.len().min(1 + random.below(most)));
        stdin.write_all(now)?;
        left = later;
        if piece < 20 {
            thread::sleep(Duration::from_micros(300));
        }
    }
    Ok(())
}
