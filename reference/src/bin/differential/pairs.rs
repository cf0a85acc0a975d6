//! Feeds the same inputs to two programs and compares what they print, byte for byte.

use crate::programs::{run, Outcome};
use std::{env, fs, io};

pub struct Pair {
    pub one: String,
    pub other: String,
    pub seed: u64,
    pub count: usize,
}

impl Pair {
    /// Whether both print the same on each of so many inputs, which come by their numbers, and end well.
    pub fn prints_the_same(&self, mut input_of: impl FnMut(usize) -> Vec<u8>) -> io::Result<bool> {
        for number in 0..self.count {
            let input = input_of(number);
            let one = run(&self.one, &input, number)?;
            let other = run(&self.other, &input, number)?;
            if one != other || one.exit_code != Some(0) {
                self.report_difference(number, &input, &one, &other)?;
                return Ok(false);
            }
        }
        Ok(true)
    }

    fn report_difference(
        &self,
        number: usize,
        input: &[u8],
        one: &Outcome,
        other: &Outcome,
    ) -> io::Result<()> {
        let name = format!("differential-{}-{number}.input", self.seed);
        let path = env::temp_dir().join(name);
        fs::write(&path, input)?;
        println!("seed {}, recording {number}: a difference", self.seed);
        println!("input, {} bytes: {}", input.len(), shortened_hex(input));
        println!("saved as {}", path.display());
        for (program, outcome) in [(&self.one, one), (&self.other, other)] {
            println!("{program} ended with {:?} and printed", outcome.exit_code);
            println!("{}", String::from_utf8_lossy(&outcome.output));
        }
        Ok(())
    }
}

fn shortened_hex(bytes: &[u8]) -> String {
    let most = 200;
    let shown: Vec<String> = bytes
        .iter()
        .take(most)
        .map(|byte| format!("{byte:02X}"))
        .collect();
    let more = if bytes.len() > most { " ..." } else { "" };
    shown.join(" ") + more
}
