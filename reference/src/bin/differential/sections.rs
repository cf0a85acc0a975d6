//! Runs a program on lines of one section of `panel_examples`, and compares what it writes behind each with what must
//! stand there.

use crate::programs::{run, Outcome};
use reference::answer::LONGEST;
use std::iter::Peekable;
use std::str::Lines;
use std::{env, fs, io};

/// Every line that the program writes behind a line of its input begins so.
const BEHIND: &str = "    ";

pub struct Section {
    pub name: &'static str,
    /// The trial with this seed and number: a line, or several that belong together.
    pub trial: fn(u64, usize) -> String,
    /// What must be written behind each line of a trial.
    pub expected: fn(&str) -> Vec<String>,
    /// Whether the rows behind a line are as they must be where this is expected.
    pub is_good: fn(&[String], &str) -> bool,
}

/// Where all rows behind a line are expected, and no others.
pub fn are_all(rows: &[String], expected: &str) -> bool {
    rows.join("\n") == expected
}

impl Section {
    /// Gives the number of runs if the program did as it must on so many trials, each of which is then taken.
    /// They go to it in batches, since its input may not be longer.
    pub fn compare(
        &self,
        program: &str,
        seed: u64,
        count: usize,
        mut take: impl FnMut(&str),
    ) -> io::Result<Option<usize>> {
        let (mut compared, mut batches) = (0, 0);
        while compared < count {
            let trials = self.batch(seed, compared, count);
            let input = [&[self.name.to_string()], &trials[..]].concat().join("\n") + "\n";
            let outcome = run(program, input.as_bytes(), batches)?;
            if let Some((index, difference)) = self.first_difference(&trials, &outcome) {
                self.report(seed, compared + index, &input, &difference)?;
                return Ok(None);
            }
            trials.iter().for_each(|trial| take(trial));
            compared += trials.len();
            batches += 1;
        }
        Ok(Some(batches))
    }

    /// The trials from a number on that one input has room for.
    fn batch(&self, seed: u64, from: usize, count: usize) -> Vec<String> {
        let mut trials = Vec::new();
        let mut length = self.name.len() + 1;
        for number in from..count {
            let trial = (self.trial)(seed, number);
            length += trial.len() + 1;
            if length > LONGEST {
                break;
            }
            trials.push(trial);
        }
        trials
    }

    /// The index of the first trial that went wrong, and what is wrong with it.
    fn first_difference(&self, trials: &[String], outcome: &Outcome) -> Option<(usize, String)> {
        let output = String::from_utf8_lossy(&outcome.output);
        let mut written = Written(output.lines().peekable());
        if written.behind(self.name).is_none() {
            return Some((0, "the section's name is not written back first".into()));
        }
        for (index, trial) in trials.iter().enumerate() {
            if let Some(fault) = self.fault(trial, &mut written) {
                return Some((index, fault));
            }
        }
        let last = trials.len() - 1;
        match (written.0.next(), outcome.exit_code) {
            (Some(more), _) => Some((last, format!("more is written at the end: {more}"))),
            (None, Some(0)) => None,
            (None, code) => Some((last, format!("the program ended with {code:?}"))),
        }
    }

    /// What is wrong with a trial, behind its lines up to the one that went wrong.
    fn fault(&self, trial: &str, written: &mut Written) -> Option<String> {
        let mut so_far = String::new();
        for (line, expected) in trial.lines().zip((self.expected)(trial)) {
            so_far += &format!("{line}\n");
            let fault = match written.behind(line) {
                None => "the line is not written back".to_string(),
                Some(rows) if (self.is_good)(&rows, &expected) => continue,
                Some(rows) => format!("written behind it\n{}", rows.join("\n")),
            };
            return Some(format!("{so_far}wanted\n{expected}\n{fault}"));
        }
        None
    }

    fn report(&self, seed: u64, number: usize, input: &str, difference: &str) -> io::Result<()> {
        let section = self.name;
        let path = env::temp_dir().join(format!("differential-{section}-{seed}-{number}.input"));
        fs::write(&path, input)?;
        println!("seed {seed}, trial {number} of {section}: a difference");
        println!("{difference}");
        println!("the input is saved as {}", path.display());
        Ok(())
    }
}

/// What is left of the lines that a program wrote.
struct Written<'a>(Peekable<Lines<'a>>);

impl Written<'_> {
    /// The rows behind a line, if that comes next.
    fn behind(&mut self, line: &str) -> Option<Vec<String>> {
        self.0.next_if_eq(&line)?;
        let mut rows = Vec::new();
        while let Some(row) = self.0.next_if(|row| row.starts_with(BEHIND)) {
            rows.push(row.to_string());
        }
        Some(rows)
    }
}
