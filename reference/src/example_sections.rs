//! Sections of the program `panel_examples`: which lines of a text are theirs, and how each is written back with what
//! it comes to.

use crate::example_packets::Example;
use crate::{example_recordings, example_updates};

const NAMES: [&str; 5] = ["events", "recordings", "packets", "updates", "temperatures"];

/// The lines behind a section's name, up to the next name.
pub fn lines_of<'a>(name: &str, text: &'a str) -> Vec<&'a str> {
    let behind = text.lines().skip_while(|line| *line != name).skip(1);
    behind.take_while(|line| !NAMES.contains(line)).collect()
}

/// The lines of the section `recordings`, and behind each what must be written.
pub fn recordings_written(lines: &[&str]) -> Vec<String> {
    each_written(lines, example_recordings::written)
}

/// The same of the section `updates`.
pub fn updates_written(lines: &[&str]) -> Vec<String> {
    each_written(lines, |line| example_updates::Example::read(line).rows())
}

/// Where no line goes by another.
fn each_written(lines: &[&str], behind: fn(&str) -> Vec<String>) -> Vec<String> {
    let mut written = Vec::new();
    for line in lines {
        written.push(line.to_string());
        if !is_remark(line) {
            written.extend(behind(line));
        }
    }
    written
}

/// The same of the section `packets`, where a line goes on from what the line before it left.
pub fn packets_written(lines: &[&str]) -> Vec<String> {
    let mut written = Vec::new();
    let mut example: Option<Example> = None;
    for line in lines {
        written.push(line.to_string());
        if is_remark(line) {
            continue;
        }
        if line.starts_with('/') {
            let example = example.as_mut().expect("a packet stands behind a part");
            written.extend(example.written_behind(line));
        } else {
            let opened = Example::read(line);
            written.extend(opened.written());
            example = Some(opened);
        }
    }
    written
}

fn is_remark(line: &str) -> bool {
    line.starts_with('#')
}
