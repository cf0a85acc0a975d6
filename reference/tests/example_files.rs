//! The run examples of `panel_examples`, as far as they are recordings, packets and updates: every line of the file `stdin` must
//! stand in the file `stdout`, and behind it what this reading comes to.

use reference::example_sections::{lines_of, packets_written, recordings_written, updates_written};
use std::fs;

fn section(name: &str, file: &str) -> Vec<String> {
    let folder = concat!(env!("CARGO_MANIFEST_DIR"), "/../crates/panel_examples");
    let text = fs::read_to_string(format!("{folder}/{file}")).expect("the file is there");
    let lines: Vec<String> = lines_of(name, &text)
        .iter()
        .map(|s| s.to_string())
        .collect();
    assert!(!lines.is_empty(), "no section {name} in {file}");
    lines
}

/// The line before the first difference says where to look.
fn assert_written(name: &str, written: fn(&[&str]) -> Vec<String>) {
    let input = section(name, "stdin");
    let input: Vec<&str> = input.iter().map(String::as_str).collect();
    let expected = written(&input);
    let output = section(name, "stdout");
    let mut line = "";
    for (wanted, row) in expected.iter().zip(&output) {
        assert_eq!(row, wanted, "behind {line}");
        if !row.starts_with(' ') {
            line = row;
        }
    }
    assert_eq!(output.len(), expected.len(), "the end of {name}");
}

#[test]
fn recordings_come_to_what_is_written_behind_them() {
    assert_written("recordings", recordings_written);
}

#[test]
fn packets_come_to_what_is_written_behind_them() {
    assert_written("packets", packets_written);
}

#[test]
fn updates_come_to_what_is_written_behind_them() {
    assert_written("updates", updates_written);
}
