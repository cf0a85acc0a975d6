//! Writes the benchmark's recordings into a directory, each behind what stands before it in the benchmark's input but
//! the rounds and the size of a packet, and prints the table that each is for, its name, and how many records it has.

use reference::bench_input::load_bytes;
use reference::work_loads;
use std::path::PathBuf;
use std::{env, fs, io, process};

fn main() -> io::Result<()> {
    let Some(directory) = env::args_os().nth(1).map(PathBuf::from) else {
        eprintln!("usage: recordings DIR");
        process::exit(2);
    };
    fs::create_dir_all(&directory)?;
    for load in work_loads::all() {
        let (prelude, recording) = (&load.start.prelude, &load.recording);
        let file = load_bytes(
            load.part,
            prelude.bytes(),
            load.start.forgotten,
            recording.bytes(),
        );
        fs::write(directory.join(&load.name), file)?;
        println!("{} {} {}", load.table, load.name, recording.records());
    }
    Ok(())
}
