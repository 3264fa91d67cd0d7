//! Merges the shards of several files: merge FILE.. -o OUT
//!
//! The output is written to a new file beside OUT, which takes its name at the end: if anything fails, what was there
//! stays.

use std::collections::hash_map::RandomState;
use std::error::Error;
use std::fs::OpenOptions;
use std::hash::{BuildHasher, Hasher};
use std::io::Write;
use std::process::ExitCode;
use std::{env, fs, io};
use xet_shards::Merge;

/// Writes a file that is whole or not there.
fn write(path: &str, bytes: &[u8]) -> Result<(), Box<dyn Error>> {
    // Runs in two containers may have the same number.
    let random = RandomState::new().build_hasher().finish();
    Ok(write_as(&format!("{path}.{random:016x}.new"), path, bytes).map_err(|error| format!("{path}: {error}"))?)
}

/// Writes a file that is whole or not there, under a new name first.
pub fn write_as(new: &str, path: &str, bytes: &[u8]) -> io::Result<()> {
    let mut file = OpenOptions::new().write(true).create_new(true).open(new)?;
    let done = file.write_all(bytes).and_then(|()| file.sync_all()).and_then(|()| fs::rename(new, path));
    if done.is_err() {
        let _ = fs::remove_file(new);
    }
    done
}

fn merge(names: &[String], output: &str) -> Result<(), Box<dyn Error>> {
    let read = |name| fs::read(name).map_err(|error| format!("{name}: {error}"));
    let shards = names.iter().map(read).collect::<Result<Vec<_>, _>>()?;
    let merged = xet_shards::merge(&shards, &Merge::default())?;
    write(output, &merged)?;
    let info = xet_shards::load(&merged)?;
    println!("{output}: {} files, {} xorbs, {} chunks", info.files, info.xorbs, info.chunks);
    Ok(())
}

fn main() -> ExitCode {
    let words: Vec<String> = env::args().skip(1).collect();
    let done = match &words[..] {
        [names @ .., option, output] if option == "-o" && !names.is_empty() => merge(names, output),
        _ => Err("usage: merge FILE.. -o OUT".into()),
    };
    match done {
        Ok(()) => ExitCode::SUCCESS,
        Err(error) => {
            eprintln!("merge: {error}");
            ExitCode::FAILURE
        }
    }
}
