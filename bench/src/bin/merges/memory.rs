//! The peak memory of a merge. It is taken in a process of its own, which has nothing but the
//! shards, since memory that earlier merges have freed would not count.

use crate::way::Way;
use std::io::{Read, Result, Write};
use std::process::{Command, Stdio};

/// The argument that says that this is such a process.
pub const OPTION: &str = "--peak";

/// The bytes of memory that a merge has at most, beyond what there was before.
pub fn peak(way: Way, shards: &[&[u8]]) -> Result<u64> {
    let mut child = Command::new(std::env::current_exe()?)
        .args([OPTION, way.name()])
        .stdin(Stdio::piped())
        .stdout(Stdio::piped())
        .spawn()?;
    let input = child.stdin.take().expect("the standard input is a pipe");
    send(shards, input)?;
    let output = child.wait_with_output()?;
    assert!(output.status.success(), "the process of a merge failed");
    let text = String::from_utf8(output.stdout).expect("the process prints text");
    Ok(text.trim().parse().expect("the process prints a number"))
}

/// What the process does: merges the shards from its standard input, and prints the bytes.
pub fn print_peak(way: Way) -> Result<()> {
    let (bytes, lengths) = receive(std::io::stdin().lock())?;
    let mut rest = bytes.as_slice();
    let mut shards = Vec::with_capacity(lengths.len());
    for length in lengths {
        let (shard, others) = rest.split_at(length);
        shards.push(shard);
        rest = others;
    }
    // Sets the peak, `VmHWM`, to what there is now.
    std::fs::write("/proc/self/clear_refs", "5")?;
    let before = status("VmRSS")?;
    let merged = way.merge(&shards);
    let peak = status("VmHWM")?;
    assert!(!merged.is_empty());
    println!("{}", peak.saturating_sub(before));
    Ok(())
}

/// Writes the number of shards, their lengths, and their bytes.
fn send(shards: &[&[u8]], mut pipe: impl Write) -> Result<()> {
    let mut numbers = vec![shards.len()];
    numbers.extend(shards.iter().map(|shard| shard.len()));
    for number in numbers {
        pipe.write_all(&number.to_le_bytes())?;
    }
    shards.iter().try_for_each(|shard| pipe.write_all(shard))
}

/// Reads what was sent: the bytes of all shards, and their lengths.
fn receive(mut pipe: impl Read) -> Result<(Vec<u8>, Vec<usize>)> {
    let mut number = || {
        let mut bytes = [0; size_of::<usize>()];
        pipe.read_exact(&mut bytes)?;
        Ok(usize::from_le_bytes(bytes))
    };
    let count = number()?;
    let lengths = (0..count).map(|_| number()).collect::<Result<Vec<_>>>()?;
    let mut bytes = vec![0; lengths.iter().sum()];
    pipe.read_exact(&mut bytes)?;
    Ok((bytes, lengths))
}

/// The bytes of memory that the system states of this process under a name.
fn status(name: &str) -> Result<u64> {
    let status = std::fs::read_to_string("/proc/self/status")?;
    let words = status
        .lines()
        .find_map(|line| line.strip_prefix(name)?.strip_prefix(':'))
        .unwrap_or_else(|| panic!("the system does not state {name}"));
    let kibibytes = words.trim().trim_end_matches(" kB").parse::<u64>();
    Ok(1024 * kibibytes.expect("the system states a number"))
}
