//! Measures the port against the original in one process, in turns, on the same shards, and compares
//! what both write. `shard-bench [--seed S] [--turns T] [--only WORD] [N ..]`.

mod measure;
mod operation;
mod original;
mod port;

use measure::{Measured, Times};
use operation::ROWS;
use shard_bench::shards::shards;

struct Arguments {
    seed: u64,
    turns: Option<u32>,
    only: String,
    sizes: Vec<u64>,
}

fn arguments() -> Arguments {
    let mut all = Arguments {
        seed: 1,
        turns: None,
        only: String::new(),
        sizes: Vec::new(),
    };
    let mut words = std::env::args().skip(1);
    while let Some(word) = words.next() {
        let mut value = || {
            words
                .next()
                .unwrap_or_else(|| panic!("{word} takes a value"))
        };
        match word.as_str() {
            "--seed" => all.seed = value().parse().expect("a seed is a number"),
            "--turns" => all.turns = Some(value().parse().expect("turns are a number")),
            "--only" => all.only = value(),
            size => all
                .sizes
                .push(size.parse().expect("a size is a number of files")),
        }
    }
    if all.sizes.is_empty() {
        all.sizes = vec![2000, 20_000, 100_000];
    }
    assert!(
        all.sizes.iter().all(|&size| size >= 16),
        "a shard has 16 files or more"
    );
    all
}

/// How often each row gets its turns.
const ROUNDS: u32 = 3;

fn default_turns(files: u64) -> u32 {
    match files {
        0..=5000 => 11,
        5001..=50_000 => 5,
        _ => 3,
    }
}

fn main() {
    let arguments = arguments();
    let rows: Vec<_> = ROWS
        .iter()
        .filter(|row| row.name.contains(&arguments.only))
        .collect();
    let mut table: Vec<Vec<Times>> = rows.iter().map(|_| Vec::new()).collect();
    for &files in &arguments.sizes {
        let shards = shards(arguments.seed, files);
        let mut out = shards.room();
        let mut measured: Vec<_> = rows.iter().map(|row| Measured::new(row, &shards)).collect();
        let turns = arguments.turns.unwrap_or(default_turns(files));
        // In rounds, so that what else the machine does for some seconds does not decide a row.
        for _ in 0..ROUNDS {
            for row in &mut measured {
                (0..turns).for_each(|_| row.turn(&mut out));
            }
        }
        for ((row, measured), line) in rows.iter().zip(&measured).zip(&mut table) {
            let times = measured.times();
            let Times {
                port,
                original,
                with_room,
            } = times;
            let with_room = with_room.map_or(String::new(), |time| {
                format!(", {time:.1} ns with its output reserved")
            });
            eprintln!(
                "N = {files}: {}: {port:.1} ns, the original {original:.1} ns{with_room}",
                row.name
            );
            line.push(times);
        }
    }
    println!(
        "Port / original, least processor time of many turns; seed {}. After a stroke: / original with its output \
         reserved.\n",
        arguments.seed
    );
    let sizes: Vec<_> = arguments
        .sizes
        .iter()
        .map(|size| format!("N = {size}"))
        .collect();
    println!("| operation | {} |", sizes.join(" | "));
    println!("|---|{}", "---|".repeat(sizes.len()));
    for (row, line) in rows.iter().zip(&table) {
        let ratios: Vec<_> = line.iter().map(Times::ratios).collect();
        println!("| {} | {} |", row.name, ratios.join(" | "));
    }
}
