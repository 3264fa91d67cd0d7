//! Measures merges of many shards: by one call of the port, and by unions of the original, in a
//! balanced tree and folded over the list. Compares what they answer. `merges [--seed S] [--turns T]
//! [--only WORD] [--without-fold]`.

mod memory;
mod port;
mod row;
mod way;

use row::{Measured, rows};
use way::Way;

struct Arguments {
    seed: u64,
    turns: u32,
    only: String,
    ways: Vec<Way>,
}

/// What the program is to do.
enum Task {
    Table(Arguments),
    /// To print the peak memory of a merge.
    Peak(Way),
}

fn task() -> Task {
    let mut all = Arguments {
        seed: 1,
        turns: 5,
        only: String::new(),
        ways: Way::ALL.to_vec(),
    };
    let mut words = std::env::args().skip(1);
    while let Some(word) = words.next() {
        let mut value = || {
            words
                .next()
                .unwrap_or_else(|| panic!("{word} takes a value"))
        };
        match word.as_str() {
            "--seed" => all.seed = value().parse().expect("a seed is a number"),
            "--turns" => all.turns = value().parse().expect("turns are a number"),
            "--only" => all.only = value(),
            "--without-fold" => all.ways.retain(|&way| way != Way::Fold),
            memory::OPTION => {
                return Task::Peak(Way::named(&value()).expect("there is such a way"));
            }
            _ => panic!("there is no option {word}"),
        }
    }
    assert!(all.turns > 0, "there is one turn or more");
    Task::Table(all)
}

fn print_table(arguments: &Arguments) {
    let Arguments {
        seed, turns, only, ..
    } = arguments;
    let measured: Vec<_> = rows()
        .filter(|row| row.name().contains(only))
        .map(|row| row.measured(*seed, *turns, &arguments.ways))
        .collect();
    println!(
        "Milliseconds, least processor time of {turns} turns; sizes and peaks in megabytes; seed {seed}.\n"
    );
    println!("{}", Measured::HEAD);
    for row in measured {
        println!("{row}");
    }
}

fn main() {
    match task() {
        Task::Table(arguments) => print_table(&arguments),
        Task::Peak(way) => memory::print_peak(way).expect("the system gives numbers of memory"),
    }
}
