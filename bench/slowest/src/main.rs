//! Measures each call of the C library that reads shards on inputs that are meant to be slow, and
//! prints of each call the slowest. `slowest [--bytes N] [--only CALL]`.

// The declarations are those of the Rust crate, which `.ci/bindings` compares with the library's.
#[rustfmt::skip]
#[allow(dead_code)]
#[path = "../../../bindings/rust/src/calls.rs"]
mod calls;
#[path = "../../src/clock.rs"]
mod clock;
mod inputs;
mod kinds;
mod measure;
mod shard;
mod subject;

use measure::Cost;
use subject::{Subject, SUBJECTS};
use xet_shards::{Chunk, ChunkPlace, ChunkRow, Hash, Info, Segment};

struct Arguments {
    bytes: usize,
    only: Option<String>,
}

fn arguments() -> Arguments {
    let mut all = Arguments {
        bytes: 1 << 20,
        only: None,
    };
    let mut words = std::env::args().skip(1);
    while let Some(word) = words.next() {
        let value = words
            .next()
            .unwrap_or_else(|| panic!("{word} takes a value"));
        match word.as_str() {
            "--bytes" => all.bytes = value.parse().expect("bytes are a number"),
            "--only" => all.only = Some(value),
            _ => panic!("there is no option {word}"),
        }
    }
    all
}

/// The greatest cost of a call. Prints each to the standard error.
fn slowest(subjects: &[Subject], bytes: usize) -> Cost {
    let inputs = subjects
        .iter()
        .flat_map(|it| (it.inputs)(bytes).map(move |input| (it, input)));
    let costs = inputs.map(|(subject, input)| {
        let cost = Cost::of(subject, &input);
        eprintln!("{cost}");
        cost
    });
    costs
        .reduce(|most, cost| if cost.is_more_than(&most) { cost } else { most })
        .expect("each call has an input")
}

fn main() {
    let Arguments { bytes, only } = arguments();
    let is_chosen = |name| only.as_deref().is_none_or(|only| only == name);
    println!("Least processor time of three turns; inputs of about {bytes} bytes.\n");
    println!("{}", Cost::HEAD);
    for subjects in SUBJECTS.chunk_by(|one, next| one.name == next.name) {
        if is_chosen(subjects[0].name) {
            println!("{}", slowest(subjects, bytes));
        }
    }
}
