//! Compares the port with the original in one process, on random shards and corrupted bytes.
//! `shard-diff [--seed S] [--first N] [--count N]`.

mod answer;
mod case;
mod compare;
mod corrupt;
mod exceptions;
mod heap;
mod original;
mod port;
mod random;
mod sections;
mod shards;

use answer::{Answer, Call};
use case::Case;
use compare::{Comparison, compare};
use exceptions::{Difference, Exception};
use std::collections::BTreeMap;
use std::process::ExitCode;
use std::time::Instant;

#[global_allocator]
static HEAP: heap::Heap = heap::Heap;

const MOST_FAILURES: usize = 5;

struct Arguments {
    seed: u64,
    first: u64,
    count: u64,
}

fn arguments() -> Arguments {
    let mut all = Arguments {
        seed: 1,
        first: 0,
        count: 100_000,
    };
    let mut words = std::env::args().skip(1);
    while let Some(word) = words.next() {
        let value = words.next().and_then(|value| value.parse().ok());
        let value = value.unwrap_or_else(|| panic!("{word} takes a number"));
        match word.as_str() {
            "--seed" => all.seed = value,
            "--first" => all.first = value,
            "--count" => all.count = value,
            _ => panic!("no option {word}"),
        }
    }
    all
}

/// How often what was met.
#[derive(Default)]
struct Tally {
    calls: u64,
    answered: BTreeMap<&'static str, u64>,
    refused: BTreeMap<&'static str, u64>,
    exceptions: BTreeMap<Exception, u64>,
    /// Merges that tell the fault of another input than unions do.
    other_inputs: u64,
    failures: usize,
}

impl Tally {
    fn add(&mut self, name: &'static str, port: &Answer) {
        let refused = matches!(port, Answer::Error(_));
        let counts = if refused {
            &mut self.refused
        } else {
            &mut self.answered
        };
        *counts.entry(name).or_default() += 1;
        self.calls += 1;
    }

    fn except(&mut self, exception: Exception) {
        *self.exceptions.entry(exception).or_default() += 1;
    }

    fn print(&self) {
        println!("{} calls:", self.calls);
        for (name, count) in &self.answered {
            println!(
                "  {name}: {count} answered, {} refused",
                self.refused.get(name).unwrap_or(&0)
            );
        }
        println!("listed differences:");
        for exception in Exception::ALL {
            println!(
                "  {exception:?}: {}",
                self.exceptions.get(&exception).unwrap_or(&0)
            );
        }
        println!(
            "merges that tell the fault of another input: {}",
            self.other_inputs
        );
        println!("other differences: {}", self.failures);
    }
}

/// Makes a call on both, and compares the answers. Returns the port's.
fn compared(call: &Call, first: &[u8], second: &[u8], tally: &mut Tally) -> Result<Answer, String> {
    let original = original::answer(call, first, second);
    let port = port::answer(call, first, second);
    tally.add(call.name(), &port);
    match compare(call, first, &original, &port) {
        Comparison::Same(exceptions) => exceptions.into_iter().for_each(|it| tally.except(it)),
        Comparison::Differ => {
            let difference = Difference {
                call,
                first,
                second,
                original: &original,
                port: &port,
            };
            let exception = difference.exception();
            let exception = exception
                .ok_or_else(|| format!("{call:?}\n  original: {original:?}\n  port: {port:?}"))?;
            tally.except(exception);
        }
    }
    Ok(port)
}

/// Unites what each half of a list gives, by unions that are compared. Returns the port's answer,
/// which of one shard is that shard.
fn united(shards: &[&[u8]], tally: &mut Tally) -> Result<Answer, String> {
    if let [shard] = shards {
        return Ok(Answer::Shard(shard.to_vec()));
    }
    let (left, right) = shards.split_at(shards.len() / 2);
    match (united(left, tally)?, united(right, tally)?) {
        (Answer::Shard(left), Answer::Shard(right)) => compared(&Call::Union, &left, &right, tally),
        // What is on the left is united first.
        (Answer::Shard(_), refused) | (refused, _) => Ok(refused),
    }
}

/// The port's merge has to be what its unions give, each of which is compared with the original's. Where
/// several inputs are refused, it may tell of another than the unions do.
fn run_merge(shards: &[&[u8]], tally: &mut Tally) -> Result<(), String> {
    let merged = port::merge(shards);
    tally.add("merge", &merged);
    let united = match shards {
        [shard] => united(&[shard, shard], tally)?,
        _ => united(shards, tally)?,
    };
    if merged == united {
        return Ok(());
    }
    let is_refused = |shard: &&[u8]| port::answer(&Call::Union, shard, shard) == merged;
    let are_errors = matches!((&merged, &united), (Answer::Error(_), Answer::Error(_)));
    if are_errors && shards.iter().any(is_refused) {
        tally.other_inputs += 1;
        return Ok(());
    }
    Err(format!(
        "a merge of {}\n  by unions: {united:?}\n  port: {merged:?}",
        shards.len()
    ))
}

/// Makes the calls of a case on both, and compares them.
fn run(case: &Case, tally: &mut Tally) -> Result<(), String> {
    for call in &case.calls {
        compared(call, &case.first, &case.second, tally)?;
    }
    let shards = [&case.first[..], &case.second[..]];
    let list: Vec<_> = case.merge.iter().map(|&number| shards[number]).collect();
    run_merge(&list, tally)
}

fn hex(bytes: &[u8]) -> String {
    bytes.iter().map(|byte| format!("{byte:02x}")).collect()
}

fn main() -> ExitCode {
    let arguments = arguments();
    original::silence_panics();
    let start = Instant::now();
    let mut tally = Tally::default();
    for number in arguments.first..arguments.first + arguments.count {
        let case = Case::new(arguments.seed, number);
        if let Err(failure) = run(&case, &mut tally) {
            println!(
                "differs: --seed {} --first {number} --count 1: {failure}",
                arguments.seed
            );
            if arguments.count == 1 {
                println!(
                    "  first: {}\n  second: {}",
                    hex(&case.first),
                    hex(&case.second)
                );
            }
            tally.failures += 1;
            if tally.failures == MOST_FAILURES {
                break;
            }
        }
    }
    let seconds = start.elapsed().as_secs_f64();
    println!(
        "seed {}, {} cases from {} on in {seconds:.1} s",
        arguments.seed, arguments.count, arguments.first
    );
    tally.print();
    if tally.failures == 0 {
        ExitCode::SUCCESS
    } else {
        ExitCode::FAILURE
    }
}
