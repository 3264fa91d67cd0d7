//! Measuring the rows of the table.

use crate::operation::{Before, Hashes, Item, Operation, Row};
use crate::{original, port};
use shard_bench::clock::time;
use shard_bench::compare::compare;
use shard_bench::shards::{Hash, QUERY_LENGTH, Shards};

/// A call takes about this long, so that the clock's grain does not show.
const NANOSECONDS_OF_CALL: u64 = 20_000_000;

const MOST_REPETITIONS: u64 = 1_000_000;

const KEY: [Hash; 1] = [Hash {
    words: [5, 6, 7, 8],
}];

/// The nanoseconds of an item, of both.
#[derive(Clone, Copy)]
pub struct Times {
    pub port: f64,
    pub original: f64,
    /// Of the original with memory reserved for its output, where that is measured.
    pub with_room: Option<f64>,
}

impl Times {
    /// The port's time by the original's, and by that with memory reserved for its output.
    pub fn ratios(&self) -> String {
        let ratio = |original: f64| format!("{:.2}", self.port / original);
        match self.with_room {
            Some(time) => format!("{} / {}", ratio(self.original), ratio(time)),
            None => ratio(self.original),
        }
    }
}

type Run = fn(Operation, &[u8], &[u8], &[Hash], u64, &mut [u8]) -> usize;

/// The least times of an operation so far.
struct Meter<'a> {
    shards: &'a Shards,
    hashes: &'a [Hash],
    operation: Operation,
    /// What is done once a call is taken off.
    once: bool,
    /// How often a call repeats the operation after the first time.
    more: u64,
    port: Least,
    original: Least,
    with_room: Least,
}

/// The least time of a call that repeats an operation, and of one that does it once.
#[derive(Clone, Copy)]
struct Least {
    repeated: u64,
    single: u64,
}

impl Least {
    const NONE: Least = Least {
        repeated: u64::MAX,
        single: u64::MAX,
    };

    /// The time of the operation.
    fn time(&self, once: bool, more: u64) -> f64 {
        if once {
            self.repeated.saturating_sub(self.single) as f64 / more as f64
        } else {
            self.repeated as f64 / (more + 1) as f64
        }
    }
}

impl<'a> Meter<'a> {
    fn new(shards: &'a Shards, hashes: &'a [Hash], operation: Operation, once: bool) -> Self {
        let mut meter = Meter {
            shards,
            hashes,
            operation,
            once,
            more: 2,
            port: Least::NONE,
            original: Least::NONE,
            with_room: Least::NONE,
        };
        meter.set_repetitions();
        meter
    }

    /// Repeats until a call takes long enough, and the repetitions are a third of it.
    fn set_repetitions(&mut self) {
        let mut out = self.shards.room();
        let single = if self.once {
            self.call(original::run, 1, &mut out)
        } else {
            0
        };
        let enough = NANOSECONDS_OF_CALL.max(single / 2 * 3);
        while self.more < MOST_REPETITIONS
            && self.call(original::run, self.more + 1, &mut out) < enough
        {
            self.more *= 3;
        }
    }

    /// The time of a call that does the operation `times` times.
    fn call(&self, run: Run, times: u64, out: &mut [u8]) -> u64 {
        let Shards { first, second, .. } = self.shards;
        time(|| {
            run(self.operation, first, second, self.hashes, times, out);
        })
    }

    /// One turn: the port, then the original.
    fn turn(&mut self, out: &mut [u8]) {
        self.port = self.lesser(self.port, port::run, out);
        self.original = self.lesser(self.original, original::run, out);
        if self.operation.is_written_to_room() {
            self.with_room = self.lesser(self.with_room, original::run_with_room, out);
        }
    }

    fn lesser(&self, least: Least, run: Run, out: &mut [u8]) -> Least {
        let repeated = self.call(run, self.more + 1, out);
        let single = if self.once { self.call(run, 1, out) } else { 0 };
        Least {
            repeated: least.repeated.min(repeated),
            single: least.single.min(single),
        }
    }

    fn times(&self) -> Times {
        let time = |least: Least| least.time(self.once, self.more);
        Times {
            port: time(self.port),
            original: time(self.original),
            with_room: self
                .operation
                .is_written_to_room()
                .then(|| time(self.with_room)),
        }
    }
}

/// A row that is measured.
pub struct Measured<'a> {
    row: &'a Row,
    shards: &'a Shards,
    hashes: &'a [Hash],
    meter: Meter<'a>,
    /// Of what is done each time before the operation.
    before: Option<Meter<'a>>,
}

impl<'a> Measured<'a> {
    /// Compares what both answer; measures nothing yet.
    pub fn new(row: &'a Row, shards: &'a Shards) -> Self {
        let hashes: &[Hash] = match row.hashes {
            Hashes::None => &[],
            Hashes::PresentFiles => &shards.present_files,
            Hashes::AbsentFiles => &shards.absent_files,
            Hashes::Chunks => &shards.chunk_runs,
            Hashes::Key => &KEY,
        };
        let answer = |run: Run| {
            let mut out = shards.room();
            let length = run(
                row.operation,
                &shards.first,
                &shards.second,
                hashes,
                1,
                &mut out,
            );
            out.truncate(length);
            out
        };
        compare(row.name, answer(port::run), answer(original::run));
        let before = match row.before {
            Before::Each(other) => Some(Meter::new(shards, hashes, other, false)),
            _ => None,
        };
        let once = matches!(row.before, Before::Once);
        let meter = Meter::new(shards, hashes, row.operation, once);
        Measured {
            row,
            shards,
            hashes,
            meter,
            before,
        }
    }

    pub fn turn(&mut self, out: &mut [u8]) {
        self.meter.turn(out);
        if let Some(before) = &mut self.before {
            before.turn(out);
        }
    }

    /// The least times of an item.
    pub fn times(&self) -> Times {
        let mut times = self.meter.times();
        if let Some(before) = &self.before {
            let before = before.times();
            times.port -= before.port;
            times.original -= before.original;
            times.with_room = times.with_room.map(|time| time - before.original);
        }
        let items = self.items() as f64;
        Times {
            port: times.port / items,
            original: times.original / items,
            with_room: times.with_room.map(|time| time / items),
        }
    }

    fn items(&self) -> u64 {
        let hashes = self.hashes.len() as u64;
        match self.row.item {
            Item::Call => 1,
            Item::Record => self.shards.files + self.shards.xorbs,
            Item::File => self.shards.files,
            Item::Chunk => self.shards.chunks,
            Item::Lookup => hashes,
            Item::Query => hashes / QUERY_LENGTH,
        }
    }
}
