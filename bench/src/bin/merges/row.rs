//! The rows of the table.

use crate::memory::peak;
use crate::port;
use crate::way::Way;
use shard_bench::clock::time;
use shard_bench::compare::compare;
use shard_bench::shards::overlapping;
use std::fmt;
use std::hint::black_box;

/// How many shards, their size, and the files of each that give it.
const SIZES: [(u64, &str, u64); 3] = [(1000, "70 kB", 88), (100, "700 kB", 856), (8, "8 MB", 9760)];

const SHARED_PERCENT: [u64; 3] = [0, 50, 99];

/// Of so many shards or more a fold takes one turn alone, since it takes long.
const MANY_SHARDS: u64 = 1000;

/// Shards that are merged.
pub struct Row {
    shards: u64,
    size: &'static str,
    files: u64,
    shared_percent: u64,
}

/// All rows of the table.
pub fn rows() -> impl Iterator<Item = Row> {
    SIZES.into_iter().flat_map(|(shards, size, files)| {
        SHARED_PERCENT.map(|shared_percent| Row {
            shards,
            size,
            files,
            shared_percent,
        })
    })
}

impl Row {
    /// What the row is called, as in `8 x 8 MB, 50 %`.
    pub fn name(&self) -> String {
        format!("{} x {}, {} %", self.shards, self.size, self.shared_percent)
    }

    /// Measures the ways in turns, and stops if one answers something else than the port.
    pub fn measured(self, seed: u64, turns: u32, ways: &[Way]) -> Measured {
        let shards = overlapping(seed, self.shards, self.files, self.shared_percent);
        let shards: Vec<_> = shards.iter().map(Vec::as_slice).collect();
        let expected = Way::Port.merge(&shards);
        let mut costs: Vec<_> = ways.iter().map(|&way| Cost::new(way, &shards)).collect();
        let (mut comparison, mut copy) = (u64::MAX, u64::MAX);
        for turn in 0..turns {
            copy = copy.min(time(|| copied(&expected)));
            let mut differing = 0;
            comparison = comparison.min(time(|| differing = port::differing(&shards)));
            assert_eq!(differing, 0, "the shards agree");
            for cost in &mut costs {
                if turn == 0 {
                    compare(&self.name(), expected.clone(), cost.turn(&shards));
                } else if cost.way != Way::Fold || self.shards < MANY_SHARDS {
                    cost.turn(&shards);
                }
            }
        }
        let measured = Measured {
            inputs: shards.iter().map(|shard| shard.len()).sum(),
            output: expected.len(),
            copy,
            comparison,
            costs,
            row: self,
        };
        eprintln!("{measured}");
        measured
    }
}

/// Copies bytes into new memory, as the least that a merge can do.
fn copied(bytes: &[u8]) {
    let mut out = vec![0; bytes.len()];
    out.copy_from_slice(black_box(bytes));
    black_box(out);
}

/// What a way costs.
struct Cost {
    way: Way,
    /// The least of the turns so far.
    nanoseconds: u64,
    /// The most memory, beyond what there was before.
    peak: u64,
}

impl Cost {
    /// Takes the memory, and no turn yet.
    fn new(way: Way, shards: &[&[u8]]) -> Self {
        Cost {
            way,
            nanoseconds: u64::MAX,
            peak: peak(way, shards).expect("a process of its own can merge"),
        }
    }

    /// Takes a turn, and returns the answer.
    fn turn(&mut self, shards: &[&[u8]]) -> Vec<u8> {
        let mut merged = Vec::new();
        let nanoseconds = time(|| merged = self.way.merge(shards));
        self.nanoseconds = self.nanoseconds.min(nanoseconds);
        merged
    }
}

/// A row, and what its ways cost.
pub struct Measured {
    row: Row,
    inputs: usize,
    output: usize,
    /// The least time of a copy of the output into new memory, in nanoseconds.
    copy: u64,
    /// The least time in which the port found that the shards agree, in nanoseconds.
    comparison: u64,
    costs: Vec<Cost>,
}

impl Measured {
    /// The head of the table.
    pub const HEAD: &str = "\
| shards | shared | inputs | output | copy | port | tree | fold | port / copy | port / tree \
| peak: port | tree | fold | comparison |
|---|---|---|---|---|---|---|---|---|---|---|---|---|---|";

    /// A cell of what a way costs, or of none if the way is left out.
    fn cell(&self, way: Way, text: impl Fn(&Cost) -> String) -> String {
        let cost = self.costs.iter().find(|cost| cost.way == way);
        cost.map_or_else(|| "-".to_owned(), text)
    }

    fn milliseconds(&self, way: Way) -> String {
        self.cell(way, |cost| milliseconds(cost.nanoseconds))
    }

    /// The time of the port by that of another way.
    fn ratio(&self, way: Way) -> String {
        self.cell(way, |cost| self.port_by(cost.nanoseconds))
    }

    /// The time of the port by another.
    fn port_by(&self, nanoseconds: u64) -> String {
        self.cell(Way::Port, |port| {
            format!("{:.2}", port.nanoseconds as f64 / nanoseconds as f64)
        })
    }

    fn peak(&self, way: Way) -> String {
        self.cell(way, |cost| megabytes(cost.peak))
    }
}

impl fmt::Display for Measured {
    fn fmt(&self, out: &mut fmt::Formatter<'_>) -> fmt::Result {
        let Row {
            shards,
            size,
            shared_percent,
            ..
        } = &self.row;
        let mut cells = vec![
            format!("{shards} x {size}"),
            format!("{shared_percent} %"),
            megabytes(self.inputs as u64),
            megabytes(self.output as u64),
            milliseconds(self.copy),
        ];
        cells.extend(Way::ALL.map(|way| self.milliseconds(way)));
        cells.push(self.port_by(self.copy));
        cells.push(self.ratio(Way::Tree));
        cells.extend(Way::ALL.map(|way| self.peak(way)));
        cells.push(milliseconds(self.comparison));
        write!(out, "| {} |", cells.join(" | "))
    }
}

fn milliseconds(nanoseconds: u64) -> String {
    format!("{:.1}", nanoseconds as f64 / 1e6)
}

fn megabytes(bytes: u64) -> String {
    format!("{:.1}", bytes as f64 / 1e6)
}
