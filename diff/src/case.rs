//! A case: two shards, some of them corrupted, and calls on them.

use crate::answer::{Call, Hash, Subset};
use crate::corrupt::corrupt;
use crate::random::Random;
use crate::sections::{ROW_SIZE, number};
use crate::shards;

pub struct Case {
    pub first: Vec<u8>,
    pub second: Vec<u8>,
    pub calls: Vec<Call>,
    /// Which of the two are merged, by number.
    pub merge: Vec<usize>,
}

impl Case {
    /// The case with this number, of a seed.
    pub fn new(seed: u64, number: u64) -> Case {
        let mut random = Random::new(seed, number);
        let mut first = shards::shard(&mut random);
        let mut second = if random.once_in(20) {
            first.clone()
        } else {
            shards::shard(&mut random)
        };
        if random.once_in(2) {
            corrupt(&mut first, &mut random);
        }
        if random.once_in(4) {
            corrupt(&mut second, &mut random);
        }
        let mut calls = vec![
            Call::Load,
            Call::Union,
            Call::Difference,
            Call::FindDisagreement,
            Call::MergeAgreeing,
            Call::Eligible,
        ];
        calls.push(Call::Minimal {
            verification: random.once_in(2),
            aux_rows: random.once_in(2),
        });
        calls.push(Call::Export(shards::export(&mut random)));
        calls.extend((0..3).map(|_| Call::Find(hash(&first, &mut random))));
        calls.extend((0..3).map(|_| Call::Query(query(&first, &mut random))));
        let merge = list(&mut random);
        calls.push(Call::Subset(subset(&first, &mut random)));
        Case {
            first,
            second,
            calls,
            merge,
        }
    }
}

/// One to five of the two.
fn list(random: &mut Random) -> Vec<usize> {
    (0..1 + random.below(5)).map(|_| random.below(2)).collect()
}

fn subset(shard: &[u8], random: &mut Random) -> Subset {
    let expiry = random.once_in(2).then(|| random.below(1 << 40) as u64);
    let listed = (0..random.below(4)).map(|_| hash(shard, random)).collect();
    let xorbs = (!random.once_in(4)).then_some(listed);
    Subset { expiry, xorbs }
}

/// One of the shard's rows, or any.
fn hash(shard: &[u8], random: &mut Random) -> Hash {
    let rows = shard.len() / ROW_SIZE;
    if rows == 0 || random.once_in(4) {
        return shards::hash(random);
    }
    hash_at(shard, random.below(rows) * ROW_SIZE)
}

fn hash_at(shard: &[u8], at: usize) -> Hash {
    Hash {
        words: [0, 8, 16, 24].map(|word| number(shard, at + word)),
    }
}

/// The hashes of rows that follow one another, at times with another at the end.
fn query(shard: &[u8], random: &mut Random) -> Vec<Hash> {
    let rows = shard.len() / ROW_SIZE;
    let length = random.below(5);
    let mut hashes = Vec::new();
    if rows > 0 {
        let start = random.below(rows);
        hashes.extend((start..rows.min(start + length)).map(|row| hash_at(shard, row * ROW_SIZE)));
    }
    if random.once_in(4) {
        hashes.push(shards::hash(random));
    }
    hashes
}
