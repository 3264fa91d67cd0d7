//! The ways to merge shards that are compared.

use crate::port;
use shard_bench::combine::{Combination, combine};
use std::borrow::Cow;
use xet_core_structures::error::Result;

/// A way to merge shards.
#[derive(Clone, Copy, PartialEq, Eq)]
pub enum Way {
    /// One call of the port.
    Port,
    /// Unions of the original: of the first half of the list with the second, each made in the same
    /// way, as the port's contract has it.
    Tree,
    /// Unions of the original: of all before with the next.
    Fold,
}

impl Way {
    /// All ways, in the order of their turns.
    pub const ALL: [Way; 3] = [Way::Port, Way::Tree, Way::Fold];

    /// Its name on the command line and in the table.
    pub fn name(self) -> &'static str {
        match self {
            Way::Port => "port",
            Way::Tree => "tree",
            Way::Fold => "fold",
        }
    }

    /// The way of that name.
    pub fn named(name: &str) -> Option<Way> {
        Way::ALL.into_iter().find(|way| way.name() == name)
    }

    /// The union of two shards or more.
    pub fn merge(self, shards: &[&[u8]]) -> Vec<u8> {
        let merged = match self {
            Way::Port => Ok(port::merge(shards)),
            Way::Tree => tree(shards).map(Cow::into_owned),
            Way::Fold => fold(shards),
        };
        merged.unwrap_or_else(|error| panic!("the original's {} failed: {error}", self.name()))
    }
}

fn union(first: &[u8], second: &[u8]) -> Result<Vec<u8>> {
    combine(Combination::Union, first, second, 0)
}

fn tree<'a>(shards: &[&'a [u8]]) -> Result<Cow<'a, [u8]>> {
    if let [shard] = shards {
        return Ok(Cow::Borrowed(shard));
    }
    let (left, right) = shards.split_at(shards.len() / 2);
    Ok(Cow::Owned(union(&tree(left)?, &tree(right)?)?))
}

fn fold(shards: &[&[u8]]) -> Result<Vec<u8>> {
    let first = union(shards[0], shards[1])?;
    shards[2..]
        .iter()
        .try_fold(first, |merged, shard| union(&merged, shard))
}
