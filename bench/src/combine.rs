//! Union and difference of the original, of shards in memory.

use std::io::Cursor;
use xet_core_structures::error::Result;
use xet_core_structures::metadata_shard::set_operations::{shard_set_difference, shard_set_union};
use xet_core_structures::metadata_shard::shard_format::MDBShardInfo;

/// What two shards are combined to.
#[derive(Clone, Copy)]
pub enum Combination {
    /// The records of both.
    Union,
    /// The records that only the second has.
    Difference,
}

/// The bytes that the original makes of the bytes of two shards, in memory that is reserved for so
/// many.
pub fn combine(
    combination: Combination,
    first: &[u8],
    second: &[u8],
    room: usize,
) -> Result<Vec<u8>> {
    let (mut r1, mut r2) = (Cursor::new(first), Cursor::new(second));
    let s1 = MDBShardInfo::load_from_reader(&mut r1)?;
    let s2 = MDBShardInfo::load_from_reader(&mut r2)?;
    let mut bytes = Vec::with_capacity(room);
    match combination {
        Combination::Union => shard_set_union(&s1, &mut r1, &s2, &mut r2, &mut bytes)?,
        Combination::Difference => shard_set_difference(&s1, &mut r1, &s2, &mut r2, &mut bytes)?,
    };
    Ok(bytes)
}
