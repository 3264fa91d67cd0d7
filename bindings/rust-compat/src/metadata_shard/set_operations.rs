//! The union and the difference of two shards as bytes.

use super::MDBShardInfo;
use crate::error::Result;
use std::io::{Read, Seek, Write};
use xet_shards::Version;

/// Writes the records of both shards, in version 2, without times and under the key of both, and returns what the ends
/// of the result say. Both are read whole.
///
/// Of two files with one hash it has the record whose flags have all of the other's, the first's if both do; else the
/// first's segments, with each optional part from the first where it has it, else from the second. Of two xorbs with
/// one hash it has the first's.
///
/// # Errors
///
/// - `ShardVersion`: one is no shard of version 2 or 3.
/// - `InvalidArguments`: the keys differ, or the union has an auxiliary row, which version 2 does not have.
/// - `InvalidShard`: the hashes of a section do not ascend, a file has a row that its version does not have, or a
///   section, here or in the union, more than 4294967295 rows; or two files that have to be combined have different
///   numbers of segments.
/// - `Io`: a reader or the writer failed, or a shard ends too early.
/// - `OutOfMemory`: an allocation failed.
pub fn shard_set_union<R: Read + Seek, W: Write>(
    _s1: &MDBShardInfo,
    r1: &mut R,
    _s2: &MDBShardInfo,
    r2: &mut R,
    out: &mut W,
) -> Result<MDBShardInfo> {
    write_made(xet_shards::union, [r1, r2], out)
}

/// Writes the second shard's records whose hashes the first does not have, in version 2, without times and under the
/// key of both, and returns what the ends of the result say. Both are read whole.
///
/// # Errors
///
/// Those of [`shard_set_union`], without that of files that have to be combined.
pub fn shard_set_difference<R: Read + Seek, W: Write>(
    _s1: &MDBShardInfo,
    r1: &mut R,
    _s2: &MDBShardInfo,
    r2: &mut R,
    out: &mut W,
) -> Result<MDBShardInfo> {
    write_made(xet_shards::difference, [r1, r2], out)
}

/// Writes what an operation makes of two shards. Their ends are read with them.
fn write_made<R: Read + Seek, W: Write>(
    operation: impl Fn(&[u8], &[u8], Version) -> xet_shards::Result<Vec<u8>>,
    [r1, r2]: [&mut R; 2],
    out: &mut W,
) -> Result<MDBShardInfo> {
    let shards = [read_whole(r1)?, read_whole(r2)?];
    let made = operation(&shards[0], &shards[1], Version::V2)?;
    out.write_all(&made)?;
    MDBShardInfo::of_bytes(&made)
}

/// All bytes of a shard.
pub(crate) fn read_whole<R: Read + Seek>(reader: &mut R) -> Result<Vec<u8>> {
    let mut bytes = Vec::new();
    reader.rewind()?;
    reader.read_to_end(&mut bytes)?;
    Ok(bytes)
}
