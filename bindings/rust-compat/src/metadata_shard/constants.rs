//! Which chunks the global index keeps for their hash.

use crate::merklehash::MerkleHash;

/// The global index keeps one chunk hash in so many.
pub const MDB_SHARD_GLOBAL_DEDUP_CHUNK_MODULUS: u64 = 1024;

/// Whether the global index keeps a chunk for its hash alone: the last word is a multiple of
/// [`MDB_SHARD_GLOBAL_DEDUP_CHUNK_MODULUS`].
#[must_use]
pub fn hash_is_global_dedup_eligible(hash: &MerkleHash) -> bool {
    hash[3] % MDB_SHARD_GLOBAL_DEDUP_CHUNK_MODULUS == 0
}
