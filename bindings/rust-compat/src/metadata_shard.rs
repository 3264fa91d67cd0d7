//! Metadata shards: their records, in memory and as bytes.

pub mod constants;
mod export;
pub mod file_structs;
mod file_view;
pub mod interpolation_search;
mod lookup;
mod sections;
pub mod set_operations;
pub mod shard_format;
pub mod shard_in_memory;
pub mod streaming_shard;
pub mod utils;
pub mod xorb_structs;

/// The former place of [`shard_format`].
pub mod shard_file {
    pub use super::shard_format::*;
}

pub use constants::{hash_is_global_dedup_eligible, MDB_SHARD_GLOBAL_DEDUP_CHUNK_MODULUS};
pub use file_structs::Sha256;
pub use shard_format::{MDBShardFileFooter, MDBShardFileHeader, MDBShardInfo};
