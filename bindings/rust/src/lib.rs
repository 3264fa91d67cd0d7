//! Metadata shards of Xet storage: bytes in, bytes or an answer out.
//!
//! Each function is a call of `libxet.a`, whose functions are proved to return, for any bytes, corrupt ones too, what
//! their contracts state; `bindings/c/xet.h` says it in words. This crate, which makes room for outputs and turns
//! numbers into enums, is not proved. Nothing is kept between calls, and any number of threads may call at once. Times
//! are in seconds.
//!
//! ```
//! # fn main() -> Result<(), Box<dyn std::error::Error>> {
//! let shards = [std::fs::read("examples/a.mdb")?, std::fs::read("examples/b.mdb")?];
//! let merged = xet_shards::merge(&shards, &xet_shards::Merge::default())?;
//! assert_eq!(xet_shards::load(&merged)?.files, 2);
//! let file = xet_shards::find_file(&merged, [101, 1, 0, 0].into())?.expect("the file is in b.mdb");
//! assert_eq!(file.segments.len(), 1);
//! # Ok(())
//! # }
//! ```
#![deny(missing_docs, unsafe_code)]
#![warn(clippy::must_use_candidate, clippy::return_self_not_must_use)]

mod calls;
mod combine;
mod error;
mod finding;
mod hash;
mod index;
mod lookup;
mod memory;
mod name;
mod output;
mod parts;
mod records;
mod sizes;
mod threads;
mod version;
mod walk;
mod write;

pub use combine::{
    concatenate, concatenate_into, difference, find_disagreements, find_malformed, merge, union, Disagreement,
    MalformedRecord, Merge, RecordHash,
};
pub use error::Error;
pub use finding::{check, Finding, Part};
pub use hash::Hash;
pub use index::Index;
pub use lookup::{
    chunk_rows, eligible, find_file, find_files, load, query_at, query_chunks, ChunkRow, File, Info, Run, Segment,
};
pub use name::{hash_bytes, hash_of_name, hmac, shard_name};
pub use parts::{file_in, find_places, find_rows, xorb_in, ChunkPlace};
pub use records::{records, write_records, Records, WITH_AUX, WITH_SHA256, WITH_VERIFICATION};
pub use version::Version;
pub use walk::{file_at, files, xorb_at, xorbs, Chunk, FileIter, ListedFile, Xorb, XorbIter};
pub use write::{complete, convert, export, minimal, subset, Export, Minimal, Subset, Xorbs};

/// The version of the library that is linked: 10000 times the first of its three numbers, 100 times the second, and the
/// third.
///
/// ```
/// let numbers: Vec<u32> = env!("CARGO_PKG_VERSION").split('.').map(|it| it.parse().unwrap()).collect();
/// assert_eq!(xet_shards::library_version(), 10000 * numbers[0] + 100 * numbers[1] + numbers[2]);
/// ```
#[must_use]
pub fn library_version() -> u32 {
    calls::xet_version()
}

/// What a call returns.
pub type Result<T> = std::result::Result<T, Error>;

/// The key of an export that leaves chunk hashes as they are, and of a shard whose chunk hashes are not keyed.
pub const NO_KEY: Hash = Hash([0; 4]);

/// The expiry of a shard that has none.
pub const NO_EXPIRY: u64 = u64::MAX;
