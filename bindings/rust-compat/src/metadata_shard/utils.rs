//! The names of shard files, and times.

use crate::merklehash::MerkleHash;
use std::collections::hash_map::RandomState;
use std::hash::{BuildHasher, Hasher};
use std::path::Path;
use std::time::{Duration, SystemTime, UNIX_EPOCH};

/// The hash in the last part of a path, if that is the name of a shard file: 64 hexadecimal digits and `.mdb`.
pub fn parse_shard_filename<P: AsRef<Path>>(path: P) -> Option<MerkleHash> {
    let name = path.as_ref().file_name()?.to_str()?;
    xet_shards::hash_of_name(name).ok().map(MerkleHash::from)
}

/// The first word of a hash, which tables have of it.
#[must_use]
pub fn truncate_hash(hash: &MerkleHash) -> u64 {
    hash[0]
}

/// The name of the file of the shard with this hash.
#[must_use]
pub fn shard_file_name(hash: &MerkleHash) -> String {
    xet_shards::shard_name((*hash).into())
}

/// A new name of a file that is to be renamed: a random UUID between `.` and `.mdb_temp`.
#[must_use]
pub fn temp_shard_file_name() -> String {
    // Each state hashes under new keys.
    let [first, second] = [(); 2].map(|()| RandomState::new().build_hasher().finish());
    // Of version 4, which is random.
    let (first, second) = (first & !0xf000 | 0x4000, second << 2 >> 2 | 1 << 63);
    let digits = format!("{first:016x}{second:016x}");
    let parts = [&digits[..8], &digits[8..12], &digits[12..16], &digits[16..20], &digits[20..]];
    format!(".{}.mdb_temp", parts.join("-"))
}

/// Whether a path ends as [`temp_shard_file_name`] does.
#[must_use]
pub fn is_temp_shard_file(path: &Path) -> bool {
    path.file_name().and_then(|it| it.to_str()).map_or(false, |it| it.ends_with("mdb_temp"))
}

/// The time so much later than now, in seconds since 1970: at most `u64::MAX`, which means no expiry.
#[must_use]
pub fn shard_expiry_time(shard_valid_for: Duration) -> u64 {
    let now = SystemTime::now().duration_since(UNIX_EPOCH).unwrap_or_default();
    now.checked_add(shard_valid_for).map_or(xet_shards::NO_EXPIRY, |it| it.as_secs())
}
