//! The names of shard files, and hashes under a key.

use crate::error::check;
use crate::{calls, Hash, Result};

/// The name of the file of the shard with this hash: its 64 digits and `.mdb`.
///
/// ```
/// let name = xet_shards::shard_name([100, 1, 0, 0].into());
/// assert_eq!(name, format!("{:016x}{:016x}{:032x}.mdb", 100, 1, 0));
/// ```
#[must_use]
pub fn shard_name(hash: Hash) -> String {
    format!("{hash}.mdb")
}

/// The hash in the name of a shard file, which is 64 hexadecimal digits of either case and `.mdb`.
///
/// # Errors
///
/// `BadFilename` of any other text, such as a path.
///
/// ```
/// use xet_shards::{Error, hash_of_name, shard_name};
///
/// let hash = [100, 1, 0, 0].into();
/// assert_eq!(hash_of_name(&shard_name(hash)), Ok(hash));
/// assert_eq!(hash_of_name("a.mdb"), Err(Error::BadFilename));
/// ```
pub fn hash_of_name(name: &str) -> Result<Hash> {
    let mut hash = Hash::default();
    check(calls::xet_parse_shard_name(name.as_bytes(), &mut hash))?;
    Ok(hash)
}

/// The hash of some bytes under a key: BLAKE3's keyed mode. The storage is said to name the file of a shard by this
/// hash of its bytes, under a key of its own.
///
/// ```
/// // b3sum --keyed, with the key of the bytes 0 to 31, of no byte.
/// let key = "07060504030201000f0e0d0c0b0a090817161514131211101f1e1d1c1b1a1918".parse().unwrap();
/// let hash = xet_shards::hash_bytes(key, b"");
/// assert_eq!(hash.to_string(), "cd715d99192b49730998c0ec4dd7e9b1c295bc001b2f73eb8f47d6d49d5fb17c");
/// ```
#[must_use]
pub fn hash_bytes(key: Hash, bytes: &[u8]) -> Hash {
    let mut hash = Hash::default();
    // It has no error.
    calls::xet_hash_bytes(&key, bytes, &mut hash);
    hash
}

/// The hash of the 32 bytes of a chunk's hash under a key: an export under this key has it in its place.
///
/// ```
/// let (key, hash) = ([7, 1, 0, 0].into(), [21, 1, 0, 0].into());
/// let keyed = xet_shards::hmac(key, hash);
/// assert_eq!(keyed.to_string(), "8e0f3ba67ec33a6eb9227792b2f55bf2609ccb2ea23ed4251b188d02aefae96a");
/// ```
#[must_use]
pub fn hmac(key: Hash, hash: Hash) -> Hash {
    let mut keyed = Hash::default();
    // It has no error.
    calls::xet_hmac(&key, &hash, &mut keyed);
    keyed
}
