//! Hashes: four words, their order, bytes, text, and the keyed hash.

use std::collections::HashMap;
use std::ops::{Deref, DerefMut};
use std::str::FromStr;
use std::{error, fmt, slice};
use xet_shards::Hash;

// `as_bytes` lends the words as they lie in memory.
const _: () = assert!(cfg!(target_endian = "little"), "a hash has the lowest byte of each word first");

/// A hash of 32 bytes, as four words of eight bytes, the lowest first. As text it has the 64 hexadecimal digits of the
/// words, the highest of each first.
///
/// ```
/// use xet_core_structures::merklehash::MerkleHash;
///
/// let hash = MerkleHash::from([100, 1, 0, 0]);
/// assert_eq!((hash[0], hash.as_bytes()[..9].to_vec()), (100, vec![100, 0, 0, 0, 0, 0, 0, 0, 1]));
/// assert_eq!(hash.hex(), format!("{:016x}{:016x}{:032x}", 100, 1, 0));
/// assert_eq!(MerkleHash::from_hex(&hash.hex()), Ok(hash));
/// assert_eq!(MerkleHash::from_slice(hash.as_bytes()), Ok(hash));
/// ```
#[derive(Clone, Copy, Default, PartialEq, Eq, PartialOrd, Ord, Hash)]
pub struct DataHash([u64; 4]);

/// The hash of a file, a xorb or a chunk.
pub type MerkleHash = DataHash;

/// The key of a keyed hash. All zeros mean no key.
pub type HMACKey = DataHash;

/// A map from hashes.
pub type MerkleHashMap<V> = HashMap<MerkleHash, V>;

/// The bytes are not 32.
#[derive(Clone, Copy, Debug, PartialEq, Eq)]
pub struct DataHashBytesParseError;

/// The text is not 64 hexadecimal digits.
#[derive(Clone, Copy, Debug, PartialEq, Eq)]
pub struct DataHashHexParseError;

impl DataHash {
    /// The hash with these 64 hexadecimal digits, of either case.
    ///
    /// # Errors
    ///
    /// The text is another.
    pub fn from_hex(text: &str) -> Result<DataHash, DataHashHexParseError> {
        text.parse::<Hash>().map(DataHash::from).map_err(|_| DataHashHexParseError)
    }

    /// The hash with these 32 bytes.
    ///
    /// # Errors
    ///
    /// The bytes are more or fewer.
    pub fn from_slice(bytes: &[u8]) -> Result<DataHash, DataHashBytesParseError> {
        <[u8; 32]>::try_from(bytes).map(DataHash::from).map_err(|_| DataHashBytesParseError)
    }

    /// Its 64 hexadecimal digits, in lower case.
    #[must_use]
    pub fn hex(&self) -> String {
        self.to_string()
    }

    /// Its 32 bytes.
    #[must_use]
    #[allow(unsafe_code)]
    pub fn as_bytes(&self) -> &[u8] {
        // SAFETY: four words are 32 bytes without padding, each of which is a `u8`, and are borrowed as long.
        unsafe { slice::from_raw_parts(self.0.as_ptr().cast(), 32) }
    }

    /// The hash of its 32 bytes under a key: BLAKE3's keyed mode.
    ///
    /// ```
    /// use xet_core_structures::merklehash::DataHash;
    ///
    /// let (key, hash) = (DataHash::from([7, 1, 0, 0]), DataHash::from([21, 1, 0, 0]));
    /// assert_eq!(hash.hmac(key).hex(), "8e0f3ba67ec33a6eb9227792b2f55bf2609ccb2ea23ed4251b188d02aefae96a");
    /// ```
    #[must_use]
    pub fn hmac(&self, key: HMACKey) -> DataHash {
        xet_shards::hmac(key.into(), (*self).into()).into()
    }
}

impl fmt::Display for DataHash {
    fn fmt(&self, f: &mut fmt::Formatter<'_>) -> fmt::Result {
        Hash::from(*self).fmt(f)
    }
}

impl fmt::LowerHex for DataHash {
    fn fmt(&self, f: &mut fmt::Formatter<'_>) -> fmt::Result {
        fmt::Display::fmt(self, f)
    }
}

impl fmt::Debug for DataHash {
    fn fmt(&self, f: &mut fmt::Formatter<'_>) -> fmt::Result {
        fmt::Display::fmt(self, f)
    }
}

impl FromStr for DataHash {
    type Err = DataHashHexParseError;

    fn from_str(text: &str) -> Result<DataHash, DataHashHexParseError> {
        DataHash::from_hex(text)
    }
}

impl Deref for DataHash {
    type Target = [u64; 4];

    fn deref(&self) -> &[u64; 4] {
        &self.0
    }
}

impl DerefMut for DataHash {
    fn deref_mut(&mut self) -> &mut [u64; 4] {
        &mut self.0
    }
}

impl AsRef<DataHash> for DataHash {
    fn as_ref(&self) -> &DataHash {
        self
    }
}

impl AsRef<[u8]> for DataHash {
    fn as_ref(&self) -> &[u8] {
        self.as_bytes()
    }
}

impl From<[u64; 4]> for DataHash {
    fn from(words: [u64; 4]) -> DataHash {
        DataHash(words)
    }
}

impl From<&[u64; 4]> for DataHash {
    fn from(words: &[u64; 4]) -> DataHash {
        DataHash(*words)
    }
}

impl From<[u8; 32]> for DataHash {
    fn from(bytes: [u8; 32]) -> DataHash {
        Hash::from(bytes).into()
    }
}

impl From<DataHash> for [u8; 32] {
    fn from(hash: DataHash) -> [u8; 32] {
        Hash::from(hash).into()
    }
}

impl TryFrom<&[u8]> for DataHash {
    type Error = DataHashBytesParseError;

    fn try_from(bytes: &[u8]) -> Result<DataHash, DataHashBytesParseError> {
        DataHash::from_slice(bytes)
    }
}

impl From<Hash> for DataHash {
    fn from(hash: Hash) -> DataHash {
        DataHash(hash.0)
    }
}

impl From<DataHash> for Hash {
    fn from(hash: DataHash) -> Hash {
        Hash(hash.0)
    }
}

impl fmt::Display for DataHashBytesParseError {
    fn fmt(&self, f: &mut fmt::Formatter<'_>) -> fmt::Result {
        f.write_str("a hash has 32 bytes")
    }
}

impl fmt::Display for DataHashHexParseError {
    fn fmt(&self, f: &mut fmt::Formatter<'_>) -> fmt::Result {
        f.write_str("the text of a hash has 64 hexadecimal digits")
    }
}

impl error::Error for DataHashBytesParseError {}

impl error::Error for DataHashHexParseError {}
