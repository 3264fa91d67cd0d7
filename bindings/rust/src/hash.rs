use crate::error::{check, Error};
use crate::{calls, Result};
use std::fmt;
use std::str::FromStr;

/// A hash of 32 bytes, as the four words that a shard has of it. As text it has 64 hexadecimal digits.
///
/// It is converted from and to its words, and its bytes, as a shard has them: word 0 first, and of each word the lowest
/// byte first. So the text shows each word's bytes in reverse.
///
/// ```
/// use xet_shards::Hash;
///
/// let hash = Hash([100, 1, 0, 0]);
/// assert_eq!(hash.to_string(), format!("{:016x}{:016x}{:032x}", 100, 1, 0));
/// assert_eq!(format!("{hash:?}"), format!("Hash({hash})"));
/// assert_eq!(hash.to_string().parse(), Ok(hash));
/// assert!("100".parse::<Hash>().is_err());
///
/// let mut bytes = [0; 32];
/// (bytes[0], bytes[8]) = (100, 1);
/// assert_eq!(Hash::from(bytes), hash);
/// assert_eq!(<[u8; 32]>::from(hash), bytes);
/// assert_eq!(<[u64; 4]>::from(hash), hash.0);
/// ```
#[derive(Clone, Copy, Default, PartialEq, Eq, PartialOrd, Ord, Hash)]
#[repr(transparent)]
pub struct Hash(pub [u64; 4]);

impl fmt::Display for Hash {
    fn fmt(&self, f: &mut fmt::Formatter<'_>) -> fmt::Result {
        self.0.iter().try_for_each(|word| write!(f, "{word:016x}"))
    }
}

impl fmt::Debug for Hash {
    fn fmt(&self, f: &mut fmt::Formatter<'_>) -> fmt::Result {
        write!(f, "Hash({self})")
    }
}

impl FromStr for Hash {
    type Err = Error;

    /// Reads 64 hexadecimal digits of either case. Of any other text the error is `HashParsing`.
    fn from_str(text: &str) -> Result<Hash> {
        let mut hash = Hash::default();
        check(calls::xet_hash_from_hex(text.as_bytes(), &mut hash))?;
        Ok(hash)
    }
}

impl From<[u64; 4]> for Hash {
    fn from(words: [u64; 4]) -> Hash {
        Hash(words)
    }
}

impl From<Hash> for [u64; 4] {
    fn from(hash: Hash) -> [u64; 4] {
        hash.0
    }
}

impl From<[u8; 32]> for Hash {
    fn from(bytes: [u8; 32]) -> Hash {
        let mut hash = Hash::default();
        for (word, eight) in hash.0.iter_mut().zip(bytes.chunks_exact(8)) {
            *word = u64::from_le_bytes(eight.try_into().expect("eight bytes"));
        }
        hash
    }
}

impl From<Hash> for [u8; 32] {
    fn from(hash: Hash) -> [u8; 32] {
        let mut bytes = [0; 32];
        for (eight, word) in bytes.chunks_exact_mut(8).zip(hash.0) {
            eight.copy_from_slice(&word.to_le_bytes());
        }
        bytes
    }
}
