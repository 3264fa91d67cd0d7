//! Bytes that several views may share.

use std::fmt;
use std::ops::Deref;
use std::sync::Arc;

/// Bytes that do not change. A clone shares them.
#[derive(Clone, Default, PartialEq, Eq)]
pub struct Bytes(Arc<Vec<u8>>);

impl Deref for Bytes {
    type Target = [u8];

    fn deref(&self) -> &[u8] {
        &self.0
    }
}

impl AsRef<[u8]> for Bytes {
    fn as_ref(&self) -> &[u8] {
        self
    }
}

impl fmt::Debug for Bytes {
    fn fmt(&self, f: &mut fmt::Formatter<'_>) -> fmt::Result {
        self.0.fmt(f)
    }
}

impl From<Vec<u8>> for Bytes {
    fn from(bytes: Vec<u8>) -> Bytes {
        Bytes(Arc::new(bytes))
    }
}

impl From<Bytes> for Vec<u8> {
    /// Copies the bytes if another clone has them as well.
    fn from(bytes: Bytes) -> Vec<u8> {
        Arc::try_unwrap(bytes.0).unwrap_or_else(|shared| shared.to_vec())
    }
}
