//! Why a call failed.

use crate::merklehash::{DataHashBytesParseError, DataHashHexParseError, MerkleHash};
use std::convert::Infallible;
use std::{error, fmt, io, mem};

/// Why a call failed. Two errors are equal if they are of one variant.
#[derive(Debug)]
#[non_exhaustive]
pub enum CoreError {
    /// A reader or a writer failed, an input ends too early, or verification rows are missing.
    Io(io::Error),
    /// A row number leads to the end of a section.
    InternalError(String),
    /// Any other failure, in words.
    Other(String),
    /// Eight or more records share this first word of a hash.
    TruncatedHashCollision(u64),
    /// Another tag, or a version of the header or the footer that is not read.
    ShardVersion(String),
    /// No call returns it.
    BadFilename(String),
    /// No call returns it.
    ShardNotFound(MerkleHash),
    /// No call returns it.
    FileNotFound(MerkleHash),
    /// No call returns it.
    QueryFailed(String),
    /// No call returns it.
    SmudgeQueryPolicy(String),
    /// The bytes are not a valid shard, or two shards have no union.
    InvalidShard(String),
    /// No call returns it.
    InvalidRange,
    /// The call does not admit its arguments. Its documentation says which.
    InvalidArguments,
    /// No call returns it; see [`Validate`].
    MalformedData(String),
    /// No call returns it.
    HashMismatch,
    /// Never made, since its content has no value.
    HashParsing(Infallible),
    /// No call returns it.
    ChunkHeaderParse,
    /// An allocation failed. The original ends the process there.
    OutOfMemory,
}

/// What a call returns.
pub type Result<T> = std::result::Result<T, CoreError>;

impl CoreError {
    /// `Other` with this text.
    pub fn other(inner: impl ToString) -> CoreError {
        CoreError::Other(inner.to_string())
    }

    /// `InvalidShard` with this text.
    pub fn invalid_shard(inner: impl ToString) -> CoreError {
        CoreError::InvalidShard(inner.to_string())
    }
}

impl PartialEq for CoreError {
    fn eq(&self, other: &CoreError) -> bool {
        mem::discriminant(self) == mem::discriminant(other)
    }
}

impl fmt::Display for CoreError {
    fn fmt(&self, f: &mut fmt::Formatter<'_>) -> fmt::Result {
        match self {
            CoreError::Io(error) => write!(f, "I/O error: {error}"),
            CoreError::InternalError(text) => write!(f, "Internal error: {text}"),
            CoreError::Other(text) => f.write_str(text),
            CoreError::TruncatedHashCollision(word) => write!(f, "Too many collisions for truncated hash: {word}"),
            CoreError::ShardVersion(text) => write!(f, "Shard version error: {text}"),
            CoreError::BadFilename(text) => write!(f, "Bad filename: {text}"),
            CoreError::ShardNotFound(hash) => write!(f, "Shard not found: {hash}"),
            CoreError::FileNotFound(hash) => write!(f, "File not found: {hash}"),
            CoreError::QueryFailed(text) => write!(f, "Query failed: {text}"),
            CoreError::SmudgeQueryPolicy(text) => write!(f, "Smudge query policy error: {text}"),
            CoreError::InvalidShard(text) => write!(f, "Invalid shard: {text}"),
            CoreError::InvalidRange => f.write_str("Invalid range"),
            CoreError::InvalidArguments => f.write_str("Invalid arguments"),
            CoreError::MalformedData(text) => write!(f, "Malformed data: {text}"),
            CoreError::HashMismatch => f.write_str("Hash mismatch"),
            CoreError::HashParsing(never) => match *never {},
            CoreError::ChunkHeaderParse => f.write_str("Chunk header parse error"),
            CoreError::OutOfMemory => f.write_str("Out of memory"),
        }
    }
}

impl error::Error for CoreError {
    fn source(&self) -> Option<&(dyn error::Error + 'static)> {
        match self {
            CoreError::Io(error) => Some(error),
            _ => None,
        }
    }
}

impl From<io::Error> for CoreError {
    fn from(error: io::Error) -> CoreError {
        CoreError::Io(error)
    }
}

impl From<Infallible> for CoreError {
    fn from(never: Infallible) -> CoreError {
        match never {}
    }
}

impl From<DataHashHexParseError> for CoreError {
    fn from(error: DataHashHexParseError) -> CoreError {
        CoreError::other(error)
    }
}

impl From<DataHashBytesParseError> for CoreError {
    fn from(error: DataHashBytesParseError) -> CoreError {
        CoreError::other(error)
    }
}

impl From<xet_shards::Error> for CoreError {
    /// The library names the error alone, so the text is that of its kind. `at_word` has the word of a collision.
    fn from(error: xet_shards::Error) -> CoreError {
        use xet_shards::Error;
        let text = error.to_string();
        match error {
            Error::Io => io::Error::new(io::ErrorKind::UnexpectedEof, text).into(),
            Error::InternalError => CoreError::InternalError(text),
            Error::ShardVersion => CoreError::ShardVersion(text),
            Error::BadFilename => CoreError::BadFilename(text),
            Error::InvalidShard => CoreError::InvalidShard(text),
            Error::InvalidArguments => CoreError::InvalidArguments,
            Error::OutOfMemory => CoreError::OutOfMemory,
            _ => CoreError::Other(text),
        }
    }
}

/// The error of a search for the first word of a hash.
pub(crate) fn at_word(word: u64) -> impl FnOnce(xet_shards::Error) -> CoreError {
    move |error| match error {
        xet_shards::Error::TruncatedHashCollision => CoreError::TruncatedHashCollision(word),
        error => error.into(),
    }
}

/// The error of a call of the library, where a call here returns those of readers.
pub(crate) fn as_io(error: xet_shards::Error) -> io::Error {
    let kind = match error {
        xet_shards::Error::Io => io::ErrorKind::UnexpectedEof,
        xet_shards::Error::OutOfMemory => io::ErrorKind::OutOfMemory,
        _ => io::ErrorKind::InvalidData,
    };
    io::Error::new(kind, error)
}

/// A sum of offsets or of bytes that passes 64 or 32 bits.
pub(crate) fn past_width() -> CoreError {
    CoreError::invalid_shard("a number does not fit its width")
}

/// What is not an error where bytes are checked.
pub trait Validate<T> {
    /// `None` in place of `MalformedData`, and any other result as it is.
    ///
    /// # Errors
    ///
    /// Those of the result but `MalformedData`.
    fn ok_for_format_error(self) -> Result<Option<T>>;
}

impl<T> Validate<T> for Result<T> {
    fn ok_for_format_error(self) -> Result<Option<T>> {
        match self {
            Ok(value) => Ok(Some(value)),
            Err(CoreError::MalformedData(_)) => Ok(None),
            Err(error) => Err(error),
        }
    }
}
