use crate::{Disagreement, MalformedRecord, Result};
use std::fmt;

/// `XET_SHORT`: the output does not fit the room that was given.
pub(crate) const SHORT: u32 = 19;

/// The number of the error that tells a disagreement.
pub(crate) const DISAGREE: u32 = 20;

/// The number of the error that tells a record that no shard may have.
pub(crate) const MALFORMED: u32 = 21;

/// Why a call failed. The cause is in the inputs, but for `OutOfMemory`; `xet.h` says it of each call.
///
/// ```
/// use xet_shards::Error;
///
/// let error = xet_shards::load(b"too short").unwrap_err();
/// assert_eq!(error, Error::Io);
/// assert_eq!(error.to_string(), "the bytes end too early, or verification rows are missing");
/// ```
#[derive(Clone, Copy, Debug, PartialEq, Eq, Hash)]
#[non_exhaustive]
pub enum Error {
    /// The bytes end too early, or verification rows are asked for and a file has none.
    Io,
    /// A row of a table leads to the end of a section.
    InternalError,
    /// Eight or more files share the first word of the hash.
    TruncatedHashCollision,
    /// Another tag, or another version of the header or the footer.
    ShardVersion,
    /// A text is not the name of a shard file.
    BadFilename,
    /// The bytes are not a valid shard, or two shards have no union.
    InvalidShard,
    /// The call does not admit its arguments, as keys that differ or records that no shard has. Its documentation says
    /// which.
    InvalidArguments,
    /// A text is not the 64 hexadecimal digits of a hash.
    HashParsing,
    /// An allocation failed.
    OutOfMemory,
    /// Two shards that have to agree do not.
    Disagree(Disagreement),
    /// A shard that has to be well-formed is not.
    Malformed(MalformedRecord),
    /// A number that by `xet.h` no call returns.
    Unknown(u32),
}

impl Error {
    fn of_number(number: u32) -> Error {
        match number {
            1 => Error::Io,
            2 => Error::InternalError,
            4 => Error::TruncatedHashCollision,
            5 => Error::ShardVersion,
            6 => Error::BadFilename,
            11 => Error::InvalidShard,
            13 => Error::InvalidArguments,
            16 => Error::HashParsing,
            18 => Error::OutOfMemory,
            number => Error::Unknown(number),
        }
    }
}

impl fmt::Display for Error {
    fn fmt(&self, f: &mut fmt::Formatter<'_>) -> fmt::Result {
        f.write_str(match self {
            Error::Io => "the bytes end too early, or verification rows are missing",
            Error::InternalError => "a row of a table leads to the end of a section",
            Error::TruncatedHashCollision => "eight or more files share the first word of the hash",
            Error::ShardVersion => "not a shard of version 2 or 3",
            Error::BadFilename => "not the name of a shard file",
            Error::InvalidShard => "not a valid shard, or the shards have no union",
            Error::InvalidArguments => "the call does not admit its arguments, as keys that differ",
            Error::HashParsing => "not the 64 hexadecimal digits of a hash",
            Error::OutOfMemory => "out of memory",
            Error::Disagree(disagreement) => return disagreement.fmt(f),
            Error::Malformed(record) => return record.fmt(f),
            Error::Unknown(number) => return write!(f, "error {number} of the library"),
        })
    }
}

impl std::error::Error for Error {}

pub(crate) fn check(number: u32) -> Result<()> {
    match number {
        0 => Ok(()),
        number => Err(Error::of_number(number)),
    }
}
