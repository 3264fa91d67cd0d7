//! Lookups in a shard of which only parts were read.

use crate::output::filled;
use crate::walk::{file_by, xorb_by};
use crate::{calls, ListedFile, Result, Xorb};

/// Where a chunk is.
#[derive(Clone, Copy, Debug, Default, PartialEq, Eq, Hash)]
#[repr(C)]
pub struct ChunkPlace {
    /// The row of the xorb section at which its xorb starts.
    pub row: u32,
    /// Its index among the chunks of the xorb.
    pub index: u32,
}

/// The rows of a section that the bytes of its table, of files or of xorbs, have under the first word of a hash: 7 at
/// most. [`load`](crate::load) of both ends of a shard says where its tables and sections are.
///
/// # Errors
///
/// - `InvalidArguments`: the bytes are no whole rows.
/// - `TruncatedHashCollision`: eight or more rows have the word.
/// - `OutOfMemory`: an allocation failed.
///
/// ```
/// # fn main() -> Result<(), Box<dyn std::error::Error>> {
/// use xet_shards::{file_in, find_rows, load, Hash};
/// # let shard = std::fs::read("examples/a.mdb")?;
/// # let read = |from: u64, to: u64| &shard[from as usize..to as usize];
/// # let length = shard.len() as u64;
/// // Three reads of a shard that is far away, by a function `read` of its bytes from one place to another.
/// let info = load(&[read(0, 48), read(length - 200, length)].concat())?;
/// let wanted = Hash([100, 1, 0, 0]);
/// let rows = find_rows(read(info.file_table, info.file_table + 12 * info.files), wanted.0[0])?;
/// let start = info.file_section + 48 * u64::from(rows[0]);
/// let (file, _) = file_in(read(start, info.xorb_section), info.version)?.expect("a file starts there");
/// assert_eq!(file.hash, wanted);
/// # Ok(())
/// # }
/// ```
pub fn find_rows(table: &[u8], word: u64) -> Result<Vec<u32>> {
    filled(7, |rows, written| calls::xet_find_rows(table, word, rows, written))
}

/// The places that the bytes of a table of chunks have under the first word of a chunk's hash, which is keyed if the
/// shard has a key: 8 at most.
///
/// # Errors
///
/// Those of [`find_rows`], without `TruncatedHashCollision`.
///
/// ```
/// # fn main() -> Result<(), Box<dyn std::error::Error>> {
/// let shard = std::fs::read("examples/b.mdb")?;
/// let info = xet_shards::load(&shard)?;
/// let table = &shard[info.chunk_table as usize..info.footer as usize];
/// assert_eq!(xet_shards::find_places(table, 23)?, [xet_shards::ChunkPlace { row: 0, index: 1 }]);
/// # Ok(())
/// # }
/// ```
pub fn find_places(table: &[u8], word: u64) -> Result<Vec<ChunkPlace>> {
    filled(8, |places, written| calls::xet_find_places(table, word, places, written))
}

/// The file's record at the front of some bytes of a shard of this version, and how many rows, of 48 bytes, it has; or
/// `None` if the section ends there. Bytes behind the record are not looked at. [`find_rows`] has an example.
///
/// # Errors
///
/// - `Io`: the bytes end before the record does, so more are needed.
/// - `InvalidArguments`: the version is neither 2 nor 3.
/// - `InvalidShard`: the file has a row that the version does not have, or more rows than 32 bits count.
/// - `OutOfMemory`: an allocation failed.
pub fn file_in(bytes: &[u8], version: u64) -> Result<Option<(ListedFile, u64)>> {
    file_by(&mut Vec::new(), 0, |_, place, file, items| calls::xet_file_in(bytes, version, place, file, items))
}

/// The xorb's record at the front of some bytes of a shard, and how many rows it has; or `None` if the section ends
/// there.
///
/// # Errors
///
/// Those of [`file_in`], without `InvalidArguments`.
///
/// ```
/// # fn main() -> Result<(), Box<dyn std::error::Error>> {
/// let shard = std::fs::read("examples/b.mdb")?;
/// let section = &shard[xet_shards::load(&shard)?.xorb_section as usize..];
/// let (xorb, rows) = xet_shards::xorb_in(section)?.expect("a xorb starts there");
/// assert_eq!((xorb.bytes, rows), (13, 3));
/// # Ok(())
/// # }
/// ```
pub fn xorb_in(bytes: &[u8]) -> Result<Option<(Xorb, u64)>> {
    xorb_by(&mut Vec::new(), 0, |_, place, xorb, items| calls::xet_xorb_in(bytes, place, xorb, items))
}
