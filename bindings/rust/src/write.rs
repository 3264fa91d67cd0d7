//! Other forms of a shard: exports, minimal shards, subsets, versions, completed shards.

use crate::output::bytes_of;
use crate::{calls, Hash, Result, Version};

/// What an export is to have. The default is all parts, with no key, creation 0 and expiry 0.
///
/// ```
/// use xet_shards::Export;
///
/// let options = Export { now: 1_700_000_000, valid_seconds: 3600, files: false, ..Export::default() };
/// assert!(options.chunk_table && !options.files);
/// ```
#[derive(Clone, Copy, Debug, PartialEq, Eq)]
pub struct Export {
    /// The key of the chunk hashes; [`NO_KEY`](crate::NO_KEY) leaves them as they are.
    pub key: Hash,
    /// The creation of the export, in seconds.
    pub now: u64,
    /// It expires so many seconds later.
    pub valid_seconds: u64,
    /// It has the files and their table.
    pub files: bool,
    /// Files have their auxiliary rows.
    pub aux_rows: bool,
    /// It has the table of xorbs.
    pub xorb_table: bool,
    /// It has the table of chunks.
    pub chunk_table: bool,
    /// The version of the format.
    pub version: Version,
}

impl Default for Export {
    fn default() -> Export {
        Export {
            key: crate::NO_KEY,
            now: 0,
            valid_seconds: 0,
            files: true,
            aux_rows: true,
            xorb_table: true,
            chunk_table: true,
            version: Version::V3,
        }
    }
}

/// What a minimal shard is to have. The default is auxiliary rows, no verification rows, and creation 0.
#[derive(Clone, Copy, Debug, PartialEq, Eq)]
pub struct Minimal {
    /// Its creation, in seconds.
    pub now: u64,
    /// Files keep their verification rows, which each has to have.
    pub verification: bool,
    /// Files keep their auxiliary rows.
    pub aux_rows: bool,
    /// The version of the format.
    pub version: Version,
}

impl Default for Minimal {
    fn default() -> Minimal {
        Minimal { now: 0, verification: false, aux_rows: true, version: Version::V3 }
    }
}

/// What a subset is to have. The default is all xorbs, creation 0 and no expiry.
#[derive(Clone, Copy, Debug, Default, PartialEq, Eq)]
pub struct Subset<'a> {
    /// Its creation, in seconds.
    pub now: u64,
    /// In seconds; `None` and 0 mean that it does not expire.
    pub expiry: Option<u64>,
    /// Its xorbs.
    pub xorbs: Xorbs<'a>,
    /// The version of the format.
    pub version: Version,
}

/// The xorbs of a subset.
#[derive(Clone, Copy, Debug, Default, PartialEq, Eq)]
pub enum Xorbs<'a> {
    /// All xorbs of the shard.
    #[default]
    All,
    /// Those with these hashes; a hash that no xorb has is passed over.
    Listed(&'a [Hash]),
}

/// The shard with each chunk hash replaced by its keyed hash, and with the parts that are asked for.
///
/// # Errors
///
/// - `ShardVersion`, `Io`: as of [`load`](crate::load); `Io` also if a section ends too early.
/// - `InvalidArguments`: the chunk hashes are keyed already, or `now` and `valid_seconds` add up to 2^64 or more; or a
///   file of the export has an auxiliary row, and the version is 2.
/// - `InvalidShard`: a file has a row that its version does not have, or a section more than 4294967295 rows.
/// - `OutOfMemory`: an allocation failed.
///
/// ```
/// use xet_shards::Export;
///
/// # fn main() -> Result<(), Box<dyn std::error::Error>> {
/// let shard = std::fs::read("examples/a.mdb")?;
/// let key = [7, 1, 0, 0].into();
/// let options = Export { key, now: 1_700_000_000, valid_seconds: 3600, ..Export::default() };
/// let exported = xet_shards::export(&shard, &options)?;
/// let info = xet_shards::load(&exported)?;
/// assert_eq!((info.key, info.expiry), (key, 1_700_003_600));
/// # Ok(())
/// # }
/// ```
pub fn export(shard: &[u8], options: &Export) -> Result<Vec<u8>> {
    let asked = calls::ExportOptions {
        key: options.key,
        now: options.now,
        valid_seconds: options.valid_seconds,
        without_files: !options.files,
        without_aux_rows: !options.aux_rows,
        without_xorb_table: !options.xorb_table,
        without_chunk_table: !options.chunk_table,
    };
    let version = options.version.number();
    bytes_of(shard.len(), |out, written| calls::xet_export(shard, &asked, version, out, written))
}

/// The records of the shard without tables, with expiry 0, and with a mark at each chunk at which a file starts.
///
/// # Errors
///
/// - `ShardVersion`: the tag is another, or the version is neither 2 nor 3.
/// - `Io`: the bytes end before the sections do, or verification rows are asked for and a file has none.
/// - `InvalidArguments`: a file of the minimal shard has an auxiliary row, and the version is 2.
/// - `InvalidShard`: a file has a row that its version does not have, or a section more than 4294967295 rows.
/// - `OutOfMemory`: an allocation failed.
///
/// ```
/// use xet_shards::Minimal;
///
/// # fn main() -> Result<(), Box<dyn std::error::Error>> {
/// let shard = std::fs::read("examples/a.mdb")?;
/// let options = Minimal { now: 1_700_000_000, ..Minimal::default() };
/// let minimal = xet_shards::minimal(&shard, &options)?;
/// assert_eq!(xet_shards::load(&minimal)?.creation, 1_700_000_000);
/// assert!(minimal.len() < shard.len());
/// # Ok(())
/// # }
/// ```
pub fn minimal(shard: &[u8], options: &Minimal) -> Result<Vec<u8>> {
    let asked = calls::MinimalOptions {
        now: options.now,
        verification: options.verification,
        without_aux_rows: !options.aux_rows,
    };
    let version = options.version.number();
    bytes_of(shard.len(), |out, written| calls::xet_minimal(shard, &asked, version, out, written))
}

/// Xorbs of the shard, without files and tables, and with a mark at each chunk at which a file starts.
///
/// # Errors
///
/// - `ShardVersion`: the tag is another, or the version is neither 2 nor 3.
/// - `Io`: the bytes end before the sections do.
/// - `InvalidShard`: a file has a row that its version does not have, or a section more than 4294967295 rows.
/// - `OutOfMemory`: an allocation failed.
///
/// ```
/// use xet_shards::{Subset, Xorbs};
///
/// # fn main() -> Result<(), Box<dyn std::error::Error>> {
/// let shard = std::fs::read("examples/a.mdb")?;
/// let listed = [[10, 1, 0, 0].into(), [99, 1, 0, 0].into()];
/// let options = Subset { now: 1_700_000_000, xorbs: Xorbs::Listed(&listed), ..Subset::default() };
/// assert_eq!(xet_shards::load(&xet_shards::subset(&shard, &options)?)?.stored_bytes, 5);
/// # Ok(())
/// # }
/// ```
pub fn subset(shard: &[u8], options: &Subset<'_>) -> Result<Vec<u8>> {
    let (all, listed) = match options.xorbs {
        Xorbs::All => (true, &[][..]),
        Xorbs::Listed(listed) => (false, listed),
    };
    let asked = calls::SubsetOptions { now: options.now, expiry: options.expiry.unwrap_or(0), all };
    let version = options.version.number();
    bytes_of(shard.len(), |out, written| calls::xet_subset(shard, &asked, listed, version, out, written))
}

/// The same shard in a version of the format: its records in their order, with its key and its times, and the tables of
/// which the footer says that they have rows.
///
/// # Errors
///
/// - `ShardVersion` and `Io`: those of [`load`](crate::load); `Io` also if a section ends too early.
/// - `InvalidArguments`: a file has an auxiliary row, and the version is 2.
/// - `InvalidShard`: a file has a row that its version does not have, or a section more than 4294967295 rows.
/// - `OutOfMemory`: an allocation failed.
///
/// ```
/// use xet_shards::{convert, load, Version};
///
/// # fn main() -> Result<(), Box<dyn std::error::Error>> {
/// let shard = std::fs::read("examples/a.mdb")?;
/// let old = convert(&shard, Version::V2)?;
/// assert_eq!((load(&old)?.version, old.len()), (2, shard.len()));
/// assert_eq!(convert(&old, Version::V3)?, shard);
/// # Ok(())
/// # }
/// ```
pub fn convert(shard: &[u8], version: Version) -> Result<Vec<u8>> {
    bytes_of(shard.len(), |out, written| calls::xet_convert(shard, version.number(), out, written))
}

/// The whole shard of which these bytes have the header and both sections, whatever comes after these, as of a stream
/// that was cut: with all tables, creation 0 and no expiry, in a version of the format. `key` is the one that the chunk
/// hashes are under, [`NO_KEY`](crate::NO_KEY) if there is none.
///
/// # Errors
///
/// - `ShardVersion`: the header is unsupported.
/// - `Io`: the bytes end before the sections do.
/// - `InvalidArguments`: a file has an auxiliary row, and the version is 2.
/// - `InvalidShard`: a file has a row that its version does not have, or a section more than 4294967295 rows.
/// - `OutOfMemory`: an allocation failed.
///
/// ```
/// use xet_shards::{complete, Version, NO_KEY};
///
/// # fn main() -> Result<(), Box<dyn std::error::Error>> {
/// let shard = std::fs::read("examples/a.mdb")?;
/// let sections = xet_shards::load(&shard)?.file_table as usize;
/// let whole = complete(&shard[..sections], &NO_KEY, Version::V3)?;
/// assert_eq!(xet_shards::records(&whole)?, xet_shards::records(&shard)?);
/// # Ok(())
/// # }
/// ```
pub fn complete(bytes: &[u8], key: &Hash, version: Version) -> Result<Vec<u8>> {
    bytes_of(bytes.len(), |out, written| calls::xet_complete(bytes, key, version.number(), out, written))
}
