//! What a shard says, and what is looked up in it.

use crate::error::{check, SHORT};
use crate::output::{filled, hashes_of, zeros};
use crate::records::{file_with, front};
use crate::sizes::{CHUNK_ROW, ROW};
use crate::{calls, Hash, Result};

/// The hash of a file of a list that is not found. No file of a shard has it.
const NOT_FOUND: Hash = Hash([u64::MAX; 4]);

/// What the header and the footer of a shard say. A table that is left out has 0 rows.
#[derive(Clone, Copy, Debug, Default, PartialEq, Eq)]
#[repr(C)]
pub struct Info {
    /// The version of the format: 2 or 3.
    pub version: u64,
    /// The rows of the table of files.
    pub files: u64,
    /// The rows of the table of xorbs.
    pub xorbs: u64,
    /// The rows of the table of chunks.
    pub chunks: u64,
    /// The key of the chunk hashes, or [`NO_KEY`](crate::NO_KEY).
    pub key: Hash,
    /// In seconds.
    pub creation: u64,
    /// In seconds. If there is none it is [`NO_EXPIRY`](crate::NO_EXPIRY), or 0 in minimal shards and subsets.
    pub expiry: u64,
    /// Of all xorbs.
    pub stored_bytes_on_disk: u64,
    /// Of all files.
    pub materialized_bytes: u64,
    /// Of all xorbs, unpacked.
    pub stored_bytes: u64,
    /// Where the section of files starts, in bytes from the front of the shard. A row of a section has 48 bytes.
    pub file_section: u64,
    /// Where the section of xorbs starts.
    pub xorb_section: u64,
    /// Where the table of files starts. Its rows have 12 bytes.
    pub file_table: u64,
    /// Where the table of xorbs starts. Its rows have 12 bytes.
    pub xorb_table: u64,
    /// Where the table of chunks starts. Its rows have 16 bytes.
    pub chunk_table: u64,
    /// Where the footer starts.
    pub footer: u64,
    /// The size of the footer, as the header has it. It is 200 bytes, whatever this is.
    pub footer_size: u64,
    /// The version of the footer: 1.
    pub footer_version: u64,
    /// The reserved words of the footer.
    pub reserved: [u64; 6],
}

/// Chunks `start` to `end`, without `end`, of a xorb.
#[derive(Clone, Copy, Debug, Default, PartialEq, Eq, Hash)]
#[repr(C)]
pub struct Segment {
    /// The hash of the xorb.
    pub xorb: Hash,
    /// The flags of the xorb, as the shard has them.
    pub flags: u32,
    /// The bytes of the chunks, unpacked.
    pub bytes: u32,
    /// The index of the first chunk.
    pub start: u32,
    /// The index behind the last chunk.
    pub end: u32,
}

/// What a shard has of a file.
#[derive(Clone, Debug, PartialEq, Eq)]
pub struct File {
    /// The parts of the file, in order.
    pub segments: Vec<Segment>,
    /// The hash of each segment's verification row, where the file has them.
    pub verification: Option<Vec<Hash>>,
    /// The SHA-256 of the file, where it has one.
    pub sha256: Option<Hash>,
    /// The hash of the auxiliary row, where the file has one.
    pub aux_hash: Option<Hash>,
}

/// A run of chunks in one xorb.
#[derive(Clone, Copy, Debug, PartialEq, Eq)]
pub struct Run {
    /// How many of the chunks that were asked for, from the first on, the xorb has one after another.
    pub count: usize,
    /// Where they are.
    pub segment: Segment,
}

/// Reads the header and the footer of a shard: its first 48 and its last 200 bytes. These 248 bytes are enough, without
/// what lies between them.
///
/// # Errors
///
/// - `ShardVersion`: the tag is another, the version is neither 2 nor 3, or that of the footer is not 1.
/// - `Io`: there are too few bytes for a header and a footer.
///
/// ```
/// # fn main() -> Result<(), Box<dyn std::error::Error>> {
/// let info = xet_shards::load(&std::fs::read("examples/a.mdb")?)?;
/// assert_eq!((info.version, info.files, info.xorbs, info.chunks), (3, 1, 1, 1));
/// assert_eq!((info.key, info.expiry), (xet_shards::NO_KEY, xet_shards::NO_EXPIRY));
/// # Ok(())
/// # }
/// ```
pub fn load(shard: &[u8]) -> Result<Info> {
    let mut info = Info::default();
    check(calls::xet_load(shard, &mut info))?;
    Ok(info)
}

/// Looks up the file with this hash in the table of files. A shard without this table has no file that is found.
///
/// # Errors
///
/// - `ShardVersion`, `Io`: as of [`load`]; `Io` also if a row that is read ends too early.
/// - `TruncatedHashCollision`: eight or more files share the first word of the hash.
/// - `InternalError`: a row of the table of files leads to the end of the section.
/// - `InvalidShard`: the file has a row that the version does not have, or a number does not fit its width.
/// - `OutOfMemory`: an allocation failed.
///
/// ```
/// # fn main() -> Result<(), Box<dyn std::error::Error>> {
/// let shard = std::fs::read("examples/a.mdb")?;
/// let file = xet_shards::find_file(&shard, [100, 1, 0, 0].into())?.expect("the shard has the file");
/// assert_eq!((file.segments[0].xorb, file.segments[0].bytes), ([10, 1, 0, 0].into(), 5));
/// assert_eq!(xet_shards::find_file(&shard, [101, 1, 0, 0].into())?, None);
/// # Ok(())
/// # }
/// ```
pub fn find_file(shard: &[u8], hash: Hash) -> Result<Option<File>> {
    let (mut file, mut segments) = (calls::File::default(), zeros(64)?);
    let mut number = calls::xet_find_file(shard, &hash, &mut file, &mut segments);
    if number == SHORT {
        segments = zeros(file.segments)?;
        number = calls::xet_find_file(shard, &hash, &mut file, &mut segments);
    }
    check(number)?;
    Ok(file.found.then(|| file_of(&file, &segments[..file.segments])))
}

/// Looks up the files with these hashes in one call, each as [`find_file`] does. They come in the order of the hashes.
///
/// # Errors
///
/// Those of [`find_file`]: if one lookup fails, there are no files.
///
/// ```
/// # fn main() -> Result<(), Box<dyn std::error::Error>> {
/// let shard = std::fs::read("examples/a.mdb")?;
/// let files = xet_shards::find_files(&shard, &[[101, 1, 0, 0].into(), [100, 1, 0, 0].into()])?;
/// assert_eq!(files[0], None);
/// assert_eq!(files[1].as_ref().map(|file| file.segments[0].bytes), Some(5));
/// # Ok(())
/// # }
/// ```
pub fn find_files(shard: &[u8], hashes: &[Hash]) -> Result<Vec<Option<File>>> {
    let mut counts = calls::Counts::default();
    // Most files have no more than eight segments.
    let (mut files, mut segments) = (zeros(hashes.len())?, zeros(8 * hashes.len())?);
    let mut number = calls::xet_find_files(shard, hashes, &mut files, &mut segments, &mut counts);
    if number == SHORT {
        segments = zeros(counts.segments)?;
        number = calls::xet_find_files(shard, hashes, &mut files, &mut segments, &mut counts);
    }
    check(number)?;
    let mut segments = &segments[..];
    let found = files.iter().map(|it| {
        let own = front(&mut segments, it.segments);
        (it.hash != NOT_FOUND).then(|| file_with(it, own).file)
    });
    Ok(found.collect())
}

/// What a call shows of a file.
pub(crate) fn file_of(file: &calls::File, segments: &[calls::FileSegment]) -> File {
    File {
        segments: segments.iter().map(|it| it.segment).collect(),
        verification: file.has_verification.then(|| segments.iter().map(|it| it.verification).collect()),
        sha256: file.has_sha256.then_some(file.sha256),
        aux_hash: file.has_aux.then_some(file.aux_hash),
    }
}

/// Looks for a run of chunks with these hashes, which are not keyed, also if the shard's are. It has at least the
/// first chunk.
///
/// # Errors
///
/// - `ShardVersion`, `Io`: as of [`load`]; `Io` also if a row that is read ends too early.
/// - `InvalidShard`: a row of the table leads to no chunk, or a number does not fit its width.
/// - `OutOfMemory`: an allocation failed.
///
/// ```
/// # fn main() -> Result<(), Box<dyn std::error::Error>> {
/// let shard = std::fs::read("examples/b.mdb")?;
/// let chunks = [22, 23, 24].map(|it| [it, 1, 0, 0].into());
/// let run = xet_shards::query_chunks(&shard, &chunks)?.expect("the shard has the first chunk");
/// assert_eq!((run.count, run.segment.start, run.segment.end), (2, 0, 2));
/// # Ok(())
/// # }
/// ```
pub fn query_chunks(shard: &[u8], hashes: &[Hash]) -> Result<Option<Run>> {
    let (mut count, mut segment) = (0, Segment::default());
    check(calls::xet_query_chunks(shard, hashes, &mut count, &mut segment))?;
    Ok((count > 0).then_some(Run { count, segment }))
}

/// Looks for the run of these hashes, which are not keyed, that starts at one chunk: at an index of the xorb at a row
/// of the xorb section. It is `None` if the chunk has another hash than the first.
///
/// # Errors
///
/// - `ShardVersion`, `Io`: as of [`load`]; `Io` also if a row that is read ends too early.
/// - `InvalidArguments`: there is no xorb at the row, or it has no chunk at the index.
/// - `InvalidShard`: a number does not fit its width.
/// - `OutOfMemory`: an allocation failed.
///
/// ```
/// # fn main() -> Result<(), Box<dyn std::error::Error>> {
/// let shard = std::fs::read("examples/b.mdb")?;
/// for place in xet_shards::chunk_rows(&shard)? {
///     let hash = [place.word, 1, 0, 0].into();
///     let run = xet_shards::query_at(&shard, &[hash], place.row, place.index)?.expect("the chunk is there");
///     assert_eq!((run.count, run.segment.start), (1, place.index));
/// }
/// # Ok(())
/// # }
/// ```
pub fn query_at(shard: &[u8], hashes: &[Hash], row: u32, index: u32) -> Result<Option<Run>> {
    let (mut count, mut segment) = (0, Segment::default());
    check(calls::xet_query_at(shard, hashes, row, index, &mut count, &mut segment))?;
    Ok((count > 0).then_some(Run { count, segment }))
}

/// A row of a chunk table: where a chunk is.
#[derive(Clone, Copy, Debug, Default, PartialEq, Eq, Hash)]
#[repr(C)]
pub struct ChunkRow {
    /// The first word of the chunk's hash, under the key of the shard if it has one.
    pub word: u64,
    /// The row of the xorb section at which its xorb starts.
    pub row: u32,
    /// Its index among the chunks of the xorb.
    pub index: u32,
}

/// Where the chunks of a shard are: the rows of its chunk table, or, if that is left out, the rows that it would have,
/// in the order of the xorb section.
///
/// # Errors
///
/// - `ShardVersion`, `Io`: as of [`load`]; `Io` also if the table or the section ends too early.
/// - `InvalidShard`: there are more than 4294967295 rows.
/// - `OutOfMemory`: an allocation failed.
///
/// ```
/// # fn main() -> Result<(), Box<dyn std::error::Error>> {
/// let rows = xet_shards::chunk_rows(&std::fs::read("examples/b.mdb")?)?;
/// let places: Vec<_> = rows.iter().map(|it| (it.word, it.row, it.index)).collect();
/// assert_eq!(places, [(22, 0, 0), (23, 0, 1)]);
/// # Ok(())
/// # }
/// ```
pub fn chunk_rows(shard: &[u8]) -> Result<Vec<ChunkRow>> {
    // A chunk has a row of the table, and one of the section.
    filled(shard.len() / (CHUNK_ROW + ROW), |out, written| calls::xet_chunk_rows(shard, out, written))
}

/// The hashes of the chunks that the global index keeps, each once and in ascending order.
///
/// # Errors
///
/// - `ShardVersion`: the tag is another, or the version is neither 2 nor 3.
/// - `Io`: the bytes end before the sections do.
/// - `InvalidShard`: a file has a row that the version does not have, or a section more than 4294967295 rows.
/// - `OutOfMemory`: an allocation failed.
///
/// ```
/// # fn main() -> Result<(), Box<dyn std::error::Error>> {
/// let shard = std::fs::read("examples/b.mdb")?;
/// let hashes = [22, 23].map(|it| [it, 1, 0, 0].into());
/// assert_eq!(xet_shards::eligible(&shard)?, hashes);
/// # Ok(())
/// # }
/// ```
pub fn eligible(shard: &[u8]) -> Result<Vec<Hash>> {
    hashes_of(|out, written| calls::xet_eligible(shard, out, written))
}
