//! All records of a shard, read and written in one call.

use crate::error::{check, SHORT};
use crate::lookup::file_of;
use crate::output::{filled, with_room, zeros};
use crate::{calls, Chunk, Error, File, Hash, ListedFile, Result, Segment, Version, Xorb, NO_EXPIRY};

/// The flag of a file that has verification hashes.
pub const WITH_VERIFICATION: u32 = 1 << 31;

/// The flag of a file that has a SHA-256.
pub const WITH_SHA256: u32 = 1 << 30;

/// The flag of a file that has an auxiliary hash.
pub const WITH_AUX: u32 = 1 << 29;

/// All records of a shard.
#[derive(Clone, Debug, Default, PartialEq, Eq)]
pub struct Records {
    /// The files, in the order of their section.
    pub files: Vec<ListedFile>,
    /// The xorbs, in the order of their section.
    pub xorbs: Vec<Xorb>,
}

impl File {
    /// The flags of the optional parts that the file has.
    #[must_use]
    pub fn flags(&self) -> u32 {
        let flag = |has: bool, flag: u32| if has { flag } else { 0 };
        flag(self.verification.is_some(), WITH_VERIFICATION)
            | flag(self.sha256.is_some(), WITH_SHA256)
            | flag(self.aux_hash.is_some(), WITH_AUX)
    }
}

impl ListedFile {
    /// A file with this hash, and with the flags of the optional parts that it has.
    #[must_use]
    pub fn new(hash: Hash, file: File) -> ListedFile {
        ListedFile { hash, flags: file.flags(), file }
    }
}

/// All records of a shard, in one call. A shard that is invalid gives none.
///
/// # Errors
///
/// - `ShardVersion`, `Io`: as of [`load`](crate::load); `Io` also if a section ends too early.
/// - `InvalidShard`: a file has a row that the version does not have, or a section more than 4294967295 rows.
/// - `OutOfMemory`: an allocation failed.
///
/// ```
/// use xet_shards::Version;
///
/// # fn main() -> Result<(), Box<dyn std::error::Error>> {
/// let shard = std::fs::read("examples/a.mdb")?;
/// let records = xet_shards::records(&shard)?;
/// assert_eq!(records.files, xet_shards::files(&shard).collect::<Result<Vec<_>, _>>()?);
/// assert_eq!(xet_shards::write_records(&records.files, &records.xorbs, None, Version::V3)?, shard);
/// # Ok(())
/// # }
/// ```
pub fn records(shard: &[u8]) -> Result<Records> {
    let mut counts = calls::Counts::default();
    let (mut files, mut segments, mut xorbs, mut chunks) = (zeros(0)?, zeros(0)?, zeros(0)?, zeros(0)?);
    // The first call asks how many there are.
    let mut number = calls::xet_records(shard, &mut files, &mut segments, &mut xorbs, &mut chunks, &mut counts);
    if number == SHORT {
        files = zeros(counts.files)?;
        segments = zeros(counts.segments)?;
        xorbs = zeros(counts.xorbs)?;
        chunks = zeros(counts.chunks)?;
        number = calls::xet_records(shard, &mut files, &mut segments, &mut xorbs, &mut chunks, &mut counts);
    }
    check(number)?;
    let (mut segments, mut chunks) = (&segments[..], &chunks[..]);
    Ok(Records {
        files: files.iter().map(|it| file_with(it, front(&mut segments, it.segments))).collect(),
        xorbs: xorbs
            .iter()
            .map(|it| Xorb {
                hash: it.hash,
                flags: it.flags,
                bytes: it.bytes,
                bytes_on_disk: it.bytes_on_disk,
                chunks: front(&mut chunks, it.chunks).to_vec(),
            })
            .collect(),
    })
}

/// Takes so many items off the front.
pub(crate) fn front<'a, T>(items: &mut &'a [T], count: u32) -> &'a [T] {
    let (taken, rest) = items.split_at(count as usize);
    *items = rest;
    taken
}

/// The file of a list that has these segments.
pub(crate) fn file_with(it: &calls::ListedFile, segments: &[calls::FileSegment]) -> ListedFile {
    let file = calls::File {
        found: true,
        has_verification: it.flags & WITH_VERIFICATION != 0,
        has_sha256: it.flags & WITH_SHA256 != 0,
        has_aux: it.flags & WITH_AUX != 0,
        flags: it.flags,
        segments: segments.len(),
        sha256: it.sha256,
        aux_hash: it.aux_hash,
        reserved: 0,
    };
    ListedFile { hash: it.hash, flags: it.flags, file: file_of(&file, segments) }
}

/// The shard that has these files and xorbs, with all tables and without a key, with an expiry in seconds or none, in a
/// version of the format. They may be in any order; of two files, or two xorbs, with one hash the later one counts.
///
/// # Errors
///
/// - `InvalidArguments`: the flags of a file are not those of its parts, or it has more or fewer verification hashes
///   than segments; or there is no such shard: a hash is all ones, a file has flags of no known part, or an auxiliary
///   row and the version is 2, the chunks of a xorb have more than 4294967295 bytes in all, or the rows of the files, or
///   of the xorbs, would pass 4294967295.
/// - `OutOfMemory`: an allocation failed.
///
/// ```
/// use xet_shards::{Chunk, File, ListedFile, Segment, Version, Xorb};
///
/// # fn main() -> Result<(), Box<dyn std::error::Error>> {
/// let xorb = [10, 1, 0, 0].into();
/// let chunks = vec![Chunk { hash: [21, 1, 0, 0].into(), start: 0, bytes: 5, ..Chunk::default() }];
/// let xorbs = [Xorb { hash: xorb, flags: 0, bytes: 5, bytes_on_disk: 0, chunks }];
/// let segments = vec![Segment { xorb, flags: 0, bytes: 5, start: 0, end: 1 }];
/// let file = File { segments, verification: None, sha256: None, aux_hash: None };
/// let files = [ListedFile::new([100, 1, 0, 0].into(), file)];
/// assert_eq!(xet_shards::write_records(&files, &xorbs, None, Version::V3)?, std::fs::read("examples/a.mdb")?);
/// # Ok(())
/// # }
/// ```
pub fn write_records(files: &[ListedFile], xorbs: &[Xorb], expiry: Option<u64>, version: Version) -> Result<Vec<u8>> {
    let (files, segments) = file_lists(files)?;
    let (xorbs, chunks) = xorb_lists(xorbs)?;
    let expiry = expiry.unwrap_or(NO_EXPIRY);
    // As xet_write_room of xet.h.
    let room = 344 + 156 * files.len() + 96 * segments.len() + 60 * xorbs.len() + 64 * chunks.len();
    filled(room, |out, written| {
        calls::xet_write(&files, &segments, &xorbs, &chunks, expiry, version.number(), out, written)
    })
}

/// The files as the library takes a list of them, and their segments.
fn file_lists(files: &[ListedFile]) -> Result<(Vec<calls::ListedFile>, Vec<calls::FileSegment>)> {
    let mut listed = with_room(files.len())?;
    let mut segments = with_room(files.iter().map(|it| it.file.segments.len()).sum())?;
    for it in files {
        let file = &it.file;
        let hashes = file.verification.as_ref().map(Vec::len);
        if it.flags & (WITH_VERIFICATION | WITH_SHA256 | WITH_AUX) != file.flags()
            || hashes.map_or(false, |count| count != file.segments.len())
        {
            return Err(Error::InvalidArguments);
        }
        listed.push(calls::ListedFile {
            hash: it.hash,
            sha256: file.sha256.unwrap_or_default(),
            aux_hash: file.aux_hash.unwrap_or_default(),
            flags: it.flags,
            segments: count(file.segments.len())?,
        });
        segments.extend(file.segments.iter().enumerate().map(|(at, segment)| file_segment(file, at, *segment)));
    }
    Ok((listed, segments))
}

/// The xorbs as the library takes a list of them, and their chunks.
fn xorb_lists(xorbs: &[Xorb]) -> Result<(Vec<calls::ListedXorb>, Vec<Chunk>)> {
    let mut listed = with_room(xorbs.len())?;
    let mut chunks = with_room(xorbs.iter().map(|it| it.chunks.len()).sum())?;
    for it in xorbs {
        listed.push(calls::ListedXorb {
            hash: it.hash,
            flags: it.flags,
            chunks: count(it.chunks.len())?,
            bytes: it.bytes,
            bytes_on_disk: it.bytes_on_disk,
        });
        chunks.extend_from_slice(&it.chunks);
    }
    Ok((listed, chunks))
}

/// A segment of a file, with its verification hash.
fn file_segment(file: &File, at: usize, segment: Segment) -> calls::FileSegment {
    let verification = file.verification.as_ref().map_or(Hash::default(), |hashes| hashes[at]);
    calls::FileSegment { segment, verification }
}

fn count(items: usize) -> Result<u32> {
    u32::try_from(items).map_err(|_| Error::InvalidArguments)
}
