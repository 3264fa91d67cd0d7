//! The records of a shard, one after another.

use crate::error::{check, SHORT};
use crate::lookup::file_of;
use crate::output::{copied, zeros};
use crate::{calls, Error, File, Hash, Result};

/// A file of a shard, with its hash.
#[derive(Clone, Debug, PartialEq, Eq)]
pub struct ListedFile {
    /// The hash of the file.
    pub hash: Hash,
    /// The flags of the file, as the shard has them.
    pub flags: u32,
    /// What the shard has of it.
    pub file: File,
}

/// A chunk of a xorb.
#[derive(Clone, Copy, Debug, Default, PartialEq, Eq, Hash)]
#[repr(C)]
pub struct Chunk {
    /// The hash of the chunk, under the key of the shard if it has one.
    pub hash: Hash,
    /// Where its bytes start among those of the xorb, unpacked.
    pub start: u32,
    /// Its bytes, unpacked.
    pub bytes: u32,
    /// The flags of the chunk, as the shard has them.
    pub flags: u32,
    /// The reserved word of the chunk, as the shard has it.
    pub reserved: u32,
}

/// A xorb of a shard.
#[derive(Clone, Debug, PartialEq, Eq)]
pub struct Xorb {
    /// The hash of the xorb.
    pub hash: Hash,
    /// The flags of the xorb, as the shard has them.
    pub flags: u32,
    /// Its bytes, unpacked.
    pub bytes: u32,
    /// Its bytes on disk.
    pub bytes_on_disk: u32,
    /// Its chunks, in order.
    pub chunks: Vec<Chunk>,
}

/// What one step of a walk shows: where the record is, what it says of itself, and its rows.
type Step<R> = Option<(calls::Place, R, usize)>;

/// Makes a call at a row, and again if its rows do not fit. `items` is room that is kept from step to step.
fn step<R: Default, I: Clone + Default>(
    row: u64,
    items: &mut Vec<I>,
    mut call: impl FnMut(u32, &mut calls::Place, &mut R, &mut [I]) -> u32,
    count: impl Fn(&R) -> Option<usize>,
) -> Result<Step<R>> {
    // A row past 32 bits is none of a section.
    let row = u32::try_from(row).map_err(|_| Error::InvalidShard)?;
    let (mut place, mut record) = (calls::Place::default(), R::default());
    let mut number = call(row, &mut place, &mut record, items);
    if number == SHORT {
        *items = zeros(count(&record).unwrap_or(0).next_power_of_two())?;
        number = call(row, &mut place, &mut record, items);
    }
    check(number)?;
    Ok(count(&record).map(|count| (place, record, count)))
}

/// A walk through the file section of a shard: see [`files`].
#[derive(Clone, Debug)]
#[must_use = "it reads nothing unless it is asked for files"]
pub struct FileIter<'a> {
    shard: &'a [u8],
    // The row of the next record, or `None` at the end.
    row: Option<u64>,
    room: Vec<calls::FileSegment>,
}

/// The files of a shard, one after another, in the order of its file section.
///
/// Each is read when it is asked for. After an error there is nothing more.
///
/// # Errors
///
/// - `ShardVersion`, `Io`: as of [`load`](crate::load); `Io` also if the bytes end before the section does.
/// - `InvalidShard`: a file has a row that the version does not have, or a number does not fit its width.
/// - `OutOfMemory`: an allocation failed.
///
/// ```
/// # fn main() -> Result<(), Box<dyn std::error::Error>> {
/// let shard = std::fs::read("examples/a.mdb")?;
/// for listed in xet_shards::files(&shard) {
///     let listed = listed?;
///     assert_eq!(listed.hash, [100, 1, 0, 0].into());
///     assert_eq!(xet_shards::find_file(&shard, listed.hash)?, Some(listed.file));
/// }
/// # Ok(())
/// # }
/// ```
pub fn files(shard: &[u8]) -> FileIter<'_> {
    FileIter { shard, row: Some(0), room: Vec::new() }
}

impl Iterator for FileIter<'_> {
    type Item = Result<ListedFile>;

    fn next(&mut self) -> Option<Self::Item> {
        let row = self.row.take()?;
        let found = file_by(&mut self.room, row, |row, place, file, items| {
            calls::xet_file_at(self.shard, row, place, file, items)
        });
        let found = found.transpose()?;
        Some(found.map(|(file, next)| {
            self.row = Some(next);
            file
        }))
    }
}

/// The file that a call shows, and the row after it.
pub(crate) fn file_by(
    room: &mut Vec<calls::FileSegment>,
    row: u64,
    call: impl FnMut(u32, &mut calls::Place, &mut calls::File, &mut [calls::FileSegment]) -> u32,
) -> Result<Option<(ListedFile, u64)>> {
    let found = step(row, room, call, |file: &calls::File| file.found.then_some(file.segments))?;
    Ok(found.map(|(place, file, count)| {
        (ListedFile { hash: place.hash, flags: place.flags, file: file_of(&file, &room[..count]) }, place.next)
    }))
}

/// The file at a row of the file section of a shard, and the row of the next one; or `None` at the end of the section.
///
/// # Errors
///
/// Those of [`files`].
///
/// ```
/// # fn main() -> Result<(), Box<dyn std::error::Error>> {
/// let shard = std::fs::read("examples/a.mdb")?;
/// let (file, next) = xet_shards::file_at(&shard, 0)?.expect("the shard has a file");
/// assert_eq!((file.hash, next), ([100, 1, 0, 0].into(), 2));
/// assert_eq!(xet_shards::file_at(&shard, 2)?, None);
/// # Ok(())
/// # }
/// ```
pub fn file_at(shard: &[u8], row: u32) -> Result<Option<(ListedFile, u64)>> {
    file_by(&mut Vec::new(), row.into(), |row, place, file, items| calls::xet_file_at(shard, row, place, file, items))
}

/// A walk through the xorb section of a shard: see [`xorbs`].
#[derive(Clone, Debug)]
#[must_use = "it reads nothing unless it is asked for xorbs"]
pub struct XorbIter<'a> {
    shard: &'a [u8],
    row: Option<u64>,
    room: Vec<Chunk>,
}

/// The xorbs of a shard, one after another, in the order of its xorb section.
///
/// # Errors
///
/// Those of [`files`].
///
/// ```
/// # fn main() -> Result<(), Box<dyn std::error::Error>> {
/// let shard = std::fs::read("examples/b.mdb")?;
/// let xorbs = xet_shards::xorbs(&shard).collect::<Result<Vec<_>, _>>()?;
/// assert_eq!((xorbs[0].bytes, xorbs[0].chunks.len()), (13, 2));
/// # Ok(())
/// # }
/// ```
pub fn xorbs(shard: &[u8]) -> XorbIter<'_> {
    XorbIter { shard, row: Some(0), room: Vec::new() }
}

impl Iterator for XorbIter<'_> {
    type Item = Result<Xorb>;

    fn next(&mut self) -> Option<Self::Item> {
        let row = self.row.take()?;
        let found = xorb_by(&mut self.room, row, |row, place, xorb, items| {
            calls::xet_xorb_at(self.shard, row, place, xorb, items)
        });
        let found = found.transpose()?;
        Some(found.map(|(xorb, next)| {
            self.row = Some(next);
            xorb
        }))
    }
}

/// The xorb that a call shows, and the row after it.
pub(crate) fn xorb_by(
    room: &mut Vec<Chunk>,
    row: u64,
    call: impl FnMut(u32, &mut calls::Place, &mut calls::Xorb, &mut [Chunk]) -> u32,
) -> Result<Option<(Xorb, u64)>> {
    let found = step(row, room, call, |xorb: &calls::Xorb| xorb.found.then_some(xorb.chunks))?;
    let shown = |(place, xorb, count): (calls::Place, calls::Xorb, usize)| {
        let (bytes, bytes_on_disk, chunks) = (xorb.bytes, xorb.bytes_on_disk, copied(&room[..count])?);
        Ok((Xorb { hash: place.hash, flags: place.flags, bytes, bytes_on_disk, chunks }, place.next))
    };
    found.map(shown).transpose()
}

/// The xorb at a row of the xorb section of a shard, and the row of the next one; or `None` at the end of the section.
///
/// # Errors
///
/// Those of [`files`].
///
/// ```
/// # fn main() -> Result<(), Box<dyn std::error::Error>> {
/// let shard = std::fs::read("examples/b.mdb")?;
/// let (xorb, next) = xet_shards::xorb_at(&shard, 0)?.expect("the shard has a xorb");
/// assert_eq!((xorb.bytes, next), (13, 3));
/// assert_eq!(xet_shards::xorb_at(&shard, 3)?, None);
/// # Ok(())
/// # }
/// ```
pub fn xorb_at(shard: &[u8], row: u32) -> Result<Option<(Xorb, u64)>> {
    xorb_by(&mut Vec::new(), row.into(), |row, place, xorb, items| calls::xet_xorb_at(shard, row, place, xorb, items))
}
