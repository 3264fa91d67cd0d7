//! Unions, differences and disagreements.

use crate::calls::{self, Bytes};
use crate::error::{check, Error, DISAGREE, MALFORMED, SHORT};
use crate::output::{bytes_of, filled, with_room};
use crate::threads::merge_in_threads;
use crate::{Hash, Result, Version};
use std::fmt;

/// The first room for disagreements. Where there are more, all records are compared twice.
const DISAGREEMENTS: usize = 1024;

/// The hash of a file or of a xorb.
#[derive(Clone, Copy, Debug, PartialEq, Eq, Hash)]
pub enum RecordHash {
    /// Of a file.
    File(Hash),
    /// Of a xorb.
    Xorb(Hash),
}

impl RecordHash {
    fn of(found: &calls::Disagreement) -> RecordHash {
        if found.is_xorb {
            RecordHash::Xorb(found.hash)
        } else {
            RecordHash::File(found.hash)
        }
    }
}

impl fmt::Display for RecordHash {
    fn fmt(&self, f: &mut fmt::Formatter<'_>) -> fmt::Result {
        match self {
            RecordHash::File(hash) => write!(f, "file {hash}"),
            RecordHash::Xorb(hash) => write!(f, "xorb {hash}"),
        }
    }
}

/// A hash under which two shards have records that do not agree.
#[derive(Clone, Copy, Debug, PartialEq, Eq, Hash)]
pub struct Disagreement {
    /// The hash.
    pub record_hash: RecordHash,
    /// The index of one such shard in the list.
    pub first: usize,
    /// The index of another.
    pub second: usize,
    /// How many such hashes the list has in all.
    pub count: usize,
}

impl Disagreement {
    fn of(found: &calls::Disagreement, count: usize) -> Disagreement {
        Disagreement { record_hash: RecordHash::of(found), first: found.first, second: found.second, count }
    }
}

impl fmt::Display for Disagreement {
    fn fmt(&self, f: &mut fmt::Formatter<'_>) -> fmt::Result {
        write!(f, "the shards at {} and {} do not agree on {}", self.first, self.second, self.record_hash)?;
        match self.count {
            0 | 1 => Ok(()),
            count => write!(f, ", one of {count} hashes that find_disagreements lists"),
        }
    }
}

/// A record that no shard may have, though it can be read: a file whose header has a reserved word that is not 0 or
/// flags of no known part, or a xorb whose chunks have more than 4294967295 bytes together.
#[derive(Clone, Copy, Debug, PartialEq, Eq, Hash)]
pub struct MalformedRecord {
    /// The hash of the record.
    pub record_hash: RecordHash,
    /// The index of the shard in the list.
    pub index: usize,
}

impl MalformedRecord {
    fn of(found: &calls::Disagreement) -> MalformedRecord {
        MalformedRecord { record_hash: RecordHash::of(found), index: found.first }
    }
}

impl fmt::Display for MalformedRecord {
    fn fmt(&self, f: &mut fmt::Formatter<'_>) -> fmt::Result {
        write!(f, "the shard at {} has a record that no shard may have, of {}", self.index, self.record_hash)
    }
}

/// Which records are merged, what is asked of them, and how. The default is all records of any shards, by one thread.
///
/// ```
/// use xet_shards::{merge, Hash, Merge, Version};
///
/// # fn main() -> Result<(), Box<dyn std::error::Error>> {
/// let shards = [std::fs::read("examples/a.mdb")?, std::fs::read("examples/b.mdb")?];
/// let merged = merge(&shards, &Merge { strict: true, threads: 4, ..Merge::default() })?;
/// assert_eq!(merged, merge(&shards, &Merge::default())?);
///
/// let middle = Hash([1 << 63, 0, 0, 0]);
/// let low = merge(&shards, &Merge { to: Some(middle), ..Merge::default() })?;
/// let high = merge(&shards, &Merge { from: Some(middle), ..Merge::default() })?;
/// assert_eq!(xet_shards::concatenate(&[low, high])?, merged);
///
/// let old = merge(&shards, &Merge { version: Version::V2, ..Merge::default() })?;
/// assert_eq!(old, xet_shards::convert(&merged, Version::V2)?);
/// # Ok(())
/// # }
/// ```
#[derive(Clone, Copy, Debug, Default, PartialEq, Eq)]
pub struct Merge {
    /// Only records whose hash is not below it, files by that of the file and xorbs by that of the xorb.
    pub from: Option<Hash>,
    /// Only records whose hash is below it.
    pub to: Option<Hash>,
    /// These records have to be well-formed, and to agree wherever two have one hash.
    pub strict: bool,
    /// So many threads at most merge a range of hashes each, and then write a span each of what [`concatenate`] makes
    /// of the results: the bytes of the output are in memory twice. 0 means 1.
    pub threads: usize,
    /// The version of the format.
    pub version: Version,
}

/// The union of one shard or more under one key: the records of all, or those that [`Merge`] asks for. Of the records
/// with one hash it has what is made of them by uniting the first half of the list with the second, each made in the
/// same way; `xet.h` says what that is of two.
///
/// Of well-formed shards that agree pairwise it is the same bytes in any order, which `strict` makes sure of. Ranges
/// that follow one another then have together each record once, so each may be merged by a thread or a machine of its
/// own.
///
/// # Errors
///
/// Of several causes any may be told.
///
/// - `ShardVersion`, `Io`: as of [`load`](crate::load), of any shard; `Io` also if a section ends too early.
/// - `InvalidArguments`: there is no shard, the keys differ, or a file has an auxiliary row and the version is 2.
/// - `InvalidShard`: hashes of a section do not ascend, a file has a row that its version does not have, or a section,
///   here or in the union, has more than 4294967295 rows; or two files that have to be combined have different numbers
///   of segments.
/// - `Malformed`, `Disagree`: with `strict`, a record is one that no shard may have, or two do not agree. Then the first
///   shard decides that cannot be read or is not well-formed; next come shards that do not agree, then keys.
/// - `OutOfMemory`: an allocation failed.
///
/// ```
/// use xet_shards::{merge, Error, Merge, RecordHash};
///
/// # fn main() -> Result<(), Box<dyn std::error::Error>> {
/// let [a, b, c] = ["a", "b", "c"].map(|it| std::fs::read(format!("examples/{it}.mdb")));
/// let (a, b, c) = (a?, b?, c?);
/// assert_eq!(xet_shards::load(&merge(&[&a, &b, &a], &Merge::default())?)?.files, 2);
///
/// match merge(&[&a, &b, &c], &Merge { strict: true, ..Merge::default() }) {
///     Err(Error::Disagree(it)) => assert_eq!(it.record_hash, RecordHash::File([100, 1, 0, 0].into())),
///     _ => unreachable!("a.mdb and c.mdb differ in a file"),
/// }
/// # Ok(())
/// # }
/// ```
pub fn merge<T: AsRef<[u8]>>(shards: &[T], options: &Merge) -> Result<Vec<u8>> {
    let (list, length) = listed(shards)?;
    // A merge by one call gives the error, or the bytes of shards that can be merged and not concatenated.
    match merge_in_threads(shards, options) {
        Some(merged) => Ok(merged),
        None => merge_list(&list, length, options, false),
    }
}

/// The merge of a list of shards of so many bytes by one call.
pub(crate) fn merge_list(list: &[Bytes<'_>], length: usize, options: &Merge, by_tables: bool) -> Result<Vec<u8>> {
    let asked = calls::MergeOptions {
        from: options.from.unwrap_or_default(),
        to: options.to.unwrap_or_default(),
        has_from: options.from.is_some(),
        has_to: options.to.is_some(),
        strict: options.strict,
        by_tables,
    };
    let mut found = None;
    let merged = bytes_of(length, |out, written| {
        let (mut count, mut first) = (0, calls::Disagreement::default());
        let number = calls::xet_merge(list, &asked, options.version.number(), out, written, &mut count, &mut first);
        found = match number {
            DISAGREE => Some(Error::Disagree(Disagreement::of(&first, count))),
            MALFORMED => Some(Error::Malformed(MalformedRecord::of(&first))),
            _ => None,
        };
        number
    });
    found.map_or(merged, Err)
}

/// The union of two shards of one key: the [`merge`] of both.
///
/// # Errors
///
/// Those of [`merge`].
///
/// ```
/// use xet_shards::Version;
///
/// # fn main() -> Result<(), Box<dyn std::error::Error>> {
/// let (one, other) = (std::fs::read("examples/a.mdb")?, std::fs::read("examples/b.mdb")?);
/// let union = xet_shards::union(&one, &other, Version::V3)?;
/// assert_eq!(union, xet_shards::union(&other, &one, Version::V3)?);
/// assert_eq!(xet_shards::load(&union)?.files, 2);
/// # Ok(())
/// # }
/// ```
pub fn union(first: &[u8], second: &[u8], version: Version) -> Result<Vec<u8>> {
    merge(&[first, second], &Merge { version, ..Merge::default() })
}

/// The second shard's records whose hashes the first does not have. Both have one key.
///
/// # Errors
///
/// Those of [`merge`], without that of files that have to be combined.
///
/// ```
/// use xet_shards::Version;
///
/// # fn main() -> Result<(), Box<dyn std::error::Error>> {
/// let (one, other) = (std::fs::read("examples/a.mdb")?, std::fs::read("examples/b.mdb")?);
/// let union = xet_shards::union(&one, &other, Version::V3)?;
/// assert_eq!(xet_shards::difference(&one, &union, Version::V3)?, other);
/// # Ok(())
/// # }
/// ```
pub fn difference(first: &[u8], second: &[u8], version: Version) -> Result<Vec<u8>> {
    bytes_of(second.len(), |out, written| calls::xet_difference(first, second, version.number(), out, written))
}

/// The shard that has the records of one shard or more, in their order, with all tables, under the key of all, and
/// without timestamps, in version 2 of the format if all have it, else in version 3. The hashes of files have to ascend
/// from each shard to the next, and so have those of xorbs. So it puts together what [`merge`] gives of well-formed
/// shards that agree, for ranges that follow one another, from no bound to no bound: it is what the one merge gives.
/// Records are copied and not checked: [`check`](crate::check) tells what is wrong with what is made of shards that are
/// not trusted.
///
/// # Errors
///
/// - `InvalidArguments`: there is no shard, the keys differ, or hashes do not ascend from one shard to the next.
/// - `ShardVersion`, `Io`: as of [`load`](crate::load), of any shard.
/// - `InvalidShard`: a shard lacks tables, as a minimal one does, or its footer or its table of chunks is not in order,
///   or the rows of a section pass 4294967295 or a sum of bytes 64 bits.
/// - `OutOfMemory`: an allocation failed.
///
/// ```
/// use xet_shards::{concatenate, merge, Hash, Merge};
///
/// # fn main() -> Result<(), Box<dyn std::error::Error>> {
/// let shards = [std::fs::read("examples/a.mdb")?, std::fs::read("examples/b.mdb")?];
/// let middle = Some(Hash([1 << 63, 0, 0, 0]));
/// let low = merge(&shards, &Merge { to: middle, ..Merge::default() })?;
/// let high = merge(&shards, &Merge { from: middle, ..Merge::default() })?;
/// assert_eq!(concatenate(&[low, high])?, merge(&shards, &Merge::default())?);
/// # Ok(())
/// # }
/// ```
pub fn concatenate<T: AsRef<[u8]>>(shards: &[T]) -> Result<Vec<u8>> {
    let (list, length) = listed(shards)?;
    bytes_of(length, |out, written| calls::xet_concatenate(&list, out, written))
}

/// What [`concatenate`] returns, straight to the front of `out`, and its number of bytes. If `out` is too small, and
/// after any error, it stays as it is: if it is too small, the number is greater than its length. It may be a file that
/// is mapped to memory; beside it the call needs some hundred bytes a shard.
///
/// # Errors
///
/// As of [`concatenate`].
///
/// ```
/// use xet_shards::{concatenate_into, merge, Hash, Merge};
///
/// # fn main() -> Result<(), Box<dyn std::error::Error>> {
/// let shards = [std::fs::read("examples/a.mdb")?, std::fs::read("examples/b.mdb")?];
/// let middle = Some(Hash([1 << 63, 0, 0, 0]));
/// let low = merge(&shards, &Merge { to: middle, ..Merge::default() })?;
/// let high = merge(&shards, &Merge { from: middle, ..Merge::default() })?;
/// let whole = merge(&shards, &Merge::default())?;
/// let mut out = vec![7; whole.len() + 1];
/// assert_eq!(concatenate_into(&[&low, &high], &mut out[..whole.len() - 1])?, whole.len());
/// assert!(concatenate_into(&[&low, &low], &mut out).is_err());
/// assert_eq!(out, vec![7; whole.len() + 1]);
/// assert_eq!(concatenate_into(&[&low, &high], &mut out)?, whole.len());
/// assert_eq!((&out[..whole.len()], out[whole.len()]), (&whole[..], 7));
/// # Ok(())
/// # }
/// ```
pub fn concatenate_into<T: AsRef<[u8]>>(shards: &[T], out: &mut [u8]) -> Result<usize> {
    let (list, mut written) = (listed(shards)?.0, 0);
    let number = calls::xet_concatenate(&list, out, &mut written);
    if number != SHORT {
        check(number)?;
    }
    Ok(written)
}

/// Fills `out` with the bytes of what [`concatenate`] returns from an offset on. Returns the size of the whole.
pub(crate) fn concatenate_span<T: AsRef<[u8]>>(shards: &[T], from: usize, out: &mut [u8]) -> Result<usize> {
    let (list, mut size) = (listed(shards)?.0, 0);
    check(calls::xet_concatenate_span(&list, from, out, &mut size))?;
    Ok(size)
}

/// All hashes under which two of the shards have records that do not agree, each once: those of files, then those of
/// xorbs, and each in ascending order. If there is none, each two agree.
///
/// Two files agree if they have equal segments, and an equal optional part wherever both have it, and two xorbs if they
/// are equal. The keys of the shards do not count.
///
/// # Errors
///
/// Those of [`merge`] that one of the shards alone is the cause of, and `OutOfMemory`.
///
/// ```
/// # fn main() -> Result<(), Box<dyn std::error::Error>> {
/// let [a, b, c] = ["a", "b", "c"].map(|it| std::fs::read(format!("examples/{it}.mdb")));
/// let shards = [a?, b?, c?];
/// assert_eq!(xet_shards::find_disagreements(&shards[..2])?, []);
/// for it in xet_shards::find_disagreements(&shards)? {
///     println!("{} differs in the shards at {} and {}", it.record_hash, it.first, it.second);
/// }
/// # Ok(())
/// # }
/// ```
pub fn find_disagreements<T: AsRef<[u8]>>(shards: &[T]) -> Result<Vec<Disagreement>> {
    let (list, _) = listed(shards)?;
    let found = filled(DISAGREEMENTS, |out, written| calls::xet_find_disagreements(&list, out, written))?;
    Ok(found.iter().map(|it| Disagreement::of(it, found.len())).collect())
}

/// Looks for a record that no shard may have, of the first shard that has one. If there is none, each shard is
/// well-formed; if they also agree, the order of a merge does not count.
///
/// # Errors
///
/// Those of [`find_disagreements`].
///
/// ```
/// # fn main() -> Result<(), Box<dyn std::error::Error>> {
/// let [a, b] = ["a", "b"].map(|it| std::fs::read(format!("examples/{it}.mdb")));
/// let mut shards = [a?, b?];
/// assert_eq!(xet_shards::find_malformed(&shards)?, None);
/// // The reserved word of the first file's header.
/// shards[1][88] = 1;
/// assert_eq!(xet_shards::find_malformed(&shards)?.map(|it| it.index), Some(1));
/// # Ok(())
/// # }
/// ```
pub fn find_malformed<T: AsRef<[u8]>>(shards: &[T]) -> Result<Option<MalformedRecord>> {
    let (list, _) = listed(shards)?;
    let (mut malformed, mut found) = (false, calls::Disagreement::default());
    check(calls::xet_find_malformed(&list, &mut malformed, &mut found))?;
    Ok(malformed.then(|| MalformedRecord::of(&found)))
}

/// The shards as the library takes a list of them, and the sum of their lengths.
pub(crate) fn listed<T: AsRef<[u8]>>(shards: &[T]) -> Result<(Vec<Bytes<'_>>, usize)> {
    let (mut list, mut length) = (with_room(shards.len())?, 0usize);
    for shard in shards {
        length = length.saturating_add(shard.as_ref().len());
        list.push(Bytes::from(shard.as_ref()));
    }
    Ok((list, length))
}

#[cfg(test)]
mod tests {
    use super::*;

    #[test]
    fn strict_merges_leave_their_output() {
        let [a, b, c] = ["a", "b", "c"].map(|it| std::fs::read(format!("examples/{it}.mdb")).expect("a shard"));
        let merged = merge(&[&a, &b], &Merge::default()).expect("a merge");
        let mut malformed = a.clone();
        // The reserved word of the first file.
        malformed[48 + 40] = 1;
        let strict = |shards: &[&[u8]], out: &mut [u8]| {
            let (mut written, mut count, mut found) = (7, 7, calls::Disagreement::default());
            let (list, _) = listed(shards).expect("a list");
            let options = calls::MergeOptions { strict: true, ..Default::default() };
            let number = calls::xet_merge(&list, &options, 3, out, &mut written, &mut count, &mut found);
            (number, written, count)
        };
        let mut out = vec![7; merged.len() + 1];
        let before = out.clone();
        assert_eq!(strict(&[&a, &b, &c], &mut out), (DISAGREE, 0, 1));
        assert_eq!(strict(&[&a, &malformed], &mut out), (MALFORMED, 0, 0));
        assert_eq!(strict(&[&a, &b[..199]], &mut out), (1, 0, 0));
        assert_eq!(strict(&[], &mut out), (13, 0, 0));
        assert_eq!(strict(&[&a, &b], &mut out[..merged.len() - 1]), (SHORT, merged.len(), 0));
        assert_eq!(out, before);
        assert_eq!(strict(&[&a, &b], &mut out), (0, merged.len(), 0));
        assert_eq!((&out[..merged.len()], out[merged.len()]), (&merged[..], 7));
    }
}
