//! What is wrong with the bytes of a shard.

use crate::output::filled;
use crate::{calls, Result};

/// The part of a shard that a [`Finding`] is about.
#[derive(Clone, Copy, Debug, PartialEq, Eq, Hash)]
#[non_exhaustive]
pub enum Part {
    /// The first 48 bytes.
    Header,
    /// The records of files.
    FileSection,
    /// The records of xorbs.
    XorbSection,
    /// The table of files.
    FileTable,
    /// The table of xorbs.
    XorbTable,
    /// The table of chunks.
    ChunkTable,
    /// The last 200 bytes.
    Footer,
    /// A part with this number, of a library that is newer than this crate.
    Unknown(u32),
}

/// What is wrong with the bytes of a shard.
#[derive(Clone, Copy, Debug, PartialEq, Eq, Hash)]
#[non_exhaustive]
pub enum Finding {
    /// The first 32 bytes are not the tag of a shard.
    NoTag,
    /// The header has this version, which is neither 2 nor 3.
    OtherVersion(u64),
    /// The last 200 bytes are no footer: the bytes were cut or lengthened.
    NoFooter,
    /// There are too few bytes for a header and a footer.
    TooShort,
    /// The bytes end before this section does.
    Cut(Part),
    /// The section has a header that the version does not have, or more than 4294967295 rows.
    Refused(Part),
    /// The hash of the record at this index of the section, from 0 on, is not greater than the one before.
    OutOfOrder(Part, u64),
    /// The part is not the one that the records give; of a section this is its end.
    Differs(Part),
    /// The records give this size, and the bytes have another.
    OtherSize(u64),
    /// The record at this index of the section, from 0 on, is one that no shard may have: a file with flags beside
    /// those of its parts, or with a reserved word that is not zero in its header or in a row of an optional part, or
    /// a xorb whose chunks have more than 4294967295 bytes together.
    MalformedRecord(Part, u64),
    /// Rows of the chunk table that share a first word stand in another order than the library writes. It is a note:
    /// nothing is lost.
    Reordered,
    /// A finding with this number, of a library that is newer than this crate.
    Unknown(u32),
}

impl Finding {
    /// Whether this is a note, and no fault: nothing is lost.
    #[must_use]
    pub fn is_note(&self) -> bool {
        matches!(self, Finding::Reordered)
    }
}

/// Returns all that is wrong with the bytes of a shard.
///
/// It is nothing if they are, byte for byte, what the library writes of the records in them, in their version and with
/// their key, their times and the tables of which the footer says that they have rows, and if the hashes ascend and a
/// shard may have each record. If the bytes can't be read, nothing else is looked for.
///
/// The original leaves rows of the chunk table that share a first word in any order. So of a shard that it wrote, in
/// which a chunk occurs more than once, there is mostly [`Finding::Reordered`], which is a note and no fault
/// ([`Finding::is_note`]): the bytes are as above but for this order.
///
/// # Errors
///
/// - `OutOfMemory`: an allocation failed.
///
/// ```
/// # fn main() -> Result<(), Box<dyn std::error::Error>> {
/// use xet_shards::{Finding, Part};
/// let mut shard = std::fs::read("examples/a.mdb")?;
/// assert_eq!(xet_shards::check(&shard)?, []);
/// shard[40] = 1;
/// assert_eq!(xet_shards::check(&shard)?, [Finding::Differs(Part::Header)]);
/// # Ok(())
/// # }
/// ```
pub fn check(shard: &[u8]) -> Result<Vec<Finding>> {
    let found = filled(16, |out, written| calls::xet_check(shard, out, written))?;
    Ok(found.iter().map(finding_of).collect())
}

fn finding_of(found: &calls::Finding) -> Finding {
    match found.kind {
        1 => Finding::NoTag,
        2 => Finding::OtherVersion(found.number),
        3 => Finding::NoFooter,
        4 => Finding::TooShort,
        5 => Finding::Cut(part_of(found)),
        6 => Finding::Refused(part_of(found)),
        7 => Finding::OutOfOrder(part_of(found), found.number),
        8 => Finding::Differs(part_of(found)),
        9 => Finding::OtherSize(found.number),
        10 => Finding::MalformedRecord(part_of(found), found.number),
        11 => Finding::Reordered,
        other => Finding::Unknown(other),
    }
}

fn part_of(found: &calls::Finding) -> Part {
    match found.part {
        1 => Part::Header,
        2 => Part::FileSection,
        3 => Part::XorbSection,
        4 => Part::FileTable,
        5 => Part::XorbTable,
        6 => Part::ChunkTable,
        7 => Part::Footer,
        other => Part::Unknown(other),
    }
}

#[cfg(test)]
mod tests {
    use super::{calls, finding_of, Finding, Part};

    #[test]
    fn an_unknown_kind_is_no_note() {
        let found = finding_of(&calls::Finding { kind: 12, ..Default::default() });
        assert_eq!(found, Finding::Unknown(12));
        assert!(!found.is_note());
    }

    #[test]
    fn an_unknown_part_is_no_other() {
        let part = |part| finding_of(&calls::Finding { kind: 8, part, ..Default::default() });
        assert_eq!([7, 8].map(part), [Part::Footer, Part::Unknown(8)].map(Finding::Differs));
    }
}
