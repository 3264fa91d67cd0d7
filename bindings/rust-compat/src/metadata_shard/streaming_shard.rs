//! Sections that are read in one pass, and minimal shards.

use super::file_structs::{FileDataSequenceHeader, MDBFileInfoView};
use super::shard_format::{current_timestamp, MDBShardInfo};
use super::xorb_structs::{MDBXorbInfoView, XorbChunkSequenceHeader};
use super::{MDBShardFileFooter, MDBShardFileHeader};
use crate::error::{CoreError, Result};
use crate::merklehash::MerkleHash;
use crate::rows::read_record;
use std::io::{self, Read, Write};
use std::time::{SystemTime, UNIX_EPOCH};
use xet_shards::{Minimal, Subset, Version, Xorbs};

/// Calls a function with each file of a section, whose start the reader is at, without its auxiliary row. The reader is
/// then at the end of the section.
///
/// # Errors
///
/// Those of the function, after which nothing more is read. `Io`: the reader failed, or ends before the section.
pub fn process_shard_file_info_section<R: Read, FileFunc>(reader: &mut R, mut file_callback: FileFunc) -> Result<()>
where
    FileFunc: FnMut(MDBFileInfoView) -> Result<()>,
{
    while let Some(record) = read_record(reader)? {
        file_callback(MDBFileInfoView::of_record(record))?;
    }
    Ok(())
}

/// Calls a function with each xorb of a section, whose start the reader is at. The reader is then at the end of the
/// section.
///
/// # Errors
///
/// Those of the function, after which nothing more is read. `Io`: the reader failed, or ends before the section.
pub fn process_shard_xorb_info_section<R: Read, XorbFunc>(reader: &mut R, mut xorb_callback: XorbFunc) -> Result<()>
where
    XorbFunc: FnMut(MDBXorbInfoView) -> Result<()>,
{
    while let Some(record) = read_record(reader)? {
        xorb_callback(MDBXorbInfoView::of_record(record))?;
    }
    Ok(())
}

/// The records of a shard, as views, without its tables.
#[derive(Clone, Debug, PartialEq)]
pub struct MDBMinimalShard {
    file_info_views: Vec<MDBFileInfoView>,
    xorb_info_views: Vec<MDBXorbInfoView>,
}

impl MDBMinimalShard {
    /// Reads a shard from its front to the end of its sections, or of that of files if xorbs are left out.
    ///
    /// # Errors
    ///
    /// - `ShardVersion`: the tag is another, or the version is neither 2 nor 3.
    /// - `InvalidShard`: a file of version 2 has an auxiliary row.
    /// - `Io`: the reader failed, or ends before.
    pub fn from_reader<R: Read>(reader: &mut R, include_files: bool, include_xorb: bool) -> Result<Self> {
        let header = MDBShardFileHeader::deserialize(reader)?;
        let mut shard = Self { file_info_views: Vec::new(), xorb_info_views: Vec::new() };
        while let Some(record) = read_record::<FileDataSequenceHeader, R>(reader)? {
            if record.0.has_aux() && header.version == 2 {
                return Err(CoreError::invalid_shard("a file of version 2 has an auxiliary row"));
            }
            if include_files {
                shard.file_info_views.push(MDBFileInfoView::of_record(record));
            }
        }
        if include_xorb {
            process_shard_xorb_info_section(reader, |xorb| {
                shard.xorb_info_views.push(xorb);
                Ok(())
            })?;
        }
        Ok(shard)
    }

    /// Whether the first file has verification rows.
    #[must_use]
    pub fn has_file_verification(&self) -> bool {
        self.file_info_views.first().map_or(false, MDBFileInfoView::contains_verification)
    }

    /// The number of files.
    #[must_use]
    pub fn num_files(&self) -> usize {
        self.file_info_views.len()
    }

    /// The file at an index.
    #[must_use]
    pub fn file(&self, index: usize) -> Option<&MDBFileInfoView> {
        self.file_info_views.get(index)
    }

    /// The number of xorbs.
    #[must_use]
    pub fn num_xorb(&self) -> usize {
        self.xorb_info_views.len()
    }

    /// The xorb at an index.
    #[must_use]
    pub fn xorb(&self, index: usize) -> Option<&MDBXorbInfoView> {
        self.xorb_info_views.get(index)
    }

    /// The number of bytes that [`serialize`](Self::serialize) writes; 0 if verification rows are asked for and the
    /// first file has none, or there is no file.
    #[must_use]
    pub fn serialized_size(&self, with_verification: bool) -> usize {
        if with_verification && !self.has_file_verification() {
            return 0;
        }
        MDBShardInfo::non_content_byte_size() as usize
            + self.file_info_views.iter().map(|it| it.byte_size(with_verification)).sum::<usize>()
            + self.xorb_info_views.iter().map(MDBXorbInfoView::byte_size).sum::<usize>()
    }

    /// Header and sections with all files and these xorbs.
    fn sections<'a>(&self, xorbs: impl Iterator<Item = &'a MDBXorbInfoView>) -> Result<Vec<u8>> {
        let mut bytes = Vec::new();
        MDBShardFileHeader::default().serialize(&mut bytes)?;
        for file in &self.file_info_views {
            file.serialize(&mut bytes, file.contains_verification())?;
        }
        FileDataSequenceHeader::bookend().serialize(&mut bytes)?;
        for xorb in xorbs {
            xorb.serialize(&mut bytes)?;
        }
        XorbChunkSequenceHeader::bookend().serialize(&mut bytes)?;
        Ok(bytes)
    }

    /// The same with all xorbs, and a footer, which calls that find the sections behind the header look for.
    pub(crate) fn with_footer(&self) -> Result<Vec<u8>> {
        let mut bytes = self.sections(self.xorb_info_views.iter())?;
        MDBShardFileFooter::default().serialize(&mut bytes)?;
        Ok(bytes)
    }

    /// Writes the records without tables, in version 2, with a mark at each chunk at which a file starts, and returns
    /// the number of bytes. The shard is created now, with expiry 0.
    ///
    /// # Errors
    ///
    /// `Io`: the writer failed; or, before a byte is written, verification rows are asked for and a file has none.
    /// `OutOfMemory`: an allocation failed.
    pub fn serialize<W: Write>(&self, writer: &mut W, with_verification: bool) -> Result<usize> {
        if with_verification && !self.file_info_views.iter().all(MDBFileInfoView::contains_verification) {
            return Err(io::Error::new(io::ErrorKind::Other, "a file has no verification rows").into());
        }
        let sections = self.sections(self.xorb_info_views.iter())?;
        let options = Minimal {
            now: current_timestamp(),
            verification: with_verification,
            aux_rows: false,
            version: Version::V2,
        };
        write_made(xet_shards::minimal(&sections, &options)?, writer)
    }

    /// Writes the xorbs that a function keeps, without files and tables, in version 2, with a mark at each chunk at
    /// which a file starts, and returns the number of bytes. The shard is created now, with expiry 0.
    ///
    /// # Errors
    ///
    /// `Io`: the writer failed. `OutOfMemory`: an allocation failed.
    pub fn serialize_xorb_subset_only<W: Write>(
        &self,
        writer: &mut W,
        xorb_filter_fn: impl Fn(&MDBXorbInfoView) -> bool,
    ) -> Result<usize> {
        self.serialize_xorb_subset_with_expiry(writer, None, xorb_filter_fn)
    }

    /// The same with an expiry, if one is given; a time before 1970 is 0.
    ///
    /// # Errors
    ///
    /// `Io`: the writer failed. `OutOfMemory`: an allocation failed.
    pub fn serialize_xorb_subset_with_expiry<W: Write>(
        &self,
        writer: &mut W,
        expiry: Option<SystemTime>,
        xorb_filter_fn: impl Fn(&MDBXorbInfoView) -> bool,
    ) -> Result<usize> {
        let sections = self.sections(self.xorb_info_views.iter().filter(|it| xorb_filter_fn(it)))?;
        let expiry = expiry.map(|it| it.duration_since(UNIX_EPOCH).unwrap_or_default().as_secs());
        let options = Subset { now: current_timestamp(), expiry, xorbs: Xorbs::All, version: Version::V2 };
        write_made(xet_shards::subset(&sections, &options)?, writer)
    }

    /// The hashes of the chunks that the global index keeps, each once and in ascending order: chunks that are marked,
    /// those whose last word is a multiple of 1024, and those at which a file starts.
    ///
    /// # Panics
    ///
    /// An allocation failed.
    #[must_use]
    pub fn global_dedup_eligible_chunks(&self) -> Vec<MerkleHash> {
        let sections = self.sections(self.xorb_info_views.iter()).expect("a vector takes all bytes");
        let hashes = xet_shards::eligible(&sections).expect("the sections are whole, and there is memory");
        hashes.into_iter().map(MerkleHash::from).collect()
    }
}

fn write_made<W: Write>(made: Vec<u8>, writer: &mut W) -> Result<usize> {
    writer.write_all(&made)?;
    Ok(made.len())
}
