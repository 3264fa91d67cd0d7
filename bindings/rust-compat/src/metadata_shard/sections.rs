//! The sections and tables of a shard, read whole.

use super::file_structs::{FileDataSequenceHeader, FileMetadataExt, MDBFileInfo};
use super::streaming_shard::MDBMinimalShard;
use super::utils::truncate_hash;
use super::xorb_structs::{MDBXorbInfo, XorbChunkSequenceHeader};
use super::{MDBShardFileHeader, MDBShardInfo};
use crate::error::Result;
use crate::merklehash::MerkleHash;
use crate::rows::SIZE;
use crate::serialization_utils::{read_u32, read_u64};
use std::io::{Read, Seek, SeekFrom};

/// A file's hash, where its segments start and end, the same of its verification rows, and its SHA-256.
type FileRanges = (MerkleHash, (u64, u64), Option<(u64, u64)>, Option<MerkleHash>);

impl MDBShardInfo {
    /// All files, in the order of their section.
    ///
    /// # Errors
    ///
    /// - `Io`: the reader failed, or ends before.
    /// - `InvalidShard`: a file has a row that the version does not have, or more than 4294967295.
    pub fn read_all_file_info_sections<R: Read + Seek>(&self, reader: &mut R) -> Result<Vec<MDBFileInfo>> {
        reader.seek(SeekFrom::Start(self.metadata.file_info_offset))?;
        let mut files = Vec::new();
        while let Some(file) = MDBFileInfo::read(reader, self.header.version)? {
            files.push(file);
        }
        Ok(files)
    }

    /// The header of each xorb, in the order of their section, and where it starts in the shard. Chunks are not read.
    ///
    /// # Errors
    ///
    /// `Io`: the reader failed, or ends before.
    pub fn read_all_xorb_blocks<R: Read + Seek>(&self, reader: &mut R) -> Result<Vec<(XorbChunkSequenceHeader, u64)>> {
        let mut at = reader.seek(SeekFrom::Start(self.metadata.xorb_info_offset))?;
        let mut xorbs = Vec::new();
        loop {
            let header = XorbChunkSequenceHeader::deserialize(reader)?;
            if header.is_bookend() {
                return Ok(xorbs);
            }
            let next = skip_rows(reader, header.num_entries)?;
            xorbs.push((header, at));
            at = next;
        }
    }

    /// All xorbs with their chunks, in the order of their section.
    ///
    /// # Errors
    ///
    /// `Io`: the reader failed, or ends before.
    pub fn read_all_xorb_blocks_full<R: Read + Seek>(&self, reader: &mut R) -> Result<Vec<MDBXorbInfo>> {
        reader.seek(SeekFrom::Start(self.metadata.xorb_info_offset))?;
        let mut xorbs = Vec::new();
        while let Some(xorb) = MDBXorbInfo::deserialize(reader)? {
            xorbs.push(xorb);
        }
        Ok(xorbs)
    }

    /// The table of xorbs: the first word of each hash, and the row of the section at which the record starts.
    ///
    /// # Errors
    ///
    /// `Io`: the reader failed, or ends before.
    pub fn read_full_xorb_lookup<R: Read + Seek>(&self, reader: &mut R) -> Result<Vec<(u64, u32)>> {
        reader.seek(SeekFrom::Start(self.metadata.xorb_lookup_offset))?;
        let mut rows = Vec::new();
        for _ in 0..self.metadata.xorb_lookup_num_entry {
            rows.push((read_u64(reader)?, read_u32(reader)?));
        }
        Ok(rows)
    }

    /// Where all chunks are: the first word of each hash, under the key of the shard if it has one, the row of the
    /// section of xorbs at which its xorb starts, and its index there. It is the table of chunks, or, if that is left
    /// out, the rows that it would have, in the order of the section.
    ///
    /// # Errors
    ///
    /// `Io`: the reader failed, or ends before.
    pub fn read_all_truncated_hashes<R: Read + Seek>(&self, reader: &mut R) -> Result<Vec<(u64, (u32, u32))>> {
        let mut rows = Vec::new();
        if self.metadata.chunk_lookup_num_entry != 0 {
            reader.seek(SeekFrom::Start(self.metadata.chunk_lookup_offset))?;
            for _ in 0..self.metadata.chunk_lookup_num_entry {
                rows.push((read_u64(reader)?, (read_u32(reader)?, read_u32(reader)?)));
            }
            return Ok(rows);
        }
        let mut row = 0u32;
        for xorb in self.read_all_xorb_blocks_full(reader)? {
            rows.extend(xorb.chunks.iter().zip(0..).map(|(it, index)| (truncate_hash(&it.chunk_hash), (row, index))));
            row = row.wrapping_add(xorb.metadata.num_entries).wrapping_add(1);
        }
        Ok(rows)
    }

    /// Of each file where its segments and its verification rows are in the shard, whose front the reader is at, and
    /// its SHA-256. Neither segments nor verification rows are read.
    ///
    /// # Errors
    ///
    /// - `ShardVersion`: the tag is another, or the version is neither 2 nor 3.
    /// - `Io`: the reader failed, or ends before.
    pub fn read_file_info_ranges<R: Read + Seek>(reader: &mut R) -> Result<Vec<FileRanges>> {
        MDBShardFileHeader::deserialize(reader)?;
        let mut files = Vec::new();
        loop {
            let header = FileDataSequenceHeader::deserialize(reader)?;
            if header.is_bookend() {
                return Ok(files);
            }
            let start = reader.stream_position()?;
            let segments = (start, skip_rows(reader, header.num_entries)?);
            let verification = match header.contains_verification() {
                true => Some((segments.1, skip_rows(reader, header.num_entries)?)),
                false => None,
            };
            let sha256 = match header.contains_metadata_ext() {
                true => Some(FileMetadataExt::deserialize(reader)?.sha256),
                false => None,
            };
            skip_rows(reader, header.has_aux().into())?;
            files.push((header.file_hash, segments, verification, sha256));
        }
    }

    /// The hashes of the chunks that the global index keeps, of a shard whose front the reader is at: each once, in
    /// ascending order. Its tables are not read.
    ///
    /// # Errors
    ///
    /// Those of [`MDBMinimalShard::from_reader`].
    pub fn filter_cas_chunks_for_global_dedup<R: Read + Seek>(reader: &mut R) -> Result<Vec<MerkleHash>> {
        Ok(MDBMinimalShard::from_reader(reader, true, true)?.global_dedup_eligible_chunks())
    }
}

/// Passes over so many rows, and returns where the reader then is.
pub(super) fn skip_rows<R: Seek>(reader: &mut R, rows: u32) -> Result<u64> {
    // A seek by nothing would make a buffered reader forget what it has read.
    let at = match rows {
        0 => reader.stream_position(),
        rows => reader.seek(SeekFrom::Current(SIZE as i64 * i64::from(rows))),
    };
    Ok(at?)
}
