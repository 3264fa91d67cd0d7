//! Lookups of files, xorbs and chunks in a shard of which parts are read.

use super::file_structs::{FileDataSequenceEntry, MDBFileInfo};
use super::interpolation_search::Table;
use super::sections::skip_rows;
use super::utils::truncate_hash;
use super::xorb_structs::{XorbChunkSequenceEntry, XorbChunkSequenceHeader};
use super::MDBShardInfo;
use crate::error::{at_word, past_width, CoreError, Result};
use crate::merklehash::MerkleHash;
use crate::rows::SIZE;
use std::io::{Read, Seek, SeekFrom};

/// The rows of one first word that are looked at.
const MOST: usize = 8;

/// A run of chunks: how many, and where they are.
type Run = (usize, FileDataSequenceEntry);

impl MDBShardInfo {
    /// Writes the rows of the section of files at which a record may have this hash, by its first word, to the front of
    /// `dest_indices`, and returns how many.
    ///
    /// # Errors
    ///
    /// - `TruncatedHashCollision`: eight or more files share the first word of the hash.
    /// - `Io`: the reader failed, or ends before. `InvalidShard`: the table ends past 64 bits.
    pub fn get_file_info_index_by_hash<R: Read + Seek>(
        &self,
        reader: &mut R,
        file_hash: &MerkleHash,
        dest_indices: &mut [u32; 8],
    ) -> Result<usize> {
        let table = (self.metadata.file_lookup_offset, self.metadata.file_lookup_num_entry);
        find_rows(reader, table, truncate_hash(file_hash), dest_indices)
    }

    /// The same of the section of xorbs.
    ///
    /// # Errors
    ///
    /// Those of [`get_file_info_index_by_hash`](Self::get_file_info_index_by_hash).
    pub fn get_xorb_info_index_by_hash<R: Read + Seek>(
        &self,
        reader: &mut R,
        xorb_hash: &MerkleHash,
        dest_indices: &mut [u32; 8],
    ) -> Result<usize> {
        let table = (self.metadata.xorb_lookup_offset, self.metadata.xorb_lookup_num_entry);
        find_rows(reader, table, truncate_hash(xorb_hash), dest_indices)
    }

    /// Writes the places at which a chunk may have this hash, which is not keyed, to the front of `dest_indices`, and
    /// returns how many; if they fill it there may be more. Each is a row of the section of xorbs, where its xorb
    /// starts, and its index there.
    ///
    /// # Errors
    ///
    /// `Io`: the reader failed, or ends before. `InvalidShard`: the table ends past 64 bits.
    pub fn get_xorb_info_index_by_chunk<R: Read + Seek>(
        &self,
        reader: &mut R,
        unkeyed_chunk_hash: &MerkleHash,
        dest_indices: &mut [(u32, u32); 8],
    ) -> Result<usize> {
        let word = truncate_hash(&self.keyed_chunk_hash(unkeyed_chunk_hash));
        let (start, rows) = (self.metadata.chunk_lookup_offset, self.metadata.chunk_lookup_num_entry);
        let cut = Table::new(start, rows, 16).ok_or_else(past_width)?.cut(reader, word, MOST)?;
        let places = xet_shards::find_places(&cut, word)?;
        for (index, place) in dest_indices.iter_mut().zip(&places) {
            *index = (place.row, place.index);
        }
        Ok(places.len())
    }

    /// The file's record at a row of its section.
    ///
    /// # Errors
    ///
    /// - `InternalError`: the section ends there.
    /// - `Io`: the reader failed, or ends before.
    /// - `InvalidShard`: the file has a row that the version does not have, or a number does not fit its width.
    pub fn read_file_info<R: Read + Seek>(&self, reader: &mut R, file_entry_index: u32) -> Result<MDBFileInfo> {
        seek_row(reader, self.metadata.file_info_offset, file_entry_index)?;
        let found = MDBFileInfo::read(reader, self.header.version)?;
        found.ok_or_else(|| xet_shards::Error::InternalError.into())
    }

    /// The record of the file with this hash, if the table of files leads to one.
    ///
    /// # Errors
    ///
    /// Those of [`get_file_info_index_by_hash`](Self::get_file_info_index_by_hash) and of
    /// [`read_file_info`](Self::read_file_info).
    pub fn get_file_reconstruction_info<R: Read + Seek>(
        &self,
        reader: &mut R,
        file_hash: &MerkleHash,
    ) -> Result<Option<MDBFileInfo>> {
        let mut rows = [0; MOST];
        let count = self.get_file_info_index_by_hash(reader, file_hash, &mut rows)?;
        for row in &rows[..count] {
            let file = self.read_file_info(reader, *row)?;
            if file.metadata.file_hash == *file_hash {
                return Ok(Some(file));
            }
        }
        Ok(None)
    }

    /// Looks for the run of these hashes, which are not keyed, that starts at one chunk: at an index of the xorb at a
    /// row of the section of xorbs. Returns how many chunks from there on have the hashes, one by one, and where they
    /// are; or `None` if no hash is given, or the chunk has another than the first.
    ///
    /// # Errors
    ///
    /// - `InvalidArguments`: there is no xorb at the row, since the section ends there, or it has no chunk at the index.
    /// - `Io`: the reader failed, or ends before. `InvalidShard`: a number does not fit its width.
    pub fn chunk_hash_dedup_query_direct<R: Read + Seek>(
        &self,
        reader: &mut R,
        unkeyed_query_hashes: &[MerkleHash],
        xorb_entry_index: u32,
        xorb_chunk_offset: u32,
    ) -> Result<Option<Run>> {
        if unkeyed_query_hashes.is_empty() {
            return Ok(None);
        }
        seek_row(reader, self.metadata.xorb_info_offset, xorb_entry_index)?;
        let header = XorbChunkSequenceHeader::deserialize(reader)?;
        if header.is_bookend() || xorb_chunk_offset >= header.num_entries {
            return Err(CoreError::InvalidArguments);
        }
        skip_rows(reader, xorb_chunk_offset)?;
        let (mut end, mut bytes) = (xorb_chunk_offset, 0u32);
        for hash in unkeyed_query_hashes {
            if end == header.num_entries {
                break;
            }
            let chunk = XorbChunkSequenceEntry::deserialize(reader)?;
            if chunk.chunk_hash != self.keyed_chunk_hash(hash) {
                break;
            }
            bytes = bytes.checked_add(chunk.unpacked_segment_bytes).ok_or_else(past_width)?;
            end += 1;
        }
        let count = (end - xorb_chunk_offset) as usize;
        Ok((count > 0).then_some((
            count,
            FileDataSequenceEntry {
                xorb_hash: header.xorb_hash,
                xorb_flags: header.xorb_flags,
                unpacked_segment_bytes: bytes,
                chunk_index_start: xorb_chunk_offset,
                chunk_index_end: end,
            },
        )))
    }

    /// Looks for a run of chunks with these hashes, which are not keyed: at least the first of them, in a xorb to which
    /// the table of chunks leads, of at most eight.
    ///
    /// # Errors
    ///
    /// `Io`: the reader failed, or ends before. `InvalidShard`: a row of the table leads to no chunk, or a number does
    /// not fit its width.
    pub fn chunk_hash_dedup_query<R: Read + Seek>(
        &self,
        reader: &mut R,
        query_hashes: &[MerkleHash],
    ) -> Result<Option<Run>> {
        if query_hashes.is_empty() || self.metadata.chunk_lookup_num_entry == 0 {
            return Ok(None);
        }
        let mut places = [(0, 0); MOST];
        let count = self.get_xorb_info_index_by_chunk(reader, &query_hashes[0], &mut places)?;
        for (row, index) in &places[..count] {
            match self.chunk_hash_dedup_query_direct(reader, query_hashes, *row, *index) {
                Ok(None) => continue,
                Err(CoreError::InvalidArguments) => {
                    return Err(CoreError::invalid_shard("a row of the table of chunks leads to no chunk"))
                }
                found => return found,
            }
        }
        Ok(None)
    }
}

/// Goes to a row of the section that starts there.
fn seek_row<R: Seek>(reader: &mut R, section: u64, row: u32) -> Result<()> {
    let at = section.checked_add(SIZE as u64 * u64::from(row)).ok_or_else(past_width)?;
    reader.seek(SeekFrom::Start(at))?;
    Ok(())
}

/// Writes the rows of a section that its table, which starts at a place and has so many rows, has under a word.
fn find_rows<R: Read + Seek>(
    reader: &mut R,
    (start, rows): (u64, u64),
    word: u64,
    found: &mut [u32; MOST],
) -> Result<usize> {
    let cut = Table::new(start, rows, 12).ok_or_else(past_width)?.cut(reader, word, MOST)?;
    let rows = xet_shards::find_rows(&cut, word).map_err(at_word(word))?;
    found[..rows.len()].copy_from_slice(&rows);
    Ok(rows.len())
}
