//! A shard in memory, to be built up and written.

use super::file_structs::{FileDataSequenceEntry, MDBFileInfo};
use super::shard_format::MDBShardInfo;
use super::xorb_structs::MDBXorbInfo;
use crate::error::Result;
use crate::merklehash::MerkleHash;
use crate::MerkleHashMap;
use std::collections::BTreeMap;
use std::sync::Arc;

/// The bytes of a row of the tables of files and of xorbs.
const RECORD_ROW: u64 = 12;

/// The bytes of a row of the table of chunks.
const CHUNK_ROW: u64 = 16;

/// Files and xorbs under their hashes, and where their chunks are. Who changes the maps by hand calls
/// [`recalculate_shard_size`](Self::recalculate_shard_size).
#[derive(Clone, Debug, Default)]
pub struct MDBInMemoryShard {
    /// The xorbs.
    pub xorb_content: BTreeMap<MerkleHash, Arc<MDBXorbInfo>>,
    /// The files.
    pub file_content: BTreeMap<MerkleHash, MDBFileInfo>,
    /// Of each chunk hash one of the places where the chunk is: its xorb, and its index there.
    pub chunk_hash_lookup: MerkleHashMap<(Arc<MDBXorbInfo>, u64)>,
    // The bytes of records and tables.
    size: u64,
}

impl MDBInMemoryShard {
    /// Adds a xorb, in place of one with the same hash.
    ///
    /// # Errors
    ///
    /// None.
    pub fn add_xorb_block(&mut self, xorb_block_contents: impl Into<Arc<MDBXorbInfo>>) -> Result<()> {
        let xorb = xorb_block_contents.into();
        self.size += xorb_size(&xorb);
        let replaced = self.xorb_content.insert(xorb.metadata.xorb_hash, xorb.clone());
        if let Some(replaced) = replaced {
            self.size -= xorb_size(&replaced);
            self.index_chunks();
        } else {
            index(&mut self.chunk_hash_lookup, &xorb);
        }
        Ok(())
    }

    /// Adds a file, in place of one with the same hash.
    ///
    /// # Errors
    ///
    /// None.
    pub fn add_file_reconstruction_info(&mut self, file_info: MDBFileInfo) -> Result<()> {
        self.size += file_size(&file_info);
        if let Some(replaced) = self.file_content.insert(file_info.metadata.file_hash, file_info) {
            self.size -= file_size(&replaced);
        }
        Ok(())
    }

    /// The records of both: of two xorbs with one hash the other's, of two files this one's with the optional parts
    /// that only the other has.
    ///
    /// # Errors
    ///
    /// `InvalidArguments`: two files with one hash have different numbers of segments.
    pub fn union(&self, other: &Self) -> Result<Self> {
        let mut union = self.clone();
        for (hash, xorb) in &other.xorb_content {
            union.xorb_content.insert(*hash, xorb.clone());
        }
        for (hash, file) in &other.file_content {
            match union.file_content.get_mut(hash) {
                Some(own) => own.merge_from(file)?,
                None => {
                    union.file_content.insert(*hash, file.clone());
                }
            }
        }
        union.index_chunks();
        union.recalculate_shard_size();
        Ok(union)
    }

    /// The other's records whose hashes this one does not have.
    ///
    /// # Errors
    ///
    /// None.
    pub fn difference(&self, other: &Self) -> Result<Self> {
        let xorbs = other.xorb_content.iter().filter(|(hash, _)| !self.xorb_content.contains_key(hash));
        let files = other.file_content.iter().filter(|(hash, _)| !self.file_content.contains_key(hash));
        let mut difference = Self {
            xorb_content: xorbs.map(|(hash, xorb)| (*hash, xorb.clone())).collect(),
            file_content: files.map(|(hash, file)| (*hash, file.clone())).collect(),
            ..Self::default()
        };
        difference.index_chunks();
        difference.recalculate_shard_size();
        Ok(difference)
    }

    fn index_chunks(&mut self) {
        self.chunk_hash_lookup.clear();
        for xorb in self.xorb_content.values() {
            index(&mut self.chunk_hash_lookup, xorb);
        }
    }

    /// Counts the bytes of all records anew.
    pub fn recalculate_shard_size(&mut self) {
        let files: u64 = self.file_content.values().map(file_size).sum();
        self.size = files + self.xorb_content.values().map(|it| xorb_size(it)).sum::<u64>();
    }

    /// The file with this hash.
    #[must_use]
    pub fn get_file_reconstruction_info(&self, file_hash: &MerkleHash) -> Option<MDBFileInfo> {
        self.file_content.get(file_hash).cloned()
    }

    /// How many of these hashes, from the first on, the chunks of a xorb have one after another, from one place of the
    /// first hash on, and where they are.
    #[must_use]
    pub fn chunk_hash_dedup_query(&self, query_hashes: &[MerkleHash]) -> Option<(usize, FileDataSequenceEntry)> {
        let (xorb, start) = self.chunk_hash_lookup.get(query_hashes.first()?)?;
        let chunks = xorb.chunks.get(*start as usize..)?;
        let count = chunks.iter().zip(query_hashes).take_while(|(chunk, hash)| chunk.chunk_hash == **hash).count();
        let end = *start + count as u64;
        Some((count, FileDataSequenceEntry::from_xorb_entries(&xorb.metadata, &chunks[..count], *start, end)))
    }

    /// The number of xorbs.
    #[must_use]
    pub fn num_xorb_entries(&self) -> usize {
        self.xorb_content.len()
    }

    /// The number of files.
    #[must_use]
    pub fn num_file_entries(&self) -> usize {
        self.file_content.len()
    }

    /// The bytes of all xorbs on disk.
    #[must_use]
    pub fn stored_bytes_on_disk(&self) -> u64 {
        self.xorb_content.values().map(|it| u64::from(it.metadata.num_bytes_on_disk)).sum()
    }

    /// The bytes of all files.
    #[must_use]
    pub fn materialized_bytes(&self) -> u64 {
        self.file_content.values().map(MDBFileInfo::file_size).sum()
    }

    /// The bytes of all xorbs, unpacked.
    #[must_use]
    pub fn stored_bytes(&self) -> u64 {
        self.xorb_content.values().map(|it| u64::from(it.metadata.num_bytes_in_xorb)).sum()
    }

    /// Whether there is no file and no xorb.
    #[must_use]
    pub fn is_empty(&self) -> bool {
        self.xorb_content.is_empty() && self.file_content.is_empty()
    }

    /// The number of bytes that [`to_bytes`](Self::to_bytes) has.
    #[must_use]
    pub fn shard_file_size(&self) -> u64 {
        self.size + MDBShardInfo::non_content_byte_size()
    }

    /// The bytes of the shard, without an expiry.
    ///
    /// # Errors
    ///
    /// Those of [`MDBShardInfo::serialize_from`].
    pub fn to_bytes(&self) -> Result<Vec<u8>> {
        let mut bytes = Vec::new();
        MDBShardInfo::serialize_from(&mut bytes, self, None)?;
        Ok(bytes)
    }
}

/// Enters the chunks of a xorb.
fn index(chunks: &mut MerkleHashMap<(Arc<MDBXorbInfo>, u64)>, xorb: &Arc<MDBXorbInfo>) {
    chunks.extend(xorb.chunks.iter().zip(0..).map(|(chunk, at)| (chunk.chunk_hash, (xorb.clone(), at))));
}

/// The bytes of a file's record, and of its row in the table.
fn file_size(file: &MDBFileInfo) -> u64 {
    file.num_bytes() + RECORD_ROW
}

/// The bytes of a xorb's record, and of its rows in the tables.
fn xorb_size(xorb: &MDBXorbInfo) -> u64 {
    xorb.num_bytes() + RECORD_ROW + CHUNK_ROW * xorb.chunks.len() as u64
}
