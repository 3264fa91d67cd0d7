//! The bytes of a shard: header, footer, and what they say.

use super::shard_in_memory::MDBInMemoryShard;
use super::utils::shard_expiry_time;
use crate::error::{CoreError, Result};
use crate::merklehash::{HMACKey, MerkleHash};
use crate::rows::SIZE;
use crate::serialization_utils::{read_u64, write_hash, write_u64, write_u64s};
use std::io::{Read, Seek, SeekFrom, Write};
use std::time::{Duration, SystemTime, UNIX_EPOCH};
use xet_shards::{Info, Version};

/// The bytes of a row of a section.
pub const MDB_FILE_INFO_ENTRY_SIZE: usize = SIZE;

const HEADER_SIZE: usize = 48;
const FOOTER_SIZE: usize = 200;
const VERSION: u64 = 2;
const TAG: [u8; 32] = *b"HFRepoMetaData\0\x55\x69\x67\x45\x6a\x7b\x81\x57\x83\xa5\xbd\xd9\x5c\xcd\xd1\x4a\xa9";

/// The time, in seconds since 1970.
#[must_use]
pub fn current_timestamp() -> u64 {
    SystemTime::now().duration_since(UNIX_EPOCH).unwrap_or_default().as_secs()
}

/// The first 48 bytes of a shard.
#[derive(Clone, Debug, PartialEq)]
pub struct MDBShardFileHeader {
    /// What all shards begin with.
    pub tag: [u8; 32],
    /// The version of the format: 2, or 3.
    pub version: u64,
    /// The bytes of the footer: 200, whatever this is.
    pub footer_size: u64,
}

impl Default for MDBShardFileHeader {
    /// That of version 2.
    fn default() -> Self {
        Self { tag: TAG, version: VERSION, footer_size: FOOTER_SIZE as u64 }
    }
}

impl MDBShardFileHeader {
    /// Writes the header, with the tag of all shards, and returns its number of bytes.
    ///
    /// # Errors
    ///
    /// The writer failed.
    pub fn serialize<W: Write>(&self, writer: &mut W) -> Result<usize> {
        writer.write_all(&TAG)?;
        write_u64s(writer, &[self.version, self.footer_size])?;
        Ok(HEADER_SIZE)
    }

    /// Reads a header.
    ///
    /// # Errors
    ///
    /// - `ShardVersion`: the tag is another, or the version is neither 2 nor 3.
    /// - `Io`: the reader failed, or ends before.
    pub fn deserialize<R: Read>(reader: &mut R) -> Result<Self> {
        let mut tag = [0; 32];
        reader.read_exact(&mut tag)?;
        if tag != TAG {
            return Err(xet_shards::Error::ShardVersion.into());
        }
        let (version, footer_size) = (read_u64(reader)?, read_u64(reader)?);
        if version != 2 && version != 3 {
            return Err(xet_shards::Error::ShardVersion.into());
        }
        Ok(Self { tag, version, footer_size })
    }
}

/// The last 200 bytes of a shard. Offsets are in bytes from its front.
#[derive(Clone, Debug, PartialEq)]
pub struct MDBShardFileFooter {
    /// The version of the footer: 1.
    pub version: u64,
    /// Where the section of files starts.
    pub file_info_offset: u64,
    /// Where the section of xorbs starts.
    pub xorb_info_offset: u64,
    /// Where the table of files starts.
    pub file_lookup_offset: u64,
    /// Its rows.
    pub file_lookup_num_entry: u64,
    /// Where the table of xorbs starts.
    pub xorb_lookup_offset: u64,
    /// Its rows.
    pub xorb_lookup_num_entry: u64,
    /// Where the table of chunks starts.
    pub chunk_lookup_offset: u64,
    /// Its rows.
    pub chunk_lookup_num_entry: u64,
    /// The key of the chunk hashes; all zeros: they are not keyed.
    pub chunk_hash_hmac_key: HMACKey,
    /// In seconds since 1970.
    pub shard_creation_timestamp: u64,
    /// In seconds since 1970. None: `u64::MAX`, or 0 in minimal shards and subsets.
    pub shard_key_expiry: u64,
    /// Reserved words.
    pub _buffer: [u64; 6],
    /// Of all xorbs.
    pub stored_bytes_on_disk: u64,
    /// Of all files.
    pub materialized_bytes: u64,
    /// Of all xorbs, unpacked.
    pub stored_bytes: u64,
    /// Where the footer starts.
    pub footer_offset: u64,
}

impl Default for MDBShardFileFooter {
    /// Without an expiry, and zero in all fields but the version.
    fn default() -> Self {
        Self::of(&Info { footer_version: 1, expiry: xet_shards::NO_EXPIRY, ..Info::default() })
    }
}

impl MDBShardFileFooter {
    fn of(info: &Info) -> Self {
        Self {
            version: info.footer_version,
            file_info_offset: info.file_section,
            xorb_info_offset: info.xorb_section,
            file_lookup_offset: info.file_table,
            file_lookup_num_entry: info.files,
            xorb_lookup_offset: info.xorb_table,
            xorb_lookup_num_entry: info.xorbs,
            chunk_lookup_offset: info.chunk_table,
            chunk_lookup_num_entry: info.chunks,
            chunk_hash_hmac_key: info.key.into(),
            shard_creation_timestamp: info.creation,
            shard_key_expiry: info.expiry,
            _buffer: info.reserved,
            stored_bytes_on_disk: info.stored_bytes_on_disk,
            materialized_bytes: info.materialized_bytes,
            stored_bytes: info.stored_bytes,
            footer_offset: info.footer,
        }
    }

    /// Writes the footer, and returns its number of bytes.
    ///
    /// # Errors
    ///
    /// The writer failed.
    pub fn serialize<W: Write>(&self, writer: &mut W) -> Result<usize> {
        write_u64s(writer, &[self.version, self.file_info_offset, self.xorb_info_offset])?;
        write_u64s(writer, &[self.file_lookup_offset, self.file_lookup_num_entry])?;
        write_u64s(writer, &[self.xorb_lookup_offset, self.xorb_lookup_num_entry])?;
        write_u64s(writer, &[self.chunk_lookup_offset, self.chunk_lookup_num_entry])?;
        write_hash(writer, &self.chunk_hash_hmac_key)?;
        write_u64s(writer, &[self.shard_creation_timestamp, self.shard_key_expiry])?;
        write_u64s(writer, &self._buffer)?;
        write_u64s(writer, &[self.stored_bytes_on_disk, self.materialized_bytes, self.stored_bytes])?;
        write_u64(writer, self.footer_offset)?;
        Ok(FOOTER_SIZE)
    }

    /// Reads a footer.
    ///
    /// # Errors
    ///
    /// - `ShardVersion`: its version is not 1.
    /// - `Io`: the reader failed, or ends before.
    pub fn deserialize<R: Read>(reader: &mut R) -> Result<Self> {
        let mut ends = Vec::new();
        MDBShardFileHeader::default().serialize(&mut ends)?;
        ends.resize(HEADER_SIZE + FOOTER_SIZE, 0);
        reader.read_exact(&mut ends[HEADER_SIZE..])?;
        Ok(Self::of(&xet_shards::load(&ends)?))
    }
}

/// What the two ends of a shard say. Its calls take a reader of the shard, and read no more of it than they need: in a
/// lookup some keys of a table, at most 264 of its rows, and what these lead to.
#[derive(Clone, Debug, Default, PartialEq)]
pub struct MDBShardInfo {
    /// The first bytes of the shard.
    pub header: MDBShardFileHeader,
    /// Its last bytes.
    pub metadata: MDBShardFileFooter,
}

impl MDBShardInfo {
    /// Reads the first 48 and the last 200 bytes of a shard.
    ///
    /// # Errors
    ///
    /// - `ShardVersion`: the tag is another, the version is neither 2 nor 3, or that of the footer is not 1.
    /// - `Io`: the reader failed, or has too few bytes.
    pub fn load_from_reader<R: Read + Seek>(reader: &mut R) -> Result<Self> {
        let mut ends = [0; HEADER_SIZE + FOOTER_SIZE];
        reader.rewind()?;
        reader.read_exact(&mut ends[..HEADER_SIZE])?;
        // A source that is no shard is named so, also if it is shorter than a footer.
        MDBShardFileHeader::deserialize(&mut &ends[..HEADER_SIZE])?;
        reader.seek(SeekFrom::End(-(FOOTER_SIZE as i64)))?;
        reader.read_exact(&mut ends[HEADER_SIZE..])?;
        Self::of_bytes(&ends)
    }

    /// The same of bytes, of which the two ends are enough.
    pub(crate) fn of_bytes(bytes: &[u8]) -> Result<Self> {
        let info = xet_shards::load(bytes)?;
        let header = MDBShardFileHeader { tag: TAG, version: info.version, footer_size: info.footer_size };
        Ok(Self { header, metadata: MDBShardFileFooter::of(&info) })
    }

    /// Writes the bytes of a shard in version 2, which expires so much later than now if that is given, and returns
    /// what their ends say.
    ///
    /// # Errors
    ///
    /// - `InvalidArguments`: the shard has a record that no shard has: a header that does not count its rows, a flag
    ///   without its part or of no known part, a reserved word of a file that is not 0, a hash of all ones, or a xorb
    ///   whose chunks have more than 4294967295 bytes; or a section would have more rows than 32 bits count.
    /// - `Io`: the writer failed.
    /// - `OutOfMemory`: an allocation failed.
    pub fn serialize_from<W: Write>(writer: &mut W, mdb: &MDBInMemoryShard, expiry: Option<Duration>) -> Result<Self> {
        let files: Option<Vec<_>> = mdb.file_content.values().map(|it| it.as_listed()).collect();
        let xorbs: Option<Vec<_>> = mdb.xorb_content.values().map(|it| it.as_listed()).collect();
        let (files, xorbs) = files.zip(xorbs).ok_or(CoreError::InvalidArguments)?;
        let bytes = xet_shards::write_records(&files, &xorbs, expiry.map(shard_expiry_time), Version::V2)?;
        writer.write_all(&bytes)?;
        Self::of_bytes(&bytes)
    }

    /// Whether the chunk hashes are under a key.
    #[must_use]
    pub fn chunk_hashes_protected(&self) -> bool {
        self.metadata.chunk_hash_hmac_key != HMACKey::default()
    }

    /// The key of the chunk hashes, if they are under one.
    #[must_use]
    pub fn chunk_hmac_key(&self) -> Option<HMACKey> {
        self.chunk_hashes_protected().then_some(self.metadata.chunk_hash_hmac_key)
    }

    /// A chunk's hash as the shard has it: under its key, if it has one.
    pub fn keyed_chunk_hash(&self, chunk_hash: impl AsRef<MerkleHash>) -> MerkleHash {
        let hash = *chunk_hash.as_ref();
        self.chunk_hmac_key().map_or(hash, |key| hash.hmac(key))
    }

    /// The rows of the table of xorbs, 0 if it is left out.
    #[must_use]
    pub fn num_xorb_entries(&self) -> usize {
        self.metadata.xorb_lookup_num_entry as usize
    }

    /// The rows of the table of files, 0 if it is left out.
    #[must_use]
    pub fn num_file_entries(&self) -> usize {
        self.metadata.file_lookup_num_entry as usize
    }

    /// The rows of the table of chunks, 0 if it is left out.
    #[must_use]
    pub fn total_num_chunks(&self) -> usize {
        self.metadata.chunk_lookup_num_entry as usize
    }

    /// Where the section of files starts and ends.
    #[must_use]
    pub fn file_info_byte_range(&self) -> (u64, u64) {
        (self.metadata.file_info_offset, self.metadata.xorb_info_offset)
    }

    /// Where the section of xorbs starts and ends.
    #[must_use]
    pub fn xorb_info_byte_range(&self) -> (u64, u64) {
        (self.metadata.xorb_info_offset, self.metadata.file_lookup_offset)
    }

    /// Where the table of files starts and ends.
    #[must_use]
    pub fn file_lookup_byte_range(&self) -> (u64, u64) {
        (self.metadata.file_lookup_offset, self.metadata.xorb_lookup_offset)
    }

    /// Where the table of xorbs starts and ends.
    #[must_use]
    pub fn xorb_lookup_byte_range(&self) -> (u64, u64) {
        (self.metadata.xorb_lookup_offset, self.metadata.chunk_lookup_offset)
    }

    /// Where the table of chunks starts and ends.
    #[must_use]
    pub fn chuck_lookup_byte_range(&self) -> (u64, u64) {
        (self.metadata.chunk_lookup_offset, self.metadata.footer_offset)
    }

    /// The bytes of the shard, or `u64::MAX` if they pass 64 bits.
    #[must_use]
    pub fn num_bytes(&self) -> u64 {
        self.metadata.footer_offset.saturating_add(FOOTER_SIZE as u64)
    }

    /// The bytes of all xorbs on disk.
    #[must_use]
    pub fn stored_bytes_on_disk(&self) -> u64 {
        self.metadata.stored_bytes_on_disk
    }

    /// The bytes of all files.
    #[must_use]
    pub fn materialized_bytes(&self) -> u64 {
        self.metadata.materialized_bytes
    }

    /// The bytes of all xorbs, unpacked.
    #[must_use]
    pub fn stored_bytes(&self) -> u64 {
        self.metadata.stored_bytes
    }

    /// The bytes of a shard without records: 344.
    #[must_use]
    pub fn non_content_byte_size() -> u64 {
        (HEADER_SIZE + 2 * SIZE + FOOTER_SIZE) as u64
    }

    /// Prints the size of each part, and where it is, to standard error.
    pub fn print_report(&self) {
        for (part, (start, end)) in [
            ("files", self.file_info_byte_range()),
            ("xorbs", self.xorb_info_byte_range()),
            ("table of files", self.file_lookup_byte_range()),
            ("table of xorbs", self.xorb_lookup_byte_range()),
            ("table of chunks", self.chuck_lookup_byte_range()),
        ] {
            eprintln!("{part}: {} bytes, from {start} to {end}", end.wrapping_sub(start));
        }
    }
}
