//! The records of xorbs: a header, and a row for each chunk.

use super::hash_is_global_dedup_eligible;
use crate::bytes::Bytes;
use crate::error::as_io;
use crate::merklehash::{DataHash, MerkleHash};
use crate::rows::{codec, cut_record, narrow, read_record, row_at, Header, Row, SIZE};
use std::fmt::Debug;
use std::io::{Error, Read, Write};
use xet_shards::{Chunk, Xorb};

/// The flags of a xorb that has none.
pub const MDB_DEFAULT_XORB_FLAG: u32 = 0;

/// The flag of a chunk that the global index keeps, whatever its hash.
pub const MDB_CHUNK_WITH_GLOBAL_DEDUP_FLAG: u32 = 1 << 31;

/// The first row of a xorb's record.
#[derive(Clone, Debug, Default, PartialEq)]
pub struct XorbChunkSequenceHeader {
    /// The hash of the xorb; all ones end the section.
    pub xorb_hash: MerkleHash,
    /// Its flags.
    pub xorb_flags: u32,
    /// The number of its chunks.
    pub num_entries: u32,
    /// Its bytes, unpacked.
    pub num_bytes_in_xorb: u32,
    /// Its bytes on disk.
    pub num_bytes_on_disk: u32,
}

impl XorbChunkSequenceHeader {
    /// A header without flags and with 0 bytes on disk.
    ///
    /// # Panics
    ///
    /// A number does not fit 32 bits.
    pub fn new<I1: TryInto<u32>, I2: TryInto<u32> + Copy>(
        xorb_hash: MerkleHash,
        num_entries: I1,
        num_bytes_in_xorb: I2,
    ) -> Self
    where
        I1::Error: Debug,
        I2::Error: Debug,
    {
        Self {
            xorb_hash,
            xorb_flags: MDB_DEFAULT_XORB_FLAG,
            num_entries: narrow(num_entries),
            num_bytes_in_xorb: narrow(num_bytes_in_xorb),
            num_bytes_on_disk: 0,
        }
    }

    /// The row that ends a section.
    #[must_use]
    pub fn bookend() -> Self {
        Self { xorb_hash: [u64::MAX; 4].into(), ..Self::default() }
    }

    /// Whether the row ends a section.
    #[must_use]
    pub fn is_bookend(&self) -> bool {
        *self.xorb_hash == [u64::MAX; 4]
    }
}

impl Row for XorbChunkSequenceHeader {
    fn fields(&self) -> (DataHash, [u32; 4]) {
        let numbers = [self.xorb_flags, self.num_entries, self.num_bytes_in_xorb, self.num_bytes_on_disk];
        (self.xorb_hash, numbers)
    }

    fn of_fields(xorb_hash: DataHash, numbers: [u32; 4]) -> Self {
        let [xorb_flags, num_entries, num_bytes_in_xorb, num_bytes_on_disk] = numbers;
        Self { xorb_hash, xorb_flags, num_entries, num_bytes_in_xorb, num_bytes_on_disk }
    }
}

impl Header for XorbChunkSequenceHeader {
    fn ends_section(&self) -> bool {
        self.is_bookend()
    }

    fn rows_after(&self) -> u64 {
        self.num_entries.into()
    }
}

/// The row of a chunk.
#[derive(Clone, Debug, Default, PartialEq)]
pub struct XorbChunkSequenceEntry {
    /// The hash of the chunk, under the key of the shard if it has one.
    pub chunk_hash: MerkleHash,
    /// Where its bytes start among those of the xorb, unpacked.
    pub chunk_byte_range_start: u32,
    /// Its bytes, unpacked.
    pub unpacked_segment_bytes: u32,
    /// Its flags.
    pub flags: u32,
    /// A reserved word.
    pub _unused: u32,
}

impl XorbChunkSequenceEntry {
    /// A chunk without flags.
    ///
    /// # Panics
    ///
    /// A number does not fit 32 bits.
    pub fn new<I1: TryInto<u32>, I2: TryInto<u32>>(
        chunk_hash: MerkleHash,
        unpacked_segment_bytes: I1,
        chunk_byte_range_start: I2,
    ) -> Self
    where
        I1::Error: Debug,
        I2::Error: Debug,
    {
        Self {
            chunk_hash,
            chunk_byte_range_start: narrow(chunk_byte_range_start),
            unpacked_segment_bytes: narrow(unpacked_segment_bytes),
            flags: 0,
            _unused: 0,
        }
    }

    /// The chunk with the flag for the global index, or without it.
    #[must_use]
    pub fn with_global_dedup_flag(mut self, is_global_dedup_chunk: bool) -> Self {
        self.flags &= !MDB_CHUNK_WITH_GLOBAL_DEDUP_FLAG;
        if is_global_dedup_chunk {
            self.flags |= MDB_CHUNK_WITH_GLOBAL_DEDUP_FLAG;
        }
        self
    }

    /// Whether the global index keeps the chunk, by its flag or by its hash.
    #[must_use]
    pub fn is_global_dedup_eligible(&self) -> bool {
        self.flags & MDB_CHUNK_WITH_GLOBAL_DEDUP_FLAG != 0 || hash_is_global_dedup_eligible(&self.chunk_hash)
    }
}

impl Row for XorbChunkSequenceEntry {
    fn fields(&self) -> (DataHash, [u32; 4]) {
        (self.chunk_hash, [self.chunk_byte_range_start, self.unpacked_segment_bytes, self.flags, self._unused])
    }

    fn of_fields(chunk_hash: DataHash, numbers: [u32; 4]) -> Self {
        let [chunk_byte_range_start, unpacked_segment_bytes, flags, _unused] = numbers;
        Self { chunk_hash, chunk_byte_range_start, unpacked_segment_bytes, flags, _unused }
    }
}

codec!(XorbChunkSequenceHeader, XorbChunkSequenceEntry);

impl From<Chunk> for XorbChunkSequenceEntry {
    fn from(chunk: Chunk) -> Self {
        let Chunk { hash, start, bytes, flags, reserved } = chunk;
        Self::of_fields(hash.into(), [start, bytes, flags, reserved])
    }
}

impl From<&XorbChunkSequenceEntry> for Chunk {
    fn from(entry: &XorbChunkSequenceEntry) -> Chunk {
        let (hash, [start, bytes, flags, reserved]) = entry.fields();
        Chunk { hash: hash.into(), start, bytes, flags, reserved }
    }
}

/// The record of a xorb.
#[derive(Clone, Debug, Default, PartialEq)]
pub struct MDBXorbInfo {
    /// Its header.
    pub metadata: XorbChunkSequenceHeader,
    /// Its chunks, in order.
    pub chunks: Vec<XorbChunkSequenceEntry>,
}

impl MDBXorbInfo {
    /// The bytes of the record.
    #[must_use]
    pub fn num_bytes(&self) -> u64 {
        (SIZE * (1 + self.chunks.len())) as u64
    }

    /// Reads a record, or `None` at the end of a section. Nothing behind it is read.
    ///
    /// # Errors
    ///
    /// The reader failed, or ends before.
    pub fn deserialize<R: Read>(reader: &mut R) -> Result<Option<Self>, Error> {
        let record = read_record::<XorbChunkSequenceHeader, R>(reader)?;
        let (metadata, bytes) = match record {
            Some(record) => record,
            None => return Ok(None),
        };
        let found = xet_shards::xorb_in(&bytes).map_err(as_io)?;
        let chunks = |(xorb, _): (Xorb, u64)| xorb.chunks.into_iter().map(XorbChunkSequenceEntry::from).collect();
        Ok(found.map(|found| Self { metadata, chunks: chunks(found) }))
    }

    /// Writes the record, and returns its number of bytes.
    ///
    /// # Errors
    ///
    /// The writer failed.
    pub fn serialize<W: Write>(&self, writer: &mut W) -> Result<usize, Error> {
        let mut written = self.metadata.serialize(writer)?;
        for chunk in &self.chunks {
            written += chunk.serialize(writer)?;
        }
        Ok(written)
    }

    /// The hash of each chunk, and where its bytes end among those of the xorb: at most at `u32::MAX`.
    #[must_use]
    pub fn chunks_and_boundaries(&self) -> Vec<(MerkleHash, u32)> {
        self.chunks.iter().map(|it| (it.chunk_hash, end_of(it))).collect()
    }

    /// The record as the library takes it, or `None` if the header counts other chunks.
    pub(crate) fn as_listed(&self) -> Option<Xorb> {
        let header = &self.metadata;
        (header.num_entries as usize == self.chunks.len()).then(|| Xorb {
            hash: header.xorb_hash.into(),
            flags: header.xorb_flags,
            bytes: header.num_bytes_in_xorb,
            bytes_on_disk: header.num_bytes_on_disk,
            chunks: self.chunks.iter().map(Chunk::from).collect(),
        })
    }
}

/// Where the bytes of a chunk end, or `u32::MAX` if that is past 32 bits.
fn end_of(chunk: &XorbChunkSequenceEntry) -> u32 {
    chunk.chunk_byte_range_start.saturating_add(chunk.unpacked_segment_bytes)
}

/// A xorb's record as its bytes, whose rows are read when they are asked for.
#[derive(Clone, Debug, PartialEq)]
pub struct MDBXorbInfoView {
    header: XorbChunkSequenceHeader,
    data: Bytes,
}

impl MDBXorbInfoView {
    /// A view of the record at the front of some bytes. Bytes behind it are cut off.
    ///
    /// # Errors
    ///
    /// `UnexpectedEof`: the bytes end before the record does.
    pub fn new(data: impl Into<Vec<u8>>) -> Result<Self, Error> {
        let data = data.into();
        Self::from_data_and_header(XorbChunkSequenceHeader::deserialize(&mut &data[..])?, data)
    }

    /// A view of the record at the front of some bytes, whose header was read before. Bytes behind it are cut off.
    ///
    /// # Errors
    ///
    /// `UnexpectedEof`: the bytes end before the record does. `InvalidInput`: they begin with another header.
    pub fn from_data_and_header(header: XorbChunkSequenceHeader, data: impl Into<Vec<u8>>) -> Result<Self, Error> {
        let data = cut_record(&header, data.into())?.into();
        Ok(Self { header, data })
    }

    /// A view of a whole record.
    pub(crate) fn of_record((header, bytes): (XorbChunkSequenceHeader, Vec<u8>)) -> Self {
        Self { header, data: bytes.into() }
    }

    /// The header of the record.
    #[must_use]
    pub fn header(&self) -> &XorbChunkSequenceHeader {
        &self.header
    }

    /// The hash of the xorb.
    #[must_use]
    pub fn xorb_hash(&self) -> MerkleHash {
        self.header.xorb_hash
    }

    /// The number of its chunks.
    #[must_use]
    pub fn num_entries(&self) -> usize {
        self.header.num_entries as usize
    }

    /// The chunk at an index.
    ///
    /// # Panics
    ///
    /// There are not so many.
    #[must_use]
    pub fn chunk(&self, idx: usize) -> XorbChunkSequenceEntry {
        row_at(&self.data, 1 + idx)
    }

    /// The bytes of the record.
    #[must_use]
    pub fn byte_size(&self) -> usize {
        self.data.len()
    }

    /// Writes the record, and returns its number of bytes.
    ///
    /// # Errors
    ///
    /// The writer failed.
    pub fn serialize<W: Write>(&self, writer: &mut W) -> Result<usize, Error> {
        writer.write_all(&self.data)?;
        Ok(self.data.len())
    }

    /// Writes the record with each chunk, of which the function gets the index, replaced by what the function makes of
    /// it, and returns its number of bytes.
    ///
    /// # Errors
    ///
    /// The writer failed.
    pub fn serialize_with_chunk_rewrite<W: Write>(
        &self,
        writer: &mut W,
        chunk_rewrite_fn: impl Fn(usize, XorbChunkSequenceEntry) -> XorbChunkSequenceEntry,
    ) -> Result<usize, Error> {
        let mut written = self.header.serialize(writer)?;
        for idx in 0..self.num_entries() {
            written += chunk_rewrite_fn(idx, self.chunk(idx)).serialize(writer)?;
        }
        Ok(written)
    }
}

impl From<&MDBXorbInfoView> for MDBXorbInfo {
    /// The record of the view, but without flags and bytes on disk in its header, whose bytes are where the last chunk
    /// ends.
    fn from(view: &MDBXorbInfoView) -> MDBXorbInfo {
        let chunks: Vec<_> = (0..view.num_entries()).map(|idx| view.chunk(idx)).collect();
        let bytes = chunks.last().map_or(0, end_of);
        MDBXorbInfo { metadata: XorbChunkSequenceHeader::new(view.xorb_hash(), chunks.len(), bytes), chunks }
    }
}
