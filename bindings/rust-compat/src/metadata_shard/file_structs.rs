//! The records of files: a header, a row for each segment, and optional rows.

pub use super::file_view::MDBFileInfoView;

use super::xorb_structs::{XorbChunkSequenceEntry, XorbChunkSequenceHeader};
use crate::error::{as_io, CoreError, Result as CoreResult};
use crate::merklehash::{DataHash, MerkleHash};
use crate::rows::{codec, narrow, read_record, Header, Row, SIZE};
use std::fmt::Debug;
use std::io::{Error, Read, Write};
use xet_shards::{File, ListedFile, Segment, WITH_AUX};

/// The flags of a file that has none.
pub const MDB_DEFAULT_FILE_FLAG: u32 = 0;

/// The flag of a file that has verification rows.
pub const MDB_FILE_FLAG_WITH_VERIFICATION: u32 = xet_shards::WITH_VERIFICATION;

/// The same flag, to be tested for.
pub const MDB_FILE_FLAG_VERIFICATION_MASK: u32 = MDB_FILE_FLAG_WITH_VERIFICATION;

/// The flag of a file that has a metadata row.
pub const MDB_FILE_FLAG_WITH_METADATA_EXT: u32 = xet_shards::WITH_SHA256;

/// The same flag, to be tested for.
pub const MDB_FILE_FLAG_METADATA_EXT_MASK: u32 = MDB_FILE_FLAG_WITH_METADATA_EXT;

/// The SHA-256 of a file.
pub type Sha256 = DataHash;

/// The first row of a file's record.
#[derive(Clone, Debug, Default, PartialEq)]
pub struct FileDataSequenceHeader {
    /// The hash of the file; all ones end the section.
    pub file_hash: MerkleHash,
    /// Its flags, which say what optional rows it has.
    pub file_flags: u32,
    /// The number of its segments.
    pub num_entries: u32,
    /// A reserved word. A shard is written only if it is 0.
    pub _unused: u64,
}

/// How the flags of two headers compare.
#[derive(Clone, Copy, Debug, PartialEq, Eq)]
pub enum SupersetResult {
    /// The first has all flags of the second, and more.
    SuperA,
    /// The second has all flags of the first, and more.
    SuperB,
    /// Each has flags that the other does not have.
    Neither,
    /// Both have the same.
    Equal,
}

impl FileDataSequenceHeader {
    /// A header of a file with these optional rows.
    ///
    /// # Panics
    ///
    /// The number does not fit 32 bits.
    pub fn new<I: TryInto<u32>>(
        file_hash: MerkleHash,
        num_entries: I,
        contains_verification: bool,
        contains_metadata_ext: bool,
    ) -> Self
    where
        I::Error: Debug,
    {
        let flag = |has: bool, flag: u32| if has { flag } else { MDB_DEFAULT_FILE_FLAG };
        Self {
            file_hash,
            file_flags: flag(contains_verification, MDB_FILE_FLAG_WITH_VERIFICATION)
                | flag(contains_metadata_ext, MDB_FILE_FLAG_WITH_METADATA_EXT),
            num_entries: narrow(num_entries),
            _unused: 0,
        }
    }

    /// The row that ends a section.
    #[must_use]
    pub fn bookend() -> Self {
        Self { file_hash: [u64::MAX; 4].into(), ..Self::default() }
    }

    /// Whether the row ends a section.
    #[must_use]
    pub fn is_bookend(&self) -> bool {
        *self.file_hash == [u64::MAX; 4]
    }

    /// Whether the file has verification rows.
    #[must_use]
    pub fn contains_verification(&self) -> bool {
        self.file_flags & MDB_FILE_FLAG_VERIFICATION_MASK != 0
    }

    /// Whether the file has a metadata row.
    #[must_use]
    pub fn contains_metadata_ext(&self) -> bool {
        self.file_flags & MDB_FILE_FLAG_METADATA_EXT_MASK != 0
    }

    /// Whether the file has an auxiliary row, which only shards of version 3 have.
    pub(crate) fn has_aux(&self) -> bool {
        self.file_flags & WITH_AUX != 0
    }

    /// The number of rows that follow: segments, verification rows and the metadata row; `u32::MAX` if there are more.
    #[must_use]
    pub fn num_info_entry_following(&self) -> u32 {
        self.rows_following().try_into().unwrap_or(u32::MAX)
    }

    fn rows_following(&self) -> u64 {
        u64::from(self.num_entries) * (1 + u64::from(self.contains_verification()))
            + u64::from(self.contains_metadata_ext())
    }

    /// Stops debug builds if the headers have different hashes or numbers of segments.
    pub fn verify_same_file(header1: &Self, header2: &Self) {
        debug_assert!(header1.is_of_file(header2), "the headers are not of one file");
    }

    fn is_of_file(&self, other: &Self) -> bool {
        (self.file_hash, self.num_entries) == (other.file_hash, other.num_entries)
    }

    /// Which of two headers has all flags of the other.
    #[must_use]
    pub fn compare_flag_superset(header_a: &Self, header_b: &Self) -> SupersetResult {
        let both = header_a.file_flags & header_b.file_flags;
        match (both == header_b.file_flags, both == header_a.file_flags) {
            (true, true) => SupersetResult::Equal,
            (true, false) => SupersetResult::SuperA,
            (false, true) => SupersetResult::SuperB,
            (false, false) => SupersetResult::Neither,
        }
    }
}

impl Row for FileDataSequenceHeader {
    fn fields(&self) -> (DataHash, [u32; 4]) {
        let (low, high) = (self._unused as u32, (self._unused >> 32) as u32);
        (self.file_hash, [self.file_flags, self.num_entries, low, high])
    }

    fn of_fields(file_hash: DataHash, [file_flags, num_entries, low, high]: [u32; 4]) -> Self {
        Self { file_hash, file_flags, num_entries, _unused: u64::from(low) | u64::from(high) << 32 }
    }
}

impl Header for FileDataSequenceHeader {
    fn ends_section(&self) -> bool {
        self.is_bookend()
    }

    fn rows_after(&self) -> u64 {
        self.rows_following() + u64::from(self.has_aux())
    }
}

/// The row of a segment: a run of chunks of one xorb.
#[derive(Clone, Debug, Default, PartialEq)]
pub struct FileDataSequenceEntry {
    /// The hash of the xorb.
    pub xorb_hash: MerkleHash,
    /// The flags of the xorb.
    pub xorb_flags: u32,
    /// The bytes of the chunks, unpacked.
    pub unpacked_segment_bytes: u32,
    /// The index of the first chunk.
    pub chunk_index_start: u32,
    /// The index behind the last chunk.
    pub chunk_index_end: u32,
}

impl FileDataSequenceEntry {
    /// A segment of a xorb without flags.
    ///
    /// # Panics
    ///
    /// A number does not fit 32 bits.
    pub fn new<I1: TryInto<u32>>(
        xorb_hash: MerkleHash,
        unpacked_segment_bytes: I1,
        chunk_index_start: I1,
        chunk_index_end: I1,
    ) -> Self
    where
        I1::Error: Debug,
    {
        Self {
            xorb_hash,
            xorb_flags: MDB_DEFAULT_FILE_FLAG,
            unpacked_segment_bytes: narrow(unpacked_segment_bytes),
            chunk_index_start: narrow(chunk_index_start),
            chunk_index_end: narrow(chunk_index_end),
        }
    }

    /// The segment of these chunks of a xorb, which stand there at these indices. Of no chunk it is the default.
    ///
    /// # Panics
    ///
    /// A number, or the sum of the chunks' bytes, does not fit 32 bits.
    pub fn from_xorb_entries<I1: TryInto<u32>>(
        metadata: &XorbChunkSequenceHeader,
        chunks: &[XorbChunkSequenceEntry],
        chunk_index_start: I1,
        chunk_index_end: I1,
    ) -> Self
    where
        I1::Error: Debug,
    {
        if chunks.is_empty() {
            return Self::default();
        }
        Self {
            xorb_hash: metadata.xorb_hash,
            xorb_flags: metadata.xorb_flags,
            unpacked_segment_bytes: narrow(chunks.iter().map(|it| u64::from(it.unpacked_segment_bytes)).sum::<u64>()),
            chunk_index_start: narrow(chunk_index_start),
            chunk_index_end: narrow(chunk_index_end),
        }
    }
}

impl Row for FileDataSequenceEntry {
    fn fields(&self) -> (DataHash, [u32; 4]) {
        let range = (self.chunk_index_start, self.chunk_index_end);
        (self.xorb_hash, [self.xorb_flags, self.unpacked_segment_bytes, range.0, range.1])
    }

    fn of_fields(xorb_hash: DataHash, numbers: [u32; 4]) -> Self {
        let [xorb_flags, unpacked_segment_bytes, chunk_index_start, chunk_index_end] = numbers;
        Self { xorb_hash, xorb_flags, unpacked_segment_bytes, chunk_index_start, chunk_index_end }
    }
}

impl From<Segment> for FileDataSequenceEntry {
    fn from(segment: Segment) -> Self {
        let Segment { xorb, flags, bytes, start, end } = segment;
        Self::of_fields(xorb.into(), [flags, bytes, start, end])
    }
}

impl From<&FileDataSequenceEntry> for Segment {
    fn from(entry: &FileDataSequenceEntry) -> Segment {
        let (xorb, [flags, bytes, start, end]) = entry.fields();
        Segment { xorb: xorb.into(), flags, bytes, start, end }
    }
}

/// The row of a segment's verification hash.
#[derive(Clone, Debug, Default, PartialEq)]
pub struct FileVerificationEntry {
    /// The hash.
    pub range_hash: MerkleHash,
    /// Reserved words, which are read as zeros. A shard is written only if they are zeros.
    pub _unused: [u64; 2],
}

/// The metadata row of a file.
#[derive(Clone, Debug, Default, PartialEq)]
pub struct FileMetadataExt {
    /// The SHA-256 of the file.
    pub sha256: Sha256,
    /// Reserved words, which are read as zeros. A shard is written only if they are zeros.
    pub _unused: [u64; 2],
}

/// Gives rows of one hash and reserved words what they have.
macro_rules! hash_rows {
    ($($row:ident of $hash:ident),*) => {$(
        impl $row {
            /// The row of this hash.
            #[must_use]
            pub fn new($hash: MerkleHash) -> Self {
                Self { $hash, _unused: [0; 2] }
            }
        }

        impl Row for $row {
            fn fields(&self) -> (DataHash, [u32; 4]) {
                let [first, second] = self._unused;
                (self.$hash, [first as u32, (first >> 32) as u32, second as u32, (second >> 32) as u32])
            }

            fn of_fields($hash: DataHash, _: [u32; 4]) -> Self {
                Self::new($hash)
            }
        }
    )*};
}

hash_rows!(FileVerificationEntry of range_hash, FileMetadataExt of sha256);
codec!(FileDataSequenceHeader, FileDataSequenceEntry, FileVerificationEntry, FileMetadataExt);

/// The record of a file.
#[derive(Clone, Debug, Default, PartialEq)]
pub struct MDBFileInfo {
    /// Its header.
    pub metadata: FileDataSequenceHeader,
    /// Its segments, in order.
    pub segments: Vec<FileDataSequenceEntry>,
    /// The verification row of each segment, if its flags say that it has them.
    pub verification: Vec<FileVerificationEntry>,
    /// Its metadata row, if its flags say that it has one.
    pub metadata_ext: Option<FileMetadataExt>,
}

impl MDBFileInfo {
    /// The bytes of the record, by its header.
    #[must_use]
    pub fn num_bytes(&self) -> u64 {
        SIZE as u64 * (1 + self.metadata.rows_following())
    }

    /// The bytes of the file: those of its segments.
    #[must_use]
    pub fn file_size(&self) -> u64 {
        self.segments.iter().map(|it| u64::from(it.unpacked_segment_bytes)).sum()
    }

    /// Whether the file has verification rows, by its header.
    #[must_use]
    pub fn contains_verification(&self) -> bool {
        self.metadata.contains_verification()
    }

    /// Whether the file has a metadata row, by its header.
    #[must_use]
    pub fn contains_metadata_ext(&self) -> bool {
        self.metadata.contains_metadata_ext()
    }

    /// Writes the record, and returns its number of bytes.
    ///
    /// # Errors
    ///
    /// The writer failed.
    pub fn serialize<W: Write>(&self, writer: &mut W) -> Result<usize, Error> {
        let mut written = self.metadata.serialize(writer)?;
        for segment in &self.segments {
            written += segment.serialize(writer)?;
        }
        if self.contains_verification() {
            for row in &self.verification {
                written += row.serialize(writer)?;
            }
        }
        if let Some(row) = &self.metadata_ext {
            written += row.serialize(writer)?;
        }
        Ok(written)
    }

    /// Reads a record, or `None` at the end of a section. Nothing behind it is read.
    ///
    /// # Errors
    ///
    /// The reader failed, or ends before. `InvalidData`: more rows than 32 bits count.
    pub fn deserialize<R: Read>(reader: &mut R) -> Result<Option<Self>, Error> {
        match read_record(reader)? {
            Some(record) => Self::of_record(record, 3).map_err(as_io),
            None => Ok(None),
        }
    }

    /// The same of a shard of this version, where `InvalidShard` is also a row that the version does not have.
    pub(crate) fn read<R: Read>(reader: &mut R, version: u64) -> CoreResult<Option<Self>> {
        match read_record(reader)? {
            Some(record) => Ok(Self::of_record(record, version)?),
            None => Ok(None),
        }
    }

    fn of_record((header, bytes): (FileDataSequenceHeader, Vec<u8>), version: u64) -> xet_shards::Result<Option<Self>> {
        let found = xet_shards::file_in(&bytes, version)?;
        Ok(found.map(|(listed, _)| Self {
            metadata: FileDataSequenceHeader { file_flags: header.file_flags & !WITH_AUX, ..header },
            segments: listed.file.segments.into_iter().map(FileDataSequenceEntry::from).collect(),
            verification: listed
                .file
                .verification
                .unwrap_or_default()
                .into_iter()
                .map(|hash| FileVerificationEntry::new(hash.into()))
                .collect(),
            metadata_ext: listed.file.sha256.map(|hash| FileMetadataExt::new(hash.into())),
        }))
    }

    /// Takes over each optional part that only the other has.
    ///
    /// # Errors
    ///
    /// `InvalidArguments`: the records have different hashes or numbers of segments.
    pub fn merge_from(&mut self, other: &Self) -> CoreResult<()> {
        if !self.metadata.is_of_file(&other.metadata) {
            return Err(CoreError::InvalidArguments);
        }
        if other.contains_verification() && !self.contains_verification() {
            self.metadata.file_flags |= MDB_FILE_FLAG_WITH_VERIFICATION;
            self.verification.clone_from(&other.verification);
        }
        if other.contains_metadata_ext() && !self.contains_metadata_ext() {
            self.metadata.file_flags |= MDB_FILE_FLAG_WITH_METADATA_EXT;
            self.metadata_ext.clone_from(&other.metadata_ext);
        }
        Ok(())
    }

    /// The record as the library takes it, or `None` if its header counts other segments or a reserved word is not 0.
    pub(crate) fn as_listed(&self) -> Option<ListedFile> {
        let rows = self.verification.iter().map(|it| it._unused).chain(self.metadata_ext.iter().map(|it| it._unused));
        let is_plain = self.metadata._unused == 0 && rows.flatten().all(|word| word == 0);
        if !is_plain || self.metadata.num_entries as usize != self.segments.len() {
            return None;
        }
        // The library compares the flags with the parts.
        let has_verification = self.contains_verification() || !self.verification.is_empty();
        let hashes = || self.verification.iter().map(|it| it.range_hash.into()).collect();
        let file = File {
            segments: self.segments.iter().map(Segment::from).collect(),
            verification: has_verification.then(hashes),
            sha256: self.metadata_ext.as_ref().map(|it| it.sha256.into()),
            aux_hash: None,
        };
        Some(ListedFile { hash: self.metadata.file_hash.into(), flags: self.metadata.file_flags, file })
    }
}
