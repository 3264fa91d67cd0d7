//! Views of the records of files.

use super::file_structs::{
    FileDataSequenceEntry, FileDataSequenceHeader, FileMetadataExt, FileVerificationEntry, MDBFileInfo,
};
use crate::bytes::Bytes;
use crate::merklehash::MerkleHash;
use crate::rows::{cut_record, row_at, Row, SIZE};
use std::io::{Error, ErrorKind, Write};
use xet_shards::WITH_AUX;

/// A file's record as its bytes, whose rows are read when they are asked for.
#[derive(Clone, Debug, PartialEq)]
pub struct MDBFileInfoView {
    header: FileDataSequenceHeader,
    data: Bytes,
}

impl MDBFileInfoView {
    /// A view of the record at the front of some bytes. Bytes behind it are cut off.
    ///
    /// # Errors
    ///
    /// `UnexpectedEof`: the bytes end before the record does.
    pub fn new(data: impl Into<Vec<u8>>) -> Result<Self, Error> {
        let data = data.into();
        Self::from_data_and_header(FileDataSequenceHeader::deserialize(&mut &data[..])?, data)
    }

    /// A view of the record at the front of some bytes, whose header was read before. Bytes behind it are cut off.
    ///
    /// # Errors
    ///
    /// `UnexpectedEof`: the bytes end before the record does. `InvalidInput`: they begin with another header.
    pub fn from_data_and_header(header: FileDataSequenceHeader, data: impl Into<Vec<u8>>) -> Result<Self, Error> {
        let data = cut_record(&header, data.into())?;
        Ok(Self::of_record((header, data)))
    }

    /// A view of a whole record, without its auxiliary row.
    pub(crate) fn of_record((mut header, mut bytes): (FileDataSequenceHeader, Vec<u8>)) -> Self {
        if header.has_aux() {
            header.file_flags &= !WITH_AUX;
            bytes.truncate(bytes.len() - SIZE);
            bytes[..SIZE].copy_from_slice(&header.to_bytes());
        }
        Self { header, data: bytes.into() }
    }

    /// The header of the record.
    #[must_use]
    pub fn header(&self) -> &FileDataSequenceHeader {
        &self.header
    }

    /// The number of its segments.
    #[must_use]
    pub fn num_entries(&self) -> usize {
        self.header.num_entries as usize
    }

    /// The hash of the file.
    #[must_use]
    pub fn file_hash(&self) -> MerkleHash {
        self.header.file_hash
    }

    /// Its flags.
    #[must_use]
    pub fn file_flags(&self) -> u32 {
        self.header.file_flags
    }

    /// Whether the file has a metadata row.
    #[must_use]
    pub fn contains_metadata_ext(&self) -> bool {
        self.header.contains_metadata_ext()
    }

    /// Whether the file has verification rows.
    #[must_use]
    pub fn contains_verification(&self) -> bool {
        self.header.contains_verification()
    }

    /// The segment at an index.
    ///
    /// # Panics
    ///
    /// The record has not so many rows.
    #[must_use]
    pub fn entry(&self, idx: usize) -> FileDataSequenceEntry {
        row_at(&self.data, 1 + idx)
    }

    /// The verification row of the segment at an index.
    ///
    /// # Panics
    ///
    /// The record has not so many rows.
    #[must_use]
    pub fn verification(&self, idx: usize) -> FileVerificationEntry {
        row_at(&self.data, 1 + self.num_entries() + idx)
    }

    /// The metadata row, if there is one.
    #[must_use]
    pub fn metadata_ext(&self) -> Option<FileMetadataExt> {
        self.contains_metadata_ext().then(|| row_at(&self.data, self.data.len() / SIZE - 1))
    }

    /// The bytes of the record, with or without its verification rows.
    #[must_use]
    pub fn byte_size(&self, with_verification: bool) -> usize {
        let left_out = if with_verification || !self.contains_verification() { 0 } else { self.num_entries() };
        self.data.len() - SIZE * left_out
    }

    /// Writes the record, with or without its verification rows, and returns the number of bytes.
    ///
    /// # Errors
    ///
    /// The writer failed. `Other`, before a byte is written: verification rows are asked for and there are none.
    pub fn serialize<W: Write>(&self, writer: &mut W, with_verification: bool) -> Result<usize, Error> {
        match (with_verification, self.contains_verification()) {
            (true, false) => return Err(Error::new(ErrorKind::Other, "the file has no verification rows")),
            (false, true) => {
                let (n, has_metadata_ext) = (self.num_entries(), self.contains_metadata_ext());
                FileDataSequenceHeader::new(self.file_hash(), n, false, has_metadata_ext).serialize(writer)?;
                writer.write_all(&self.data[SIZE..SIZE * (1 + n)])?;
                writer.write_all(&self.data[SIZE * (1 + 2 * n)..])?;
            }
            _ => writer.write_all(&self.data)?,
        }
        Ok(self.byte_size(with_verification))
    }

    /// The bytes of the record.
    #[must_use]
    pub fn bytes(&self) -> Bytes {
        self.data.clone()
    }
}

impl From<&MDBFileInfoView> for MDBFileInfo {
    /// The record of the view.
    fn from(view: &MDBFileInfoView) -> MDBFileInfo {
        let verified = if view.contains_verification() { view.num_entries() } else { 0 };
        MDBFileInfo {
            metadata: view.header.clone(),
            segments: (0..view.num_entries()).map(|idx| view.entry(idx)).collect(),
            verification: (0..verified).map(|idx| view.verification(idx)).collect(),
            metadata_ext: view.metadata_ext(),
        }
    }
}
