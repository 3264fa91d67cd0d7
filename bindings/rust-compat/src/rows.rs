//! Rows of 48 bytes, and the records that they make.

use crate::merklehash::DataHash;
use std::convert::TryInto;
use std::io::{Error, ErrorKind, Read, Write};

/// The bytes of a row.
pub const SIZE: usize = 48;

/// So many bytes of a record are reserved at most before they are read.
const RESERVED: u64 = 1024 * SIZE as u64;

/// A row: a hash, and four numbers of four bytes.
pub trait Row: Sized {
    /// Its hash and its numbers.
    fn fields(&self) -> (DataHash, [u32; 4]);

    /// The row with these.
    fn of_fields(hash: DataHash, numbers: [u32; 4]) -> Self;

    fn to_bytes(&self) -> [u8; SIZE] {
        let (hash, numbers) = self.fields();
        let mut bytes = [0; SIZE];
        bytes[..32].copy_from_slice(hash.as_bytes());
        for (four, number) in bytes[32..].chunks_exact_mut(4).zip(numbers) {
            four.copy_from_slice(&number.to_le_bytes());
        }
        bytes
    }

    fn of_bytes(bytes: &[u8; SIZE]) -> Self {
        let hash: [u8; 32] = bytes[..32].try_into().expect("a hash has 32 bytes");
        let mut numbers = [0; 4];
        for (number, four) in numbers.iter_mut().zip(bytes[32..].chunks_exact(4)) {
            *number = u32::from_le_bytes(four.try_into().expect("four bytes"));
        }
        Self::of_fields(hash.into(), numbers)
    }

    fn write<W: Write>(&self, writer: &mut W) -> Result<usize, Error> {
        writer.write_all(&self.to_bytes())?;
        Ok(SIZE)
    }

    fn read<R: Read>(reader: &mut R) -> Result<Self, Error> {
        let mut bytes = [0; SIZE];
        reader.read_exact(&mut bytes)?;
        Ok(Self::of_bytes(&bytes))
    }
}

/// Gives row types the calls that write and read them.
macro_rules! codec {
    ($($row:ty),*) => {$(
        impl $row {
            /// Writes the row, and returns its number of bytes.
            ///
            /// # Errors
            ///
            /// The writer failed.
            pub fn serialize<W: std::io::Write>(&self, writer: &mut W) -> Result<usize, std::io::Error> {
                crate::rows::Row::write(self, writer)
            }

            /// Reads a row.
            ///
            /// # Errors
            ///
            /// The reader failed, or ends before.
            pub fn deserialize<R: std::io::Read>(reader: &mut R) -> Result<Self, std::io::Error> {
                crate::rows::Row::read(reader)
            }
        }
    )*};
}
pub(crate) use codec;

/// The first row of a record, or the end of a section.
pub trait Header: Row {
    /// Whether the section ends here.
    fn ends_section(&self) -> bool;

    /// The rows of the record behind this one.
    fn rows_after(&self) -> u64;
}

/// The header and all bytes of the record that starts here, or `None` if the section ends. Nothing behind it is read.
pub fn read_record<H: Header, R: Read>(reader: &mut R) -> Result<Option<(H, Vec<u8>)>, Error> {
    let header = H::read(reader)?;
    if header.ends_section() {
        return Ok(None);
    }
    let mut bytes = header.to_bytes().to_vec();
    let rest = SIZE as u64 * header.rows_after();
    // Beyond this the memory grows as bytes come, whatever the header counts.
    bytes.reserve(rest.min(RESERVED) as usize);
    if reader.by_ref().take(rest).read_to_end(&mut bytes)? as u64 != rest {
        return Err(ErrorKind::UnexpectedEof.into());
    }
    Ok(Some((header, bytes)))
}

/// The row at an index of the rows of a record.
pub fn row_at<T: Row>(record: &[u8], index: usize) -> T {
    let bytes = &record[SIZE * index..][..SIZE];
    T::of_bytes(bytes.try_into().expect("a row has 48 bytes"))
}

/// The record in these bytes, whose first row is this header: what follows it is cut off.
pub fn cut_record<H: Header>(header: &H, mut bytes: Vec<u8>) -> Result<Vec<u8>, Error> {
    let size = header.rows_after().saturating_add(1).saturating_mul(SIZE as u64);
    match usize::try_from(size) {
        Ok(size) if size <= bytes.len() => bytes.truncate(size),
        _ => return Err(ErrorKind::UnexpectedEof.into()),
    }
    if bytes[..SIZE] != header.to_bytes() {
        return Err(Error::new(ErrorKind::InvalidInput, "the bytes begin with another header"));
    }
    Ok(bytes)
}

/// The number that a constructor takes.
///
/// # Panics
///
/// It is negative, or has more than 32 bits.
pub fn narrow<I: TryInto<u32>>(number: I) -> u32
where
    I::Error: std::fmt::Debug,
{
    number.try_into().expect("the number has at most 32 bits")
}
