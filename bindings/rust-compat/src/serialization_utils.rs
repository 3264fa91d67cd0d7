//! Numbers and hashes over readers and writers, the lowest byte first. The errors are those of the reader or the
//! writer; `UnexpectedEof` is the end of the input.

use crate::merklehash::DataHash;
use std::io::{Error, Read, Write};

/// Writes the 32 bytes of a hash.
///
/// # Errors
///
/// The writer failed.
pub fn write_hash<W: Write>(writer: &mut W, hash: &DataHash) -> Result<(), Error> {
    writer.write_all(hash.as_bytes())
}

/// Writes a byte.
///
/// # Errors
///
/// The writer failed.
pub fn write_u8<W: Write>(writer: &mut W, value: u8) -> Result<(), Error> {
    writer.write_all(&[value])
}

/// Writes a number of four bytes.
///
/// # Errors
///
/// The writer failed.
pub fn write_u32<W: Write>(writer: &mut W, value: u32) -> Result<(), Error> {
    writer.write_all(&value.to_le_bytes())
}

/// Writes a number of eight bytes.
///
/// # Errors
///
/// The writer failed.
pub fn write_u64<W: Write>(writer: &mut W, value: u64) -> Result<(), Error> {
    writer.write_all(&value.to_le_bytes())
}

/// Writes bytes as they are.
///
/// # Errors
///
/// The writer failed.
pub fn write_bytes<W: Write>(writer: &mut W, bytes: &[u8]) -> Result<(), Error> {
    writer.write_all(bytes)
}

/// Writes numbers of four bytes each.
///
/// # Errors
///
/// The writer failed.
pub fn write_u32s<W: Write>(writer: &mut W, values: &[u32]) -> Result<(), Error> {
    values.iter().try_for_each(|it| write_u32(writer, *it))
}

/// Writes numbers of eight bytes each.
///
/// # Errors
///
/// The writer failed.
pub fn write_u64s<W: Write>(writer: &mut W, values: &[u64]) -> Result<(), Error> {
    values.iter().try_for_each(|it| write_u64(writer, *it))
}

fn read_array<const N: usize, R: Read>(reader: &mut R) -> Result<[u8; N], Error> {
    let mut bytes = [0; N];
    reader.read_exact(&mut bytes)?;
    Ok(bytes)
}

/// Reads the 32 bytes of a hash.
///
/// # Errors
///
/// The reader failed, or ends before.
pub fn read_hash<R: Read>(reader: &mut R) -> Result<DataHash, Error> {
    read_array::<32, R>(reader).map(DataHash::from)
}

/// Reads a byte.
///
/// # Errors
///
/// The reader failed, or ends before.
pub fn read_u8<R: Read>(reader: &mut R) -> Result<u8, Error> {
    read_array(reader).map(u8::from_le_bytes)
}

/// Reads a number of four bytes.
///
/// # Errors
///
/// The reader failed, or ends before.
pub fn read_u32<R: Read>(reader: &mut R) -> Result<u32, Error> {
    read_array(reader).map(u32::from_le_bytes)
}

/// Reads a number of eight bytes.
///
/// # Errors
///
/// The reader failed, or ends before.
pub fn read_u64<R: Read>(reader: &mut R) -> Result<u64, Error> {
    read_array(reader).map(u64::from_le_bytes)
}

/// Fills a slice with bytes.
///
/// # Errors
///
/// The reader failed, or ends before.
pub fn read_bytes<R: Read>(reader: &mut R, bytes: &mut [u8]) -> Result<(), Error> {
    reader.read_exact(bytes)
}

/// Fills a slice with numbers of four bytes each.
///
/// # Errors
///
/// The reader failed, or ends before.
pub fn read_u32s<R: Read>(reader: &mut R, values: &mut [u32]) -> Result<(), Error> {
    values.iter_mut().try_for_each(|it| read_u32(reader).map(|value| *it = value))
}

/// Fills a slice with numbers of eight bytes each.
///
/// # Errors
///
/// The reader failed, or ends before.
pub fn read_u64s<R: Read>(reader: &mut R, values: &mut [u64]) -> Result<(), Error> {
    values.iter_mut().try_for_each(|it| read_u64(reader).map(|value| *it = value))
}
