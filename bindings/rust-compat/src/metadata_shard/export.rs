//! Exports under a key.

use super::set_operations::read_whole;
use super::shard_format::current_timestamp;
use super::streaming_shard::MDBMinimalShard;
use super::MDBShardInfo;
use crate::error::Result;
use crate::merklehash::HMACKey;
use std::io::{Read, Seek, Write};
use std::time::Duration;
use xet_shards::{Export, Version};

impl MDBShardInfo {
    /// Writes the shard with each chunk hash replaced by its hash under a key, and with the parts that are asked for,
    /// in version 2, and returns its number of bytes. It is created now, and expires so much later. A key of zeros
    /// leaves the chunk hashes as they are.
    ///
    /// # Errors
    ///
    /// - `InvalidArguments`: the chunk hashes are under a key already, or the expiry passes 64 bits.
    /// - `ShardVersion`: the bytes are no shard of version 2 or 3.
    /// - `InvalidShard`: a file has a row that the version does not have, or a section more than 4294967295 rows.
    /// - `Io`: the reader or the writer failed, or the bytes end too early.
    /// - `OutOfMemory`: an allocation failed.
    #[allow(clippy::too_many_arguments)]
    pub fn export_as_keyed_shard<R: Read + Seek, W: Write>(
        &self,
        reader: &mut R,
        writer: &mut W,
        hmac_key: HMACKey,
        key_valid_for: Duration,
        include_file_info: bool,
        include_xorb_lookup_table: bool,
        include_chunk_lookup_table: bool,
    ) -> Result<usize> {
        let (files, xorb_table, chunk_table) =
            (include_file_info, include_xorb_lookup_table, include_chunk_lookup_table);
        let parts = Export { files, xorb_table, chunk_table, ..since_now(hmac_key, key_valid_for) };
        write_export(&read_whole(reader)?, &parts, writer)
    }

    /// The same of a shard whose front the reader is at, of which the header and both sections are read: the bytes may
    /// end after them. Chunk hashes that are under a key already are hashed again.
    ///
    /// # Errors
    ///
    /// Those of [`export_as_keyed_shard`](Self::export_as_keyed_shard), but `InvalidArguments` for the expiry alone.
    #[allow(clippy::too_many_arguments)]
    pub fn export_as_keyed_shard_streaming<R: Read + Seek, W: Write>(
        reader: &mut R,
        writer: &mut W,
        hmac_key: HMACKey,
        key_valid_for: Duration,
        include_file_info: bool,
        include_xorb_lookup_table: bool,
        include_chunk_lookup_table: bool,
    ) -> Result<usize> {
        let (files, xorb_table, chunk_table) =
            (include_file_info, include_xorb_lookup_table, include_chunk_lookup_table);
        let parts = Export { files, xorb_table, chunk_table, ..since_now(hmac_key, key_valid_for) };
        let sections = MDBMinimalShard::from_reader(reader, include_file_info, true)?;
        write_export(&sections.with_footer()?, &parts, writer)
    }
}

/// An export under this key that is created now.
fn since_now(key: HMACKey, valid_for: Duration) -> Export {
    Export {
        key: key.into(),
        now: current_timestamp(),
        valid_seconds: valid_for.as_secs(),
        aux_rows: false,
        version: Version::V2,
        ..Export::default()
    }
}

fn write_export<W: Write>(shard: &[u8], parts: &Export, writer: &mut W) -> Result<usize> {
    let bytes = xet_shards::export(shard, parts)?;
    writer.write_all(&bytes)?;
    Ok(bytes.len())
}
