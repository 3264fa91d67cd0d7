//! The sizes of parts of a shard, in bytes.

/// A row of a section.
pub const ROW: usize = 48;

/// A row of the tables of files and of xorbs.
pub const TABLE_ROW: usize = 12;

/// A row of the table of chunks.
pub const CHUNK_ROW: usize = 16;

/// A footer.
pub const FOOTER: usize = 200;
