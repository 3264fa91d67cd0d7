//! The metadata shards of the crate `xet-core-structures` 1.5.2 under its own names, over the proved library `libxet`.
//!
//! The calls of [`xet_shards`] find rows, read records, and write shards, unions, differences, exports and minimal
//! shards. Written here are the types, the shard in memory, the codecs of single rows, and which bytes of a source are
//! read. Shards are written in version 2, as the original does. Of shards of version 3, which are read too, the
//! auxiliary rows of files are left out.
//!
//! ```
//! use std::io::Cursor;
//! use xet_core_structures::merklehash::MerkleHash;
//! use xet_core_structures::metadata_shard::file_structs::{
//!     FileDataSequenceEntry, FileDataSequenceHeader, MDBFileInfo,
//! };
//! use xet_core_structures::metadata_shard::shard_in_memory::MDBInMemoryShard;
//! use xet_core_structures::metadata_shard::MDBShardInfo;
//!
//! # fn main() -> xet_core_structures::error::Result<()> {
//! let (file, xorb) = (MerkleHash::from([100, 1, 0, 0]), MerkleHash::from([200, 1, 0, 0]));
//! let mut shard = MDBInMemoryShard::default();
//! shard.add_file_reconstruction_info(MDBFileInfo {
//!     metadata: FileDataSequenceHeader::new(file, 1, false, false),
//!     segments: vec![FileDataSequenceEntry::new(xorb, 5, 0, 5)],
//!     ..MDBFileInfo::default()
//! })?;
//! let mut reader = Cursor::new(shard.to_bytes()?);
//! let info = MDBShardInfo::load_from_reader(&mut reader)?;
//! let found = info.get_file_reconstruction_info(&mut reader, &file)?.expect("the shard has the file");
//! assert_eq!(found.file_size(), 5);
//! # Ok(())
//! # }
//! ```
#![deny(missing_docs, unsafe_code)]
#![warn(clippy::must_use_candidate, clippy::return_self_not_must_use)]

mod bytes;
pub mod error;
pub mod merklehash;
pub mod metadata_shard;
mod rows;
pub mod serialization_utils;

/// Another path of [`serialization_utils`].
pub mod utils {
    pub use crate::serialization_utils;
}

pub use bytes::Bytes;
pub use error::CoreError;
pub use merklehash::MerkleHashMap;
