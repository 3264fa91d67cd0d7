//! Shards that are built by the calls of the crate.

use xet_core_structures::merklehash::MerkleHash;
use xet_core_structures::metadata_shard::file_structs::{
    FileDataSequenceEntry, FileDataSequenceHeader, FileMetadataExt, FileVerificationEntry, MDBFileInfo,
};
use xet_core_structures::metadata_shard::shard_in_memory::MDBInMemoryShard;
use xet_core_structures::metadata_shard::xorb_structs::{MDBXorbInfo, XorbChunkSequenceEntry, XorbChunkSequenceHeader};

/// The hash of a word of a script: 64 digits, or a number for the words number, 1, 0 and 0.
pub fn hash(word: &str) -> MerkleHash {
    MerkleHash::from_hex(word).unwrap_or_else(|_| MerkleHash::from([number(word), 1, 0, 0]))
}

pub fn number(word: &str) -> u64 {
    word.parse().expect("a number")
}

/// A file: its hash, `v=HASH,..` and `s=HASH` where it has them, and segments `XORB:START:END:BYTES`.
pub fn file(words: &[&str]) -> MDBFileInfo {
    let mut rest = &words[1..];
    let mut optional = |start: &str| {
        let listed = rest.first().and_then(|it| it.strip_prefix(start))?;
        rest = &rest[1..];
        Some(listed.split(',').filter(|it| !it.is_empty()).map(hash).collect::<Vec<_>>())
    };
    let (verification, metadata_ext) = (optional("v="), optional("s="));
    let segment = |word: &&str| {
        let (xorb, numbers) = word.split_once(':').expect("a segment");
        let numbers: Vec<u64> = numbers.split(':').map(number).collect();
        FileDataSequenceEntry::new(hash(xorb), numbers[2], numbers[0], numbers[1])
    };
    let segments: Vec<_> = rest.iter().map(segment).collect();
    let (has_verification, has_metadata_ext) = (verification.is_some(), metadata_ext.is_some());
    MDBFileInfo {
        metadata: FileDataSequenceHeader::new(hash(words[0]), segments.len(), has_verification, has_metadata_ext),
        segments,
        verification: verification.into_iter().flatten().map(FileVerificationEntry::new).collect(),
        metadata_ext: metadata_ext.map(|it| FileMetadataExt::new(it[0])),
    }
}

/// A xorb: its hash, and chunks `HASH:BYTES`, one after another.
pub fn xorb(words: &[&str]) -> MDBXorbInfo {
    let mut end = 0;
    let chunk = |word: &&str| {
        let (name, bytes) = word.split_once(':').expect("a chunk");
        end += number(bytes);
        XorbChunkSequenceEntry::new(hash(name), number(bytes), end - number(bytes))
    };
    let chunks: Vec<_> = words[1..].iter().map(chunk).collect();
    MDBXorbInfo { metadata: XorbChunkSequenceHeader::new(hash(words[0]), chunks.len(), end), chunks }
}

/// The shard of `file` and `xorb` lines.
#[allow(dead_code)]
pub fn shard_of(lines: &[&str]) -> MDBInMemoryShard {
    let mut shard = MDBInMemoryShard::default();
    for line in lines {
        let words: Vec<&str> = line.split(' ').collect();
        match words[0] {
            "file" => shard.add_file_reconstruction_info(file(&words[1..])).expect("it is added"),
            _ => shard.add_xorb_block(xorb(&words[1..])).expect("it is added"),
        }
    }
    shard
}
