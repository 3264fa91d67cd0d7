//! Shards from a seed.

use xet_core_structures::merklehash::MerkleHash;
use xet_core_structures::metadata_shard::file_structs::{
    FileDataSequenceEntry, FileDataSequenceHeader, FileMetadataExt, FileVerificationEntry,
    MDBFileInfo,
};
use xet_core_structures::metadata_shard::shard_in_memory::MDBInMemoryShard;
use xet_core_structures::metadata_shard::xorb_structs::{
    MDBXorbInfo, XorbChunkSequenceEntry, XorbChunkSequenceHeader,
};

const CHUNKS_OF_XORB: u64 = 64;
const FILES_OF_XORB: u64 = 8;
const QUERIES: u64 = 1000;
/// The chunks of a query.
pub const QUERY_LENGTH: u64 = 8;

/// A hash, as the port's libraries take it.
#[repr(C)]
#[derive(Clone, Copy)]
pub struct Hash {
    /// The first eight bytes, lowest byte first, and so on.
    pub words: [u64; 4],
}

/// The shards of one size, and what is looked up in the first.
pub struct Shards {
    /// A shard's bytes.
    pub first: Vec<u8>,
    /// Half of its records are in the first.
    pub second: Vec<u8>,
    /// The files of each.
    pub files: u64,
    /// The xorbs of each.
    pub xorbs: u64,
    /// The chunks of each.
    pub chunks: u64,
    /// Files of the first.
    pub present_files: Vec<Hash>,
    /// Files that neither has.
    pub absent_files: Vec<Hash>,
    /// Runs of `QUERY_LENGTH` chunks of the first.
    pub chunk_runs: Vec<Hash>,
}

impl Shards {
    /// Room for any answer.
    pub fn room(&self) -> Vec<u8> {
        vec![0; self.first.len() + self.second.len()]
    }
}

/// What a hash is of.
#[derive(Clone, Copy)]
enum Kind {
    File = 1,
    Xorb,
    Chunk,
    Verification,
    Sha256,
    Absent,
    Pick,
}

/// Numbers that look random, each by what it is for.
#[derive(Clone, Copy)]
struct Seed(u64);

impl Seed {
    fn number(self, kind: Kind, index: u64, word: u64) -> u64 {
        [kind as u64, index, word]
            .iter()
            .fold(mix(self.0), |state, &part| mix(state ^ part))
    }

    fn words(self, kind: Kind, index: u64) -> [u64; 4] {
        [0, 1, 2, 3].map(|word| self.number(kind, index, word))
    }

    fn hash(self, kind: Kind, index: u64) -> MerkleHash {
        MerkleHash::from(self.words(kind, index))
    }
}

/// SplitMix64.
fn mix(state: u64) -> u64 {
    let z = state.wrapping_add(0x9e37_79b9_7f4a_7c15);
    let z = (z ^ (z >> 30)).wrapping_mul(0xbf58_476d_1ce4_e5b9);
    let z = (z ^ (z >> 27)).wrapping_mul(0x94d0_49bb_1331_11eb);
    z ^ (z >> 31)
}

/// Shards of this many files and an eighth of as many xorbs.
pub fn shards(seed: u64, files: u64) -> Shards {
    let seed = Seed(seed);
    let xorbs = files / FILES_OF_XORB;
    Shards {
        first: successive(seed, 0, files),
        second: successive(seed, files / 2, files),
        files,
        xorbs,
        chunks: xorbs * CHUNKS_OF_XORB,
        present_files: picked(|index| {
            seed.words(Kind::File, seed.number(Kind::Pick, index, 0) % files)
        }),
        absent_files: picked(|index| seed.words(Kind::Absent, index)),
        chunk_runs: picked_runs(seed, xorbs),
    }
}

/// Shards of this many files and an eighth of as many xorbs, of whose records the first, so many
/// percent of them, stand in all of the shards, and each other stands in one.
pub fn overlapping(seed: u64, count: u64, files: u64, shared_percent: u64) -> Vec<Vec<u8>> {
    let seed = Seed(seed);
    let members = |all: u64, shard: u64| {
        let own = own_records(all, shared_percent, shard);
        let start = (shard + 1) * all;
        (0..all - own).chain(start..start + own)
    };
    (0..count)
        .map(|index| {
            shard(
                seed,
                members(files, index),
                members(files / FILES_OF_XORB, index),
            )
        })
        .collect()
}

/// How many of all records of the shard with this index stand in it alone. It may be one more or
/// less than in another shard, so that the sum over shards is right.
fn own_records(all: u64, shared_percent: u64, shard: u64) -> u64 {
    let of_first = |shards: u64| shards * all * (100 - shared_percent) / 100;
    of_first(shard + 1) - of_first(shard)
}

fn picked(words: impl Fn(u64) -> [u64; 4]) -> Vec<Hash> {
    (0..QUERIES)
        .map(|index| Hash {
            words: words(index),
        })
        .collect()
}

/// Runs of chunks that stand one after another in a xorb.
fn picked_runs(seed: Seed, xorbs: u64) -> Vec<Hash> {
    let starts = (0..QUERIES).map(|index| {
        let xorb = seed.number(Kind::Pick, index, 1) % xorbs;
        let chunk = seed.number(Kind::Pick, index, 2) % (CHUNKS_OF_XORB - QUERY_LENGTH);
        xorb * CHUNKS_OF_XORB + chunk
    });
    let chunks = starts.flat_map(|start| start..start + QUERY_LENGTH);
    chunks
        .map(|chunk| Hash {
            words: seed.words(Kind::Chunk, chunk),
        })
        .collect()
}

/// A shard of the files from the `start`th on, and their xorbs.
fn successive(seed: Seed, start: u64, files: u64) -> Vec<u8> {
    let end = start + files;
    shard(seed, start..end, start / FILES_OF_XORB..end / FILES_OF_XORB)
}

/// A shard of these files and xorbs.
fn shard(
    seed: Seed,
    files: impl IntoIterator<Item = u64>,
    xorbs: impl IntoIterator<Item = u64>,
) -> Vec<u8> {
    let mut shard = MDBInMemoryShard::default();
    for index in files {
        shard
            .add_file_reconstruction_info(file(seed, index))
            .unwrap();
    }
    for index in xorbs {
        shard.add_xorb_block(xorb(seed, index)).unwrap();
    }
    shard.to_bytes().unwrap()
}

/// A file with one to three segments, verification rows and a SHA-256.
fn file(seed: Seed, index: u64) -> MDBFileInfo {
    let count = 1 + seed.number(Kind::Pick, index, 3) % 3;
    let xorb = seed.hash(Kind::Xorb, index / FILES_OF_XORB);
    let segments = (0..count).map(|segment| {
        let start = (index % FILES_OF_XORB * 8 + segment) as u32;
        FileDataSequenceEntry::new(xorb, 65536, start, start + 1)
    });
    let verification = (0..count)
        .map(|row| FileVerificationEntry::new(seed.hash(Kind::Verification, 4 * index + row)));
    MDBFileInfo {
        metadata: FileDataSequenceHeader::new(
            seed.hash(Kind::File, index),
            count as u32,
            true,
            true,
        ),
        segments: segments.collect(),
        verification: verification.collect(),
        metadata_ext: Some(FileMetadataExt::new(seed.hash(Kind::Sha256, index))),
    }
}

fn xorb(seed: Seed, index: u64) -> MDBXorbInfo {
    let chunks = (0..CHUNKS_OF_XORB).map(|chunk| {
        let hash = seed.hash(Kind::Chunk, index * CHUNKS_OF_XORB + chunk);
        XorbChunkSequenceEntry::new(hash, 65536u32, chunk as u32 * 65536)
    });
    let bytes = CHUNKS_OF_XORB as u32 * 65536;
    MDBXorbInfo {
        metadata: XorbChunkSequenceHeader::new(
            seed.hash(Kind::Xorb, index),
            CHUNKS_OF_XORB as u32,
            bytes,
        ),
        chunks: chunks.collect(),
    }
}
