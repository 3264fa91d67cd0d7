//! How much of a shard each call reads.

mod common;

use common::{file, hash, xorb};
use std::io::{Cursor, Read, Result, Seek, SeekFrom};
use xet_core_structures::merklehash::{HMACKey, MerkleHash};
use xet_core_structures::metadata_shard::shard_in_memory::MDBInMemoryShard;
use xet_core_structures::metadata_shard::streaming_shard::MDBMinimalShard;
use xet_core_structures::metadata_shard::MDBShardInfo;

/// A reader that counts.
struct Counted {
    source: Cursor<Vec<u8>>,
    bytes: u64,
    seeks: u64,
}

impl Counted {
    fn new(bytes: Vec<u8>) -> Counted {
        Counted { source: Cursor::new(bytes), bytes: 0, seeks: 0 }
    }

    /// The bytes and the seeks since the last time.
    fn counts(&mut self) -> (u64, u64) {
        let counts = (self.bytes, self.seeks);
        (self.bytes, self.seeks) = (0, 0);
        counts
    }
}

impl Read for Counted {
    fn read(&mut self, bytes: &mut [u8]) -> Result<usize> {
        let count = self.source.read(bytes)?;
        self.bytes += count as u64;
        Ok(count)
    }
}

impl Seek for Counted {
    fn seek(&mut self, to: SeekFrom) -> Result<u64> {
        self.seeks += 1;
        self.source.seek(to)
    }
}

/// A hash that is as good as random.
fn scattered(number: u64) -> MerkleHash {
    MerkleHash::from([number; 4]).hmac(HMACKey::from([1; 4]))
}

const FILES: u64 = 20_000;
const XORBS: u64 = 200;
const CHUNKS: u64 = 100;

/// A shard of files of two segments, and of xorbs.
fn large() -> MDBInMemoryShard {
    let mut shard = MDBInMemoryShard::default();
    for it in 0..FILES {
        let name = scattered(it).hex();
        shard.add_file_reconstruction_info(file(&[&name, "200:0:5:5", "201:0:6:6"])).expect("it is added");
    }
    for it in 0..XORBS {
        let names = (it * CHUNKS..(it + 1) * CHUNKS).map(|it| format!("{}:7", scattered(it))).collect::<Vec<_>>();
        let mut words = vec![it.to_string()];
        words.extend(names);
        shard.add_xorb_block(xorb(&words.iter().map(String::as_str).collect::<Vec<_>>())).expect("it is added");
    }
    shard
}

#[test]
fn lookups() {
    let bytes = large().to_bytes().expect("a shard");
    assert_eq!(bytes.len() as u64, 344 + FILES * (3 * 48 + 12) + XORBS * (48 + 12) + XORBS * CHUNKS * (48 + 16));
    let mut reader = Counted::new(bytes);
    let info = MDBShardInfo::load_from_reader(&mut reader).expect("a shard");
    assert_eq!(reader.counts(), (48 + 200, 2));

    for it in (0..FILES).step_by(37) {
        let found = info.get_file_reconstruction_info(&mut reader, &scattered(it)).expect("an answer");
        assert_eq!(found.expect("a file").segments.len(), 2);
        let (bytes, seeks) = reader.counts();
        // Each seek leads to a key of eight bytes, but for those to a cut of the table and to the record.
        assert!(bytes <= 8 * (seeks - 2) + 264 * 12 + 3 * 48 && seeks <= 6, "{bytes} bytes, {seeks} seeks");

        let run = info.chunk_hash_dedup_query(&mut reader, &[scattered(it), hash("7")]).expect("an answer");
        assert_eq!(run.map(|(count, run)| (count, run.unpacked_segment_bytes)), Some((1, 7)));
        let (bytes, seeks) = reader.counts();
        // The header of the xorb, the chunk, and the one behind it.
        assert!(bytes <= 8 * (seeks - 2) + 264 * 16 + 3 * 48 && seeks <= 7, "{bytes} bytes, {seeks} seeks");
    }

    let mut rows = [0; 8];
    let absent = MerkleHash::from([u64::MAX / 3, 0, 0, 0]);
    assert_eq!(info.get_file_reconstruction_info(&mut reader, &absent), Ok(None));
    assert_eq!(info.get_xorb_info_index_by_hash(&mut reader, &absent, &mut rows), Ok(0));
    assert_eq!(info.chunk_hash_dedup_query(&mut reader, &[absent]), Ok(None));
    let (bytes, seeks) = reader.counts();
    assert!(bytes <= 264 * (12 + 12 + 16) + 8 * seeks && seeks <= 12, "{bytes} bytes, {seeks} seeks");

    // The first words of the xorbs' hashes are 0 to 199, all at one end.
    for it in 0..XORBS {
        let found = info.get_xorb_info_index_by_hash(&mut reader, &hash(&it.to_string()), &mut rows);
        assert_eq!((found, u64::from(rows[0])), (Ok(1), it * (1 + CHUNKS)));
        assert_eq!(reader.counts(), (XORBS * 12, 1));
    }
}

#[test]
fn chunks_of_one_word() {
    // A chunk that is in each of 5000 xorbs: eight places are enough.
    let mut shard = MDBInMemoryShard::default();
    for it in 0..5000 {
        shard.add_xorb_block(xorb(&[&it.to_string(), "21:5"])).expect("it is added");
    }
    let mut reader = Counted::new(shard.to_bytes().expect("a shard"));
    let info = MDBShardInfo::load_from_reader(&mut reader).expect("a shard");
    reader.counts();
    let mut places = [(0, 0); 8];
    assert_eq!(info.get_xorb_info_index_by_chunk(&mut reader, &hash("21"), &mut places), Ok(8));
    assert_eq!(places.map(|it| it.0), [0, 2, 4, 6, 8, 10, 12, 14]);
    let (bytes, seeks) = reader.counts();
    assert!(bytes <= 264 * 16 + 8 * seeks && seeks <= 6, "{bytes} bytes, {seeks} seeks");
}

#[test]
fn sections_and_tables() {
    let mut reader = Counted::new(large().to_bytes().expect("a shard"));
    let info = MDBShardInfo::load_from_reader(&mut reader).expect("a shard");
    let size = |(start, end): (u64, u64)| end - start;
    let (files, xorbs) = (size(info.file_info_byte_range()), size(info.xorb_info_byte_range()));
    reader.counts();

    assert_eq!(info.read_all_file_info_sections(&mut reader).expect("files").len() as u64, FILES);
    assert_eq!(reader.counts(), (files, 1));
    assert_eq!(info.read_all_xorb_blocks_full(&mut reader).expect("xorbs").len() as u64, XORBS);
    assert_eq!(reader.counts(), (xorbs, 1));
    let headers = info.read_all_xorb_blocks(&mut reader).expect("headers");
    assert_eq!((headers[1].0.xorb_hash, headers[1].1), (hash("1"), 48 + files + 48 * (1 + CHUNKS)));
    assert_eq!(reader.counts(), (48 * (XORBS + 1), 1 + XORBS));
    assert_eq!(info.read_full_xorb_lookup(&mut reader).expect("rows").len() as u64, XORBS);
    assert_eq!(reader.counts(), (12 * XORBS, 1));
    assert_eq!(info.read_all_truncated_hashes(&mut reader).expect("rows").len() as u64, XORBS * CHUNKS);
    assert_eq!(reader.counts(), (16 * XORBS * CHUNKS, 1));

    reader.rewind().expect("the start");
    reader.counts();
    let ranges = MDBShardInfo::read_file_info_ranges(&mut reader).expect("ranges");
    assert_eq!((ranges[1].1, ranges[1].2, ranges[1].3), ((48 + 4 * 48, 48 + 6 * 48), None, None));
    // Header, and of each file its header.
    assert_eq!(reader.counts().0, 48 + 48 * (FILES + 1));

    // Nothing behind the sections.
    reader.rewind().expect("the start");
    reader.counts();
    let shard = MDBMinimalShard::from_reader(&mut reader, true, true).expect("a shard");
    assert_eq!((shard.num_files() as u64, shard.num_xorb() as u64), (FILES, XORBS));
    assert_eq!(reader.counts(), (48 + files + xorbs, 0));
    reader.rewind().expect("the start");
    reader.counts();
    MDBMinimalShard::from_reader(&mut reader, false, false).expect("a shard");
    assert_eq!(reader.counts(), (48 + files, 0));
}
