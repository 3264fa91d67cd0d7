//! Worked shards: in memory, as bytes, and what is refused.

mod common;

use common::{file, hash, shard_of, xorb};
use std::io::{Cursor, ErrorKind};
use std::time::Duration;
use xet_core_structures::error::{CoreError, Result};
use xet_core_structures::merklehash::{HMACKey, MerkleHash};
use xet_core_structures::metadata_shard::file_structs::{FileDataSequenceEntry, MDBFileInfo};
use xet_core_structures::metadata_shard::set_operations::{shard_set_difference, shard_set_union};
use xet_core_structures::metadata_shard::shard_format::{current_timestamp, MDBShardFileFooter, MDBShardFileHeader};
use xet_core_structures::metadata_shard::shard_in_memory::MDBInMemoryShard;
use xet_core_structures::metadata_shard::streaming_shard::{process_shard_file_info_section, MDBMinimalShard};
use xet_core_structures::metadata_shard::MDBShardInfo;
use xet_shards::{File, ListedFile, Segment};

/// One file and one xorb.
const P: [&str; 2] = ["xorb 10 21:5", "file 100 200:0:5:5"];
/// The same, and one more of each.
const Q: [&str; 4] = ["xorb 10 21:5", "xorb 11 22:5", "file 100 200:0:5:5", "file 101 201:0:5:5"];

fn bytes_of(lines: &[&str]) -> Vec<u8> {
    shard_of(lines).to_bytes().expect("a shard")
}

fn open(bytes: &[u8]) -> Result<(MDBShardInfo, Cursor<&[u8]>)> {
    let mut reader = Cursor::new(bytes);
    Ok((MDBShardInfo::load_from_reader(&mut reader)?, reader))
}

fn union(one: &[u8], other: &[u8]) -> Result<Vec<u8>> {
    let ((s1, mut r1), (s2, mut r2), mut out) = (open(one)?, open(other)?, Vec::new());
    shard_set_union(&s1, &mut r1, &s2, &mut r2, &mut out).map(|_| out)
}

fn difference(one: &[u8], other: &[u8]) -> Result<Vec<u8>> {
    let ((s1, mut r1), (s2, mut r2), mut out) = (open(one)?, open(other)?, Vec::new());
    shard_set_difference(&s1, &mut r1, &s2, &mut r2, &mut out).map(|_| out)
}

/// An export for a minute, with the parts that are chosen.
fn exported(shard: &[u8], key: HMACKey, [files, xorbs, chunks]: [bool; 3]) -> Result<Vec<u8>> {
    let ((info, mut reader), mut out) = (open(shard)?, Vec::new());
    let valid = Duration::from_secs(60);
    info.export_as_keyed_shard(&mut reader, &mut out, key, valid, files, xorbs, chunks).map(|_| out)
}

#[test]
fn layouts() -> Result<()> {
    for (lines, offsets) in [(&[][..], [48, 96, 144, 144, 144, 144]), (&P[..], [48, 192, 336, 348, 360, 376])] {
        let bytes = bytes_of(lines);
        let it = open(&bytes)?.0.metadata;
        let tables = [it.file_lookup_offset, it.xorb_lookup_offset, it.chunk_lookup_offset];
        assert_eq!([&[it.file_info_offset, it.xorb_info_offset][..], &tables, &[it.footer_offset]].concat(), offsets);
        assert_eq!(bytes.len() as u64, it.footer_offset + 200);
        assert_eq!((it.shard_creation_timestamp, it.shard_key_expiry), (0, u64::MAX));
    }
    let bytes = bytes_of(&P);
    let (info, mut reader) = open(&bytes)?;
    assert_eq!((info.num_bytes(), info.header.version, bytes[32]), (576, 2, 2));
    assert_eq!((info.num_file_entries(), info.num_xorb_entries(), info.total_num_chunks()), (1, 1, 1));
    assert_eq!((info.stored_bytes(), info.materialized_bytes(), info.stored_bytes_on_disk()), (5, 5, 0));
    assert_eq!((info.file_info_byte_range(), info.xorb_info_byte_range()), ((48, 192), (192, 336)));
    assert_eq!((info.file_lookup_byte_range(), info.xorb_lookup_byte_range()), ((336, 348), (348, 360)));
    assert_eq!((info.chuck_lookup_byte_range(), MDBShardInfo::non_content_byte_size()), ((360, 376), 344));
    assert_eq!(info.read_full_xorb_lookup(&mut reader)?, [(10, 0)]);
    let headers = info.read_all_xorb_blocks(&mut reader)?;
    assert_eq!((headers.len(), headers[0].0.xorb_hash, headers[0].1), (1, hash("10"), 192));
    let ranges = MDBShardInfo::read_file_info_ranges(&mut Cursor::new(&bytes))?;
    assert_eq!(ranges, [(hash("100"), (96, 144), None, None)]);
    let both = bytes_of(&["file 100 v=365 s=9364 200:0:5:5"]);
    let ranges = MDBShardInfo::read_file_info_ranges(&mut Cursor::new(both))?;
    assert_eq!(ranges, [(hash("100"), (96, 144), Some((144, 192)), Some(hash("9364")))]);
    // Both ends by their own codecs.
    let (mut header, mut footer) = (Vec::new(), Vec::new());
    assert_eq!((info.header.serialize(&mut header)?, info.metadata.serialize(&mut footer)?), (48, 200));
    assert_eq!((&bytes[..48], &bytes[376..]), (&header[..], &footer[..]));
    assert_eq!(MDBShardFileHeader::deserialize(&mut &header[..])?, info.header);
    assert_eq!(MDBShardFileFooter::deserialize(&mut &footer[..])?, info.metadata);
    info.print_report();
    Ok(())
}

#[test]
fn unions_and_differences() -> Result<()> {
    let (p, q) = (bytes_of(&P), bytes_of(&Q));
    assert_eq!((union(&p, &q)?, union(&q, &p)?, q.len()), (q.clone(), q.clone(), 808));
    assert_eq!(difference(&p, &q)?, bytes_of(&["xorb 11 22:5", "file 101 201:0:5:5"]));
    assert_eq!(difference(&q, &p)?, bytes_of(&[]));
    let (p, q) = (shard_of(&P), shard_of(&Q));
    let sizes = [&p, &p.union(&q)?, &p.difference(&q)?, &q.difference(&p)?].map(MDBInMemoryShard::shard_file_size);
    assert_eq!(sizes, [576, 808, 576, 344]);
    assert_eq!(p.union(&q)?.to_bytes()?, bytes_of(&Q));
    assert!(q.difference(&p)?.is_empty());
    // Optional parts of both.
    let verified = ["file 100 v=365 200:0:5:5", "xorb 10 21:5"];
    let hashed = ["file 100 s=9364 200:0:5:5", "xorb 10 21:5"];
    let both = bytes_of(&["file 100 v=365 s=9364 200:0:5:5", "xorb 10 21:5"]);
    assert_eq!(union(&bytes_of(&verified), &bytes_of(&hashed))?, both);
    assert_eq!(union(&bytes_of(&hashed), &bytes_of(&verified))?, both);
    assert_eq!((shard_of(&hashed).union(&shard_of(&verified))?.to_bytes()?, both.len()), (both.clone(), 672));
    // Other numbers of segments.
    let longer = ["file 100 200:0:5:5 200:5:6:1", "xorb 10 21:5"];
    assert_eq!(p.union(&shard_of(&longer)).map(drop), Err(CoreError::InvalidArguments));
    assert_eq!(
        (union(&bytes_of(&P), &bytes_of(&longer))?.len(), union(&bytes_of(&longer), &bytes_of(&P))?.len()),
        (576, 624)
    );
    let hashed = bytes_of(&["file 100 s=9364 200:0:5:5 200:5:6:1"]);
    assert_eq!(union(&bytes_of(&verified), &hashed), Err(CoreError::invalid_shard("")));
    Ok(())
}

#[test]
fn records_that_replace() -> Result<()> {
    let mut shard = shard_of(&P);
    shard.add_xorb_block(xorb(&["10", "22:5"]))?;
    shard.add_file_reconstruction_info(file(&["100", "200:0:5:5"]))?;
    assert_eq!(shard.shard_file_size(), 576);
    assert_eq!((shard.chunk_hash_dedup_query(&[hash("21")]), shard.to_bytes()?.len()), (None, 576));
    assert_eq!(shard.chunk_hash_dedup_query(&[hash("22")]).map(|it| it.0), Some(1));
    shard.xorb_content.clear();
    shard.recalculate_shard_size();
    assert_eq!(shard.shard_file_size(), shard.to_bytes()?.len() as u64);
    assert_eq!(shard.get_file_reconstruction_info(&hash("100")), Some(file(&["100", "200:0:5:5"])));
    assert_eq!(shard.get_file_reconstruction_info(&hash("101")), None);
    Ok(())
}

#[test]
fn shards_that_expire() -> Result<()> {
    let mut bytes = Vec::new();
    let info = MDBShardInfo::serialize_from(&mut bytes, &shard_of(&P), Some(Duration::from_secs(100)))?;
    assert!((100..102).contains(&(info.metadata.shard_key_expiry - current_timestamp())));
    assert_eq!(union(&bytes, &bytes)?, bytes_of(&P));
    Ok(())
}

#[test]
fn records_that_no_shard_has() {
    let refused = |file: Option<MDBFileInfo>, chunks: u32| {
        let (mut shard, mut xorb) = (MDBInMemoryShard::default(), xorb(&["10", "21:5"]));
        xorb.metadata.num_entries = chunks;
        shard.add_xorb_block(xorb).expect("it is added");
        if let Some(file) = file {
            shard.add_file_reconstruction_info(file).expect("it is added");
        }
        shard.to_bytes().map(drop) == Err(CoreError::InvalidArguments)
    };
    let changed = |change: &dyn Fn(&mut MDBFileInfo)| {
        let mut it = file(&["100", "v=365", "s=9364", "200:0:5:5"]);
        change(&mut it);
        Some(it)
    };
    assert!(!refused(changed(&|_| ()), 1));
    assert!(refused(None, 2));
    let ones = MerkleHash::from([u64::MAX; 4]);
    assert!(refused(changed(&|it| it.metadata.file_hash = ones), 1));
    assert!(refused(changed(&|it| it.metadata.num_entries = 2), 1));
    assert!(refused(changed(&|it| it.metadata.file_flags |= 1), 1));
    assert!(refused(changed(&|it| it.metadata.file_flags = 1 << 30), 1));
    assert!(refused(changed(&|it| it.metadata._unused = 1), 1));
    assert!(refused(changed(&|it| it.verification[0]._unused[1] = 1), 1));
    assert!(refused(changed(&|it| it.verification.clear()), 1));
    assert!(refused(changed(&|it| it.metadata_ext = None), 1));
}

#[test]
fn first_words_that_records_share() -> Result<()> {
    let names: Vec<String> = (1..=8).map(|it| MerkleHash::from([5, it, 0, 0]).hex()).collect();
    let seven: Vec<String> = names[..7].iter().map(|it| format!("file {it} 200:0:5:5")).collect();
    let mut shard = shard_of(&seven.iter().map(String::as_str).collect::<Vec<_>>());
    let bytes = shard.to_bytes()?;
    let (info, mut reader) = open(&bytes)?;
    let mut find = |name: &str| info.get_file_reconstruction_info(&mut reader, &hash(name));
    for name in &names[..7] {
        assert_eq!(find(name)?, Some(file(&[name, "200:0:5:5"])));
    }
    assert_eq!((find(&names[7])?, find("6")?), (None, None));
    shard.add_file_reconstruction_info(file(&[&names[7], "200:0:5:5"]))?;
    for name in &names {
        shard.add_xorb_block(xorb(&[name, "21:5"]))?;
    }
    let bytes = shard.to_bytes()?;
    let (info, mut reader) = open(&bytes)?;
    let collision = CoreError::TruncatedHashCollision(5);
    let absent = MerkleHash::from([5, 99, 0, 0]);
    match info.get_file_reconstruction_info(&mut reader, &absent) {
        Err(CoreError::TruncatedHashCollision(5)) => {}
        other => panic!("{other:?}"),
    }
    assert_eq!(info.get_xorb_info_index_by_hash(&mut reader, &absent, &mut [0; 8]), Err(collision));
    assert_eq!(info.get_xorb_info_index_by_chunk(&mut reader, &hash("21"), &mut [(0, 0); 8])?, 8);
    assert_eq!(info.chunk_hash_dedup_query(&mut reader, &[hash("21")])?.map(|it| it.0), Some(1));
    Ok(())
}

#[test]
fn runs_of_chunks() -> Result<()> {
    let shard = shard_of(&["xorb 10 21:5 22:6 23:7"]);
    let bytes = shard.to_bytes()?;
    let (info, mut reader) = open(&bytes)?;
    for (words, wanted) in [
        (&["22", "23", "99"][..], Some((2, FileDataSequenceEntry::new(hash("10"), 13, 1, 3)))),
        (&["23", "24"], Some((1, FileDataSequenceEntry::new(hash("10"), 7, 2, 3)))),
        (&["21", "23"], Some((1, FileDataSequenceEntry::new(hash("10"), 5, 0, 1)))),
        (&["99"], None),
        (&[], None),
    ] {
        let hashes: Vec<_> = words.iter().map(|it| hash(it)).collect();
        assert_eq!(info.chunk_hash_dedup_query(&mut reader, &hashes)?, wanted);
        assert_eq!(shard.chunk_hash_dedup_query(&hashes), wanted);
        if let Some((_, run)) = &wanted {
            let found = info.chunk_hash_dedup_query_direct(&mut reader, &hashes, 0, run.chunk_index_start)?;
            assert_eq!(found, wanted);
        }
    }
    let mut direct = |row, index| info.chunk_hash_dedup_query_direct(&mut reader, &[hash("21")], row, index);
    assert_eq!((direct(0, 3), direct(4, 0)), (Err(CoreError::InvalidArguments), Err(CoreError::InvalidArguments)));
    assert_eq!(direct(0, 1), Ok(None));
    assert_eq!(info.chunk_hash_dedup_query_direct(&mut reader, &[], 9, 9), Ok(None));
    assert_eq!(info.read_all_truncated_hashes(&mut reader)?, [(21, (0, 0)), (22, (0, 1)), (23, (0, 2))]);
    Ok(())
}

#[test]
fn exports() -> Result<()> {
    let (p, key) = (bytes_of(&P), HMACKey::from([7, 1, 0, 0]));
    for (key, parts, size) in [
        (key, [false, true, true], 468),
        (key, [true, true, true], 576),
        (key, [true, false, false], 548),
        (HMACKey::default(), [false, false, false], 440),
    ] {
        let made = exported(&p, key, parts)?;
        let (info, mut reader) = open(&made)?;
        assert_eq!((made.len(), info.num_bytes(), info.header.version), (size, size as u64, 2));
        let (created, expires) = (info.metadata.shard_creation_timestamp, info.metadata.shard_key_expiry);
        assert!(expires == created + 60 && (0..60).contains(&(current_timestamp() - created)));
        assert_eq!((info.stored_bytes(), info.materialized_bytes()), (5, if parts[0] { 5 } else { 0 }));
        let chunk = info.read_all_xorb_blocks_full(&mut reader)?[0].chunks[0].chunk_hash;
        let is_keyed = key != HMACKey::default();
        assert_eq!(chunk, if is_keyed { hash("21").hmac(key) } else { hash("21") });
        assert_eq!((info.chunk_hashes_protected(), info.chunk_hmac_key()), (is_keyed, is_keyed.then_some(key)));
        assert_eq!(info.keyed_chunk_hash(hash("21")), chunk);
        // With or without a table.
        assert_eq!(info.read_all_truncated_hashes(&mut reader)?, [(chunk[0], (0, 0))]);
        let found = info.chunk_hash_dedup_query(&mut reader, &[hash("21"), hash("22")])?;
        assert_eq!(found.map(|it| it.0), if parts[2] { Some(1) } else { None });
    }
    let keyed = exported(&p, key, [true; 3])?;
    assert_eq!(exported(&keyed, key, [true; 3]), Err(CoreError::InvalidArguments));
    assert_eq!(union(&keyed, &p), Err(CoreError::InvalidArguments));
    let merged = union(&keyed, &exported(&bytes_of(&Q), key, [true; 3])?)?;
    let (info, mut reader) = open(&merged)?;
    assert_eq!(merged.len(), 808);
    assert_eq!(info.chunk_hash_dedup_query(&mut reader, &[hash("22")])?.map(|it| it.1.xorb_hash), Some(hash("11")));
    // By its sections alone a shard is hashed again.
    let mut again = Vec::new();
    let valid = Duration::from_secs(60);
    MDBShardInfo::export_as_keyed_shard_streaming(&mut Cursor::new(&keyed), &mut again, key, valid, true, true, true)?;
    let (info, mut reader) = open(&again)?;
    let chunk = info.read_all_xorb_blocks_full(&mut reader)?[0].chunks[0].chunk_hash;
    assert_eq!(chunk, hash("21").hmac(key).hmac(key));
    Ok(())
}

#[test]
fn minimal_shards() -> Result<()> {
    let p = bytes_of(&P);
    let shard = MDBMinimalShard::from_reader(&mut &p[..], true, true)?;
    let mut made = Vec::new();
    assert_eq!((shard.serialize(&mut made, false)?, made.len(), shard.serialized_size(false)), (536, 536, 536));
    let it = open(&made)?.0.metadata;
    assert_eq!([it.file_lookup_offset, it.xorb_lookup_offset, it.chunk_lookup_offset, it.footer_offset], [336; 4]);
    assert_eq!(it.shard_key_expiry, 0);
    assert!((0..60).contains(&(current_timestamp() - it.shard_creation_timestamp)));
    let mut nothing = Vec::new();
    match shard.serialize(&mut nothing, true) {
        Err(CoreError::Io(error)) => assert_eq!((error.kind(), nothing.len()), (ErrorKind::Other, 0)),
        other => panic!("{other:?}"),
    }
    let empty = MDBMinimalShard::from_reader(&mut &p[..], false, false)?;
    assert_eq!((empty.serialized_size(true), empty.serialize(&mut nothing, true)?), (0, 344));
    assert_eq!((shard.num_files(), shard.num_xorb(), shard.has_file_verification()), (1, 1, false));
    assert!(shard.file(1).is_none() && shard.xorb(1).is_none());
    assert_eq!(shard.file(0).map(MDBFileInfo::from), Some(file(&["100", "200:0:5:5"])));
    Ok(())
}

#[test]
fn chunks_at_which_files_start() -> Result<()> {
    let chunk = MerkleHash::from([21, 1, 0, 1]);
    for (start, flags, eligible) in [(0, 1 << 31, vec![chunk]), (1, 0, vec![])] {
        let bytes = bytes_of(&[&format!("xorb 10 {}:5", chunk.hex()), &format!("file 100 10:{start}:{}:5", start + 1)]);
        let shard = MDBMinimalShard::from_reader(&mut &bytes[..], true, true)?;
        let mut made = Vec::new();
        assert_eq!(shard.serialize_xorb_subset_only(&mut made, |_| true)?, 440);
        let (info, mut reader) = open(&made)?;
        assert_eq!(info.metadata.shard_key_expiry, 0);
        assert_eq!(info.read_all_xorb_blocks_full(&mut reader)?[0].chunks[0].flags, flags);
        let again = MDBMinimalShard::from_reader(&mut &made[..], true, true)?;
        assert_eq!((again.global_dedup_eligible_chunks(), again.num_files()), (eligible.clone(), 0));
        assert_eq!(shard.global_dedup_eligible_chunks(), eligible);
    }
    Ok(())
}

#[test]
fn callbacks_that_fail() -> Result<()> {
    let (q, mut calls) = (bytes_of(&Q), 0);
    let stopped = process_shard_file_info_section(&mut &q[48..], |_| {
        calls += 1;
        if calls < 2 {
            Ok(())
        } else {
            Err(CoreError::InvalidRange)
        }
    });
    assert_eq!((stopped, calls), (Err(CoreError::InvalidRange), 2));
    let mut reader = &q[48..];
    process_shard_file_info_section(&mut reader, |_| Ok(()))?;
    assert_eq!(reader.len() as u64, q.len() as u64 - open(&q)?.0.metadata.xorb_info_offset);
    Ok(())
}

#[test]
fn bytes_that_are_no_shard() -> Result<()> {
    let p = bytes_of(&P);
    let refused = |bytes: &[u8]| open(bytes).map(drop).expect_err("it is refused");
    let (version, io) =
        (CoreError::ShardVersion(String::new()), CoreError::from(std::io::Error::from(ErrorKind::Other)));
    for bytes in [&p[..575], &[7; 500], &[7; 50]] {
        assert_eq!(refused(bytes), version);
    }
    for end in [0, 31, 47, 100] {
        assert_eq!(refused(&p[..end]), io);
    }
    for (at, byte) in [(0, 0), (32, 4), (32, 1), (376, 2)] {
        let mut changed = p.clone();
        changed[at] = byte;
        assert_eq!(refused(&changed), version);
    }
    // A row of the table of files that leads to the end of the section, one out of it, and the same of chunks.
    for (at, row, error) in [(344, 2, CoreError::InternalError(String::new())), (344, 1 << 20, io)] {
        let mut lost = p.clone();
        lost[at..at + 4].copy_from_slice(&u32::to_le_bytes(row));
        let (info, mut reader) = open(&lost)?;
        assert_eq!(info.get_file_reconstruction_info(&mut reader, &hash("100")), Err(error));
    }
    for at in [368, 372] {
        let mut lost = p.clone();
        lost[at] = 2;
        let (info, mut reader) = open(&lost)?;
        assert_eq!(info.chunk_hash_dedup_query(&mut reader, &[hash("21")]), Err(CoreError::invalid_shard("")));
    }
    // Tables that end past 64 bits.
    let (mut info, mut reader) = open(&p)?;
    info.metadata.file_lookup_num_entry = u64::MAX / 2;
    info.metadata.xorb_info_offset = u64::MAX - 5;
    assert_eq!(info.get_file_reconstruction_info(&mut reader, &hash("100")), Err(CoreError::invalid_shard("")));
    assert_eq!(info.chunk_hash_dedup_query_direct(&mut reader, &[hash("21")], 1, 0), Err(CoreError::invalid_shard("")));
    Ok(())
}

/// A file with all optional rows, in version 3, which the crate does not write.
fn version_3() -> Vec<u8> {
    let segments = vec![Segment { xorb: [200, 1, 0, 0].into(), flags: 0, bytes: 5, start: 0, end: 5 }];
    let [verification, sha256, aux] = [365, 9364, 777].map(|it| xet_shards::Hash([it, 1, 0, 0]));
    let file = File { segments, verification: Some(vec![verification]), sha256: Some(sha256), aux_hash: Some(aux) };
    let files = [ListedFile::new([100, 1, 0, 0].into(), file)];
    xet_shards::write_records(&files, &[], None, xet_shards::Version::V3).expect("a shard")
}

#[test]
fn auxiliary_rows() -> Result<()> {
    let (bytes, wanted) = (version_3(), file(&["100", "v=365", "s=9364", "200:0:5:5"]));
    let (info, mut reader) = open(&bytes)?;
    assert_eq!((info.header.version, bytes.len()), (3, 344 + 5 * 48 + 12));
    assert_eq!(info.get_file_reconstruction_info(&mut reader, &hash("100"))?, Some(wanted.clone()));
    assert_eq!(info.read_all_file_info_sections(&mut reader)?, vec![wanted.clone()]);
    assert_eq!(MDBFileInfo::deserialize(&mut &bytes[48..])?, Some(wanted.clone()));
    let ranges = MDBShardInfo::read_file_info_ranges(&mut Cursor::new(&bytes))?;
    assert_eq!(ranges, [(hash("100"), (96, 144), Some((144, 192)), Some(hash("9364")))]);
    // What is written has none.
    let plain = bytes_of(&["file 100 v=365 s=9364 200:0:5:5"]);
    let shard = MDBMinimalShard::from_reader(&mut &bytes[..], true, true)?;
    assert_eq!(shard.file(0).map(MDBFileInfo::from), Some(wanted));
    assert_eq!(shard, MDBMinimalShard::from_reader(&mut &plain[..], true, true)?);
    let mut made = exported(&bytes, HMACKey::default(), [true; 3])?;
    let times = made.len() - 96..made.len() - 80;
    made[times.clone()].copy_from_slice(&plain[plain.len() - 96..plain.len() - 80]);
    assert_eq!((&made, times.len()), (&plain, 16));
    assert_eq!(union(&bytes, &plain), Err(CoreError::InvalidArguments));
    assert_eq!(difference(&bytes, &plain)?, bytes_of(&[]));
    // Version 2 has no such row.
    let mut called_2 = bytes;
    called_2[32] = 2;
    let (info, mut reader) = open(&called_2)?;
    let invalid = || CoreError::invalid_shard("");
    assert_eq!(info.get_file_reconstruction_info(&mut reader, &hash("100")), Err(invalid()));
    assert_eq!(info.read_all_file_info_sections(&mut reader), Err(invalid()));
    assert_eq!(MDBMinimalShard::from_reader(&mut &called_2[..], true, true), Err(invalid()));
    Ok(())
}
