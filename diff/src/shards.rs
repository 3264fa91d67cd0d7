//! Random shards, by the original's own calls: small ones, with hashes and first words in common.

use crate::answer::{Export, Hash, NOW};
use crate::original;
use crate::random::Random;
use crate::sections::{AUX, FOOTER_SIZE, file_at, number};
use std::time::Duration;
use xet_core_structures::metadata_shard::file_structs::{
    FileDataSequenceEntry, FileDataSequenceHeader, FileMetadataExt, FileVerificationEntry,
    MDBFileInfo,
};
use xet_core_structures::metadata_shard::shard_format::MDBShardInfo;
use xet_core_structures::metadata_shard::shard_in_memory::MDBInMemoryShard;
use xet_core_structures::metadata_shard::xorb_structs::{
    MDBXorbInfo, XorbChunkSequenceEntry, XorbChunkSequenceHeader,
};

/// A hash of a few: of these some share their first word.
pub fn hash(random: &mut Random) -> Hash {
    let first = match random.below(8) {
        0 => random.of(&[0, u64::MAX, 1 << 63]),
        1..=3 => 7,
        _ => random.next() % 12 * 0x1555_5555_5555_5555,
    };
    let last = random.of(&[0, 1024, 5]);
    Hash {
        words: [first, random.next() % 4, 0, last],
    }
}

pub fn key(random: &mut Random) -> [u64; 4] {
    if random.once_in(2) {
        [0; 4]
    } else {
        [1 + random.next() % 5 / 4, 2, 3, 4]
    }
}

/// The bytes of a shard: as it is written, exported or minimal, and at times said to be of version 3.
pub fn shard(random: &mut Random) -> Vec<u8> {
    let mut shard = MDBInMemoryShard::default();
    let without_verification = random.of(&[1, 3, usize::MAX]);
    for _ in 0..count(random, 6) {
        shard
            .add_file_reconstruction_info(file(random, without_verification))
            .unwrap();
    }
    for _ in 0..count(random, 6) {
        shard.add_xorb_block(xorb(random)).unwrap();
    }
    if random.once_in(40) {
        add_many_files(&mut shard, random);
    }
    if random.once_in(80) {
        shard.add_xorb_block(large_xorb(random)).unwrap();
    }
    let mut bytes = Vec::new();
    let expiry = random
        .once_in(4)
        .then(|| Duration::from_secs(random.next() % 1000));
    MDBShardInfo::serialize_from(&mut bytes, &shard, expiry).unwrap();
    set_times(&mut bytes, 0, if expiry.is_some() { NOW } else { u64::MAX });
    let mut bytes = formed(random, bytes);
    if random.once_in(4) {
        bytes[32] = 3;
        if random.once_in(2) {
            add_aux_rows(&mut bytes, random);
        }
    }
    bytes
}

/// Adds the row that version 3 alone has to some files, and moves what the footer says.
fn add_aux_rows(shard: &mut Vec<u8>, random: &mut Random) {
    let (mut at, mut added) = (48, 0);
    let mut starts = Vec::new();
    while let Some(record) = file_at(shard, at)
        && !record.is_bookend()
    {
        starts.push((at / 48 - 1) as u32);
        let end = at + 48 * (1 + record.rows);
        at = end;
        if record.flags & AUX == 0 && random.once_in(2) {
            shard[(end - 48 * record.rows) as usize - 13] |= (AUX >> 24) as u8;
            let row = [
                random.next().to_le_bytes(),
                [0; 8],
                [1; 8],
                [2; 8],
                [0; 8],
                [0; 8],
            ];
            shard.splice(end as usize..end as usize, row.concat());
            at += 48;
            added += 48;
        }
    }
    let footer = shard.len() - FOOTER_SIZE;
    for field in [16, 24, 40, 56, 192] {
        let moved = number(shard, footer + field) + added;
        shard[footer + field..footer + field + 8].copy_from_slice(&moved.to_le_bytes());
    }
    let table = number(shard, footer + 24) as usize;
    let rows = number(shard, footer + 32) as usize;
    for (row, start) in starts.iter().enumerate().take(rows) {
        shard[table + 12 * row + 8..table + 12 * row + 12].copy_from_slice(&start.to_le_bytes());
    }
}

fn count(random: &mut Random, end: usize) -> usize {
    let most = if random.once_in(10) { 3 * end } else { end };
    random.below(most)
}

/// The same records in another form.
fn formed(random: &mut Random, bytes: Vec<u8>) -> Vec<u8> {
    match random.below(8) {
        0 => {
            let mut minimal = Vec::new();
            let written =
                original::minimal(&bytes).and_then(|shard| shard.serialize(&mut minimal, false));
            if written.is_err() {
                return bytes;
            }
            set_times(&mut minimal, NOW, 0);
            minimal
        }
        1 => {
            let options = Export {
                files: true,
                valid_seconds: 100,
                ..export(random)
            };
            let Ok(mut exported) = original::export(&bytes, &options) else {
                return bytes;
            };
            set_times(&mut exported, NOW, NOW + 100);
            exported
        }
        _ => bytes,
    }
}

/// The original takes them from the clock, and a case has to be the same each time.
fn set_times(shard: &mut [u8], creation: u64, expiry: u64) {
    let footer = shard.len() - FOOTER_SIZE;
    shard[footer + 104..footer + 112].copy_from_slice(&creation.to_le_bytes());
    shard[footer + 112..footer + 120].copy_from_slice(&expiry.to_le_bytes());
}

pub fn export(random: &mut Random) -> Export {
    Export {
        key: key(random),
        now: NOW,
        valid_seconds: if random.once_in(50) {
            u64::MAX
        } else {
            random.next() % 1000
        },
        files: !random.once_in(4),
        aux_rows: random.once_in(2),
        xorb_table: !random.once_in(4),
        chunk_table: !random.once_in(4),
    }
}

/// More than fit one read of a table, so that it is searched.
fn add_many_files(shard: &mut MDBInMemoryShard, random: &mut Random) {
    for _ in 0..300 + random.below(600) {
        let mut file = file(random, 3);
        let first = random.next() >> random.of(&[0, 8, 60]);
        file.metadata.file_hash = [first, random.next() % 4, 0, 0].into();
        shard.add_file_reconstruction_info(file).unwrap();
    }
}

/// A file whose content its hash mostly decides, so that shards agree on it. One in so many has no
/// verification rows.
fn file(random: &mut Random, without_verification: usize) -> MDBFileInfo {
    let hash = hash(random);
    let decided = hash
        .words
        .iter()
        .fold(0, |all, word| all ^ word.rotate_left(7));
    let mut content = Random::new(decided, if random.once_in(8) { random.next() } else { 0 });
    let segments: Vec<_> = (0..content.below(4))
        .map(|_| segment(&mut content))
        .collect();
    let has_verification = !random.once_in(without_verification);
    let has_sha256 = random.once_in(2);
    let verification = segments
        .iter()
        .map(|_| FileVerificationEntry::new(original::merkle(&self::hash(&mut content))));
    let mut metadata = FileDataSequenceHeader::new(
        original::merkle(&hash),
        segments.len(),
        has_verification,
        has_sha256,
    );
    if random.once_in(12) {
        metadata.file_flags |= 1 << random.below(30);
    }
    if random.once_in(12) {
        metadata._unused = random.next();
    }
    MDBFileInfo {
        metadata,
        verification: if has_verification {
            verification.collect()
        } else {
            Vec::new()
        },
        segments,
        metadata_ext: has_sha256.then(|| FileMetadataExt::new([content.next(), 1, 2, 3].into())),
    }
}

fn segment(random: &mut Random) -> FileDataSequenceEntry {
    let start = random.below(4) as u32;
    let end = start + random.below(4) as u32;
    let mut entry =
        FileDataSequenceEntry::new(original::merkle(&hash(random)), random.number(), start, end);
    entry.xorb_flags = random.number();
    entry
}

fn xorb(random: &mut Random) -> MDBXorbInfo {
    let hash = hash(random);
    let mut content = Random::new(
        hash.words[0] ^ hash.words[1],
        if random.once_in(8) { random.next() } else { 0 },
    );
    let chunks: Vec<_> = (0..content.below(7)).map(|_| chunk(&mut content)).collect();
    let mut metadata =
        XorbChunkSequenceHeader::new(original::merkle(&hash), chunks.len(), content.number());
    metadata.xorb_flags = content.number();
    metadata.num_bytes_on_disk = content.number();
    MDBXorbInfo { metadata, chunks }
}

/// With more chunks than fit one read of a table.
fn large_xorb(random: &mut Random) -> MDBXorbInfo {
    let mut xorb = xorb(random);
    let shift = random.of(&[0, 8, 58]);
    xorb.chunks = (0..300 + random.below(300))
        .map(|_| {
            let mut chunk = chunk(random);
            chunk.chunk_hash = [random.next() >> shift, random.next() % 2, 0, 5].into();
            chunk.unpacked_segment_bytes = 7;
            chunk
        })
        .collect();
    xorb.metadata.num_entries = xorb.chunks.len() as u32;
    xorb
}

fn chunk(random: &mut Random) -> XorbChunkSequenceEntry {
    let hash = original::merkle(&hash(random));
    let mut chunk = XorbChunkSequenceEntry::new(hash, random.number(), random.number());
    chunk.flags = random.of(&[0, 0, 1 << 31, 5]);
    chunk._unused = random.of(&[0, 0, 9]);
    chunk
}
