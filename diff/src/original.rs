//! The original.

use crate::answer::{Answer, Call, Disagreement, Error, Export, File, Hash, Info, Segment, Subset};
use crate::sections::PART_FLAGS;
use std::collections::BTreeMap;
use std::io::Cursor;
use std::panic::{AssertUnwindSafe, catch_unwind};
use std::sync::atomic::{AtomicBool, Ordering};
use std::time::{Duration, UNIX_EPOCH};
use xet_core_structures::error::{CoreError, Result};
use xet_core_structures::merklehash::MerkleHash;
use xet_core_structures::metadata_shard::file_structs::{FileDataSequenceEntry, MDBFileInfo};
use xet_core_structures::metadata_shard::set_operations::{shard_set_difference, shard_set_union};
use xet_core_structures::metadata_shard::shard_format::MDBShardInfo;
use xet_core_structures::metadata_shard::streaming_shard::MDBMinimalShard;
use xet_core_structures::metadata_shard::xorb_structs::MDBXorbInfo;

/// Whether a call of the original is under way: its panics are answers.
static IS_CALLED: AtomicBool = AtomicBool::new(false);

/// Prints nothing where the original panics.
pub fn silence_panics() {
    let print = std::panic::take_hook();
    std::panic::set_hook(Box::new(move |info| {
        if !IS_CALLED.load(Ordering::Relaxed) {
            print(info);
        }
    }));
}

/// What the original answers.
pub fn answer(call: &Call, first: &[u8], second: &[u8]) -> Answer {
    caught(|| call_original(call, first, second))
}

/// What it answers of an export that does not look at the footer.
pub fn answer_of_stream(export: &Export, shard: &[u8]) -> Answer {
    caught(|| {
        let mut bytes = Vec::new();
        MDBShardInfo::export_as_keyed_shard_streaming(
            &mut Cursor::new(shard),
            &mut bytes,
            MerkleHash::from(export.key),
            Duration::from_secs(export.valid_seconds),
            export.files,
            export.xorb_table,
            export.chunk_table,
        )?;
        Ok(Answer::Shard(bytes))
    })
}

fn caught(call: impl FnOnce() -> Result<Answer>) -> Answer {
    IS_CALLED.store(true, Ordering::Relaxed);
    let answer = catch_unwind(AssertUnwindSafe(call));
    IS_CALLED.store(false, Ordering::Relaxed);
    match answer {
        Ok(Ok(answer)) => answer,
        Ok(Err(error)) => Answer::Error(number(&error)),
        Err(_) => Answer::Panic,
    }
}

fn number(error: &CoreError) -> Error {
    match error {
        CoreError::Io(_) => Error::Io,
        CoreError::InternalError(_) => Error::InternalError,
        CoreError::TruncatedHashCollision(_) => Error::TruncatedHashCollision,
        CoreError::ShardVersion(_) => Error::ShardVersion,
        CoreError::InvalidShard(_) => Error::InvalidShard,
        CoreError::InvalidArguments => Error::InvalidArguments,
        _ => Error::Other,
    }
}

fn call_original(call: &Call, first: &[u8], second: &[u8]) -> Result<Answer> {
    Ok(match call {
        Call::Load => Answer::Info(info(&load(first)?)),
        Call::Find(hash) => {
            let found = load(first)?
                .get_file_reconstruction_info(&mut Cursor::new(first), &merkle(hash))?;
            Answer::File(found.map(|file| File {
                flags: file.metadata.file_flags,
                reserved: file.metadata._unused,
                segments: file.segments.iter().map(segment).collect(),
                verification: file.contains_verification().then(|| {
                    let rows = file.verification.iter();
                    rows.map(|row| *row.range_hash).collect()
                }),
                sha256: file.metadata_ext.map(|row| *row.sha256),
            }))
        }
        Call::Query(hashes) => {
            let hashes: Vec<_> = hashes.iter().map(merkle).collect();
            let found = load(first)?.chunk_hash_dedup_query(&mut Cursor::new(first), &hashes)?;
            Answer::Run(found.map(|(count, run)| (count, segment(&run))))
        }
        Call::Union => Answer::Shard(combine(first, second, true)?),
        Call::Difference => Answer::Shard(combine(first, second, false)?),
        Call::FindDisagreement => Answer::Disagreement(disagreement(first, second)?),
        Call::MergeAgreeing => merge_agreeing(first, second)?,
        Call::Export(options) => Answer::Shard(export(first, options)?),
        Call::Minimal { verification, .. } => {
            let mut bytes = Vec::new();
            minimal(first)?.serialize(&mut bytes, *verification)?;
            Answer::Shard(bytes)
        }
        Call::Subset(options) => Answer::Shard(subset(first, options)?),
        Call::Eligible => {
            let chunks = minimal(first)?.global_dedup_eligible_chunks();
            let mut hashes: Vec<_> = chunks
                .into_iter()
                .map(|hash| Hash { words: *hash })
                .collect();
            // The original lists them in any order.
            hashes.sort_unstable();
            Answer::Hashes(hashes)
        }
    })
}

pub fn merkle(hash: &Hash) -> MerkleHash {
    MerkleHash::from(hash.words)
}

fn load(shard: &[u8]) -> Result<MDBShardInfo> {
    MDBShardInfo::load_from_reader(&mut Cursor::new(shard))
}

fn info(info: &MDBShardInfo) -> Info {
    Info {
        version: info.header.version,
        files: info.metadata.file_lookup_num_entry,
        xorbs: info.metadata.xorb_lookup_num_entry,
        chunks: info.metadata.chunk_lookup_num_entry,
        key: *info.metadata.chunk_hash_hmac_key,
        creation: info.metadata.shard_creation_timestamp,
        expiry: info.metadata.shard_key_expiry,
        stored_bytes_on_disk: info.stored_bytes_on_disk(),
        materialized_bytes: info.materialized_bytes(),
        stored_bytes: info.stored_bytes(),
        file_section: info.metadata.file_info_offset,
        xorb_section: info.metadata.xorb_info_offset,
        file_table: info.metadata.file_lookup_offset,
        xorb_table: info.metadata.xorb_lookup_offset,
        chunk_table: info.metadata.chunk_lookup_offset,
        footer: info.metadata.footer_offset,
        footer_size: info.header.footer_size,
        footer_version: info.metadata.version,
        reserved: info.metadata._buffer,
    }
}

fn segment(entry: &FileDataSequenceEntry) -> Segment {
    Segment {
        xorb: *entry.xorb_hash,
        flags: entry.xorb_flags,
        bytes: entry.unpacked_segment_bytes,
        start: entry.chunk_index_start,
        end: entry.chunk_index_end,
    }
}

fn combine(first: &[u8], second: &[u8], union: bool) -> Result<Vec<u8>> {
    let (mut r1, mut r2) = (Cursor::new(first), Cursor::new(second));
    let s1 = MDBShardInfo::load_from_reader(&mut r1)?;
    let s2 = MDBShardInfo::load_from_reader(&mut r2)?;
    let mut bytes = Vec::new();
    if union {
        shard_set_union(&s1, &mut r1, &s2, &mut r2, &mut bytes)?;
    } else {
        shard_set_difference(&s1, &mut r1, &s2, &mut r2, &mut bytes)?;
    }
    Ok(bytes)
}

/// The records of a shard by their hashes, as the original reads them.
struct Records {
    files: BTreeMap<MerkleHash, MDBFileInfo>,
    xorbs: BTreeMap<MerkleHash, MDBXorbInfo>,
}

/// Its calls for whole sections are not used: they reserve memory by the rows that the footer has.
fn records(shard: &[u8]) -> Result<Records> {
    let (info, mut source) = (load(shard)?, Cursor::new(shard));
    let (mut files, mut xorbs) = (BTreeMap::new(), BTreeMap::new());
    source.set_position(info.metadata.file_info_offset);
    while let Some(file) = MDBFileInfo::deserialize(&mut source)? {
        files.insert(file.metadata.file_hash, file);
    }
    source.set_position(info.metadata.xorb_info_offset);
    while let Some(xorb) = MDBXorbInfo::deserialize(&mut source)? {
        xorbs.insert(xorb.metadata.xorb_hash, xorb);
    }
    Ok(Records { files, xorbs })
}

/// The union of both shards if each is well-formed and they agree, or why there is none. The original
/// has no call for it.
fn merge_agreeing(first: &[u8], second: &[u8]) -> Result<Answer> {
    for (at, shard) in [first, second].into_iter().enumerate() {
        if let Some(found) = malformed(at, &records(shard)?) {
            return Ok(Answer::Malformed(found));
        }
    }
    Ok(match disagreement(first, second)? {
        None => Answer::Shard(combine(first, second, true)?),
        found => Answer::Disagreement(found),
    })
}

/// A record that no shard may have, of the shard at this place: the first file, else the first xorb.
/// The original has no call for it.
fn malformed(at: usize, records: &Records) -> Option<Disagreement> {
    let is_malformed = |file: &MDBFileInfo| {
        file.metadata.file_flags & !PART_FLAGS != 0 || file.metadata._unused != 0
    };
    let bytes = |xorb: &MDBXorbInfo| {
        let chunks = xorb.chunks.iter();
        chunks
            .map(|chunk| u64::from(chunk.unpacked_segment_bytes))
            .sum::<u64>()
    };
    let found = |hash: &MerkleHash, is_xorb| Disagreement {
        hash: **hash,
        is_xorb,
        first: at,
        second: at,
    };
    let file = records.files.iter().find(|(_, file)| is_malformed(file));
    let mut xorbs = records.xorbs.iter();
    let xorb = xorbs.find(|(_, xorb)| bytes(xorb) > u64::from(u32::MAX));
    file.map(|(hash, _)| found(hash, false))
        .or(xorb.map(|(hash, _)| found(hash, true)))
}

/// What the records of both shards say: the original has no call for it.
fn disagreement(first: &[u8], second: &[u8]) -> Result<Option<(usize, Disagreement)>> {
    let (first, second) = (records(first)?, records(second)?);
    let files = differing(&first.files, &second.files, files_agree).map(|hash| (hash, false));
    let xorbs = differing(&first.xorbs, &second.xorbs, MDBXorbInfo::eq).map(|hash| (hash, true));
    let all: Vec<_> = files.chain(xorbs).collect();
    Ok(all.first().map(|&(hash, is_xorb)| {
        let found = Disagreement {
            hash: *hash,
            is_xorb,
            first: 0,
            second: 1,
        };
        (all.len(), found)
    }))
}

/// The hashes under which both have a record and the two do not agree.
fn differing<R>(
    first: &BTreeMap<MerkleHash, R>,
    second: &BTreeMap<MerkleHash, R>,
    agree: impl Fn(&R, &R) -> bool,
) -> impl Iterator<Item = MerkleHash> {
    first.iter().filter_map(move |(hash, record)| {
        let other = second.get(hash)?;
        (!agree(record, other)).then_some(*hash)
    })
}

/// The segments are equal, and so is each optional part that both have.
fn files_agree(one: &MDBFileInfo, other: &MDBFileInfo) -> bool {
    let is_verified = |file: &MDBFileInfo| file.contains_verification();
    one.segments == other.segments
        && (!is_verified(one) || !is_verified(other) || one.verification == other.verification)
        && (one.metadata_ext.is_none()
            || other.metadata_ext.is_none()
            || one.metadata_ext == other.metadata_ext)
}

fn subset(shard: &[u8], subset: &Subset) -> Result<Vec<u8>> {
    let expiry = subset.expiry.map(|it| UNIX_EPOCH + Duration::from_secs(it));
    let mut bytes = Vec::new();
    minimal(shard)?.serialize_xorb_subset_with_expiry(&mut bytes, expiry, |xorb| {
        let words = *xorb.xorb_hash();
        let listed = subset.xorbs.as_ref();
        listed.is_none_or(|listed| listed.contains(&Hash { words }))
    })?;
    Ok(bytes)
}

pub fn export(shard: &[u8], export: &Export) -> Result<Vec<u8>> {
    let info = load(shard)?;
    let mut bytes = Vec::new();
    info.export_as_keyed_shard(
        &mut Cursor::new(shard),
        &mut bytes,
        MerkleHash::from(export.key),
        Duration::from_secs(export.valid_seconds),
        export.files,
        export.xorb_table,
        export.chunk_table,
    )?;
    Ok(bytes)
}

pub fn minimal(shard: &[u8]) -> Result<MDBMinimalShard> {
    MDBMinimalShard::from_reader(&mut Cursor::new(shard), true, true)
}
