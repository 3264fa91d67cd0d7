//! The original, with the operations that the port's `bench_run` has.

use crate::operation::Operation;
use shard_bench::combine::{Combination, combine};
use shard_bench::shards::{Hash, QUERY_LENGTH};
use std::io::Cursor;
use std::time::Duration;
use xet_core_structures::error::Result;
use xet_core_structures::merklehash::MerkleHash;
use xet_core_structures::metadata_shard::shard_format::MDBShardInfo;
use xet_core_structures::metadata_shard::shard_in_memory::MDBInMemoryShard;
use xet_core_structures::metadata_shard::streaming_shard::MDBMinimalShard;

/// Does an operation `times` times, and puts the answer into `out`, which has to have room for it.
/// Returns how many bytes it has.
pub fn run(
    operation: Operation,
    first: &[u8],
    second: &[u8],
    hashes: &[Hash],
    times: u64,
    out: &mut [u8],
) -> usize {
    run_in(operation, first, second, hashes, times, out, 0)
}

/// The same with memory reserved for the answer, as much as the port's calls reserve.
pub fn run_with_room(
    operation: Operation,
    first: &[u8],
    second: &[u8],
    hashes: &[Hash],
    times: u64,
    out: &mut [u8],
) -> usize {
    let room = match operation {
        Operation::Union => first.len() + second.len(),
        Operation::Difference => second.len(),
        _ => first.len(),
    };
    run_in(operation, first, second, hashes, times, out, room)
}

fn run_in(
    operation: Operation,
    first: &[u8],
    second: &[u8],
    hashes: &[Hash],
    times: u64,
    out: &mut [u8],
    room: usize,
) -> usize {
    let hashes: Vec<MerkleHash> = hashes
        .iter()
        .map(|hash| MerkleHash::from(hash.words))
        .collect();
    let answer = answer(operation, first, second, &hashes, times, room)
        .unwrap_or_else(|error| panic!("{operation:?} of the original failed: {error}"));
    out[..answer.len()].copy_from_slice(&answer);
    answer.len()
}

fn answer(
    operation: Operation,
    first: &[u8],
    second: &[u8],
    hashes: &[MerkleHash],
    times: u64,
    room: usize,
) -> Result<Vec<u8>> {
    match operation {
        Operation::Load => counted(times, || Ok(load(first)?.num_file_entries())),
        Operation::FindFiles => {
            let info = load(first)?;
            counted(times, || find_files(&info, first, hashes))
        }
        Operation::SearchFiles => {
            let info = load(first)?;
            counted(times, || search_files(&info, first, hashes))
        }
        Operation::QueryChunks => {
            let info = load(first)?;
            counted(times, || query_chunks(&info, first, hashes))
        }
        Operation::Union => last(times, || combine(Combination::Union, first, second, room)),
        Operation::Difference => last(times, || {
            combine(Combination::Difference, first, second, room)
        }),
        Operation::Export => last(times, || export(first, hashes[0], room)),
        Operation::ReadMinimal => counted(times, || {
            let minimal = MDBMinimalShard::from_reader(&mut &first[..], true, true)?;
            Ok(minimal.num_files() + minimal.num_xorb())
        }),
        Operation::WriteMinimal => last(times, || {
            let minimal = MDBMinimalShard::from_reader(&mut &first[..], true, true)?;
            let mut bytes = Vec::with_capacity(room);
            minimal.serialize(&mut bytes, true)?;
            Ok(bytes)
        }),
        Operation::ReadFiles => counted(times, || {
            Ok(load(first)?
                .read_all_file_info_sections(&mut Cursor::new(first))?
                .len())
        }),
        Operation::ReadXorbs => counted(times, || {
            Ok(load(first)?
                .read_all_xorb_blocks_full(&mut Cursor::new(first))?
                .len())
        }),
        Operation::Serialize => {
            let shard = in_memory(first)?;
            last(times, || shard.to_bytes())
        }
        Operation::AddFiles => counted(times, || {
            let mut shard = MDBInMemoryShard::default();
            add_files(&mut shard, first)?;
            Ok(shard.num_file_entries())
        }),
        Operation::AddXorbs => counted(times, || {
            let mut shard = MDBInMemoryShard::default();
            add_xorbs(&mut shard, first)?;
            Ok(shard.num_xorb_entries())
        }),
        Operation::QueryInMemory => {
            let shard = in_memory(first)?;
            counted(times, || Ok(query_in_memory(&shard, hashes)))
        }
        Operation::UniteInMemory => {
            let (first, second) = (in_memory(first)?, in_memory(second)?);
            last(times, || first.union(&second))?.to_bytes()
        }
        Operation::SubtractInMemory => {
            let (first, second) = (in_memory(first)?, in_memory(second)?);
            last(times, || first.difference(&second))?.to_bytes()
        }
        Operation::FindFilesInBytes => counted(times, || find_files_in_bytes(first, hashes)),
        Operation::CopyInMemory => {
            let shard = in_memory(first)?;
            last(times, || Ok(shard.clone()))?.to_bytes()
        }
        Operation::Hmac => {
            let key = hashes[0];
            let keyed = (0..times).fold(key, |hash, _| hash.hmac(key));
            Ok(keyed.as_bytes().to_vec())
        }
    }
}

/// The result of the last of `times` calls.
fn last<T>(times: u64, call: impl Fn() -> Result<T>) -> Result<T> {
    for _ in 1..times {
        call()?;
    }
    call()
}

/// The same of a count, as bytes.
fn counted(times: u64, call: impl Fn() -> Result<usize>) -> Result<Vec<u8>> {
    Ok((last(times, call)? as u64).to_le_bytes().to_vec())
}

fn load(shard: &[u8]) -> Result<MDBShardInfo> {
    MDBShardInfo::load_from_reader(&mut Cursor::new(shard))
}

fn find_files(info: &MDBShardInfo, shard: &[u8], files: &[MerkleHash]) -> Result<usize> {
    let mut source = Cursor::new(shard);
    let mut found = 0;
    for file in files {
        found += usize::from(
            info.get_file_reconstruction_info(&mut source, file)?
                .is_some(),
        );
    }
    Ok(found)
}

fn find_files_in_bytes(shard: &[u8], files: &[MerkleHash]) -> Result<usize> {
    let mut found = 0;
    for file in files {
        found += find_files(&load(shard)?, shard, &[*file])?;
    }
    Ok(found)
}

fn search_files(info: &MDBShardInfo, shard: &[u8], files: &[MerkleHash]) -> Result<usize> {
    let mut source = Cursor::new(shard);
    let mut dest = [0; 8];
    let mut rows = 0;
    for file in files {
        rows += info.get_file_info_index_by_hash(&mut source, file, &mut dest)?;
    }
    Ok(rows)
}

fn query_chunks(info: &MDBShardInfo, shard: &[u8], hashes: &[MerkleHash]) -> Result<usize> {
    let mut source = Cursor::new(shard);
    let mut chunks = 0;
    for query in hashes.chunks(QUERY_LENGTH as usize) {
        if let Some((count, _)) = info.chunk_hash_dedup_query(&mut source, query)? {
            chunks += count;
        }
    }
    Ok(chunks)
}

fn query_in_memory(shard: &MDBInMemoryShard, hashes: &[MerkleHash]) -> usize {
    let runs = hashes
        .chunks(QUERY_LENGTH as usize)
        .filter_map(|query| shard.chunk_hash_dedup_query(query));
    runs.map(|(count, _)| count).sum()
}

fn export(shard: &[u8], key: MerkleHash, room: usize) -> Result<Vec<u8>> {
    let info = load(shard)?;
    let mut bytes = Vec::with_capacity(room);
    let valid = Duration::from_secs(1000);
    info.export_as_keyed_shard(
        &mut Cursor::new(shard),
        &mut bytes,
        key,
        valid,
        true,
        true,
        true,
    )?;
    Ok(bytes)
}

fn in_memory(shard: &[u8]) -> Result<MDBInMemoryShard> {
    let mut made = MDBInMemoryShard::default();
    add_files(&mut made, shard)?;
    add_xorbs(&mut made, shard)?;
    Ok(made)
}

fn add_files(added: &mut MDBInMemoryShard, shard: &[u8]) -> Result<()> {
    for file in load(shard)?.read_all_file_info_sections(&mut Cursor::new(shard))? {
        added.add_file_reconstruction_info(file)?;
    }
    Ok(())
}

fn add_xorbs(added: &mut MDBInMemoryShard, shard: &[u8]) -> Result<()> {
    for xorb in load(shard)?.read_all_xorb_blocks_full(&mut Cursor::new(shard))? {
        added.add_xorb_block(xorb)?;
    }
    Ok(())
}
