//! Runs the scripts of vectors/ by the calls of the crate. Those of the original print the original's own bytes.

mod common;

use common::{file, hash, number, xorb};
use std::collections::HashMap;
use std::io::Cursor;
use std::path::{Path, PathBuf};
use std::time::{Duration, UNIX_EPOCH};
use std::{env, fs};
use xet_core_structures::error::{CoreError, Result};
use xet_core_structures::merklehash::{HMACKey, MerkleHash};
use xet_core_structures::metadata_shard::set_operations::{shard_set_difference, shard_set_union};
use xet_core_structures::metadata_shard::shard_format::current_timestamp;
use xet_core_structures::metadata_shard::shard_in_memory::MDBInMemoryShard;
use xet_core_structures::metadata_shard::streaming_shard::MDBMinimalShard;
use xet_core_structures::metadata_shard::MDBShardInfo;

type Reader<'a> = Cursor<&'a Vec<u8>>;

/// Where the creation is from the end of a shard; the expiry follows.
const CREATION: usize = 96;
const EXPIRY: usize = 88;

fn vectors() -> PathBuf {
    match env::var_os("XET_VECTORS") {
        Some(folder) => PathBuf::from(folder),
        None => Path::new(env!("CARGO_MANIFEST_DIR")).join("../../vectors"),
    }
}

/// Puts a time into the footer of a shard.
fn set_time(shard: &mut [u8], from_end: usize, seconds: u64) {
    let at = shard.len() - from_end;
    shard[at..at + 8].copy_from_slice(&seconds.to_le_bytes());
}

/// Reads header and footer.
fn open(shard: &Vec<u8>) -> Result<(MDBShardInfo, Reader<'_>)> {
    let mut reader = Cursor::new(shard);
    Ok((MDBShardInfo::load_from_reader(&mut reader)?, reader))
}

/// The state of a script: its shards, its buffers, and what it has printed.
#[derive(Default)]
struct Run {
    shards: HashMap<String, MDBInMemoryShard>,
    buffers: HashMap<String, Vec<u8>>,
    printed: Vec<String>,
    /// The lines that show the version of a shard, and where.
    versions: Vec<(usize, usize)>,
}

impl Run {
    fn command(&mut self, words: &[&str]) -> Result<()> {
        match *words {
            ["shard", name] => {
                self.shards.insert(name.to_owned(), MDBInMemoryShard::default());
            }
            ["xorb", name, ..] => self.shard(name).add_xorb_block(xorb(&words[2..]))?,
            ["file", name, ..] => self.shard(name).add_file_reconstruction_info(file(&words[2..]))?,
            ["eligible", name] => {
                let hashes = MDBShardInfo::filter_cas_chunks_for_global_dedup(&mut Cursor::new(&self.buffers[name]))?;
                self.printed.extend(hashes.iter().map(MerkleHash::hex));
            }
            ["query", name, ..] => self.query(name, words[2..].iter().map(|it| hash(it)).collect())?,
            ["find", name, wanted] => self.find(name, hash(wanted))?,
            ["size", name] => self.printed.push(self.buffers[name].len().to_string()),
            ["hex", name, ref range @ ..] => {
                let bytes = &self.buffers[name];
                let range: Vec<usize> = range.iter().map(|it| number(it) as usize).collect();
                let (start, end) = if range.is_empty() { (0, bytes.len()) } else { (range[0], range[0] + range[1]) };
                if (start..end).contains(&32) {
                    self.versions.push((self.printed.len(), 2 * (32 - start)));
                }
                self.printed.push(bytes[start..end].iter().map(|it| format!("{it:02x}")).collect());
            }
            _ => {
                let (name, made) = self.made(words)?;
                self.buffers.insert(name.to_owned(), made);
            }
        }
        Ok(())
    }

    fn shard(&mut self, name: &str) -> &mut MDBInMemoryShard {
        self.shards.get_mut(name).expect("a shard")
    }

    /// Runs a command that makes a buffer: the name of the buffer, and its bytes.
    fn made<'a>(&self, words: &[&'a str]) -> Result<(&'a str, Vec<u8>)> {
        let made = match *words {
            ["write" | "write2", shard, into, ref expiry @ ..] => {
                let mut written = written(&self.shards[shard])?;
                expiry.iter().for_each(|it| set_time(&mut written, EXPIRY, number(it)));
                (into, written)
            }
            ["union", one, other, into] => (into, union(&self.buffers[one], &self.buffers[other])?),
            ["diff", one, other, into] => (into, difference(&self.buffers[one], &self.buffers[other])?),
            ["merge", into, ref tree @ ..] => (into, self.tree(&mut tree.iter())?),
            ["export", from, into, ref rest @ ..] => (into, export(&self.buffers[from], rest)?),
            ["minimal", from, into, now, parts] => {
                let (mut made, shard) =
                    (Vec::new(), MDBMinimalShard::from_reader(&mut &self.buffers[from][..], true, true)?);
                let size = shard.serialize(&mut made, parts == "v")?;
                let is_verified = parts == "v" && shard.has_file_verification();
                assert_eq!((size, shard.serialized_size(is_verified)), (made.len(), made.len()));
                (into, created(made, now))
            }
            ["subset", from, into, now, expiry, ref listed @ ..] => {
                let shard = MDBMinimalShard::from_reader(&mut &self.buffers[from][..], true, true)?;
                let expiry = (expiry != "-").then(|| UNIX_EPOCH + Duration::from_secs(number(expiry)));
                let mut made = Vec::new();
                let is_kept = |it: MerkleHash| listed == ["*"] || listed.iter().any(|word| hash(word) == it);
                shard.serialize_xorb_subset_with_expiry(&mut made, expiry, |it| is_kept(it.xorb_hash()))?;
                (into, created(made, now))
            }
            _ => panic!("no command {words:?}"),
        };
        Ok(made)
    }

    fn tree(&self, words: &mut std::slice::Iter<&str>) -> Result<Vec<u8>> {
        match *words.next().expect("a tree") {
            "(" => {
                let (one, other) = (self.tree(words)?, self.tree(words)?);
                assert_eq!(words.next(), Some(&")"));
                union(&one, &other)
            }
            name => Ok(self.buffers[name].clone()),
        }
    }

    fn query(&mut self, name: &str, hashes: Vec<MerkleHash>) -> Result<()> {
        let (info, mut reader) = open(&self.buffers[name])?;
        self.printed.push(match info.chunk_hash_dedup_query(&mut reader, &hashes)? {
            None => "none".to_owned(),
            Some((count, it)) => {
                let (start, end) = (it.chunk_index_start, it.chunk_index_end);
                format!("run {count} {} {start} {end} {}", it.xorb_hash, it.unpacked_segment_bytes)
            }
        });
        Ok(())
    }

    fn find(&mut self, name: &str, wanted: MerkleHash) -> Result<()> {
        let (info, mut reader) = open(&self.buffers[name])?;
        let found = match info.get_file_reconstruction_info(&mut reader, &wanted)? {
            Some(found) => found,
            None => {
                self.printed.push("none".to_owned());
                return Ok(());
            }
        };
        let (flags, segments) = (found.metadata.file_flags, found.segments.len());
        self.printed.push(format!("file {wanted} flags {flags} segments {segments} bytes {}", found.file_size()));
        for it in &found.segments {
            let (start, end) = (it.chunk_index_start, it.chunk_index_end);
            self.printed.push(format!("seg {} {start} {end} {}", it.xorb_hash, it.unpacked_segment_bytes));
        }
        self.printed.extend(found.verification.iter().map(|it| format!("ver {}", it.range_hash)));
        self.printed.extend(found.metadata_ext.iter().map(|it| format!("sha {}", it.sha256)));
        Ok(())
    }

    /// Runs a script until its end or a call that fails.
    fn script(script: &str) -> Run {
        let mut run = Run::default();
        for line in script.lines().filter(|it| !it.starts_with('#')) {
            let spaced = line.replace('(', " ( ").replace(')', " ) ");
            let words: Vec<&str> = spaced.split_whitespace().collect();
            if words.is_empty() {
                continue;
            }
            if let Err(error) = run.command(&words) {
                let text = format!("{error:?}");
                run.printed.push(match error {
                    CoreError::TruncatedHashCollision(word) => format!("refused: TruncatedHashCollision {word}"),
                    _ => format!("refused: {}", text.split('(').next().unwrap_or_default()),
                });
                break;
            }
        }
        run
    }
}

/// The bytes of a shard, which are read back as they were written.
fn written(shard: &MDBInMemoryShard) -> Result<Vec<u8>> {
    let mut bytes = Vec::new();
    let info = MDBShardInfo::serialize_from(&mut bytes, shard, None)?;
    let (loaded, mut reader) = open(&bytes)?;
    assert_eq!(loaded, info);
    assert_eq!((shard.shard_file_size(), info.num_bytes()), (bytes.len() as u64, bytes.len() as u64));
    assert_eq!(info.materialized_bytes(), shard.materialized_bytes());
    assert_eq!(
        (info.stored_bytes(), info.stored_bytes_on_disk()),
        (shard.stored_bytes(), shard.stored_bytes_on_disk())
    );
    let files = info.read_all_file_info_sections(&mut reader)?;
    assert!(files.iter().eq(shard.file_content.values()));
    let xorbs = info.read_all_xorb_blocks_full(&mut reader)?;
    assert!(xorbs.iter().eq(shard.xorb_content.values().map(|it| &**it)));
    Ok(bytes)
}

fn union(one: &Vec<u8>, other: &Vec<u8>) -> Result<Vec<u8>> {
    let ((s1, mut r1), (s2, mut r2), mut out) = (open(one)?, open(other)?, Vec::new());
    let info = shard_set_union(&s1, &mut r1, &s2, &mut r2, &mut out)?;
    assert_eq!(open(&out)?.0, info);
    Ok(out)
}

fn difference(one: &Vec<u8>, other: &Vec<u8>) -> Result<Vec<u8>> {
    let ((s1, mut r1), (s2, mut r2), mut out) = (open(one)?, open(other)?, Vec::new());
    let info = shard_set_difference(&s1, &mut r1, &s2, &mut r2, &mut out)?;
    assert_eq!(open(&out)?.0, info);
    Ok(out)
}

/// An export, made in both ways: its key, its times and its parts.
fn export(shard: &Vec<u8>, words: &[&str]) -> Result<Vec<u8>> {
    let key = if words[0] == "0" { HMACKey::default() } else { hash(words[0]) };
    let (now, valid) = (words[1], number(words[2]));
    let parts: Vec<bool> = words[3].chars().map(|it| it != '-').collect();
    let (length, [files, xorbs, chunks]) = (Duration::from_secs(valid), [parts[0], parts[1], parts[2]]);
    let (info, mut reader) = open(shard)?;
    let (mut made, mut streamed) = (Vec::new(), Vec::new());
    let size = info.export_as_keyed_shard(&mut reader, &mut made, key, length, files, xorbs, chunks)?;
    assert_eq!(size, made.len());
    // The sections alone are enough.
    let mut sections = Cursor::new(&shard[..info.xorb_info_byte_range().1 as usize]);
    MDBShardInfo::export_as_keyed_shard_streaming(&mut sections, &mut streamed, key, length, files, xorbs, chunks)?;
    for made in [&mut made, &mut streamed] {
        let footer = open(made)?.0.metadata;
        assert_eq!(footer.shard_key_expiry, footer.shard_creation_timestamp + valid);
        set_time(made, EXPIRY, number(now) + valid);
    }
    let made = created(made, now);
    assert_eq!(created(streamed, now), made);
    Ok(made)
}

/// A shard that was created just now, as if it had been at another time.
fn created(mut shard: Vec<u8>, time: &str) -> Vec<u8> {
    let creation = open(&shard).expect("a shard").0.metadata.shard_creation_timestamp;
    assert!((0..60).contains(&(current_timestamp() - creation)));
    set_time(&mut shard, CREATION, number(time));
    shard
}

/// What a script prints otherwise than it should.
fn fault(script: &str, wanted: &str) -> Option<String> {
    let run = Run::script(script);
    let mut wanted: Vec<String> = wanted.lines().map(str::to_owned).collect();
    // The scripts of the library show version 3, and the crate writes version 2.
    for &(line, at) in &run.versions {
        wanted[line].replace_range(at..at + 2, "02");
    }
    let same = run.printed.iter().zip(&wanted).take_while(|(one, other)| one == other).count();
    let (got, wanted) = (run.printed.get(same), wanted.get(same));
    (got != wanted).then(|| format!("line {}: wanted {wanted:?}, got {got:?}", same + 1))
}

/// Runs the scripts of a folder whose names are chosen, and returns how many they are.
fn run_folder(folder: &str, is_chosen: impl Fn(&str) -> bool) -> usize {
    let (mut count, mut faults) = (0, Vec::new());
    for entry in fs::read_dir(vectors().join(folder)).expect("vectors/ is there, or XET_VECTORS names it") {
        let path = entry.expect("a file").path();
        let name = path.file_stem().and_then(|it| it.to_str()).expect("a name").to_owned();
        if path.extension().map_or(true, |it| it != "script") || !is_chosen(&name) {
            continue;
        }
        let script = fs::read_to_string(&path).expect("a script");
        let wanted = fs::read_to_string(path.with_extension("stdout")).expect("what it prints");
        count += 1;
        faults.extend(fault(&script, &wanted).map(|it| format!("{name}, {it}")));
    }
    assert!(faults.is_empty(), "{}", faults.join("\n"));
    count
}

#[test]
fn what_the_original_prints() {
    assert_eq!(run_folder("original", |_| true), 80);
}

/// The scripts of shards without auxiliary rows, and not of how lines are read.
const OF_SHARDS: &str = "
    counts_differ counts_differ_in_a_tree eight_share_a_word expiry exported found made_again merged
    nine_chunks_share_a_word one_file parts_of_both queried seven_share_a_word subset_of_one_xorb subtracted united
    xorb_and_file xorb_without_chunks";

#[test]
fn rules_of_shards() {
    assert_eq!(run_folder("shardtool", |name| OF_SHARDS.split_whitespace().any(|it| it == name)), 18);
}
