//! Runs the scripts of vectors/ on the library, and compares what they print. `XET_VECTORS` names another folder.

mod common;

use common::{hash, Shard};
use std::collections::HashMap;
use std::path::{Path, PathBuf};
use std::{env, fs};
use xet_shards::{Error, Export, Hash, Minimal, Subset, Version, Xorbs};

fn vectors() -> PathBuf {
    match env::var_os("XET_VECTORS") {
        Some(folder) => PathBuf::from(folder),
        None => Path::new(env!("CARGO_MANIFEST_DIR")).join("../../vectors"),
    }
}

/// The state of a script: its shards, its buffers, and what it has printed.
#[derive(Default)]
struct Run {
    shards: HashMap<String, Shard>,
    buffers: HashMap<String, Vec<u8>>,
    printed: Vec<String>,
    /// The lines that show the version of a shard, and where.
    versions: Vec<(usize, usize)>,
}

fn number(word: &str) -> u64 {
    word.parse().expect("a number")
}

fn hashes(words: &[&str]) -> Vec<Hash> {
    words.iter().map(|it| hash(it)).collect()
}

impl Run {
    fn bytes(&self, name: &str) -> &[u8] {
        &self.buffers[name]
    }

    fn command(&mut self, words: &[&str]) -> Result<(), Error> {
        match *words {
            ["shard", name] => {
                self.shards.insert(name.to_owned(), Shard::default());
            }
            ["xorb", name, ..] => self.shards.get_mut(name).expect("a shard").add_xorb(&words[2..]),
            ["file", name, ..] => self.shards.get_mut(name).expect("a shard").add_file(&words[2..]),
            ["eligible", name] => self.eligible(name)?,
            ["query", name, ..] => self.query(name, &hashes(&words[2..]))?,
            ["find", name, file] => self.find(name, hash(file))?,
            ["size", name] => self.printed.push(self.bytes(name).len().to_string()),
            ["hex", name, ..] => self.hex(name, &words[2..]),
            _ => {
                let (name, made) = self.made(words)?;
                self.buffers.insert(name.to_owned(), made);
            }
        }
        Ok(())
    }

    /// Runs a command that makes a buffer: the name of the buffer, and its bytes.
    fn made<'a>(&self, words: &[&'a str]) -> Result<(&'a str, Vec<u8>), Error> {
        let made = match *words {
            ["write", shard, into, ref rest @ ..] => (into, self.written(shard, rest, 3)),
            ["write2", shard, into, ref rest @ ..] => (into, self.written(shard, rest, 2)),
            ["union", one, other, into] => (into, xet_shards::union(self.bytes(one), self.bytes(other), Version::V3)?),
            ["diff", one, other, into] => {
                (into, xet_shards::difference(self.bytes(one), self.bytes(other), Version::V3)?)
            }
            ["merge", into, ref tree @ ..] => (into, self.tree(&mut tree.iter())?),
            ["export", from, into, ref rest @ ..] => (into, self.export(from, rest, true)?),
            ["drop", from, into, ref rest @ ..] => (into, self.export(from, rest, false)?),
            ["minimal", from, into, now, parts] => (into, self.minimal(from, now, parts, true)?),
            ["dropmin", from, into, now, parts] => (into, self.minimal(from, now, parts, false)?),
            ["subset", from, into, ref rest @ ..] => (into, self.subset(from, rest)?),
            _ => panic!("no command {words:?}"),
        };
        Ok(made)
    }

    fn written(&self, shard: &str, expiry: &[&str], version: u64) -> Vec<u8> {
        self.shards[shard].written(expiry.first().map_or(xet_shards::NO_EXPIRY, |it| number(it)), version)
    }

    fn tree(&self, words: &mut std::slice::Iter<&str>) -> Result<Vec<u8>, Error> {
        match *words.next().expect("a tree") {
            "(" => {
                let (one, other) = (self.tree(words)?, self.tree(words)?);
                assert_eq!(words.next(), Some(&")"));
                xet_shards::union(&one, &other, Version::V3)
            }
            name => Ok(self.bytes(name).to_vec()),
        }
    }

    fn export(&self, from: &str, words: &[&str], aux_rows: bool) -> Result<Vec<u8>, Error> {
        let key = if words[0] == "0" { xet_shards::NO_KEY } else { hash(words[0]) };
        let parts: Vec<bool> = words[3].chars().map(|it| it != '-').collect();
        let options = Export {
            files: parts[0],
            xorb_table: parts[1],
            chunk_table: parts[2],
            aux_rows,
            key,
            now: number(words[1]),
            valid_seconds: number(words[2]),
            ..Export::default()
        };
        xet_shards::export(self.bytes(from), &options)
    }

    fn minimal(&self, from: &str, now: &str, parts: &str, aux_rows: bool) -> Result<Vec<u8>, Error> {
        let options = Minimal { now: number(now), verification: parts == "v", aux_rows, version: Version::V3 };
        xet_shards::minimal(self.bytes(from), &options)
    }

    fn subset(&self, from: &str, words: &[&str]) -> Result<Vec<u8>, Error> {
        let expiry = if words[1] == "-" { None } else { Some(number(words[1])) };
        let (is_all, listed) = match &words[2..] {
            ["*"] => (true, Vec::new()),
            words => (false, hashes(words)),
        };
        let xorbs = if is_all { Xorbs::All } else { Xorbs::Listed(&listed) };
        xet_shards::subset(self.bytes(from), &Subset { now: number(words[0]), expiry, xorbs, version: Version::V3 })
    }

    fn eligible(&mut self, name: &str) -> Result<(), Error> {
        let hashes = xet_shards::eligible(self.bytes(name))?;
        self.printed.extend(hashes.iter().map(Hash::to_string));
        Ok(())
    }

    fn query(&mut self, name: &str, hashes: &[Hash]) -> Result<(), Error> {
        self.printed.push(match xet_shards::query_chunks(self.bytes(name), hashes)? {
            None => "none".to_owned(),
            Some(run) => {
                let it = run.segment;
                format!("run {} {} {} {} {}", run.count, it.xorb, it.start, it.end, it.bytes)
            }
        });
        Ok(())
    }

    fn find(&mut self, name: &str, wanted: Hash) -> Result<(), Error> {
        let file = match xet_shards::find_file(self.bytes(name), wanted)? {
            Some(file) => file,
            None => {
                self.printed.push("none".to_owned());
                return Ok(());
            }
        };
        let parts = [file.verification.is_some(), file.sha256.is_some(), file.aux_hash.is_some()];
        let flags = parts.iter().zip([31, 30, 29]).fold(0u64, |flags, (&has, bit)| flags | u64::from(has) << bit);
        let sum: u64 = file.segments.iter().map(|it| u64::from(it.bytes)).sum();
        self.printed.push(format!("file {wanted} flags {flags} segments {} bytes {sum}", file.segments.len()));
        let segments = file.segments.iter().map(|it| format!("seg {} {} {} {}", it.xorb, it.start, it.end, it.bytes));
        self.printed.extend(segments);
        self.printed.extend(file.verification.iter().flatten().map(|it| format!("ver {it}")));
        self.printed.extend(file.sha256.map(|it| format!("sha {it}")));
        self.printed.extend(file.aux_hash.map(|it| format!("aux {it}")));
        Ok(())
    }

    fn hex(&mut self, name: &str, words: &[&str]) {
        let bytes = self.bytes(name);
        let start = words.first().map_or(0, |it| number(it) as usize);
        let end = words.get(1).map_or(bytes.len(), |it| bytes.len().min(start + number(it) as usize));
        let text: String = bytes[start..end].iter().map(|it| format!("{it:02x}")).collect();
        if (start..end).contains(&32) {
            self.versions.push((self.printed.len(), 2 * (32 - start)));
        }
        self.printed.push(text);
    }

    /// Runs a script until its end or a call that fails.
    fn script(script: &str) -> Run {
        let mut run = Run::default();
        for line in script.lines().filter(|it| !it.starts_with('#')) {
            let spaced = line.replace('(', " ( ").replace(')', " ) ");
            let words: Vec<&str> = spaced.split_whitespace().collect();
            if words.is_empty() {
                continue;
            }
            if let Err(error) = run.command(&words) {
                run.printed.push(format!("refused: {error:?}"));
                break;
            }
        }
        run
    }
}

/// What the original prints, in version 3: it writes version 2, the byte at offset 32, and the library version 3.
fn adapted(expected: &mut [String], run: &Run) {
    for &(line, at) in &run.versions {
        match expected.get_mut(line) {
            Some(text) if text.get(at..at + 2) == Some("02") => text.replace_range(at..at + 2, "03"),
            _ => {}
        }
    }
}

/// What a script prints wrongly.
fn fault(script: &str, expected: &str, is_original: bool) -> Option<String> {
    let run = Run::script(script);
    let mut expected: Vec<String> = expected.lines().map(str::to_owned).collect();
    if is_original {
        adapted(&mut expected, &run);
    }
    // What stands behind the name of an error is not compared.
    let is_same = |wanted: &String, line: &String| {
        wanted == line || line.starts_with("refused: ") && wanted.split(' ').take(2).eq(line.split(' ').take(2))
    };
    for (at, line) in run.printed.iter().enumerate() {
        if !expected.get(at).map_or(false, |wanted| is_same(wanted, line)) {
            return Some(format!("line {}: wanted {:?}, got {line:?}", at + 1, expected.get(at)));
        }
    }
    let (printed, wanted) = (run.printed.len(), expected.len());
    (printed != wanted).then(|| format!("prints {printed} lines of {wanted}"))
}

/// Runs the scripts of a folder whose names are chosen, and returns how many they are.
fn run_folder(folder: &str, is_chosen: impl Fn(&str) -> bool) -> usize {
    let (mut count, mut faults) = (0, Vec::new());
    for entry in fs::read_dir(vectors().join(folder)).expect("vectors/ is there, or XET_VECTORS names it") {
        let path = entry.expect("a file").path();
        let name = path.file_stem().and_then(|it| it.to_str()).expect("a name").to_owned();
        if path.extension().map_or(true, |it| it != "script") || !is_chosen(&name) {
            continue;
        }
        let script = fs::read_to_string(&path).expect("a script");
        let expected = fs::read_to_string(path.with_extension("stdout")).expect("what it prints");
        count += 1;
        faults.extend(fault(&script, &expected, folder == "original").map(|it| format!("{name}: {it}")));
    }
    assert!(faults.is_empty(), "{}", faults.join("\n"));
    count
}

#[test]
fn what_the_original_prints() {
    assert_eq!(run_folder("original", |_| true), 80);
}

/// The scripts of shards, and not of how lines are read.
const OF_SHARDS: &str = "
    all_parts counts_differ counts_differ_in_a_tree dropped eight_share_a_word expiry exported found made_again merged
    nine_chunks_share_a_word one_file parts_of_both queried seven_share_a_word subset_of_one_xorb subtracted united
    versions_united xorb_and_file xorb_without_chunks";

#[test]
fn rules_of_shards() {
    let is_chosen = |name: &str| OF_SHARDS.split_whitespace().any(|it| it == name);
    assert_eq!(run_folder("shardtool", is_chosen), 21);
}
