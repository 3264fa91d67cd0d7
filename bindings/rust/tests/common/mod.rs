//! Writes shards by docs/FORMAT.md alone, without the library.

use std::collections::BTreeMap;
use std::iter::zip;
use xet_shards::Hash;

const TAG: [u8; 32] = *b"HFRepoMetaData\0\x55\x69\x67\x45\x6a\x7b\x81\x57\x83\xa5\xbd\xd9\x5c\xcd\xd1\x4a\xa9";
const BOOKEND: [u8; 48] = {
    let mut row = [0xff; 48];
    let mut at = 32;
    while at < 48 {
        row[at] = 0;
        at += 1;
    }
    row
};
/// The optional parts of a file, as a script has them, and their bits in its flags.
const PARTS: [(&str, u32); 3] = [("v=", 1 << 31), ("s=", 1 << 30), ("x=", 1 << 29)];

type Row = [u8; 48];

/// The hash of a word of a script: 64 digits, or a number for the words number, 1, 0 and 0.
pub fn hash(word: &str) -> Hash {
    match word.parse() {
        Ok(hash) => hash,
        Err(_) => Hash([word.parse().expect("a hash or a number"), 1, 0, 0]),
    }
}

fn row(hash: Hash, numbers: [u32; 4]) -> Row {
    let mut row = [0; 48];
    for (eight, word) in zip(row.chunks_exact_mut(8), hash.0) {
        eight.copy_from_slice(&word.to_le_bytes());
    }
    for (four, number) in zip(row[32..].chunks_exact_mut(4), numbers) {
        four.copy_from_slice(&number.to_le_bytes());
    }
    row
}

/// A record: its rows, and its bytes unpacked.
type Record = (Vec<Row>, u64);

/// The records of a shard, by hash.
#[derive(Clone, Default)]
pub struct Shard {
    files: BTreeMap<Hash, Record>,
    xorbs: BTreeMap<Hash, Record>,
}

impl Shard {
    /// Adds a file: its hash, `v=HASH,..`, `s=HASH` and `x=HASH` where it has them, and segments
    /// `XORB:START:END:BYTES`.
    pub fn add_file(&mut self, words: &[&str]) {
        let (name, mut rest) = (hash(words[0]), &words[1..]);
        let (mut flags, mut optional) = (0, Vec::new());
        for (start, bit) in PARTS {
            let listed = match rest.first().and_then(|it| it.strip_prefix(start)) {
                Some(listed) => listed,
                None => continue,
            };
            flags |= bit;
            optional.extend(listed.split(',').filter(|it| !it.is_empty()).map(|it| row(hash(it), [0; 4])));
            rest = &rest[1..];
        }
        let (mut rows, mut sum) = (vec![row(name, [flags, rest.len() as u32, 0, 0])], 0);
        for segment in rest {
            let (xorb, numbers) = segment.split_once(':').expect("a segment");
            let numbers: Vec<u32> = numbers.split(':').map(|it| it.parse().expect("a number")).collect();
            rows.push(row(hash(xorb), [0, numbers[2], numbers[0], numbers[1]]));
            sum += u64::from(numbers[2]);
        }
        rows.extend(optional);
        self.files.insert(name, (rows, sum));
    }

    /// Adds a xorb: its hash, and chunks `HASH:BYTES`.
    pub fn add_xorb(&mut self, words: &[&str]) {
        let (mut chunks, mut sum) = (Vec::new(), 0);
        for word in &words[1..] {
            let (text, size) = word.split_once(':').unwrap_or((word, "0"));
            let size: u32 = size.parse().expect("a number");
            chunks.push(row(hash(text), [sum, size, 0, 0]));
            sum += size;
        }
        let name = hash(words[0]);
        let mut rows = vec![row(name, [0, chunks.len() as u32, sum, 0])];
        rows.extend(chunks);
        self.xorbs.insert(name, (rows, u64::from(sum)));
    }

    /// The bytes of the shard.
    pub fn written(&self, expiry: u64, version: u64) -> Vec<u8> {
        let mut bytes = TAG.to_vec();
        bytes.extend([version, 200].iter().flat_map(|it| it.to_le_bytes()));
        let mut footer = vec![1];
        for records in [&self.files, &self.xorbs] {
            footer.push(bytes.len() as u64);
            bytes.extend(records.values().flat_map(|(rows, _)| rows.concat()));
            bytes.extend(BOOKEND);
        }
        let rows = [self.files.len(), self.xorbs.len(), self.chunks().len()];
        for (table, rows) in zip([starts(&self.files), starts(&self.xorbs), self.chunk_table()], rows) {
            footer.extend([bytes.len() as u64, rows as u64]);
            bytes.extend(table);
        }
        footer.extend([0, 0, 0, 0, 0, expiry, 0, 0, 0, 0, 0, 0, 0]);
        footer.extend([&self.files, &self.xorbs].map(|it| it.values().map(|(_, sum)| sum).sum::<u64>()));
        footer.push(bytes.len() as u64);
        assert_eq!(footer.len(), 25);
        bytes.extend(footer.iter().flat_map(|it| it.to_le_bytes()));
        bytes
    }

    /// Of each chunk the first word of its hash, the row at which its xorb starts, and its index, in order.
    fn chunks(&self) -> Vec<(u64, u32, u32)> {
        let (mut chunks, mut start) = (Vec::new(), 0);
        for (rows, _) in self.xorbs.values() {
            for (row, index) in zip(&rows[1..], 0..) {
                chunks.push((u64::from_le_bytes(row[..8].try_into().expect("eight bytes")), start, index));
            }
            start += rows.len() as u32;
        }
        chunks.sort_unstable();
        chunks
    }

    fn chunk_table(&self) -> Vec<u8> {
        let row = |(word, start, index): (u64, u32, u32)| {
            [&word.to_le_bytes()[..], &start.to_le_bytes(), &index.to_le_bytes()].concat()
        };
        self.chunks().into_iter().flat_map(row).collect()
    }
}

/// The table of records: the first word of each hash, and the row at which the record starts.
fn starts(records: &BTreeMap<Hash, Record>) -> Vec<u8> {
    let (mut table, mut start) = (Vec::new(), 0u32);
    for (name, (rows, _)) in records {
        table.extend(name.0[0].to_le_bytes());
        table.extend(start.to_le_bytes());
        start += rows.len() as u32;
    }
    table
}
