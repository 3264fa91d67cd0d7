//! Writes shards as docs/FORMAT.md has them, and such as the library would not write.

use crate::{Chunk, Hash, Segment};

/// The bytes of a row of a section.
pub const ROW: usize = 48;
/// The bytes of a row of the tables of files and xorbs.
pub const RECORD_ENTRY: usize = 12;
/// The bytes of a row of the chunk table.
pub const CHUNK_ENTRY: usize = 16;
/// The bytes of a shard without records.
pub const EMPTY: usize = 344;
/// What marks a chunk that the global index keeps.
pub const MARK: u32 = 1 << 31;

const TAG: [u8; 32] =
    *b"HFRepoMetaData\0\x55\x69\x67\x45\x6a\x7b\x81\x57\x83\xa5\xbd\xd9\x5c\xcd\xd1\x4a\xa9";
const VERSION: u64 = 3;
const FOOTER: u64 = 200;
/// Where the number of rows is in a record's header.
const ROWS_AT: usize = 36;

/// The optional parts of a file.
#[derive(Clone, Copy)]
pub struct Parts {
    /// Verification rows.
    pub verification: bool,
    /// The metadata row.
    pub metadata: bool,
    /// The auxiliary row.
    pub aux: bool,
}

impl Parts {
    /// No part.
    pub const NONE: Parts = Parts::of_bits(0);
    /// All parts.
    pub const ALL: Parts = Parts::of_bits(7);

    /// The parts by the three lowest bits of a number.
    pub const fn of_bits(bits: usize) -> Parts {
        Parts {
            verification: bits & 1 > 0,
            metadata: bits & 2 > 0,
            aux: bits & 4 > 0,
        }
    }

    fn flags(self) -> u32 {
        [self.verification, self.metadata, self.aux]
            .iter()
            .zip([31, 30, 29])
            .map(|(&part, bit)| u32::from(part) << bit)
            .sum()
    }
}

/// What the lookup tables have.
#[derive(Clone, Copy, PartialEq)]
pub enum Tables {
    /// Their rows, in order.
    Sorted,
    /// Their rows, in an order that looks random.
    Shuffled,
    /// No rows.
    Absent,
    /// Seven rows of the first record in the tables of records, and eight of one chunk.
    Repeated,
    /// As many rows of the first record, or of one chunk, as make the shard as long as is asked for.
    Equal,
}

/// How a shard is laid out.
#[derive(Clone, Copy)]
pub struct Layout {
    /// What the lookup tables have.
    pub tables: Tables,
    /// The footer has the file section for the xorb section too.
    pub one_section: bool,
    /// The first record of each section says that it has rows far beyond the end of the bytes.
    pub overstated: bool,
}

/// A shard that gets its records.
#[derive(Default)]
pub struct Shard {
    files: Vec<u8>,
    xorbs: Vec<u8>,
    file_table: Vec<(u64, u32)>,
    xorb_table: Vec<(u64, u32)>,
    chunk_table: Vec<(u64, u32, u32)>,
    materialized_bytes: u64,
    stored_bytes: u64,
}

impl Shard {
    /// Adds a file. The hashes of its optional parts are the file's own.
    pub fn add_file(&mut self, hash: Hash, parts: Parts, segments: &[Segment]) {
        let rows = &mut self.files;
        self.file_table.push((hash.0[0], number_of_rows(rows)));
        push_row(rows, hash, [parts.flags(), segments.len() as u32, 0, 0]);
        for it in segments {
            push_row(rows, it.xorb, [it.flags, it.bytes, it.start, it.end]);
            self.materialized_bytes += u64::from(it.bytes);
        }
        let verification = if parts.verification {
            segments.len()
        } else {
            0
        };
        let others = verification + usize::from(parts.metadata) + usize::from(parts.aux);
        (0..others).for_each(|_| push_row(rows, hash, [0; 4]));
    }

    /// Adds a xorb.
    pub fn add_xorb(&mut self, hash: Hash, chunks: &[Chunk]) {
        let row = number_of_rows(&self.xorbs);
        let bytes = chunks.iter().map(|it| it.bytes).sum();
        self.xorb_table.push((hash.0[0], row));
        push_row(&mut self.xorbs, hash, [0, chunks.len() as u32, bytes, 0]);
        for (index, it) in (0..).zip(chunks) {
            self.chunk_table.push((it.hash.0[0], row, index));
            push_row(&mut self.xorbs, it.hash, [it.start, it.bytes, it.flags, 0]);
        }
        self.stored_bytes += u64::from(bytes);
    }

    /// The bytes of the shard, about as many as are asked for if its tables make it so long.
    pub fn bytes(mut self, layout: Layout, wanted: usize) -> Vec<u8> {
        self.arrange(layout.tables, wanted);
        if layout.overstated {
            overstate(&mut self.files);
            overstate(&mut self.xorbs);
        }
        let mut out = TAG.to_vec();
        push_words(&mut out, &[VERSION, FOOTER]);
        let file_section = out.len();
        push_section(&mut out, &self.files);
        let xorb_section = out.len();
        push_section(&mut out, &self.xorbs);
        let offsets = [
            file_section,
            if layout.one_section {
                file_section
            } else {
                xorb_section
            },
            out.len(),
            out.len() + RECORD_ENTRY * self.file_table.len(),
            out.len() + RECORD_ENTRY * (self.file_table.len() + self.xorb_table.len()),
        ];
        self.push_tables(&mut out);
        let footer = self.footer(offsets.map(|it| it as u64), out.len() as u64);
        push_words(&mut out, &footer);
        out
    }

    fn arrange(&mut self, tables: Tables, wanted: usize) {
        self.chunk_table.sort_unstable();
        match tables {
            Tables::Sorted => {}
            Tables::Shuffled => {
                shuffle(&mut self.file_table);
                shuffle(&mut self.xorb_table);
                shuffle(&mut self.chunk_table);
            }
            Tables::Absent => self.repeat_first_entries(0, 0),
            Tables::Repeated => self.repeat_first_entries(7, 8),
            Tables::Equal => {
                let sections = EMPTY + self.files.len() + self.xorbs.len();
                let count = wanted.saturating_sub(sections) / self.bytes_of_tables();
                self.repeat_first_entries(count, count);
            }
        }
    }

    fn repeat_first_entries(&mut self, of_records: usize, of_chunks: usize) {
        repeat_first(&mut self.file_table, of_records);
        repeat_first(&mut self.xorb_table, of_records);
        repeat_first(&mut self.chunk_table, of_chunks);
    }

    fn bytes_of_tables(&self) -> usize {
        RECORD_ENTRY * (self.file_table.len() + self.xorb_table.len())
            + CHUNK_ENTRY * self.chunk_table.len()
    }

    fn push_tables(&self, out: &mut Vec<u8>) {
        for (word, row) in self.file_table.iter().chain(&self.xorb_table) {
            out.extend(word.to_le_bytes());
            out.extend(row.to_le_bytes());
        }
        for (word, row, index) in &self.chunk_table {
            out.extend(word.to_le_bytes());
            out.extend([row, index].into_iter().flat_map(|it| it.to_le_bytes()));
        }
    }

    /// The footer, with the offsets of the sections and the tables.
    fn footer(
        &self,
        [files, xorbs, file_table, xorb_table, chunk_table]: [u64; 5],
        at: u64,
    ) -> [u64; 25] {
        let mut words = [0; 25];
        words[..9].copy_from_slice(&[
            1,
            files,
            xorbs,
            file_table,
            self.file_table.len() as u64,
            xorb_table,
            self.xorb_table.len() as u64,
            chunk_table,
            self.chunk_table.len() as u64,
        ]);
        // No expiry. Key, creation, reserved words and bytes on disk are 0.
        words[14] = u64::MAX;
        words[22..].copy_from_slice(&[self.materialized_bytes, self.stored_bytes, at]);
        words
    }
}

/// Brings items into an order that looks random, the same in each run.
pub fn shuffle<T>(items: &mut [T]) {
    for at in (1..items.len()).rev() {
        items.swap(at, (mix(at as u64) % (at as u64 + 1)) as usize);
    }
}

/// SplitMix64.
pub fn mix(state: u64) -> u64 {
    let z = state.wrapping_add(0x9e37_79b9_7f4a_7c15);
    let z = (z ^ (z >> 30)).wrapping_mul(0xbf58_476d_1ce4_e5b9);
    let z = (z ^ (z >> 27)).wrapping_mul(0x94d0_49bb_1331_11eb);
    z ^ (z >> 31)
}

fn repeat_first<T: Copy>(table: &mut Vec<T>, count: usize) {
    if let Some(&first) = table.first() {
        *table = vec![first; count];
    }
}

fn overstate(section: &mut [u8]) {
    if let Some(rows) = section.get_mut(ROWS_AT..ROWS_AT + 4) {
        rows.copy_from_slice(&(u32::MAX / 2).to_le_bytes());
    }
}

fn number_of_rows(section: &[u8]) -> u32 {
    (section.len() / ROW) as u32
}

fn push_section(out: &mut Vec<u8>, rows: &[u8]) {
    out.extend(rows);
    push_row(out, Hash([u64::MAX; 4]), [0; 4]);
}

fn push_row(out: &mut Vec<u8>, hash: Hash, numbers: [u32; 4]) {
    push_words(out, &hash.0);
    out.extend(numbers.into_iter().flat_map(u32::to_le_bytes));
}

fn push_words(out: &mut Vec<u8>, words: &[u64]) {
    out.extend(words.iter().flat_map(|it| it.to_le_bytes()));
}
