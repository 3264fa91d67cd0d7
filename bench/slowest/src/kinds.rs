//! The kinds of shards that are meant to be slow.

use crate::calls::{self, ExportOptions};
use crate::shard::{mix, shuffle};
use crate::shard::{Layout, Parts, Shard, Tables, CHUNK_ENTRY, EMPTY, MARK, RECORD_ENTRY, ROW};
use crate::{Chunk, Hash, Segment};

/// How the rows of a section stand in records.
#[derive(Clone, Copy)]
enum Rows {
    /// There is no record.
    None,
    /// Each record has so many.
    Each(usize),
    /// Each record has some number up to six.
    Some,
    /// One record has all.
    All,
    /// One record has one.
    One,
}

/// What hashes are like.
#[derive(Clone, Copy, PartialEq)]
enum Names {
    /// They look random: those of records ascend, and those of chunks don't.
    Random,
    /// They differ in the last word alone, and ascend.
    Alike,
    /// They look random, and descend.
    Descending,
}

/// What is hashed.
#[derive(Clone, Copy, PartialEq)]
enum Thing {
    File = 1,
    Xorb,
    Chunk,
}

/// A kind of shard.
#[derive(Clone, Copy)]
pub struct Kind {
    /// What it is called.
    pub name: &'static str,
    segments: Rows,
    parts: Parts,
    chunks: Rows,
    names: Names,
    chunk_names: Names,
    marked: bool,
    keyed: bool,
    layout: Layout,
}

/// Which shard of a kind it is to be.
#[derive(Clone, Copy)]
pub struct Slot {
    /// About how long it is.
    pub bytes: usize,
    /// The shards of one kind with other indices have other records, whose hashes stand between.
    pub index: u64,
    /// The number of indices.
    pub of: u64,
    /// What is added to the bytes that the last row of each record has.
    pub change: u32,
}

impl Slot {
    /// The only shard.
    pub fn only(bytes: usize) -> Slot {
        Slot {
            bytes,
            index: 0,
            of: 1,
            change: 0,
        }
    }
}

/// A shard, and the hashes of what it has, in the order of its sections.
#[derive(Clone)]
pub struct Made {
    /// The bytes of the shard.
    pub bytes: Vec<u8>,
    /// The hashes of its files.
    pub files: Vec<Hash>,
    /// The hashes of its xorbs.
    pub xorbs: Vec<Hash>,
    /// The hashes of its chunks, before they are keyed.
    pub chunks: Vec<Hash>,
}

const NOTHING: Kind = Kind {
    name: "",
    segments: Rows::None,
    parts: Parts::NONE,
    chunks: Rows::None,
    names: Names::Random,
    chunk_names: Names::Random,
    marked: false,
    keyed: false,
    layout: Layout {
        tables: Tables::Sorted,
        one_section: false,
        overstated: false,
    },
};

const fn files(name: &'static str, segments: Rows, parts: Parts) -> Kind {
    Kind {
        name,
        segments,
        parts,
        ..NOTHING
    }
}

const fn xorbs(name: &'static str, chunks: Rows) -> Kind {
    Kind {
        name,
        chunks,
        ..NOTHING
    }
}

impl Kind {
    const fn alike(self) -> Kind {
        Kind {
            names: Names::Alike,
            chunk_names: Names::Alike,
            ..self
        }
    }

    const fn descending(self) -> Kind {
        Kind {
            names: Names::Descending,
            chunk_names: Names::Descending,
            ..self
        }
    }

    const fn with_files(self, segments: Rows, parts: Parts) -> Kind {
        Kind {
            segments,
            parts,
            ..self
        }
    }

    const fn tables(self, tables: Tables) -> Kind {
        let layout = Layout {
            tables,
            ..self.layout
        };
        Kind { layout, ..self }
    }

    const fn one_section(self) -> Kind {
        let layout = Layout {
            one_section: true,
            ..self.layout
        };
        Kind { layout, ..self }
    }

    const fn overstated(self) -> Kind {
        let layout = Layout {
            overstated: true,
            ..self.layout
        };
        Kind { layout, ..self }
    }
}

/// Many files of one segment: what several kinds and lists start from.
pub const SMALL_FILES: Kind = files("files of one segment", Rows::Each(1), Parts::NONE);

/// One file: what several lists start from.
pub const ONE_FILE: Kind = files("one file of all segments", Rows::All, Parts::NONE);

/// Verification rows and a metadata row.
const SAMPLE: Parts = Parts::of_bits(3);

/// All kinds.
pub const KINDS: [Kind; 27] = [
    files("files without segments", Rows::Each(0), Parts::NONE),
    files(
        "files without segments, one first word",
        Rows::Each(0),
        Parts::NONE,
    )
    .alike(),
    files(
        "files without segments or tables",
        Rows::Each(0),
        Parts::NONE,
    )
    .tables(Tables::Absent),
    SMALL_FILES,
    files("files with all parts", Rows::Each(1), Parts::ALL),
    ONE_FILE,
    files("one file with verification rows", Rows::All, Parts::ALL),
    files(
        "one file, in seven rows of the table",
        Rows::All,
        Parts::NONE,
    )
    .tables(Tables::Repeated),
    files(
        "one file with more rows stated than there are",
        Rows::All,
        Parts::NONE,
    )
    .overstated(),
    xorbs("xorbs without chunks", Rows::Each(0)),
    xorbs("xorbs without chunks, one first word", Rows::Each(0)).alike(),
    xorbs("xorbs without chunks, descending", Rows::Each(0)).descending(),
    xorbs("xorbs of one chunk", Rows::Each(1)),
    xorbs("xorbs of one chunk, one first word", Rows::Each(1)).alike(),
    xorbs("xorbs of one chunk, tables unsorted", Rows::Each(1))
        .with_files(Rows::Each(1), SAMPLE)
        .tables(Tables::Shuffled),
    files("a table of files with equal rows", Rows::One, Parts::NONE).tables(Tables::Equal),
    xorbs("tables of xorbs and chunks with equal rows", Rows::One).tables(Tables::Equal),
    xorbs("one xorb of all chunks", Rows::All),
    Kind {
        marked: true,
        ..xorbs("one xorb of all chunks, marked", Rows::All)
    },
    Kind {
        keyed: true,
        ..xorbs("one xorb of all chunks, keyed", Rows::All)
    },
    xorbs("one xorb, chunks of one first word", Rows::All).alike(),
    xorbs("one xorb, chunks descending", Rows::All).descending(),
    xorbs("one xorb with more rows stated than there are", Rows::All).overstated(),
    xorbs("one xorb, a file starts at each chunk", Rows::All).with_files(Rows::Each(1), SAMPLE),
    files("both sections the same files", Rows::Each(0), Parts::NONE)
        .tables(Tables::Absent)
        .one_section(),
    files("both sections the same file", Rows::All, Parts::NONE)
        .tables(Tables::Absent)
        .one_section(),
    xorbs("random", Rows::Some).with_files(Rows::Some, SAMPLE),
];

impl Kind {
    /// A shard of this kind.
    pub fn made(&self, slot: Slot) -> Made {
        let overhead = EMPTY + 2 * (ROW + RECORD_ENTRY);
        let count = slot.bytes.saturating_sub(overhead) / self.bytes_of_one().max(1);
        self.made_of(count, slot)
    }

    /// A shard of this kind with so many of what makes it long: records, or the rows of one. It
    /// has the parts of a kind that differs in nothing else.
    pub fn made_with(&self, parts: Parts, count: usize, slot: Slot) -> Vec<u8> {
        Kind { parts, ..*self }.made_of(count, slot).bytes
    }

    fn made_of(&self, count: usize, slot: Slot) -> Made {
        let mut shard = Shard::default();
        let (xorbs, chunks) = self.add_xorbs(&mut shard, count, slot);
        let files = self.add_files(&mut shard, &xorbs, count, slot);
        let plain = shard.bytes(self.layout, slot.bytes);
        let bytes = if self.keyed { keyed(&plain) } else { plain };
        Made {
            bytes,
            files,
            xorbs,
            chunks,
        }
    }

    /// Adds the xorbs. Returns their hashes, and those of their chunks.
    fn add_xorbs(&self, shard: &mut Shard, count: usize, slot: Slot) -> (Vec<Hash>, Vec<Hash>) {
        let rows = self.chunks.counts(count, Thing::Xorb);
        let xorbs = self.names.hashes(Thing::Xorb, rows.len(), slot);
        let chunks = self
            .chunk_names
            .hashes(Thing::Chunk, rows.iter().sum(), slot);
        let mut rest = chunks.as_slice();
        for (&hash, &rows) in xorbs.iter().zip(&rows) {
            let (own, others) = rest.split_at(rows);
            shard.add_xorb(hash, &self.chunks_of(own, slot.change));
            rest = others;
        }
        (xorbs, chunks)
    }

    /// Adds the files, each of which starts at another chunk of some xorb. Returns their hashes.
    fn add_files(&self, shard: &mut Shard, xorbs: &[Hash], count: usize, slot: Slot) -> Vec<Hash> {
        let rows = self.segments.counts(count, Thing::File);
        let files = self.names.hashes(Thing::File, rows.len(), slot);
        let mut starts: Vec<usize> = (0..files.len()).collect();
        shuffle(&mut starts);
        for ((&hash, &rows), start) in files.iter().zip(&rows).zip(starts) {
            // Without xorbs, a name for one that stands elsewhere.
            let xorb = *xorbs.get(start % xorbs.len().max(1)).unwrap_or(&hash);
            shard.add_file(hash, self.parts, &segments(xorb, start, rows, slot.change));
        }
        files
    }

    /// The bytes that one more of what makes a shard long adds.
    fn bytes_of_one(&self) -> usize {
        let has_tables = matches!(self.layout.tables, Tables::Sorted | Tables::Shuffled);
        let entries = usize::from(has_tables);
        let segment = ROW * (1 + usize::from(self.parts.verification));
        let parts = usize::from(self.parts.metadata) + usize::from(self.parts.aux);
        let file = ROW * (1 + parts) + RECORD_ENTRY * entries;
        let chunk = ROW + CHUNK_ENTRY * entries;
        let xorb = ROW + RECORD_ENTRY * entries;
        self.segments.bytes_of_one(file, segment) + self.chunks.bytes_of_one(xorb, chunk)
    }

    fn chunks_of(&self, hashes: &[Hash], change: u32) -> Vec<Chunk> {
        let flags = if self.marked { MARK } else { 0 };
        let chunks = (0..).zip(hashes).map(|(start, &hash)| Chunk {
            hash,
            start,
            bytes: 1,
            flags,
            reserved: 0,
        });
        let mut chunks: Vec<_> = chunks.collect();
        if let Some(last) = chunks.last_mut() {
            last.bytes += change;
        }
        chunks
    }
}

impl Rows {
    /// The most rows of a record that has some number of them.
    const SOME: usize = 6;

    fn bytes_of_one(self, record: usize, row: usize) -> usize {
        match self {
            Rows::None | Rows::One => 0,
            Rows::Each(rows) => record + rows * row,
            Rows::Some => record + Rows::SOME / 2 * row,
            Rows::All => row,
        }
    }

    /// The number of rows of each record.
    fn counts(self, count: usize, thing: Thing) -> Vec<usize> {
        match self {
            Rows::None => Vec::new(),
            Rows::Each(rows) => vec![rows; count],
            Rows::Some => (0..count as u64)
                .map(|at| mix(at ^ mix(thing as u64)) as usize % (Rows::SOME + 1))
                .collect(),
            Rows::All => vec![count],
            Rows::One => vec![1],
        }
    }
}

impl Names {
    fn hashes(self, thing: Thing, count: usize, slot: Slot) -> Vec<Hash> {
        let numbers = (0..count as u64).map(|at| slot.index + slot.of * at);
        if self == Names::Alike {
            return numbers.map(|number| Hash([7, 7, 7, number])).collect();
        }
        let mut hashes: Vec<_> = numbers.map(|number| random_hash(thing, number)).collect();
        if self == Names::Descending || thing != Thing::Chunk {
            hashes.sort_unstable();
        }
        if self == Names::Descending {
            hashes.reverse();
        }
        hashes
    }
}

fn random_hash(thing: Thing, number: u64) -> Hash {
    let start = mix(number ^ mix(thing as u64));
    Hash([1, 2, 3, 4].map(|word| mix(start ^ word)))
}

/// The segments of a file that starts at a chunk of a xorb.
fn segments(xorb: Hash, start: usize, count: usize, change: u32) -> Vec<Segment> {
    let one = |at: usize| {
        let start = (start + at) as u32;
        let bytes = if at + 1 == count { 1 + change } else { 1 };
        Segment {
            xorb,
            flags: 0,
            bytes,
            start,
            end: start + 1,
        }
    };
    (0..count).map(one).collect()
}

/// An export with all parts, under a key of this word.
pub fn export(word: u64) -> ExportOptions {
    ExportOptions {
        key: Hash([word; 4]),
        now: 0,
        valid_seconds: 1,
        without_files: false,
        without_aux_rows: false,
        without_xorb_table: false,
        without_chunk_table: false,
    }
}

/// The export of a shard under a key.
fn keyed(shard: &[u8]) -> Vec<u8> {
    let mut out = vec![0; shard.len()];
    let mut written = 0;
    let result = calls::xet_export(shard, &export(1), 3, &mut out, &mut written);
    assert_eq!(result, 0, "a shard of one xorb can be exported");
    out.truncate(written);
    out
}

#[cfg(test)]
mod tests {
    use super::*;
    use crate::calls::Finding;

    const BYTES: usize = 1 << 20;

    #[test]
    fn plain_shards_are_as_the_library_writes_them() {
        for kind in KINDS.into_iter().filter(is_plain) {
            let shard = kind.made(Slot::only(BYTES)).bytes;
            let mut findings = vec![Finding::default(); 16];
            let mut written = 0;
            let result = calls::xet_check(&shard, &mut findings, &mut written);
            assert_eq!((result, written), (0, 0), "{}", kind.name);
        }
    }

    #[test]
    fn shards_are_as_long_as_is_asked_for() {
        for kind in KINDS {
            let length = kind.made(Slot::only(BYTES)).bytes.len();
            let wanted = BYTES * 7 / 10..BYTES * 101 / 100;
            assert!(wanted.contains(&length), "{}: {length}", kind.name);
        }
    }

    fn is_plain(kind: &Kind) -> bool {
        let Layout {
            tables,
            one_section,
            overstated,
        } = kind.layout;
        let in_order =
            matches!(tables, Tables::Sorted | Tables::Absent) && !one_section && !overstated;
        in_order && kind.names != Names::Descending
    }
}
