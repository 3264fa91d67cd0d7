//! An index of the files and the chunks of many shards.

use crate::sizes::TABLE_ROW;
use crate::{chunk_rows, file_at, hmac, load, query_at, ChunkPlace, Error, File, Hash, Result, Run, NO_KEY};
use std::collections::hash_map::{Entry, HashMap};

/// A place in one of the shards of an index: that of a chunk, or the row of a file.
#[derive(Clone, Copy, Debug)]
struct Place<P> {
    shard: u32,
    at: P,
}

/// Where chunks are, by the first word of their hash under one key, or where files are. Nearly all words have one
/// place. The others have them in the order in which they were added.
#[derive(Clone, Debug, Default)]
struct Places<P> {
    first: HashMap<u64, Place<P>>,
    more: HashMap<u64, Vec<Place<P>>>,
}

impl<P: Copy> Places<P> {
    fn add(&mut self, word: u64, place: Place<P>) {
        match self.first.entry(word) {
            Entry::Vacant(none) => {
                none.insert(place);
            }
            Entry::Occupied(_) => self.more.entry(word).or_default().push(place),
        }
    }

    /// Removes the places of a word that are in this shard.
    fn remove(&mut self, word: u64, shard: u32) {
        let mut left: Vec<_> = self.of(word).filter(|it| it.shard != shard).collect();
        self.first.remove(&word);
        self.more.remove(&word);
        if !left.is_empty() {
            self.first.insert(word, left.remove(0));
        }
        if !left.is_empty() {
            self.more.insert(word, left);
        }
    }

    fn of(&self, word: u64) -> impl Iterator<Item = Place<P>> + '_ {
        self.first.get(&word).into_iter().chain(self.more.get(&word).into_iter().flatten()).copied()
    }
}

/// Finds files, and runs of chunks, among many shards, whose chunk hashes may be under several keys.
///
/// A shard is anything that lends its bytes, as a `Vec<u8>`, an `Arc<[u8]>` or a map of a file, and is to stay as it
/// is. The index has 30 to 60 bytes of its own for each file and each chunk of its shards. To add or to remove a shard
/// takes time in proportion to its files and chunks. A query takes one keyed hash and one access to a map for each key,
/// and then, for each place that the first chunk has, the reading of one run, until it finds one with all the chunks
/// that are asked for. To find a file takes one access to a map, and the reading of one record.
///
/// It is no part of the library that is proved, but what it returns is read from a shard by [`query_at`] or
/// [`file_at`].
///
/// ```
/// # fn main() -> Result<(), Box<dyn std::error::Error>> {
/// let mut index = xet_shards::Index::new();
/// let [a, b] = [index.add(std::fs::read("examples/a.mdb")?)?, index.add(std::fs::read("examples/b.mdb")?)?];
/// let chunks = [22, 23, 24].map(|it| [it, 1, 0, 0].into());
/// let (shard, run) = index.query(&chunks)?.expect("b has the first two");
/// assert_eq!((shard, run.count, run.segment.start), (b, 2, 0));
/// index.remove(b)?;
/// assert_eq!(index.query(&chunks)?, None);
/// let (shard, _) = index.query(&[[21, 1, 0, 0].into()])?.expect("a has it");
/// assert_eq!(shard, a);
/// let (shard, file) = index.find_file([100, 1, 0, 0].into())?.expect("a has the file");
/// assert_eq!((shard, file.segments[0].bytes), (a, 5));
/// # Ok(())
/// # }
/// ```
#[derive(Clone, Debug)]
pub struct Index<S> {
    shards: HashMap<u32, (Hash, S)>,
    /// The number of the next shard.
    next: u32,
    /// The keys of the shards, in the order in which they came, and the places of chunks under each.
    keys: Vec<(Hash, Places<ChunkPlace>)>,
    /// The rows of files, whose hashes no key changes.
    files: Places<u32>,
}

impl<S: AsRef<[u8]>> Index<S> {
    /// An index of no shards.
    #[must_use]
    pub fn new() -> Index<S> {
        Index { shards: HashMap::new(), next: 0, keys: Vec::new(), files: Places::default() }
    }

    /// Adds the files and the chunks of a shard, and returns its number, which no other shard of the index gets.
    ///
    /// In place of a table that the shard lacks its section is read. So files are found also in a minimal shard, in
    /// which [`find_file`](crate::find_file) finds none.
    ///
    /// # Errors
    ///
    /// Those of [`chunk_rows`], `Io` if the table of files is not all there, and those of [`files`](crate::files) if
    /// there is none. Then the index is as it was.
    ///
    /// # Panics
    ///
    /// If more than 4294967295 shards were added.
    pub fn add(&mut self, shard: S) -> Result<u32> {
        let bytes = shard.as_ref();
        let (key, files, chunks) = (load(bytes)?.key, file_rows(bytes)?, chunk_rows(bytes)?);
        let number = self.next;
        self.files.first.reserve(files.len());
        for (word, row) in files {
            self.files.add(word, Place { shard: number, at: row });
        }
        let places = self.places(key);
        places.first.reserve(chunks.len());
        for it in chunks {
            places.add(it.word, Place { shard: number, at: ChunkPlace { row: it.row, index: it.index } });
        }
        self.next = number.checked_add(1).expect("an index numbers its shards by 32 bits");
        self.shards.insert(number, (key, shard));
        Ok(number)
    }

    /// Removes a shard by its number, and returns it, or `None` if there is none.
    ///
    /// # Errors
    ///
    /// Those of [`add`](Index::add), if the shard is no longer what it was. Then the index is as it was.
    pub fn remove(&mut self, number: u32) -> Result<Option<S>> {
        let (key, files, chunks) = match self.shards.get(&number) {
            Some((key, shard)) => (*key, file_rows(shard.as_ref())?, chunk_rows(shard.as_ref())?),
            None => return Ok(None),
        };
        for (word, _) in files {
            self.files.remove(word, number);
        }
        let places = self.places(key);
        for it in chunks {
            places.remove(it.word, number);
        }
        if places.first.is_empty() {
            self.keys.retain(|(it, _)| *it != key);
        }
        Ok(self.shards.remove(&number).map(|(_, shard)| shard))
    }

    /// The number of a shard, and the file with this hash in it, or `None` if no shard has it.
    ///
    /// Of several shards that have it, it is the one that was added first. The file is what
    /// [`find_file`](crate::find_file) returns of this shard, which refuses eight or more files with one first word:
    /// here they are found. A row of a wrong table that leads to a file with another hash is passed over.
    ///
    /// # Errors
    ///
    /// Of a shard that has the first word of the hash, those of [`file_at`], and `InternalError` if the row of its
    /// table leads to the end of the section.
    pub fn find_file(&self, hash: Hash) -> Result<Option<(u32, File)>> {
        for Place { shard, at } in self.files.of(hash.0[0]) {
            let (listed, _) = file_at(self.shards[&shard].1.as_ref(), at)?.ok_or(Error::InternalError)?;
            if listed.hash == hash {
                return Ok(Some((shard, listed.file)));
            }
        }
        Ok(None)
    }

    /// The longest run of chunks with these hashes, which are not keyed, in one of the shards, and the number of that
    /// shard; or `None` if no shard has the first. Of several that are longest it is the first that is found.
    ///
    /// # Errors
    ///
    /// Those of [`query_at`], of a shard that has the first word of the first hash.
    pub fn query(&self, hashes: &[Hash]) -> Result<Option<(u32, Run)>> {
        let mut longest: Option<(u32, Run)> = None;
        for Place { shard, at } in hashes.first().into_iter().flat_map(|first| self.places_of(*first)) {
            let run = query_at(self.shards[&shard].1.as_ref(), hashes, at.row, at.index)?;
            if let Some(run) = run.filter(|it| it.count > longest.map_or(0, |(_, it)| it.count)) {
                longest = Some((shard, run));
                if run.count == hashes.len() {
                    break;
                }
            }
        }
        Ok(longest)
    }

    /// The shard with a number.
    #[must_use]
    pub fn get(&self, number: u32) -> Option<&S> {
        self.shards.get(&number).map(|(_, shard)| shard)
    }

    /// How many shards there are.
    #[must_use]
    pub fn len(&self) -> usize {
        self.shards.len()
    }

    /// Whether there are none.
    #[must_use]
    pub fn is_empty(&self) -> bool {
        self.shards.is_empty()
    }

    /// The places of the first word of a hash, under each key.
    fn places_of(&self, hash: Hash) -> impl Iterator<Item = Place<ChunkPlace>> + '_ {
        self.keys.iter().flat_map(move |(key, places)| {
            let keyed = if *key == NO_KEY { hash } else { hmac(*key, hash) };
            places.of(keyed.0[0])
        })
    }

    /// The places of chunks under a key, which is added if it is not there.
    fn places(&mut self, key: Hash) -> &mut Places<ChunkPlace> {
        let at = self.keys.iter().position(|(it, _)| *it == key).unwrap_or_else(|| {
            self.keys.push((key, Places::default()));
            self.keys.len() - 1
        });
        &mut self.keys[at].1
    }
}

/// The first words of the hashes of files, and the rows at which they start: the rows of the table of files, or, if
/// there is none, the rows that it would have.
fn file_rows(shard: &[u8]) -> Result<Vec<(u64, u32)>> {
    let info = load(shard)?;
    if info.files > 0 {
        let table = table_at(shard, info.file_table, info.files).ok_or(Error::Io)?;
        return Ok(table.chunks_exact(TABLE_ROW).map(table_row).collect());
    }
    let (mut rows, mut row) = (Vec::new(), 0);
    while let Some((file, next)) = file_at(shard, row)? {
        rows.push((file.hash.0[0], row));
        // A row past 32 bits is none of a section.
        row = next.try_into().map_err(|_| Error::InvalidShard)?;
    }
    Ok(rows)
}

/// The bytes of a table of so many rows, if they are all there.
fn table_at(shard: &[u8], start: u64, rows: u64) -> Option<&[u8]> {
    let start: usize = start.try_into().ok()?;
    let size = usize::checked_mul(rows.try_into().ok()?, TABLE_ROW)?;
    shard.get(start..start.checked_add(size)?)
}

fn table_row(row: &[u8]) -> (u64, u32) {
    let (word, start) = row.split_at(8);
    (u64::from_le_bytes(word.try_into().expect("eight bytes")), u32::from_le_bytes(start.try_into().expect("four")))
}

impl<S: AsRef<[u8]>> Default for Index<S> {
    fn default() -> Index<S> {
        Index::new()
    }
}
