//! The search in a sorted table of which only a few rows are read.

use crate::serialization_utils::read_u64;
use std::fmt::Debug;
use std::io::{Error, ErrorKind, Read, Seek, SeekFrom};
use std::mem::size_of;
use std::ops::Range;

/// So many rows are read at once rather than searched.
const AT_ONCE: u64 = 256;

/// A table that ascends by the first eight bytes of its rows, their keys.
pub(crate) struct Table {
    start: u64,
    rows: u64,
    width: u64,
}

impl Table {
    /// The table of so many rows of so many bytes that starts there, or `None` if it ends past 64 bits.
    pub fn new(start: u64, rows: u64, width: u64) -> Option<Table> {
        rows.checked_mul(width)?.checked_add(start)?;
        Some(Table { start, rows, width })
    }

    fn seek<R: Seek>(&self, reader: &mut R, row: u64) -> Result<(), Error> {
        reader.seek(SeekFrom::Start(self.start + row * self.width))?;
        Ok(())
    }

    /// At most [`AT_ONCE`] rows. All rows before them have keys below `key`, and no row behind them has one. So the
    /// first row with the key is among them, or is the next one, if there is any.
    fn narrow<R: Read + Seek>(&self, reader: &mut R, key: u64) -> Result<Range<u64>, Error> {
        let (mut window, mut low, mut high, mut step) = (0..self.rows, 0, u64::MAX, 0);
        while window.end - window.start > AT_ONCE {
            let row = probe(&window, (low, high), key, step);
            self.seek(reader, row)?;
            let found = read_u64(reader)?;
            if found < key {
                (window.start, low) = (row + 1, found);
            } else {
                (window.end, high) = (row, found);
            }
            step += 1;
        }
        Ok(window)
    }

    /// The rows that have to be read for the first so many of a key.
    fn rows_for<R: Read + Seek>(&self, reader: &mut R, key: u64, most: usize) -> Result<Range<u64>, Error> {
        let window = self.narrow(reader, key)?;
        let end = window.end.saturating_add(most as u64).min(self.rows);
        self.seek(reader, window.start)?;
        Ok(window.start..end)
    }

    /// The bytes of some rows among which are the first so many of a key, or all of them if they are fewer.
    pub fn cut<R: Read + Seek>(&self, reader: &mut R, key: u64, most: usize) -> Result<Vec<u8>, Error> {
        let rows = self.rows_for(reader, key, most)?;
        let mut bytes = vec![0; ((rows.end - rows.start) * self.width) as usize];
        reader.read_exact(&mut bytes)?;
        Ok(bytes)
    }
}

/// The row of a window that is read next, by the keys at its ends.
///
/// It is where the key would stand if keys ascended evenly, but half as many rows as are read at once towards the
/// farther end of the window, so that this end comes near. Each third time it is the middle, whatever the keys.
fn probe(window: &Range<u64>, (low, high): (u64, u64), key: u64, step: u32) -> u64 {
    let rows = window.end - window.start;
    if step % 3 == 2 {
        return window.start + rows / 2;
    }
    let below = u128::from(rows) * u128::from(key - low) / u128::from((high - low).max(1));
    let guess = window.start + below as u64;
    let row = if guess - window.start < window.end - guess { guess + AT_ONCE / 2 } else { guess - AT_ONCE / 2 };
    row.clamp(window.start, window.end - 1)
}

/// Looks for a key in a table of `num_entries` rows that starts at `read_start`, each a key of eight bytes and a value
/// that `read_value_function` reads, of the size that its type has in memory. Writes the values of the rows with the
/// key to the front of `result`, and returns how many: if they fill it there may be more.
///
/// Of a table of n rows it reads at most some 3 log2 n keys alone, and then at most 257 rows and those that it returns.
///
/// # Errors
///
/// The reader or the function failed, or the reader ends before. `InvalidData`: the table ends past 64 bits.
///
/// ```
/// use std::io::Cursor;
/// use xet_core_structures::metadata_shard::interpolation_search::search_on_sorted_u64s;
/// use xet_core_structures::serialization_utils::read_u64;
///
/// # fn main() -> std::io::Result<()> {
/// let rows: [(u64, u64); 3] = [(1, 100), (3, 101), (3, 102)];
/// let table: Vec<u8> = rows.iter().flat_map(|(key, value)| [key.to_le_bytes(), value.to_le_bytes()].concat()).collect();
/// let mut found = [0; 4];
/// let count = search_on_sorted_u64s(&mut Cursor::new(table), 0, 3, 3, read_u64, &mut found)?;
/// assert_eq!(found[..count], [101, 102]);
/// # Ok(())
/// # }
/// ```
pub fn search_on_sorted_u64s<Value, R, ReadValueFunction>(
    reader: &mut R,
    read_start: u64,
    num_entries: u64,
    key: u64,
    read_value_function: ReadValueFunction,
    result: &mut [Value],
) -> Result<usize, Error>
where
    Value: Default + Copy + Debug,
    R: Read + Seek,
    ReadValueFunction: Fn(&mut R) -> Result<Value, Error>,
{
    if result.is_empty() {
        return Ok(0);
    }
    let width = (size_of::<u64>() + size_of::<Value>()) as u64;
    let table = Table::new(read_start, num_entries, width).ok_or(ErrorKind::InvalidData)?;
    let mut found = 0;
    for _ in table.rows_for(reader, key, result.len())? {
        let word = read_u64(reader)?;
        if word > key || found == result.len() {
            break;
        }
        let value = read_value_function(reader)?;
        if word == key {
            result[found] = value;
            found += 1;
        }
    }
    Ok(found)
}

#[cfg(test)]
mod tests {
    use super::*;
    use std::io::Cursor;

    /// A table of keys with their indices, and how many seeks were made in it.
    struct Keys(Cursor<Vec<u8>>, u32);

    impl Read for Keys {
        fn read(&mut self, bytes: &mut [u8]) -> Result<usize, Error> {
            self.0.read(bytes)
        }
    }

    impl Seek for Keys {
        fn seek(&mut self, to: SeekFrom) -> Result<u64, Error> {
            self.1 += 1;
            self.0.seek(to)
        }
    }

    impl Keys {
        fn new(keys: &[u64]) -> Keys {
            let rows = keys.iter().zip(0u64..).flat_map(|(key, at)| [key.to_le_bytes(), at.to_le_bytes()]);
            Keys(Cursor::new(rows.flatten().collect()), 0)
        }

        /// How many seeks a search makes, and the rows that it finds.
        fn search(&mut self, key: u64) -> (u32, Vec<u64>) {
            self.1 = 0;
            let (mut found, rows) = ([0; 8], self.0.get_ref().len() as u64 / 16);
            let count = search_on_sorted_u64s(self, 0, rows, key, read_u64, &mut found).expect("no error");
            (self.1, found[..count].to_vec())
        }
    }

    #[test]
    fn few_rows() {
        let (mut two, mut none) = (Keys::new(&[1, 3]), Keys::new(&[]));
        for key in [0, 2, 4, u64::MAX] {
            assert_eq!((two.search(key), none.search(key)), ((1, vec![]), (1, vec![])));
        }
        assert_eq!((two.search(1), two.search(3)), ((1, vec![0]), (1, vec![1])));
    }

    #[test]
    fn even_keys() {
        let step = u64::MAX / 100_001;
        let keys: Vec<u64> = (1..=100_000).map(|it| it * step).collect();
        let mut table = Keys::new(&keys);
        for row in [0, 1, 4999, 50_000, 99_999] {
            for (key, found) in [(keys[row], vec![row as u64]), (keys[row] - 1, vec![]), (keys[row] + 1, vec![])] {
                let (seeks, rows) = table.search(key);
                assert_eq!(rows, found);
                assert!(seeks <= 4, "{seeks} seeks");
            }
        }
    }

    #[test]
    fn scattered_keys() {
        // The first words of the hashes of numbers, which are as good as random.
        let word = |it: u64| xet_shards::hmac(xet_shards::Hash([1; 4]), xet_shards::Hash([it; 4])).0[0];
        let mut keys: Vec<u64> = (0..50_000).map(word).collect();
        keys.sort_unstable();
        let mut table = Keys::new(&keys);
        for row in (0..keys.len()).step_by(97) {
            let (seeks, rows) = table.search(keys[row]);
            assert_eq!(rows, [row as u64]);
            assert!(seeks <= 5, "{seeks} seeks");
        }
    }

    #[test]
    fn equal_and_uneven_keys() {
        let (mut keys, first_8) = (vec![u64::MAX; 1000], (0..8).collect::<Vec<_>>());
        let mut table = Keys::new(&keys);
        assert_eq!((table.search(5).1, table.search(u64::MAX).1), (vec![], first_8.clone()));
        keys[..990].fill(7);
        table = Keys::new(&keys);
        assert_eq!((table.search(7).1, table.search(u64::MAX).1), (first_8, (990..998).collect()));
        // Each third step halves the rows, of which at most 256 are read at once: of 1000 after six steps.
        for key in [0, 5, 7, 8, u64::MAX] {
            assert!(table.search(key).0 <= 7);
        }
        let mut zeros = vec![0; 1023];
        zeros.push(u64::MAX);
        assert_eq!(Keys::new(&zeros).search(1).1, []);
    }

    #[test]
    fn tables_that_end_past_64_bits() {
        let find = |start, rows| {
            search_on_sorted_u64s(&mut Cursor::new([0; 64]), start, rows, 0, read_u64, &mut [0]).map_err(|it| it.kind())
        };
        assert_eq!(find(u64::MAX, 0), Ok(0));
        assert_eq!(find(u64::MAX, 1), Err(ErrorKind::InvalidData));
        assert_eq!(find(0, u64::MAX), Err(ErrorKind::InvalidData));
        assert_eq!(find(0, 1 << 40), Err(ErrorKind::UnexpectedEof));
    }
}
