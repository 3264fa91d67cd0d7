//! What bytes hold, read a third time: header, footer, and the headers of records.

use crate::answer::Hash;

pub const ROW_SIZE: usize = 48;
pub const CHUNK_ROW_SIZE: usize = 16;
pub const FOOTER_SIZE: usize = 200;
const ROW: u64 = ROW_SIZE as u64;
const BOOKEND: [u64; 4] = [u64::MAX; 4];

const VERIFICATION: u32 = 1 << 31;
const METADATA: u32 = 1 << 30;
pub const AUX: u32 = 1 << 29;

/// The flags of a file's parts: verification rows, a metadata row and an auxiliary row.
pub const PART_FLAGS: u32 = VERIFICATION | METADATA | AUX;

/// Header and footer.
#[derive(Clone, Copy)]
pub struct Ends {
    pub version: u64,
    pub file_info_offset: u64,
    pub xorb_info_offset: u64,
    pub file_table: Table,
    pub chunk_table: Table,
    pub key: [u64; 4],
}

/// A lookup table.
#[derive(Clone, Copy)]
pub struct Table {
    pub start: u64,
    pub rows: u64,
    pub width: u64,
}

/// The header of a record.
#[derive(Clone, Copy)]
pub struct Record {
    pub hash: [u64; 4],
    /// Of a file.
    pub flags: u32,
    pub entries: u32,
    /// The rows that follow, without an auxiliary row.
    pub rows: u64,
}

/// The records of a section, as far as they are there.
pub struct Section {
    pub records: Vec<Record>,
    /// Where the bookend stands.
    pub bookend: Option<u64>,
}

/// The number at a place that the bytes have.
pub fn number(bytes: &[u8], at: usize) -> u64 {
    u64::from_le_bytes(bytes[at..at + 8].try_into().unwrap())
}

fn word(bytes: &[u8], at: u64) -> Option<u64> {
    let at = usize::try_from(at).ok()?;
    let word = bytes.get(at..at.checked_add(8)?)?;
    Some(u64::from_le_bytes(word.try_into().unwrap()))
}

fn half(bytes: &[u8], at: u64) -> Option<u32> {
    let at = usize::try_from(at).ok()?;
    let half = bytes.get(at..at.checked_add(4)?)?;
    Some(u32::from_le_bytes(half.try_into().unwrap()))
}

fn words(bytes: &[u8], at: u64) -> Option<[u64; 4]> {
    let next = |index: u64| word(bytes, at.checked_add(8 * index)?);
    Some([next(0)?, next(1)?, next(2)?, next(3)?])
}

/// The version of the header.
pub fn version(bytes: &[u8]) -> Option<u64> {
    word(bytes, 32)
}

pub fn footer_size(bytes: &[u8]) -> Option<u64> {
    word(bytes, 40)
}

/// None if there are too few bytes.
pub fn ends(bytes: &[u8]) -> Option<Ends> {
    let footer = bytes.len().checked_sub(FOOTER_SIZE)? as u64;
    let field = |index: u64| word(bytes, footer + 8 * index);
    Some(Ends {
        version: version(bytes)?,
        file_info_offset: field(1)?,
        xorb_info_offset: field(2)?,
        file_table: Table {
            start: field(3)?,
            rows: field(4)?,
            width: 12,
        },
        chunk_table: Table {
            start: field(7)?,
            rows: field(8)?,
            width: 16,
        },
        key: words(bytes, footer + 72)?,
    })
}

/// The header of the file at an offset, or a bookend.
pub fn file_at(bytes: &[u8], at: u64) -> Option<Record> {
    let flags = half(bytes, at.checked_add(32)?)?;
    let entries = half(bytes, at.checked_add(36)?)?;
    word(bytes, at.checked_add(40)?)?;
    let lists = if flags & VERIFICATION == 0 { 1 } else { 2 };
    let rows = u64::from(entries) * lists + u64::from(flags & METADATA != 0);
    Some(Record {
        hash: words(bytes, at)?,
        flags,
        entries,
        rows,
    })
}

/// The same of a xorb.
pub fn xorb_at(bytes: &[u8], at: u64) -> Option<Record> {
    let entries = half(bytes, at.checked_add(36)?)?;
    word(bytes, at.checked_add(40)?)?;
    Some(Record {
        hash: words(bytes, at)?,
        flags: 0,
        entries,
        rows: u64::from(entries),
    })
}

impl Record {
    pub fn is_bookend(&self) -> bool {
        self.hash == BOOKEND
    }
}

/// The section at an offset.
pub fn section(
    bytes: &[u8],
    start: u64,
    record_at: impl Fn(&[u8], u64) -> Option<Record>,
) -> Section {
    let mut section = Section {
        records: Vec::new(),
        bookend: None,
    };
    let mut at = Some(start);
    while let Some(offset) = at
        && let Some(record) = record_at(bytes, offset)
    {
        if record.is_bookend() {
            section.bookend = Some(offset);
            break;
        }
        section.records.push(record);
        at = offset.checked_add(ROW * (1 + record.rows));
    }
    section
}

/// The bytes without auxiliary rows in the section that follows the header, and without their flags:
/// what version 2 has of them.
pub fn without_aux_rows(bytes: &[u8]) -> Vec<u8> {
    let mut rest = bytes;
    let mut without = Vec::new();
    let pass = |rest: &mut &[u8], size: u64| {
        let size = usize::try_from(size).map_or(rest.len(), |size| size.min(rest.len()));
        let (front, back) = rest.split_at(size);
        *rest = back;
        front.to_vec()
    };
    without.extend(pass(&mut rest, ROW));
    while let Some(record) = file_at(rest, 0)
        && !record.is_bookend()
    {
        let start = without.len();
        without.extend(pass(&mut rest, ROW * (1 + record.rows)));
        if record.flags & AUX != 0 {
            without[start + 32..start + 36].copy_from_slice(&(record.flags & !AUX).to_le_bytes());
            pass(&mut rest, ROW);
        }
    }
    without.extend(rest);
    without
}

impl Section {
    pub fn has(&self, holds: impl Fn(&Record) -> bool) -> bool {
        self.records.iter().any(holds)
    }

    /// Some hash is not greater than the one before it.
    pub fn descends(&self) -> bool {
        self.records
            .windows(2)
            .any(|pair| pair[1].hash <= pair[0].hash)
    }

    /// The rows up to some record do not fit 32 bits.
    pub fn is_too_long(&self) -> bool {
        let with_aux = |record: &Record| 1 + record.rows + u64::from(record.flags & AUX != 0);
        let rows: u64 = self.records.iter().map(with_aux).sum();
        rows > u64::from(u32::MAX)
    }
}

impl Table {
    /// Its end does not fit 64 bits.
    pub fn is_past_64_bits(&self) -> bool {
        let end = u128::from(self.start) + u128::from(self.rows) * u128::from(self.width);
        end > u128::from(u64::MAX)
    }

    /// It is searched, not read through, and is not a sorted table.
    pub fn is_searched_unsorted(&self, bytes: &[u8]) -> bool {
        let keys: Vec<u64> = self
            .offsets(bytes)
            .filter_map(|at| word(bytes, at))
            .collect();
        self.rows > 255 && ((keys.len() as u64) < self.rows || !keys.is_sorted())
    }

    fn offsets(&self, bytes: &[u8]) -> impl Iterator<Item = u64> + use<> {
        let table = *self;
        let rows = table.rows.min(bytes.len() as u64 / table.width + 1);
        (0..rows).map_while(move |row| table.start.checked_add(row * table.width))
    }

    /// The first numbers of the values of rows with this key, and the second.
    pub fn values(&self, bytes: &[u8], key: u64) -> Vec<(u32, u32)> {
        let rows = self
            .offsets(bytes)
            .filter(|&at| word(bytes, at) == Some(key));
        let second = |at| {
            if self.width == 16 {
                half(bytes, at + 12)
            } else {
                Some(0)
            }
        };
        rows.filter_map(|at| Some((half(bytes, at + 8)?, second(at)?)))
            .collect()
    }
}

/// The place of a row of a section: none if it does not fit 64 bits.
pub fn row_offset(start: u64, row: u64) -> Option<u64> {
    start.checked_add(row * ROW)
}

/// The chunk at an offset: its hash and its bytes.
pub fn chunk_at(bytes: &[u8], at: u64) -> Option<(Hash, u32)> {
    let unpacked = half(bytes, at.checked_add(36)?)?;
    word(bytes, at.checked_add(40)?)?;
    Some((
        Hash {
            words: words(bytes, at)?,
        },
        unpacked,
    ))
}
