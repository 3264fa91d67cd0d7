//! Corruption of bytes.

use crate::random::Random;
use crate::sections::{FOOTER_SIZE, ROW_SIZE, ends, number};

/// Changes some of the bytes of a shard.
pub fn corrupt(bytes: &mut Vec<u8>, random: &mut Random) {
    for _ in 0..1 + random.below(3) {
        if bytes.len() < ROW_SIZE {
            return;
        }
        match random.below(10) {
            0 => flip_bit(bytes, random),
            1 => bytes.truncate(random.below(bytes.len() + 1)),
            2 => cut_before_footer(bytes, random),
            3 => change_word(bytes, random),
            4 => change_count(bytes, random),
            5 => change_footer(bytes, random),
            6 => change_rows(bytes, random),
            7 => end_section(bytes, random),
            8 => change_table(bytes, random),
            _ => flags_or_reserved(bytes, random),
        }
    }
}

fn flip_bit(bytes: &mut [u8], random: &mut Random) {
    let at = random.below(bytes.len());
    bytes[at] ^= 1 << random.below(8);
}

/// Takes rows away, or puts bytes in, and keeps the footer.
fn cut_before_footer(bytes: &mut Vec<u8>, random: &mut Random) {
    let Some(end) = bytes.len().checked_sub(FOOTER_SIZE) else {
        return;
    };
    let at = random.below(end + 1);
    if random.once_in(3) {
        let more = random.below(100);
        bytes.splice(at..at, std::iter::repeat_n(random.next() as u8, more));
    } else {
        bytes.drain(at..end.min(at + 1 + random.below(100)));
    }
}

fn interesting(random: &mut Random, length: usize) -> u64 {
    match random.below(4) {
        0 => random.of(&[
            u64::MAX,
            u64::MAX - 1,
            1 << 63,
            1 << 32,
            u32::MAX as u64,
            1 << 31,
            u64::MAX / 48 + 1,
        ]),
        1 => random.below(length + ROW_SIZE) as u64,
        2 => random.below(8) as u64,
        _ => random.next() >> random.below(64),
    }
}

fn change_word(bytes: &mut [u8], random: &mut Random) {
    let at = random.below(bytes.len() / 8) * 8;
    let word = interesting(random, bytes.len());
    bytes[at..at + 8].copy_from_slice(&word.to_le_bytes());
}

/// Of what may be a row: the number at 36, which is the count if it is a header.
fn change_count(bytes: &mut [u8], random: &mut Random) {
    let at = row(bytes, random) + 36;
    let word = interesting(random, 8) as u32;
    bytes[at..at + 4].copy_from_slice(&word.to_le_bytes());
}

fn change_footer(bytes: &mut [u8], random: &mut Random) {
    let Some(footer) = bytes.len().checked_sub(FOOTER_SIZE) else {
        return;
    };
    let at = footer + 8 * random.below(25);
    let now = number(bytes, at);
    let word = match random.below(3) {
        0 => now.wrapping_add(random.of(&[1, 48, u64::MAX, 48u64.wrapping_neg(), 12, 16])),
        _ => interesting(random, bytes.len()),
    };
    bytes[at..at + 8].copy_from_slice(&word.to_le_bytes());
}

/// The key of a row of a table, so that the rows no longer ascend, or its value.
fn change_table(bytes: &mut [u8], random: &mut Random) {
    let Some(ends) = ends(bytes) else {
        return;
    };
    let table = random.of(&[ends.file_table, ends.chunk_table]);
    let end = table
        .rows
        .checked_mul(table.width)
        .and_then(|size| table.start.checked_add(size));
    if table.rows == 0 || end.is_none_or(|end| end > bytes.len() as u64) {
        return;
    }
    let at = (table.start + table.width * (random.next() % table.rows)) as usize;
    if random.once_in(3) {
        let value = random.below(bytes.len() / ROW_SIZE + 1) as u32;
        bytes[at + 8..at + 12].copy_from_slice(&value.to_le_bytes());
    } else {
        let any = random.next();
        let key = random.of(&[0, 7, u64::MAX, any]);
        bytes[at..at + 8].copy_from_slice(&key.to_le_bytes());
    }
}

/// The start of a row, if the sections begin where the header ends.
fn row(bytes: &[u8], random: &mut Random) -> usize {
    random.below(bytes.len() / ROW_SIZE) * ROW_SIZE
}

/// Copies a row to another, or swaps them: hashes no longer ascend.
fn change_rows(bytes: &mut [u8], random: &mut Random) {
    let (from, to) = (row(bytes, random), row(bytes, random));
    if random.once_in(2) {
        bytes.copy_within(from..from + ROW_SIZE, to);
    } else {
        for index in 0..ROW_SIZE {
            bytes.swap(from + index, to + index);
        }
    }
}

/// Makes a row a bookend, or a bookend another row.
fn end_section(bytes: &mut [u8], random: &mut Random) {
    let at = row(bytes, random);
    let byte = if random.once_in(3) {
        random.next() as u8
    } else {
        0xff
    };
    bytes[at..at + 32].fill(byte);
}

/// Of what may be a row: flags, or its last bytes.
fn flags_or_reserved(bytes: &mut [u8], random: &mut Random) {
    let at = row(bytes, random);
    match random.below(4) {
        0 => bytes[at + 35] ^= 0x20,
        1 => bytes[at + 35] ^= 0x80,
        2 => bytes[at + 35] ^= 0x40,
        _ => bytes[at + 40 + random.below(8)] ^= 1 + random.below(255) as u8,
    }
}
