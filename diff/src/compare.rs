//! Whether two answers are the same.

use crate::answer::{Answer, Call, Export, NOW};
use crate::exceptions::Exception::{self, ExportFraming, KeyCarried};
use crate::port;
use crate::sections::{CHUNK_ROW_SIZE, FOOTER_SIZE, ends, footer_size, number, version};

/// The answers are the same, but for these listed differences; or they differ.
pub enum Comparison {
    Same(Vec<Exception>),
    Differ,
}

pub fn compare(call: &Call, first: &[u8], original: &Answer, port: &Answer) -> Comparison {
    if let (Answer::Shard(theirs), Answer::Shard(ours)) = (original, port) {
        return compare_shards(call, first, theirs.clone(), ours.clone());
    }
    if original == port {
        Comparison::Same(Vec::new())
    } else {
        Comparison::Differ
    }
}

fn compare_shards(call: &Call, first: &[u8], mut theirs: Vec<u8>, ours: Vec<u8>) -> Comparison {
    let mut exceptions = Vec::new();
    let their_version = match call {
        // An export has the version of its source.
        Call::Export(_) => version(first),
        _ => Some(2),
    };
    if theirs.len() != ours.len() || version(&theirs) != their_version || version(&ours) != Some(3)
    {
        return Comparison::Differ;
    }
    theirs[32..40].copy_from_slice(&ours[32..40]);
    sort_chunk_table(&mut theirs);
    let is_right = match call {
        Call::Union | Call::Difference | Call::MergeAgreeing => {
            carry_key(first, &mut theirs, &ours, &mut exceptions)
        }
        Call::Export(options) => {
            frame(first, &mut theirs, &mut exceptions);
            set_times(&mut theirs, &ours, options.now, Some(options))
        }
        _ => set_times(&mut theirs, &ours, NOW, None),
    };
    if is_right && theirs == ours && is_written_in_version_2(theirs) {
        Comparison::Same(exceptions)
    } else {
        Comparison::Differ
    }
}

/// The original writes version 2, which differs in the header alone: so does the port, if it is to.
fn is_written_in_version_2(mut theirs: Vec<u8>) -> bool {
    let ours = port::version_2(&theirs);
    theirs[32..40].copy_from_slice(&2u64.to_le_bytes());
    ours == Answer::Shard(theirs)
}

/// The original sorts by first words alone.
fn sort_chunk_table(shard: &mut [u8]) {
    let table = ends(shard)
        .expect("what is written has a footer")
        .chunk_table;
    let (start, rows) = (table.start as usize, table.rows as usize);
    let (rows, _) = shard[start..start + rows * CHUNK_ROW_SIZE].as_chunks_mut::<CHUNK_ROW_SIZE>();
    rows.sort_unstable_by_key(|row| {
        let half = |at: usize| u32::from_le_bytes(row[at..at + 4].try_into().unwrap());
        (number(row, 0), half(8), half(12))
    });
}

/// The result has the key of the inputs; the original's has none.
fn carry_key(
    first: &[u8],
    theirs: &mut [u8],
    ours: &[u8],
    exceptions: &mut Vec<Exception>,
) -> bool {
    let footer = theirs.len() - FOOTER_SIZE;
    let key = footer + 72..footer + 104;
    if ends(ours).map(|ends| ends.key) != ends(first).map(|ends| ends.key) {
        return false;
    }
    if theirs[key.clone()] != ours[key.clone()] {
        exceptions.push(KeyCarried);
        theirs[key.clone()].copy_from_slice(&ours[key]);
    }
    true
}

/// Bookends without fields, and the footer size.
fn frame(first: &[u8], theirs: &mut [u8], exceptions: &mut Vec<Exception>) {
    let written = ends(theirs).expect("what is written has a footer");
    let mut changed = footer_size(first) != Some(FOOTER_SIZE as u64);
    theirs[40..48].copy_from_slice(&(FOOTER_SIZE as u64).to_le_bytes());
    for section_end in [written.xorb_info_offset, written.file_table.start] {
        let fields = &mut theirs[section_end as usize - 16..section_end as usize];
        changed |= fields.iter().any(|&byte| byte != 0);
        fields.fill(0);
    }
    if changed {
        exceptions.push(ExportFraming);
    }
}

/// The original reads the clock; the port is told the time, which has to be in the footer.
fn set_times(theirs: &mut [u8], ours: &[u8], now: u64, export: Option<&Export>) -> bool {
    let footer = theirs.len() - FOOTER_SIZE;
    let time = |shard: &[u8], at: usize| number(shard, footer + at);
    let (creation, expiry) = (time(theirs, 104), time(theirs, 112));
    let valid = export.map(|export| export.valid_seconds);
    let is_right = match valid {
        Some(valid) => expiry - creation == valid && time(ours, 112) == now + valid,
        None => expiry == time(ours, 112),
    };
    theirs[footer + 104..footer + 120].copy_from_slice(&ours[footer + 104..footer + 120]);
    is_right && time(ours, 104) == now
}
