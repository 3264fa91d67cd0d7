//! Comparing what both write.

const FOOTER_SIZE: usize = 200;
const CHUNK_ROW_SIZE: usize = 16;

/// Stops where the answers differ. Shards may differ in the header's version, the timestamps, which
/// the original takes from the clock, and the order of rows of the chunk table that share a first
/// word: the port's ascend.
pub fn compare(name: &str, mut ours: Vec<u8>, mut theirs: Vec<u8>) {
    if theirs.starts_with(b"HFRepoMetaData") {
        for shard in [&mut ours, &mut theirs] {
            level(shard);
        }
        sort_chunk_table(&mut theirs);
    }
    let first = ours.iter().zip(&theirs).position(|(a, b)| a != b);
    assert!(
        ours.len() == theirs.len() && first.is_none(),
        "{name}: the answers have {} and {} bytes and differ from byte {first:?} on",
        ours.len(),
        theirs.len(),
    );
}

/// Makes what may differ the same.
fn level(shard: &mut [u8]) {
    let footer = shard.len() - FOOTER_SIZE;
    shard[32..40].fill(0);
    shard[footer + 104..footer + 120].fill(0);
}

fn number(shard: &[u8], at: usize) -> usize {
    u64::from_le_bytes(shard[at..at + 8].try_into().unwrap()) as usize
}

/// Sorts the rows by first word, row of the xorb and index.
fn sort_chunk_table(shard: &mut [u8]) {
    let footer = shard.len() - FOOTER_SIZE;
    let start = number(shard, footer + 56);
    let end = start + number(shard, footer + 64) * CHUNK_ROW_SIZE;
    let (rows, _) = shard[start..end].as_chunks_mut::<CHUNK_ROW_SIZE>();
    rows.sort_unstable_by_key(|row| {
        let half = |at: usize| u32::from_le_bytes(row[at..at + 4].try_into().unwrap());
        (number(row, 0), half(8), half(12))
    });
}
