//! Merges by ranges of hashes, each in a thread.

use crate::combine::{concatenate_span, listed, merge_list};
use crate::memory::zero_bytes;
use crate::output::with_room;
use crate::sizes::{CHUNK_ROW, FOOTER, ROW, TABLE_ROW};
use crate::{load, Hash, Info, Merge};
use std::iter::once;
use std::sync::atomic::{AtomicUsize, Ordering};
use std::sync::Mutex;
use std::{io, thread};

/// How many hashes are looked at to find cuts.
const SAMPLE: usize = 256;

/// Where in a row of the tables of files and of xorbs the row of the section is.
const ROW_AT: u64 = 8;

/// To merge a byte of the table of chunks takes as long as to copy so many.
const CHUNK_WORK: usize = 24;

/// The fractional parts of its multiples are spread evenly, however many there are.
const GOLDEN_RATIO: f64 = 0.618_033_988_749_894_9;

/// A merge of ranges that are put together. It is `None` if there are fewer than two threads, if there is no hash to cut
/// at, or if anything fails.
pub fn merge_in_threads<T: AsRef<[u8]>>(shards: &[T], options: &Merge) -> Option<Vec<u8>> {
    if options.threads < 2 {
        return None;
    }
    let mut list = with_room(shards.len()).ok()?;
    list.extend(shards.iter().map(AsRef::as_ref));
    let parts = range_merges(&list, options)?;
    concatenate_in_threads(&parts, options.threads.min(parts.len()))
}

/// What `concatenate` returns, with a span written by each thread, or `None` if anything fails.
fn concatenate_in_threads(parts: &[Vec<u8>], threads: usize) -> Option<Vec<u8>> {
    let size = concatenate_span(parts, 0, &mut []).ok()?;
    let mut out = zero_bytes(size).ok()?;
    let (mut rest, mut spans) = (&mut out[..], Vec::new());
    let mut start = 0;
    for end in ends_of_spans(parts, size, threads) {
        let (span, after) = rest.split_at_mut(end.checked_sub(start)?);
        spans.push(Mutex::new((start, span)));
        (start, rest) = (end, after);
    }
    results_of_threads(threads, spans.len(), |at| {
        let mut span = spans[at].lock().ok()?;
        let start = span.0;
        concatenate_span(parts, start, &mut *span.1).ok()
    })?;
    Some(out)
}

/// The ends of spans of a concatenation of this size that take about equally long, in ascending order up to the size.
/// The table of chunks is the last before the footer, and a byte of it takes longer.
fn ends_of_spans(parts: &[Vec<u8>], size: usize, threads: usize) -> Vec<usize> {
    let chunks: u64 = parts.iter().filter_map(|it| load(it).ok()).map(|it| it.chunks).sum();
    let table = usize::try_from(chunks).unwrap_or(0).saturating_mul(CHUNK_ROW);
    let start = size.saturating_sub(FOOTER).saturating_sub(table);
    let share = start.saturating_add(table.saturating_mul(CHUNK_WORK)) / threads.max(1);
    let end_of = |work: usize| (work.min(start) + work.saturating_sub(start) / CHUNK_WORK).min(size);
    let mut ends: Vec<usize> = (1..threads).map(|at| end_of(share * at)).chain([size]).collect();
    ends.dedup();
    ends
}

/// The merges of ranges that follow one another, which have together what is asked for.
fn range_merges(shards: &[&[u8]], options: &Merge) -> Option<Vec<Vec<u8>>> {
    let cuts = cuts(shards, options);
    if cuts.is_empty() {
        return None;
    }
    let starts = once(options.from).chain(cuts.iter().copied().map(Some));
    let ends = cuts.iter().copied().map(Some).chain(once(options.to));
    let ranges: Vec<Merge> = starts.zip(ends).map(|(from, to)| Merge { from, to, ..*options }).collect();
    let merged = |by_tables| {
        results_of_threads(options.threads, ranges.len(), |at| {
            let (list, length) = listed(shards).ok()?;
            merge_list(&list, length, &ranges[at], by_tables).ok()
        })
    };
    // The tables are not trusted: merges by them refuse anything else than their ranges, which have to be all.
    let all = options.from.is_none() && options.to.is_none();
    all.then(|| merged(true)).flatten().or_else(|| merged(false))
}

/// The results of so many tasks, in their order, or `None` if that is the result of one. The thread that calls runs
/// tasks like the others.
fn results_of_threads<T: Send>(
    threads: usize,
    tasks: usize,
    run: impl Fn(usize) -> Option<T> + Sync,
) -> Option<Vec<T>> {
    let next = AtomicUsize::new(0);
    let work = || {
        let free = || Some(next.fetch_add(1, Ordering::Relaxed)).filter(|&at| at < tasks);
        std::iter::from_fn(free).map(|at| Some((at, run(at)?))).collect::<Option<Vec<_>>>()
    };
    thread::scope(|scope| {
        let others = (1..threads.min(tasks)).map(|_| thread::Builder::new().spawn_scoped(scope, work));
        let others = others.collect::<io::Result<Vec<_>>>().ok()?;
        let mut done = work()?;
        for other in others {
            done.extend(other.join().ok()??);
        }
        done.sort_unstable_by_key(|&(at, _)| at);
        Some(done.into_iter().map(|(_, result)| result).collect())
    })
}

/// Hashes, in ascending order, that cut the records into a range for each thread at most, of about one size. Any would
/// do, so what the shards hold is not checked.
fn cuts(shards: &[&[u8]], options: &Merge) -> Vec<Hash> {
    let mut hashes = sample(shards);
    hashes.retain(|it| options.from.map_or(true, |from| from < *it) && options.to.map_or(true, |to| *it < to));
    hashes.sort_unstable();
    let ranges = options.threads.min(hashes.len() + 1);
    let mut cuts: Vec<Hash> = (1..ranges).map(|at| hashes[hashes.len() * at / ranges]).collect();
    cuts.dedup();
    cuts
}

/// Hashes of the shards' records, each record in proportion to its rows.
fn sample(shards: &[&[u8]]) -> Vec<Hash> {
    let size: f64 = shards.iter().map(|it| it.len() as f64).sum();
    let (mut before, mut hashes) = (0.0, Vec::with_capacity(SAMPLE));
    let mut phase = 0.0;
    for shard in shards {
        // How many of the points that are spread evenly over all bytes are in this shard.
        let points = |bytes: f64| (bytes / size * SAMPLE as f64) as usize;
        let count = points(before + shard.len() as f64) - points(before);
        before += shard.len() as f64;
        let info = match load(shard) {
            Ok(info) if count > 0 => info,
            _ => continue,
        };
        for at in 0..count {
            phase = (phase + GOLDEN_RATIO) % 1.0;
            hashes.extend(hash_near(shard, &info, (at as f64 + phase) / count as f64));
        }
    }
    hashes
}

/// The hash of the record that is at about this fraction of both sections, if there is one.
fn hash_near(shard: &[u8], info: &Info, fraction: f64) -> Option<Hash> {
    let at = info.file_section.checked_add(part_of(info.file_table.checked_sub(info.file_section)?, fraction))?;
    let (start, end, table, count) = if at < info.xorb_section {
        (info.file_section, info.xorb_section, info.file_table, info.files)
    } else {
        (info.xorb_section, info.file_table, info.xorb_table, info.xorbs)
    };
    let size = end.checked_sub(start)?;
    // Behind the records is one row more.
    let rows = (size / ROW as u64).checked_sub(1).filter(|&it| it > 0)?;
    let fraction = at.checked_sub(start)? as f64 / size as f64;
    let row = if count > 0 {
        let place = part_of(count, fraction).checked_mul(TABLE_ROW as u64)?.checked_add(table)?;
        u32::from_le_bytes(bytes_at(shard, place.checked_add(ROW_AT)?)?).into()
    } else {
        // Without a table nothing tells where records start, but the hashes in all rows are spread like theirs.
        part_of(rows, fraction)
    };
    let place = row.checked_mul(ROW as u64)?.checked_add(start)?;
    bytes_at::<32>(shard, place).map(Hash::from)
}

fn part_of(number: u64, fraction: f64) -> u64 {
    (number as f64 * fraction) as u64
}

fn bytes_at<const COUNT: usize>(shard: &[u8], place: u64) -> Option<[u8; COUNT]> {
    let place = usize::try_from(place).ok()?;
    shard.get(place..place.checked_add(COUNT)?)?.try_into().ok()
}

#[cfg(test)]
mod tests {
    use super::*;
    use crate::{concatenate, merge, Error};

    #[test]
    fn two_ranges_of_two_shards() {
        let [a, b] = ["a", "b"].map(|it| std::fs::read(format!("examples/{it}.mdb")).expect("a shard"));
        for strict in [false, true] {
            let options = Merge { strict, threads: 2, ..Merge::default() };
            let parts = range_merges(&[&a, &b], &options).expect("ranges");
            assert_eq!(parts.len(), 2);
            assert_eq!(concatenate(&parts), merge(&[&a, &b], &Merge::default()));
        }
    }

    #[test]
    fn spans_are_the_whole() {
        let shards = ["a", "b"].map(|it| std::fs::read(format!("examples/{it}.mdb")).expect("a shard"));
        let list = [&shards[0][..], &shards[1]];
        let parts = range_merges(&list, &Merge { threads: 2, ..Merge::default() }).expect("ranges");
        let whole = concatenate(&parts).expect("the whole");
        for threads in [1, 2, 3, 7, 100] {
            assert_eq!(concatenate_in_threads(&parts, threads).as_ref(), Some(&whole));
        }
        for start in 0..=whole.len() {
            let mut span = vec![7; (whole.len() - start).min(1 + start % 50)];
            assert_eq!(concatenate_span(&parts, start, &mut span), Ok(whole.len()));
            assert_eq!(span, whole[start..start + span.len()]);
            let mut past = vec![7; whole.len() - start + 1];
            assert_eq!(concatenate_span(&parts, start, &mut past), Err(Error::InvalidArguments));
            assert!(past.iter().all(|&it| it == 7));
        }
    }

    #[test]
    fn results_in_order() {
        assert_eq!(results_of_threads(3, 100, Some), Some((0..100).collect()));
        assert_eq!(results_of_threads(3, 100, |at| (at != 50).then_some(at)), None);
    }
}
