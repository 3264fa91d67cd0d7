//! Lookups in parts of a shard, and an index over many: by hand, and beside a search through all records.

mod common;

use common::{hash, Shard};
use std::collections::hash_map::{HashMap, RandomState};
use std::hash::{BuildHasher, Hasher};
use std::iter::zip;
use xet_shards::{ChunkPlace, ChunkRow, Error, Export, File, Hash, Index, Minimal, NO_EXPIRY, NO_KEY};

fn shard_of(xorbs: &[Vec<String>], files: &[Vec<String>]) -> Vec<u8> {
    let mut shard = Shard::default();
    for words in xorbs {
        shard.add_xorb(&words.iter().map(String::as_str).collect::<Vec<_>>());
    }
    for words in files {
        shard.add_file(&words.iter().map(String::as_str).collect::<Vec<_>>());
    }
    shard.written(NO_EXPIRY, 3)
}

/// The words of each line.
fn words(lines: &[&str]) -> Vec<Vec<String>> {
    lines.iter().map(|it| it.split(' ').map(String::from).collect()).collect()
}

/// The bytes of a shard of xorbs, each of a hash and chunks as a script has them.
fn xorbs(lines: &[&str]) -> Vec<u8> {
    shard_of(&words(lines), &[])
}

fn keyed(shard: &[u8], chunk_table: bool) -> Vec<u8> {
    let options = Export { chunk_table, key: hash("7"), ..Export::default() };
    xet_shards::export(shard, &options).expect("an export")
}

fn minimal(shard: &[u8]) -> Vec<u8> {
    let options = Minimal { now: 9, ..Minimal::default() };
    xet_shards::minimal(shard, &options).expect("a minimal shard")
}

#[test]
fn tables_that_were_read_alone() {
    let mut shard = Shard::default();
    shard.add_file(&["100", "10:0:1:5"]);
    shard.add_file(&["101"]);
    shard.add_xorb(&["10", "22:5", "21:6"]);
    let shard = shard.written(NO_EXPIRY, 3);
    let info = xet_shards::load(&[&shard[..48], &shard[shard.len() - 200..]].concat()).expect("both ends");
    assert_eq!(Ok(info), xet_shards::load(&shard));
    assert_eq!((info.file_section, info.footer_size, info.footer_version, info.reserved), (48, 200, 1, [0; 6]));
    let table = |start: u64, size: u64| &shard[start as usize..(start + size) as usize];
    let rows = |word| xet_shards::find_rows(table(info.file_table, 12 * info.files), word);
    assert_eq!((rows(100), rows(101), rows(102)), (Ok(vec![0]), Ok(vec![2]), Ok(vec![])));
    assert_eq!(xet_shards::find_rows(table(info.xorb_table, 12), 10), Ok(vec![0]));
    assert_eq!(xet_shards::find_rows(&shard[1..], 10), Err(Error::InvalidArguments));
    assert_eq!(xet_shards::find_rows(&[0; 96], 0), Err(Error::TruncatedHashCollision));
    let chunks = table(info.chunk_table, 16 * info.chunks);
    assert_eq!(xet_shards::find_places(chunks, 21), Ok(vec![ChunkPlace { row: 0, index: 1 }]));
    assert_eq!(xet_shards::find_places(&[0; 320], 0).map(|it| it.len()), Ok(8));
    let (second, rows) = xet_shards::file_in(table(48 + 2 * 48, 48), 3).expect("a file").expect("no bookend");
    assert_eq!((second.hash, rows), (hash("101"), 1));
    assert_eq!(xet_shards::file_at(&shard, 2), Ok(Some((second, 3))));
    assert_eq!(xet_shards::file_in(&shard[48..95], 3), Err(Error::Io));
    assert_eq!(xet_shards::file_in(&shard[48..], 1), Err(Error::InvalidArguments));
    let xorb = xet_shards::xorb_in(&shard[info.xorb_section as usize..]).expect("a xorb").expect("no bookend");
    assert_eq!((xorb.0.chunks.len(), xorb.1), (2, 3));
    assert_eq!(xet_shards::xorb_at(&shard, 0), Ok(Some(xorb)));
    assert_eq!(xet_shards::xorb_at(&shard, 3), Ok(None));
}

#[test]
fn places_of_chunks() {
    let shard = xorbs(&["10 23:5 21:6", "11 22:7"]);
    let row = |word, row, index| ChunkRow { word, row, index };
    assert_eq!(xet_shards::chunk_rows(&shard), Ok(vec![row(21, 0, 1), row(22, 3, 0), row(23, 0, 0)]));
    let without_table = minimal(&shard);
    assert_eq!(xet_shards::chunk_rows(&without_table), Ok(vec![row(23, 0, 0), row(21, 0, 1), row(22, 3, 0)]));
    let wanted = [hash("23"), hash("21"), hash("22")];
    for shard in [&shard, &without_table, &keyed(&shard, true)] {
        let run = xet_shards::query_at(shard, &wanted, 0, 0).expect("an answer").expect("a run");
        assert_eq!((run.count, run.segment.end, run.segment.bytes), (2, 2, 11));
        assert_eq!(xet_shards::query_at(shard, &wanted, 0, 1), Ok(None));
        assert_eq!(xet_shards::query_at(shard, &wanted, 0, 2), Err(Error::InvalidArguments));
    }
}

#[test]
fn an_index_of_three_shards() {
    let mut index = Index::default();
    let a = index.add(xorbs(&["10 21:5 22:6"])).expect("a shard");
    let b = index.add(keyed(&xorbs(&["11 21:5 22:6 23:7"]), true)).expect("a keyed shard");
    let c = index.add(minimal(&xorbs(&["12 23:7 24:8"]))).expect("a minimal shard");
    let ask = |index: &Index<Vec<u8>>, words: &[&str]| {
        let hashes: Vec<_> = words.iter().map(|it| hash(it)).collect();
        index.query(&hashes).expect("an answer").map(|(shard, run)| (shard, run.count))
    };
    assert_eq!(ask(&index, &["21", "22", "23", "24"]), Some((b, 3)));
    assert_eq!(ask(&index, &["21", "22"]), Some((a, 2)));
    assert_eq!(ask(&index, &["23", "24"]), Some((c, 2)));
    assert_eq!((ask(&index, &["25"]), ask(&index, &[])), (None, None));
    assert_eq!(index.add(vec![7; 500]), Err(Error::ShardVersion));
    assert!(index.remove(b).expect("it is as it was").is_some() && index.get(b).is_none());
    assert_eq!((index.remove(b), index.len()), (Ok(None), 2));
    assert_eq!(ask(&index, &["21", "22", "23", "24"]), Some((a, 2)));
}

/// The bytes of a shard of files, each of a hash and segments as a script has them.
fn files(lines: &[&str]) -> Vec<u8> {
    shard_of(&[], &words(lines))
}

/// The first of some shards that has a file with a hash, and the file, by a lookup in each.
fn first_file(shards: &[Vec<u8>], wanted: Hash) -> Option<(u32, File)> {
    let found = |shard| xet_shards::find_file(shard, wanted).expect("an answer");
    zip(0.., shards).find_map(|(number, shard)| found(shard).map(|file| (number, file)))
}

fn index_of(shards: &[Vec<u8>]) -> Index<Vec<u8>> {
    let mut index = Index::new();
    for (shard, number) in zip(shards, 0..) {
        assert_eq!(index.add(shard.clone()), Ok(number));
    }
    index
}

#[test]
fn files_of_many_shards() {
    let two = |it: u32| files(&[&format!("{it} 200:0:5:{it}"), &format!("{} 200:0:5:{it} 201:1:2:7", it + 1)]);
    let mut shards: Vec<_> = (100..300).map(two).collect();
    shards[7] = keyed(&shards[7], true);
    let mut index = index_of(&shards);
    let mut numbers = Vec::new();
    for it in 99..303 {
        let wanted = hash(&it.to_string());
        let found = index.find_file(wanted).expect("an answer");
        assert_eq!(found, first_file(&shards, wanted));
        numbers.push(found.map(|(number, _)| number));
    }
    let all = std::iter::once(0).chain(0..200).map(Some);
    assert_eq!(numbers, std::iter::once(None).chain(all).chain([None; 2]).collect::<Vec<_>>());
    // Of what is removed nothing is found, but the next shard that has it.
    assert_eq!(index.remove(1), Ok(Some(shards[1].clone())));
    let found = index.find_file(hash("102")).expect("an answer").expect("the next shard has it");
    assert_eq!((found.0, Ok(Some(found.1))), (2, xet_shards::find_file(&shards[2], hash("102"))));
    for number in (0..200).filter(|it| *it != 1) {
        assert_eq!(index.remove(number), Ok(Some(shards[number as usize].clone())));
    }
    assert!((99..303).all(|it| index.find_file(hash(&it.to_string())) == Ok(None)));
}

#[test]
fn files_with_one_first_word() {
    let sharing = |it: u64| Hash([5, it, 0, 0]);
    let line = |it: u64| format!("{} 200:0:5:{it}", sharing(it));
    let many: Vec<_> = (3..30).map(line).collect();
    let many = files(&many.iter().map(String::as_str).collect::<Vec<_>>());
    let mut index = index_of(&[files(&[&line(1)]), files(&[&line(1), &line(2)]), many.clone()]);
    let ask = |index: &Index<Vec<u8>>, it| {
        let found = index.find_file(sharing(it)).expect("an answer");
        found.map(|(shard, file)| (shard, file.segments[0].bytes))
    };
    assert_eq!(
        [0, 1, 2, 3, 29, 30].map(|it| ask(&index, it)),
        [None, Some((0, 1)), Some((1, 2)), Some((2, 3)), Some((2, 29)), None]
    );
    assert_eq!(xet_shards::find_file(&many, sharing(9)), Err(Error::TruncatedHashCollision));
    assert!(index.remove(0).expect("it is as it was").is_some());
    assert_eq!([1, 2, 3].map(|it| ask(&index, it)), [Some((1, 1)), Some((1, 2)), Some((2, 3))]);
}

#[test]
fn files_by_wrong_tables_and_none() {
    let shard = files(&["100 200:0:5:5", "101 200:0:5:7", "102"]);
    let table = xet_shards::load(&shard).expect("a shard").file_table as usize;
    // Without a table, by the section.
    let index = index_of(&[minimal(&shard)]);
    for it in ["99", "100", "101", "102", "103"] {
        let wanted = xet_shards::find_file(&shard, hash(it)).expect("an answer");
        assert_eq!(index.find_file(hash(it)), Ok(wanted.map(|file| (0, file))));
    }
    assert_eq!(xet_shards::find_file(&minimal(&shard), hash("100")), Ok(None));
    let cut = [&shard[..96], &minimal(&shard)[shard.len() - 36 - 200..]].concat();
    assert_eq!(Index::new().add(cut), Err(Error::Io));
    // The row of another file, of a segment, of the end, and behind it.
    let none = Ok(None);
    for (row, wanted) in [(2u32, none.clone()), (1, none), (5, Err(Error::InternalError)), (u32::MAX, Err(Error::Io))] {
        let mut wrong = shard.clone();
        wrong[table + 8..table + 12].copy_from_slice(&row.to_le_bytes());
        assert_eq!(xet_shards::find_file(&wrong, hash("100")), wanted);
        let mut index = index_of(&[wrong.clone()]);
        assert_eq!(index.find_file(hash("100")).map(|it| it.map(|(_, file)| file)), wanted);
        assert_eq!(index.find_file(hash("101")), Ok(first_file(std::slice::from_ref(&shard), hash("101"))));
        assert_eq!(index.add(shard.clone()), Ok(1));
        if wanted.is_ok() {
            assert_eq!(index.find_file(hash("100")).map(|it| it.map(|(number, _)| number)), Ok(Some(1)));
        }
        assert_eq!(index.remove(0), Ok(Some(wrong)));
    }
    // A table that is not all there.
    let end = shard.len();
    for (start, rows) in [(table as u64, 1000), (table as u64, u64::MAX), (u64::MAX, 3), (end as u64 - 35, 3)] {
        let mut cut = shard.clone();
        cut[end - 176..end - 168].copy_from_slice(&start.to_le_bytes());
        cut[end - 168..end - 160].copy_from_slice(&rows.to_le_bytes());
        assert_eq!(xet_shards::load(&cut).map(|it| (it.file_table, it.files)), Ok((start, rows)));
        let mut index = Index::new();
        assert_eq!((index.add(cut), index.is_empty()), (Err(Error::Io), true));
    }
}

/// The length of the longest run of hashes in some shards, by a walk through all records.
fn longest(shards: &HashMap<u32, (Hash, Vec<u8>)>, wanted: &[Hash]) -> usize {
    let mut best = 0;
    for (key, shard) in shards.values() {
        let under = |hash: &Hash| if *key == NO_KEY { *hash } else { xet_shards::hmac(*key, *hash) };
        let hashes: Vec<_> = wanted.iter().map(under).collect();
        for xorb in xet_shards::xorbs(shard) {
            let chunks = xorb.expect("a xorb").chunks;
            for start in 0..chunks.len() {
                best = best.max(zip(&chunks[start..], &hashes).take_while(|(one, other)| one.hash == **other).count());
            }
        }
    }
    best
}

/// The first shard that has a file with a hash, and the file, by a walk through all records.
fn listed(shards: &HashMap<u32, (Hash, Vec<u8>)>, wanted: Hash) -> Option<(u32, File)> {
    let of_shard = |number: &u32| {
        let mut files = xet_shards::files(&shards[number].1).map(|it| it.expect("a file"));
        files.find(|it| it.hash == wanted).map(|it| (*number, it.file))
    };
    let mut numbers: Vec<_> = shards.keys().collect();
    numbers.sort_unstable();
    numbers.into_iter().find_map(of_shard)
}

#[test]
fn an_index_beside_a_search() {
    let seed = RandomState::new().build_hasher().finish();
    let mut state = seed | 1;
    let mut below = |bound: u64| {
        state = state.wrapping_mul(6_364_136_223_846_793_005).wrapping_add(1_442_695_040_888_963_407);
        (state >> 33) % bound
    };
    // Few hashes, some with one first word.
    let hashes: Vec<_> = (0..12).map(|it| Hash([below(6), it, 0, 0])).collect();
    let (mut index, mut shards, mut hits, mut files) = (Index::new(), HashMap::new(), 0, 0);
    for turn in 0..300 {
        if below(5) < 2 {
            let mut listed = Vec::new();
            for name in 0..below(4) {
                let chunks = (0..below(9)).map(|_| format!("{}:1", hashes[below(12) as usize])).collect::<Vec<_>>();
                listed.push([vec![(10 * turn + name).to_string()], chunks].concat());
            }
            let named = |hash: &Hash| vec![hash.to_string(), format!("200:0:5:{turn}")];
            let having: Vec<_> = hashes.iter().filter(|_| below(4) == 0).map(named).collect();
            let plain = shard_of(&listed, &having);
            let shard = match below(4) {
                0 => minimal(&plain),
                1 => keyed(&plain, true),
                2 => keyed(&plain, false),
                _ => plain,
            };
            let key = xet_shards::load(&shard).expect("a shard").key;
            shards.insert(index.add(shard.clone()).expect("a shard"), (key, shard));
        } else if below(3) == 0 && !shards.is_empty() {
            let number = *shards.keys().min().expect("a shard");
            let removed = index.remove(number).expect("it is as it was");
            assert_eq!(removed, shards.remove(&number).map(|(_, shard)| shard));
        }
        let wanted: Vec<_> = (0..=below(4)).map(|_| hashes[below(12) as usize]).collect();
        let found = index.query(&wanted).expect("an answer");
        assert_eq!(found.map_or(0, |(_, run)| run.count), longest(&shards, &wanted), "seed {seed}, turn {turn}");
        if let Some((number, run)) = found {
            hits += 1;
            // The run is one of the shard that is named.
            let alone = HashMap::from([(number, shards[&number].clone())]);
            assert_eq!(longest(&alone, &wanted), run.count, "seed {seed}, turn {turn}");
            assert_eq!(run.segment.end - run.segment.start, run.count as u32);
        }
        let found = index.find_file(wanted[0]).expect("an answer");
        assert_eq!(found, listed(&shards, wanted[0]), "seed {seed}, turn {turn}");
        files += u32::from(found.is_some());
    }
    assert!(hits > 0 && files > 0);
    assert!(index.len() == shards.len() && index.is_empty() == shards.is_empty());
}
