//! Merges in threads give the bytes and the errors of merges without threads.

mod common;

use common::{hash, Shard};
use xet_shards::{merge, Error, Export, Merge, Minimal, Version, NO_EXPIRY};

/// Numbers that look random, and are the same in each run.
struct Choice(u64);

impl Choice {
    fn word(&mut self) -> u64 {
        // Xorshift.
        self.0 ^= self.0 << 13;
        self.0 ^= self.0 >> 7;
        self.0 ^= self.0 << 17;
        self.0
    }

    fn below(&mut self, end: u64) -> u64 {
        (self.word() >> 11) % end
    }
}

/// The first word of a hash.
type Word = fn(&mut Choice) -> u64;

const WORDS: [(&str, Word); 4] = [
    ("spread", Choice::word),
    ("few", |choice| choice.below(3)),
    ("skewed", |choice| choice.word() >> choice.below(64)),
    ("one", |_| 7),
];

fn text(choice: &mut Choice, word: Word) -> String {
    format!("{:016x}{:016x}{:032x}", word(choice), choice.below(2), choice.below(8))
}

/// The words of `file` and `xorb` lines.
fn lines(choice: &mut Choice, word: Word) -> Vec<Vec<String>> {
    let count = [0, 1, 2, 30][choice.below(4) as usize];
    let mut lines = Vec::new();
    for at in 0..2 * count {
        let mut line = vec![["file", "xorb"][at % 2].to_string(), text(choice, word)];
        if at % 2 == 0 && choice.below(2) == 0 {
            line.push("s=7".to_string());
        }
        for _ in 0..choice.below(4) {
            let (name, size) = (text(choice, word), choice.below(1000));
            line.push(if at % 2 == 0 { format!("{name}:0:1:{size}") } else { format!("{name}:{size}") });
        }
        // Of one hash there is one record.
        lines.retain(|other: &Vec<String>| other[..2] != line[..2]);
        lines.push(line);
    }
    lines
}

/// Shards that agree: each has some of the records.
fn random_shards(choice: &mut Choice, word: Word, version: u64) -> Vec<Vec<u8>> {
    let lines = lines(choice, word);
    let mut shards = Vec::new();
    for _ in 0..1 + choice.below(7) {
        let (mut shard, most) = (Shard::default(), 1 + choice.below(4));
        for line in lines.iter().filter(|_| choice.below(4) < most) {
            let words: Vec<&str> = line[1..].iter().map(String::as_str).collect();
            match &line[0][..] {
                "file" => shard.add_file(&words),
                _ => shard.add_xorb(&words),
            }
        }
        shards.push(shard.written([7, NO_EXPIRY][choice.below(2) as usize], version));
    }
    shards
}

fn check_same<T: AsRef<[u8]>>(shards: &[T], threads: usize) {
    let middle = Some([1 << 63, 0, 0, 0].into());
    for strict in [false, true] {
        for version in [Version::V2, Version::V3] {
            for (from, to) in [(None, None), (middle, None), (None, middle)] {
                let options = Merge { from, to, strict, threads: 1, version };
                let merged = xet_shards::merge(shards, &options);
                assert_eq!(xet_shards::merge(shards, &Merge { threads, ..options }), merged);
            }
        }
    }
}

/// Merges random shards that are changed first.
fn check_many(turns: u64, version: u64, change: impl Fn(&mut Choice, Vec<Vec<u8>>) -> Vec<Vec<u8>>) {
    for (name, word) in WORDS {
        let mut choice = Choice(turns + version + name.len() as u64);
        for turn in 0..turns {
            let shards = random_shards(&mut choice, word, version);
            let shards = change(&mut choice, shards);
            check_same(&shards, 2 + turn as usize % 4);
        }
    }
}

#[test]
fn shards_that_agree() {
    check_many(20, 3, |_, shards| shards);
    check_many(10, 2, |_, shards| shards);
}

#[test]
fn keyed_shards() {
    let keyed = |shard: &Vec<u8>, key: u64| {
        xet_shards::export(shard, &Export { key: hash(&key.to_string()), valid_seconds: 9, ..Export::default() })
            .expect("an export")
    };
    check_many(10, 3, |_, shards| shards.iter().map(|it| keyed(it, 7)).collect());
    check_many(10, 3, |choice, shards| shards.iter().map(|it| keyed(it, choice.below(2))).collect());
}

#[test]
fn shards_without_tables() {
    let minimal = Minimal::default();
    check_many(10, 3, |choice, shards| {
        let options =
            Export { xorb_table: choice.below(2) == 0, chunk_table: false, valid_seconds: 9, ..Export::default() };
        let bare = |(at, it): (usize, &Vec<u8>)| match at % 3 {
            0 => xet_shards::minimal(it, &minimal).expect("a minimal shard"),
            1 => xet_shards::export(it, &options).expect("an export"),
            _ => it.clone(),
        };
        shards.iter().enumerate().map(bare).collect()
    });
}

#[test]
fn other_bytes() {
    check_many(40, 3, |choice, mut shards| {
        for shard in &mut shards {
            for _ in 0..choice.below(3) {
                let (size, word) = (shard.len(), choice.word());
                // Anywhere, or in the footer.
                let start = [0, size - 200][choice.below(2) as usize];
                shard[start + word as usize % (size - start)] = choice.word() as u8;
            }
            if choice.below(6) == 0 {
                shard.truncate(choice.below(1000) as usize);
            }
        }
        shards
    });
}

#[test]
fn shards_that_do_not_agree() {
    check_many(20, 3, |choice, mut shards| {
        shards.extend(random_shards(choice, WORDS[1].1, 3));
        shards
    });
}

#[test]
fn errors() {
    let none: [&[u8]; 0] = [];
    let three = Merge { threads: 3, ..Merge::default() };
    assert_eq!(merge(&none, &three), Err(Error::InvalidArguments));
    let [a, b, c] = ["a", "b", "c"].map(|it| std::fs::read(format!("examples/{it}.mdb")).expect("a shard"));
    let options = Export { key: hash("7"), ..Export::default() };
    let (mut malformed, keyed) = (b.clone(), xet_shards::export(&b, &options).expect("an export"));
    malformed[88] = 1;
    for (other, error) in [(&b[..199], Error::Io), (&[7; 500][..], Error::ShardVersion)] {
        assert_eq!(merge(&[&a[..], &b, other], &three), Err(error));
    }
    assert_eq!(merge(&[&a, &b, &keyed], &three), Err(Error::InvalidArguments));
    let many = Merge { threads: usize::MAX, ..three };
    assert_eq!(merge(&[&a, &b], &many), merge(&[&a, &b], &Merge::default()));
    for list in [[&a, &b, &c], [&c, &malformed, &a], [&a, &malformed, &keyed], [&b, &a, &b]] {
        let list = list.map(Vec::clone);
        (0..6).for_each(|threads| check_same(&list, threads));
    }
}
