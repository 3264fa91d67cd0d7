//! Tests of what no script of vectors/ shows of a call.

mod common;

use common::{hash, Shard};
use std::error::Error as _;
use std::slice::from_ref;
use std::thread;
use xet_shards::{
    Disagreement, Error, Export, File, Finding, Hash, ListedFile, MalformedRecord, Merge, Minimal, Part, RecordHash,
    Subset,
    Version::{V2, V3},
    Xorb, Xorbs, NO_EXPIRY, NO_KEY,
};

/// The bytes of a shard of `file` and `xorb` lines.
fn shard_of(lines: &[&str]) -> Vec<u8> {
    let mut shard = Shard::default();
    for line in lines {
        let words: Vec<&str> = line.split(' ').collect();
        match words[0] {
            "file" => shard.add_file(&words[1..]),
            _ => shard.add_xorb(&words[1..]),
        }
    }
    shard.written(NO_EXPIRY, 3)
}

fn one_file() -> Vec<u8> {
    shard_of(&["file 100 200:0:5:5"])
}

#[test]
fn inputs_that_are_no_shards() {
    let file = one_file();
    assert_eq!(xet_shards::load(&[]), Err(Error::Io));
    assert_eq!(xet_shards::load(&[7; 500]), Err(Error::ShardVersion));
    assert_eq!(xet_shards::merge::<&[u8]>(&[], &Merge::default()), Err(Error::InvalidArguments));
    assert_eq!(xet_shards::merge(&[&file[..], &file[..199]], &Merge::default()), Err(Error::Io));
    assert_eq!("10".parse::<Hash>(), Err(Error::HashParsing));
    assert_eq!(xet_shards::hash_of_name("/a.mdb"), Err(Error::BadFilename));
}

#[test]
fn each_beginning_is_cut_short() {
    // The header and the two sections are 240 bytes of the 452.
    let (file, options) = (one_file(), Minimal::default());
    for end in 0..240 {
        assert_eq!(xet_shards::eligible(&file[..end]), Err(Error::Io));
        assert_eq!(xet_shards::minimal(&file[..end], &options), Err(Error::Io));
    }
    for end in 0..200 {
        assert_eq!(xet_shards::load(&file[..end]), Err(Error::Io));
        assert_eq!(xet_shards::find_file(&file[..end], hash("100")), Err(Error::Io));
    }
}

#[test]
fn keys() {
    let shard = one_file();
    let keyed = xet_shards::export(&shard, &Export { key: hash("7"), ..Export::default() }).expect("an export");
    assert_eq!(xet_shards::union(&keyed, &shard, V3), Err(Error::InvalidArguments));
    assert_eq!(
        xet_shards::export(&keyed, &Export { key: hash("8"), ..Export::default() }),
        Err(Error::InvalidArguments)
    );
}

#[test]
fn names_of_either_case() {
    let name = format!("{:016x}{:048x}", 0xabc, 0);
    for text in [name.clone(), name.to_uppercase()] {
        assert_eq!(text.parse(), Ok(Hash([0xabc, 0, 0, 0])));
        assert_eq!(xet_shards::hash_of_name(&format!("{text}.mdb")), Ok(Hash([0xabc, 0, 0, 0])));
    }
    assert_eq!(xet_shards::hash_of_name(&format!("{name}.MDB")), Err(Error::BadFilename));
}

#[test]
fn outputs_longer_than_the_first_room() {
    let chunks: String = (0..1000).map(|it| format!(" {it}:1")).collect();
    let whole = shard_of(&[&format!("xorb 10{chunks}")]);
    let options = Export { files: false, xorb_table: false, chunk_table: false, ..Export::default() };
    let bare = xet_shards::export(&whole, &options).expect("an export");
    assert!(bare.len() + 16000 < whole.len());
    // The union has the tables that the export lacks.
    assert_eq!(xet_shards::merge(&[bare, shard_of(&[])], &Merge::default()).as_ref(), Ok(&whole));
    assert_eq!(
        xet_shards::eligible(&whole).expect("hashes"),
        (0..1000).map(|it| Hash([it, 1, 0, 0])).collect::<Vec<_>>()
    );
}

#[test]
fn more_segments_than_the_first_room() {
    let segments: Vec<String> = (0..100).map(|it| format!("{}:{it}:{}:9", 200 + it, it + 1)).collect();
    let shard = shard_of(&[&format!("file 100 {}", segments.join(" ")), "file 101"]);
    let file = xet_shards::find_file(&shard, hash("100")).expect("an answer").expect("a file");
    assert_eq!(file.segments.len(), 100);
    assert!(file.segments.iter().zip(0..).all(|(it, at)| it.xorb == Hash([200 + at, 1, 0, 0]) && it.bytes == 9));
    assert_eq!((file.verification, file.sha256, file.aux_hash), (None, None, None));
}

#[test]
fn many_files_in_one_call() {
    let segments: Vec<String> = (0..100).map(|it| format!("{}:{it}:{}:9", 200 + it, it + 1)).collect();
    let shard = shard_of(&[&format!("file 100 {}", segments.join(" ")), "file 101 s=9364 200:0:5:5"]);
    let wanted = ["101", "99", "100", "101"].map(hash);
    let files = xet_shards::find_files(&shard, &wanted).expect("an answer");
    assert_eq!(files.iter().map(Option::is_some).collect::<Vec<_>>(), [true, false, true, true]);
    assert_eq!((&files[0], files[0].as_ref().and_then(|it| it.sha256)), (&files[3], Some(hash("9364"))));
    let many = &files[2].as_ref().expect("a file").segments;
    assert!(many.len() == 100 && many.iter().zip(0..).all(|(it, at)| it.xorb == Hash([200 + at, 1, 0, 0])));
    // Of so many hashes the first room is enough.
    let few = xet_shards::find_files(&shard, &[hash("101"); 50]).expect("an answer");
    assert!(few.len() == 50 && few.iter().all(|it| *it == files[0]));
    assert_eq!(xet_shards::find_files(&shard, &[Hash([u64::MAX; 4])]), Ok(vec![None]));
    // Without a hash nothing is read.
    assert_eq!(xet_shards::find_files(&[], &[]), Ok(vec![]));
    assert_eq!(xet_shards::find_files(&shard[..199], &wanted), Err(Error::Io));
}

#[test]
fn disagreements() {
    let one = shard_of(&["file 100 200:0:5:5", "xorb 10 21:5"]);
    let other = shard_of(&["file 100 s=7 200:0:5:5", "xorb 10 21:6"]);
    assert_eq!(xet_shards::find_disagreements(&[&one, &one, &one]), Ok(vec![]));
    assert_eq!(xet_shards::merge(&[&one, &one], &STRICT).as_ref(), Ok(&one));
    let found = Disagreement { record_hash: RecordHash::Xorb(hash("10")), first: 0, second: 2, count: 1 };
    assert_eq!(xet_shards::find_disagreements(&[&one, &one, &other]), Ok(vec![found]));
    let error = xet_shards::merge(&[&one, &one, &other], &STRICT).expect_err("they do not agree");
    assert_eq!(error, Error::Disagree(found));
    assert_eq!(error.to_string(), format!("the shards at 0 and 2 do not agree on xorb {}", hash("10")));
    assert!(error.source().is_none());
    // Where records do not agree a merge takes one of them.
    assert!(xet_shards::merge(&[&one, &other], &Merge::default()).is_ok());
}

#[test]
fn all_disagreements() {
    let shards = [
        shard_of(&["file 100 200:0:5:5", "file 102 200:0:5:5", "xorb 11 23:5"]),
        shard_of(&["file 101 200:0:5:5", "file 102 200:0:6:5", "xorb 10 21:5", "xorb 11 23:5"]),
        shard_of(&["file 100 200:0:6:5", "file 101 200:0:5:5", "xorb 10 21:6", "xorb 11 23:5"]),
    ];
    let found = [
        Disagreement { record_hash: RecordHash::File(hash("100")), first: 0, second: 2, count: 3 },
        Disagreement { record_hash: RecordHash::File(hash("102")), first: 0, second: 1, count: 3 },
        Disagreement { record_hash: RecordHash::Xorb(hash("10")), first: 1, second: 2, count: 3 },
    ];
    assert_eq!(xet_shards::find_disagreements(&shards), Ok(found.to_vec()));
    let error = xet_shards::merge(&shards, &STRICT).expect_err("they do not agree");
    assert_eq!(error, Error::Disagree(found[0]));
    let text = format!("the shards at 0 and 2 do not agree on file {}", hash("100"));
    assert_eq!(error.to_string(), text + ", one of 3 hashes that find_disagreements lists");
    let found = Disagreement { count: 1, ..found[1] };
    assert_eq!(xet_shards::find_disagreements(&shards[..2]), Ok(vec![found]));
    assert_eq!(xet_shards::find_disagreements(&shards[..1]), Ok(vec![]));
    assert_eq!(xet_shards::find_disagreements::<&[u8]>(&[]), Ok(vec![]));
    assert_eq!(xet_shards::find_disagreements(&[&shards[0][..], &shards[0][..199]]), Err(Error::Io));
}

#[test]
fn more_disagreements_than_the_first_room() {
    let files = |end: u32| -> Vec<String> { (1000..2100).map(|it| format!("file {it} 200:0:{end}:5")).collect() };
    let [one, other] = [5, 6].map(|end| {
        let lines = files(end);
        shard_of(&lines.iter().map(String::as_str).collect::<Vec<_>>())
    });
    let found = xet_shards::find_disagreements(&[one, other]).expect("disagreements");
    let hashes: Vec<RecordHash> = (1000..2100).map(|it| RecordHash::File(Hash([it, 1, 0, 0]))).collect();
    assert_eq!(found.iter().map(|it| it.record_hash).collect::<Vec<_>>(), hashes);
    assert!(found.iter().all(|it| (it.first, it.second, it.count) == (0, 1, 1100)));
}

#[test]
fn order_of_refusals() {
    let (file, other) = (one_file(), shard_of(&["file 100 200:0:6:5"]));
    let keyed = xet_shards::export(&file, &Export { key: hash("7"), ..Export::default() }).expect("an export");
    // The reserved word of the file's header, which is at 48, is in its bytes 40 to 47.
    let (mut malformed, cut) = (file.clone(), &file[..199]);
    malformed[88] = 1;
    let found = MalformedRecord { record_hash: RecordHash::File(hash("100")), index: 1 };
    assert_eq!(xet_shards::find_malformed(&[&file, &malformed]), Ok(Some(found)));
    assert_eq!(xet_shards::find_malformed(&[&file, &other, &keyed]), Ok(None));
    // The first shard decides that cannot be read or is not well-formed.
    let error = xet_shards::merge(&[&file[..], &malformed, cut], &STRICT).expect_err("one is not well-formed");
    assert_eq!(error, Error::Malformed(found));
    let text = format!("the shard at 1 has a record that no shard may have, of file {}", hash("100"));
    assert_eq!(error.to_string(), text);
    assert_eq!(xet_shards::merge(&[&file[..], cut, &malformed], &STRICT), Err(Error::Io));
    // Then disagreements, then keys.
    let error = xet_shards::merge(&[&other, &keyed], &STRICT).expect_err("they do not agree");
    assert!(matches!(error, Error::Disagree(Disagreement { first: 0, second: 1, .. })));
    assert_eq!(xet_shards::merge(&[&file, &keyed], &STRICT), Err(Error::InvalidArguments));
}

#[test]
fn threads() {
    let file = one_file();
    thread::scope(|scope| {
        for _ in 0..4 {
            scope
                .spawn(|| assert_eq!(xet_shards::merge(&[&file, &file, &file], &Merge::default()).as_ref(), Ok(&file)));
        }
    });
}

#[test]
fn version_2_without_auxiliary_rows() {
    let mut shard = Shard::default();
    shard.add_file(&["100", "v=365", "s=9364", "200:0:5:5"]);
    shard.add_xorb(&["10", "21:5"]);
    for from in [2, 3] {
        assert_eq!(xet_shards::convert(&shard.written(7, from), V2), Ok(shard.written(7, 2)));
        assert_eq!(xet_shards::convert(&shard.written(7, from), V3), Ok(shard.written(7, 3)));
    }
    let (new, old) = (shard.written(NO_EXPIRY, 3), shard.written(NO_EXPIRY, 2));
    let records = xet_shards::records(&new).expect("records");
    assert_eq!(xet_shards::write_records(&records.files, &records.xorbs, None, V2), Ok(old.clone()));
    for options in [Merge::default(), STRICT, Merge { threads: 2, ..STRICT }, Merge { from: Some(NO_KEY), ..STRICT }] {
        assert_eq!(xet_shards::merge(&[&new, &old], &Merge { version: V2, ..options }), Ok(old.clone()));
        assert_eq!(xet_shards::merge(&[&new, &old], &options), Ok(new.clone()));
    }
    assert_eq!(xet_shards::union(&old, &new, V2).as_ref(), Ok(&old));
    assert_eq!(xet_shards::difference(&shard_of(&[]), &new, V2).as_ref(), Ok(&old));
    assert_eq!(xet_shards::concatenate(&[&old]).as_ref(), Ok(&old));
    assert_eq!(xet_shards::concatenate(&[&old, &shard_of(&[])]).as_ref(), Ok(&new));
    other_forms_in_version_2(&new);
    other_forms_in_version_2(&old);
    shard.add_file(&["101", "x=777", "200:0:5:5"]);
    assert_eq!(xet_shards::convert(&shard.written(7, 3), V2), Err(Error::InvalidArguments));
    let aux = shard.written(NO_EXPIRY, 3);
    assert_eq!(xet_shards::merge(&[&aux], &Merge { version: V2, ..STRICT }), Err(Error::InvalidArguments));
    assert_eq!(xet_shards::union(&aux, &new, V2), Err(Error::InvalidArguments));
    assert_eq!(xet_shards::difference(&new, &aux, V2), Err(Error::InvalidArguments));
    assert_eq!(xet_shards::export(&aux, &Export { version: V2, ..EXPORT }), Err(Error::InvalidArguments));
    assert_eq!(xet_shards::minimal(&aux, &Minimal { version: V2, ..MINIMAL }), Err(Error::InvalidArguments));
    assert_eq!(xet_shards::complete(&aux, &NO_KEY, V2), Err(Error::InvalidArguments));
    let verified = Minimal { verification: true, version: V2, ..MINIMAL };
    assert_eq!(xet_shards::minimal(&aux, &verified), Err(Error::Io));
    let plain = Minimal { aux_rows: false, ..MINIMAL };
    for shard in [&old, &aux] {
        let minimal = xet_shards::minimal(shard, &plain).expect("it is a shard");
        assert_eq!(xet_shards::minimal(shard, &Minimal { version: V2, ..plain }), Ok(in_version_2(&minimal)));
        let subset = xet_shards::subset(shard, &SUBSET).expect("it is a shard");
        assert_eq!(xet_shards::subset(shard, &Subset { version: V2, ..SUBSET }), Ok(in_version_2(&subset)));
    }
}

const EXPORT: Export = Export {
    key: Hash([7, 1, 0, 0]),
    now: 1000,
    valid_seconds: 60,
    files: true,
    aux_rows: true,
    xorb_table: true,
    chunk_table: true,
    version: V3,
};
const MINIMAL: Minimal = Minimal { now: 9, verification: false, aux_rows: true, version: V3 };
const SUBSET: Subset<'_> = Subset { now: 9, expiry: Some(11), xorbs: Xorbs::All, version: V3 };
const STRICT: Merge = Merge { from: None, to: None, strict: true, threads: 1, version: V3 };

fn in_version_2(shard: &[u8]) -> Vec<u8> {
    let mut bytes = shard.to_vec();
    bytes[32] = 2;
    bytes
}

fn other_forms_in_version_2(shard: &[u8]) {
    let exported = xet_shards::export(shard, &EXPORT).expect("it is a shard");
    let minimal = xet_shards::minimal(shard, &MINIMAL).expect("it is a shard");
    let subset = xet_shards::subset(shard, &SUBSET).expect("it is a shard");
    assert_eq!(xet_shards::export(shard, &Export { version: V2, ..EXPORT }), Ok(in_version_2(&exported)));
    assert_eq!(xet_shards::minimal(shard, &Minimal { version: V2, ..MINIMAL }), Ok(in_version_2(&minimal)));
    assert_eq!(xet_shards::subset(shard, &Subset { version: V2, ..SUBSET }), Ok(in_version_2(&subset)));
}

#[test]
fn completes_what_ends_behind_its_sections() {
    let mut shard = Shard::default();
    shard.add_file(&["100", "v=365", "s=9364", "200:0:5:5"]);
    shard.add_xorb(&["10", "21:5"]);
    let written = shard.written(xet_shards::NO_EXPIRY, 3);
    let end = xet_shards::load(&written).expect("it is a shard").file_table as usize;
    for size in [end, end + 1, written.len()] {
        assert_eq!(xet_shards::complete(&written[..size], &NO_KEY, V3).as_ref(), Ok(&written));
    }
    assert_eq!(xet_shards::complete(&written[..end - 1], &NO_KEY, V3), Err(Error::Io));
}

#[test]
fn walks_through_both_sections() {
    let mut shard = Shard::default();
    let segments: Vec<String> = (0..70).map(|it| format!("200:{it}:{}:9", it + 1)).collect();
    let mut long: Vec<&str> = vec!["101"];
    long.extend(segments.iter().map(String::as_str));
    shard.add_file(&["100", "v=365,366", "s=9364", "x=777", "200:0:5:5", "201:1:2:7"]);
    shard.add_file(&long);
    shard.add_xorb(&["10", "21:5", "22:6"]);
    let bytes = shard.written(NO_EXPIRY, 3);
    let files: Vec<_> = xet_shards::files(&bytes).map(Result::unwrap).collect();
    assert_eq!(files.iter().map(|it| it.hash).collect::<Vec<_>>(), [hash("100"), hash("101")]);
    for listed in &files {
        assert_eq!(xet_shards::find_file(&bytes, listed.hash), Ok(Some(listed.file.clone())));
    }
    assert_eq!((files[0].flags >> 29, files[1].file.segments.len()), (7, 70));
    let xorbs: Vec<_> = xet_shards::xorbs(&bytes).map(Result::unwrap).collect();
    assert_eq!((xorbs.len(), xorbs[0].bytes, xorbs[0].chunks[1].start), (1, 11, 5));
    let mut cut = xet_shards::files(&bytes[..199]);
    assert_eq!((cut.next(), cut.next()), (Some(Err(Error::Io)), None));
}

#[test]
fn findings() {
    let shard = shard_of(&["file 100 200:0:5:5", "file 101 200:0:5:5", "xorb 10 21:5"]);
    let changed = |at: usize, byte: u8| {
        let mut bytes = shard.clone();
        bytes[at] = byte;
        xet_shards::check(&bytes).expect("findings")
    };
    assert_eq!(xet_shards::check(&shard), Ok(vec![]));
    assert_eq!(xet_shards::check(&[]), Ok(vec![Finding::TooShort]));
    assert_eq!(xet_shards::check(&shard[..shard.len() - 1]), Ok(vec![Finding::NoFooter]));
    assert_eq!((changed(0, 0), changed(32, 4)), (vec![Finding::NoTag], vec![Finding::OtherVersion(4)]));
    // The hash of the first file begins the file section, at 48, and the second's record follows after 96 bytes.
    let found = changed(48, 102);
    assert_eq!(found[0], Finding::OutOfOrder(Part::FileSection, 1));
    assert_eq!(found[1..], [Finding::Differs(Part::FileTable)]);
    // A byte more stands before the footer.
    let mut longer = shard.clone();
    longer.insert(shard.len() - 200, 0);
    assert_eq!(xet_shards::check(&longer), Ok(vec![Finding::OtherSize(shard.len() as u64)]));
    // The reserved word of the second file's header is the last eight of its 48 bytes.
    assert_eq!(changed(48 + 96 + 40, 1), [Finding::MalformedRecord(Part::FileSection, 1)]);
    // One chunk in two xorbs: the two rows of the chunk table, of 16 bytes each before the footer, share a first word.
    let mut twice = shard_of(&["xorb 10 21:5", "xorb 11 21:5"]);
    let rows = twice.len() - 200 - 32;
    twice[rows..rows + 32].rotate_left(16);
    assert_eq!(xet_shards::check(&twice), Ok(vec![Finding::Reordered]));
    assert!(Finding::Reordered.is_note() && !Finding::TooShort.is_note());
}

#[test]
fn records_in_and_out() {
    let mut shard = Shard::default();
    shard.add_file(&["102", "v=365,366", "s=9364", "x=777", "200:0:5:5", "201:1:2:7"]);
    shard.add_file(&["101"]);
    shard.add_xorb(&["11", "21:5", "22:6"]);
    shard.add_xorb(&["10"]);
    let bytes = shard.written(NO_EXPIRY, 3);
    let mut records = xet_shards::records(&bytes).expect("records");
    assert_eq!(records.files, xet_shards::files(&bytes).map(Result::unwrap).collect::<Vec<_>>());
    assert_eq!(records.xorbs, xet_shards::xorbs(&bytes).map(Result::unwrap).collect::<Vec<_>>());
    assert_eq!(xet_shards::write_records(&records.files, &records.xorbs, None, V3).as_ref(), Ok(&bytes));
    assert_eq!(xet_shards::write_records(&records.files, &records.xorbs, Some(7), V3), Ok(shard.written(7, 3)));
    records.files.reverse();
    records.xorbs.reverse();
    assert_eq!(xet_shards::write_records(&records.files, &records.xorbs, None, V3).as_ref(), Ok(&bytes));
    // Of two records with one hash the later one counts.
    let other = ListedFile::new(
        hash("101"),
        File { segments: vec![], verification: None, sha256: Some(hash("1")), aux_hash: None },
    );
    let written = |files: &[ListedFile]| xet_shards::write_records(files, &records.xorbs, None, V3).expect("a shard");
    let twice = [&[other.clone()][..], &records.files].concat();
    assert_eq!(written(&twice), bytes);
    assert_ne!(written(&[&records.files[..], &[other]].concat()), bytes);
    assert_eq!(xet_shards::write_records(&[], &[], None, V3), Ok(Shard::default().written(NO_EXPIRY, 3)));
    // A shard without tables has the same records, here without verification hashes; under a key chunks have other
    // hashes.
    let minimal = Minimal::default();
    let minimal = xet_shards::minimal(&bytes, &minimal).expect("a minimal shard");
    let found = xet_shards::records(&minimal).expect("records");
    assert_eq!((found.files[1].file.sha256, found.files[1].file.verification.as_ref()), (Some(hash("9364")), None));
    assert_eq!(found.files[1].file.segments, records.files[0].file.segments);
    let keyed = xet_shards::export(&bytes, &Export { key: hash("7"), ..Export::default() }).expect("an export");
    let keyed = xet_shards::records(&keyed).expect("records");
    assert_eq!(keyed.xorbs.iter().map(|it| it.hash).collect::<Vec<_>>(), [hash("10"), hash("11")]);
    assert_ne!(keyed.xorbs[1].chunks[0].hash, hash("21"));
    assert_eq!(xet_shards::records(&bytes[..199]), Err(Error::Io));
}

#[test]
fn records_that_no_shard_has() {
    let file = File { segments: vec![], verification: None, sha256: None, aux_hash: None };
    let file = ListedFile::new(hash("100"), file);
    let xorb = Xorb { hash: hash("10"), flags: 0, bytes: 0, bytes_on_disk: 0, chunks: vec![] };
    let chunk = |bytes| xet_shards::Chunk { bytes, ..Default::default() };
    let refused = Err(Error::InvalidArguments);
    let one = |file: &ListedFile, xorb: &Xorb| xet_shards::write_records(from_ref(file), from_ref(xorb), None, V3);
    assert!(one(&file, &xorb).is_ok());
    assert_eq!(one(&ListedFile { hash: Hash([u64::MAX; 4]), ..file.clone() }, &xorb), refused);
    assert_eq!(Error::InvalidArguments.to_string(), "the call does not admit its arguments, as keys that differ");
    assert_eq!(one(&ListedFile { flags: 1, ..file.clone() }, &xorb), refused);
    assert_eq!(one(&ListedFile { flags: xet_shards::WITH_SHA256, ..file.clone() }, &xorb), refused);
    assert_eq!(one(&file, &Xorb { hash: Hash([u64::MAX; 4]), ..xorb.clone() }), refused);
    assert!(one(&file, &Xorb { chunks: vec![chunk(u32::MAX)], ..xorb.clone() }).is_ok());
    assert_eq!(one(&file, &Xorb { chunks: vec![chunk(u32::MAX), chunk(1)], ..xorb }), refused);
}
