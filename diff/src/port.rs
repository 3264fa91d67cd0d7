//! The port, through its library for C.

use crate::answer::{
    Answer, Call, Disagreement, Error, Export, File, Hash, Info, NOW, Segment, Subset,
};

#[repr(C)]
#[derive(Default)]
struct FoundFile {
    found: bool,
    has_verification: bool,
    has_sha256: bool,
    has_aux: bool,
    flags: u32,
    segments: usize,
    sha256: [u64; 4],
    aux_hash: [u64; 4],
    reserved: u64,
}

#[repr(C)]
#[derive(Clone, Copy, Default)]
struct FileSegment {
    segment: Segment,
    verification: [u64; 4],
}

#[repr(C)]
struct ExportOptions {
    key: [u64; 4],
    now: u64,
    valid_seconds: u64,
    without_files: bool,
    without_aux_rows: bool,
    without_xorb_table: bool,
    without_chunk_table: bool,
}

#[repr(C)]
struct MinimalOptions {
    now: u64,
    verification: bool,
    without_aux_rows: bool,
}

/// All zero: the union of all records of any shards.
#[repr(C)]
#[derive(Default)]
struct MergeOptions {
    from: [u64; 4],
    to: [u64; 4],
    has_from: bool,
    has_to: bool,
    strict: bool,
    by_tables: bool,
}

#[repr(C)]
struct SubsetOptions {
    now: u64,
    expiry: u64,
    all: bool,
}

/// A shard in a list.
#[repr(C)]
struct Bytes {
    bytes: *const u8,
    length: usize,
}

// As in bindings/c/xet.h.
unsafe extern "C" {
    fn xet_load(shard: *const u8, length: usize, info: *mut Info) -> u32;
    fn xet_merge(
        shards: *const Bytes,
        count: usize,
        options: *const MergeOptions,
        version: u64,
        out: *mut u8,
        capacity: usize,
        written: *mut usize,
        differing: *mut usize,
        found: *mut Disagreement,
    ) -> u32;
    fn xet_difference(
        first: *const u8,
        first_length: usize,
        second: *const u8,
        second_length: usize,
        version: u64,
        out: *mut u8,
        capacity: usize,
        written: *mut usize,
    ) -> u32;
    fn xet_find_disagreements(
        shards: *const Bytes,
        count: usize,
        out: *mut Disagreement,
        capacity: usize,
        written: *mut usize,
    ) -> u32;
    fn xet_export(
        shard: *const u8,
        length: usize,
        options: *const ExportOptions,
        version: u64,
        out: *mut u8,
        capacity: usize,
        written: *mut usize,
    ) -> u32;
    fn xet_minimal(
        shard: *const u8,
        length: usize,
        options: *const MinimalOptions,
        version: u64,
        out: *mut u8,
        capacity: usize,
        written: *mut usize,
    ) -> u32;
    fn xet_subset(
        shard: *const u8,
        length: usize,
        options: *const SubsetOptions,
        xorbs: *const Hash,
        xorb_count: usize,
        version: u64,
        out: *mut u8,
        capacity: usize,
        written: *mut usize,
    ) -> u32;
    fn xet_query_chunks(
        shard: *const u8,
        length: usize,
        hashes: *const Hash,
        hash_count: usize,
        count: *mut usize,
        run: *mut Segment,
    ) -> u32;
    fn xet_convert(
        shard: *const u8,
        length: usize,
        version: u64,
        out: *mut u8,
        capacity: usize,
        written: *mut usize,
    ) -> u32;
    fn xet_eligible(
        shard: *const u8,
        length: usize,
        out: *mut Hash,
        capacity: usize,
        written: *mut usize,
    ) -> u32;
    fn xet_find_file(
        shard: *const u8,
        length: usize,
        hash: *const Hash,
        file: *mut FoundFile,
        segments: *mut FileSegment,
        capacity: usize,
    ) -> u32;
}

const SHORT: u32 = 19;
const DISAGREE: u32 = 20;
const MALFORMED: u32 = 21;
/// The version that is written, but where another is named.
const VERSION: u64 = 3;
const NO_HASH: Hash = Hash { words: [0; 4] };

/// What the port answers. Each pointer below is that of a slice or a value that outlives the call,
/// with the slice's length; no output overlaps an input or another output.
pub fn answer(call: &Call, first: &[u8], second: &[u8]) -> Answer {
    match call {
        Call::Load => load(first),
        Call::Find(hash) => find(first, hash),
        Call::Query(hashes) => query(first, hashes),
        Call::Union => merge(&[first, second]),
        Call::Difference => shard(|out, room, written| unsafe {
            xet_difference(
                first.as_ptr(),
                first.len(),
                second.as_ptr(),
                second.len(),
                VERSION,
                out,
                room,
                written,
            )
        }),
        Call::FindDisagreement => find_disagreement(first, second),
        Call::MergeAgreeing => merge_agreeing(first, second),
        Call::Subset(options) => subset(first, options),
        Call::Export(options) => export(first, options),
        Call::Minimal {
            verification,
            aux_rows,
        } => minimal(first, *verification, *aux_rows),
        Call::Eligible => items(NO_HASH, Answer::Hashes, |out, room, written| unsafe {
            xet_eligible(first.as_ptr(), first.len(), out, room, written)
        }),
    }
}

/// What the port answers if it is to write a shard in version 2.
pub fn version_2(bytes: &[u8]) -> Answer {
    shard(|out, room, written| unsafe {
        xet_convert(bytes.as_ptr(), bytes.len(), 2, out, room, written)
    })
}

fn load(shard: &[u8]) -> Answer {
    let mut info = Info::default();
    match unsafe { xet_load(shard.as_ptr(), shard.len(), &mut info) } {
        0 => Answer::Info(info),
        error => Answer::Error(Error::of_number(error)),
    }
}

fn find(shard: &[u8], hash: &Hash) -> Answer {
    let mut file = FoundFile::default();
    let mut segments = vec![FileSegment::default(); 16];
    loop {
        let result = unsafe {
            xet_find_file(
                shard.as_ptr(),
                shard.len(),
                hash,
                &mut file,
                segments.as_mut_ptr(),
                segments.len(),
            )
        };
        match result {
            0 => break,
            SHORT => segments.resize(file.segments, FileSegment::default()),
            error => return Answer::Error(Error::of_number(error)),
        }
    }
    segments.truncate(file.segments);
    let verification = segments.iter().map(|row| row.verification).collect();
    Answer::File(file.found.then_some(File {
        flags: file.flags,
        reserved: file.reserved,
        segments: segments.iter().map(|row| row.segment).collect(),
        verification: file.has_verification.then_some(verification),
        sha256: file.has_sha256.then_some(file.sha256),
    }))
}

fn query(shard: &[u8], hashes: &[Hash]) -> Answer {
    let (mut count, mut run) = (0, Segment::default());
    let result = unsafe {
        xet_query_chunks(
            shard.as_ptr(),
            shard.len(),
            hashes.as_ptr(),
            hashes.len(),
            &mut count,
            &mut run,
        )
    };
    match result {
        0 => Answer::Run((count > 0).then_some((count, run))),
        error => Answer::Error(Error::of_number(error)),
    }
}

/// What the port answers of a merge.
pub fn merge(shards: &[&[u8]]) -> Answer {
    let (list, options) = (list(shards), MergeOptions::default());
    let (mut differing, mut found) = (1, UNTOUCHED);
    let merged = shard(|out, room, written| unsafe {
        xet_merge(
            list.as_ptr(),
            list.len(),
            &options,
            VERSION,
            out,
            room,
            written,
            &mut differing,
            &mut found,
        )
    });
    assert_eq!(shown(differing, found), None, "nothing has to agree");
    merged
}

fn minimal(shard_bytes: &[u8], verification: bool, aux_rows: bool) -> Answer {
    let options = MinimalOptions {
        now: NOW,
        verification,
        without_aux_rows: !aux_rows,
    };
    shard(|out, room, written| unsafe {
        xet_minimal(
            shard_bytes.as_ptr(),
            shard_bytes.len(),
            &options,
            VERSION,
            out,
            room,
            written,
        )
    })
}

fn subset(shard_bytes: &[u8], subset: &Subset) -> Answer {
    let options = SubsetOptions {
        now: NOW,
        expiry: subset.expiry.unwrap_or(0),
        all: subset.xorbs.is_none(),
    };
    let listed = subset.xorbs.as_deref().unwrap_or(&[]);
    shard(|out, room, written| unsafe {
        xet_subset(
            shard_bytes.as_ptr(),
            shard_bytes.len(),
            &options,
            listed.as_ptr(),
            listed.len(),
            VERSION,
            out,
            room,
            written,
        )
    })
}

fn export(shard_bytes: &[u8], export: &Export) -> Answer {
    let options = ExportOptions {
        key: export.key,
        now: export.now,
        valid_seconds: export.valid_seconds,
        without_files: !export.files,
        without_aux_rows: !export.aux_rows,
        without_xorb_table: !export.xorb_table,
        without_chunk_table: !export.chunk_table,
    };
    shard(|out, room, written| unsafe {
        xet_export(
            shard_bytes.as_ptr(),
            shard_bytes.len(),
            &options,
            VERSION,
            out,
            room,
            written,
        )
    })
}

fn list(shards: &[&[u8]]) -> Vec<Bytes> {
    let bytes_of = |shard: &&[u8]| Bytes {
        bytes: shard.as_ptr(),
        length: shard.len(),
    };
    shards.iter().map(bytes_of).collect()
}

/// What stands where a disagreement is shown, if there is one.
const UNTOUCHED: Disagreement = Disagreement {
    hash: [0xa5; 4],
    is_xorb: false,
    first: 2,
    second: 2,
};

fn find_disagreement(first: &[u8], second: &[u8]) -> Answer {
    let shards = list(&[first, second]);
    let first_of =
        |all: Vec<Disagreement>| Answer::Disagreement(all.first().map(|found| (all.len(), *found)));
    items(UNTOUCHED, first_of, |out, room, written| unsafe {
        xet_find_disagreements(shards.as_ptr(), shards.len(), out, room, written)
    })
}

fn merge_agreeing(first: &[u8], second: &[u8]) -> Answer {
    let shards = list(&[first, second]);
    let options = MergeOptions {
        strict: true,
        ..MergeOptions::default()
    };
    let (mut result, mut differing, mut found) = (0, 1, UNTOUCHED);
    let merged = shard(|out, room, written| {
        result = unsafe {
            xet_merge(
                shards.as_ptr(),
                shards.len(),
                &options,
                VERSION,
                out,
                room,
                written,
                &mut differing,
                &mut found,
            )
        };
        result
    });
    if result == MALFORMED {
        assert_eq!(differing, 0, "a record that no shard may have is counted");
        return Answer::Malformed(found);
    }
    let found = shown(differing, found);
    assert_eq!(
        found.is_some(),
        result == DISAGREE,
        "a disagreement is shown with its number"
    );
    match found {
        Some(_) => Answer::Disagreement(found),
        None => merged,
    }
}

fn shown(differing: usize, found: Disagreement) -> Option<(usize, Disagreement)> {
    if differing == 0 {
        assert_eq!(found, UNTOUCHED, "without a disagreement one is shown");
        return None;
    }
    Some((differing, found))
}

fn shard(call: impl FnMut(*mut u8, usize, *mut usize) -> u32) -> Answer {
    items(0xa5, Answer::Shard, call)
}

/// What a call writes into room that it is given: first none, and then as much as it says, and one
/// item that has to stay.
fn items<T: Copy + PartialEq>(
    unwritten: T,
    made: impl Fn(Vec<T>) -> Answer,
    mut call: impl FnMut(*mut T, usize, *mut usize) -> u32,
) -> Answer {
    let mut written = 0;
    let mut out = vec![unwritten];
    match call(out.as_mut_ptr(), 0, &mut written) {
        0 => assert_eq!(written, 0),
        SHORT => {
            let needed = written;
            out = vec![unwritten; needed + 1];
            assert_eq!(call(out.as_mut_ptr(), needed, &mut written), 0);
            assert_eq!(written, needed);
        }
        error => return Answer::Error(Error::of_number(error)),
    }
    assert!(
        out.pop() == Some(unwritten),
        "the room's end was overwritten"
    );
    made(out)
}
