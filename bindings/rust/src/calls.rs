//! The calls of `bindings/c/xet.h`, with slices and references for pointers, and the structs that only they have.
//!
//! All `unsafe` code of the crate is the one block in `library`, and what makes memory of zeros in `memory`.
#![allow(unsafe_code)]

use crate::{Chunk, ChunkPlace, ChunkRow, Hash, Info, Segment};
use std::marker::PhantomData;

/// Defines for each call of the library a safe function of the same name.
///
/// Its parameters are those of the function in crates/xet_c, where the header has two for a slice: the pointer and the
/// length. Each step takes one parameter, and adds to the lists of C's parameters, of arguments and of the function's
/// own parameters.
macro_rules! library {
    ($(fn $name:ident($($parameters:tt)*) -> u32;)*) => {
        $(library! { @ $name ($($parameters)*) [] [] [] })*
    };
    (@ $name:ident ($at:ident: &[$item:ty] $(, $($rest:tt)*)?) [$($c:tt)*] [$($arguments:tt)*] [$($own:tt)*]) => {
        library! { @ $name ($($($rest)*)?) [$($c)* $at: *const $item, _: usize,]
            [$($arguments)* $at.as_ptr(), $at.len(),] [$($own)* $at: &[$item],] }
    };
    (@ $name:ident ($at:ident: &mut [$item:ty] $(, $($rest:tt)*)?) [$($c:tt)*] [$($arguments:tt)*] [$($own:tt)*]) => {
        library! { @ $name ($($($rest)*)?) [$($c)* $at: *mut $item, _: usize,]
            [$($arguments)* $at.as_mut_ptr(), $at.len(),] [$($own)* $at: &mut [$item],] }
    };
    (@ $name:ident ($at:ident: $item:ty $(, $($rest:tt)*)?) [$($c:tt)*] [$($arguments:tt)*] [$($own:tt)*]) => {
        library! { @ $name ($($($rest)*)?) [$($c)* $at: $item,] [$($arguments)* $at,] [$($own)* $at: $item,] }
    };
    (@ $name:ident () [$($c:tt)*] [$($arguments:tt)*] [$($own:tt)*]) => {
        // The header has so many parameters.
        #[allow(clippy::too_many_arguments)]
        pub fn $name($($own)*) -> u32 {
            extern "C" {
                fn $name($($c)*) -> u32;
            }
            // SAFETY: the declaration is that of crates/xet_c, which .ci/bindings compares. What xet.h asks of callers
            // holds of slices and references: they are valid for their lengths until the call returns, aligned and not
            // null, those of outputs overlap nothing, and each `bool` is 0 or 1. The library keeps no pointer. It is
            // proved to read nothing but its inputs and to write nothing but its outputs, and what it writes there are
            // numbers and `bool`s, so they stay values of their types.
            unsafe { $name($($arguments)*) }
        }
    };
}

library! {
    fn xet_load(shard: &[u8], info: &mut Info) -> u32;
    fn xet_merge(
        shards: &[Bytes], options: &MergeOptions, version: u64, out: &mut [u8], written: &mut usize,
        differing: &mut usize, found: &mut Disagreement,
    ) -> u32;
    fn xet_difference(first: &[u8], second: &[u8], version: u64, out: &mut [u8], written: &mut usize) -> u32;
    fn xet_find_disagreements(shards: &[Bytes], out: &mut [Disagreement], written: &mut usize) -> u32;
    fn xet_find_malformed(shards: &[Bytes], malformed: &mut bool, found: &mut Disagreement) -> u32;
    fn xet_concatenate(shards: &[Bytes], out: &mut [u8], written: &mut usize) -> u32;
    fn xet_concatenate_span(shards: &[Bytes], from: usize, out: &mut [u8], size: &mut usize) -> u32;
    fn xet_export(shard: &[u8], options: &ExportOptions, version: u64, out: &mut [u8], written: &mut usize) -> u32;
    fn xet_minimal(shard: &[u8], options: &MinimalOptions, version: u64, out: &mut [u8], written: &mut usize) -> u32;
    fn xet_subset(
        shard: &[u8], options: &SubsetOptions, xorbs: &[Hash], version: u64, out: &mut [u8], written: &mut usize,
    ) -> u32;
    fn xet_convert(shard: &[u8], version: u64, out: &mut [u8], written: &mut usize) -> u32;
    fn xet_complete(shard: &[u8], key: &Hash, version: u64, out: &mut [u8], written: &mut usize) -> u32;
    fn xet_query_chunks(shard: &[u8], hashes: &[Hash], count: &mut usize, run: &mut Segment) -> u32;
    fn xet_query_at(
        shard: &[u8], hashes: &[Hash], row: u32, index: u32, count: &mut usize, run: &mut Segment,
    ) -> u32;
    fn xet_chunk_rows(shard: &[u8], out: &mut [ChunkRow], written: &mut usize) -> u32;
    fn xet_eligible(shard: &[u8], out: &mut [Hash], written: &mut usize) -> u32;
    fn xet_find_file(shard: &[u8], hash: &Hash, file: &mut File, segments: &mut [FileSegment]) -> u32;
    fn xet_file_at(
        shard: &[u8], row: u32, place: &mut Place, file: &mut File, segments: &mut [FileSegment],
    ) -> u32;
    fn xet_xorb_at(shard: &[u8], row: u32, place: &mut Place, xorb: &mut Xorb, chunks: &mut [Chunk]) -> u32;
    fn xet_find_rows(table: &[u8], word: u64, rows: &mut [u32], written: &mut usize) -> u32;
    fn xet_find_places(table: &[u8], word: u64, places: &mut [ChunkPlace], written: &mut usize) -> u32;
    fn xet_file_in(
        bytes: &[u8], version: u64, place: &mut Place, file: &mut File, segments: &mut [FileSegment],
    ) -> u32;
    fn xet_xorb_in(bytes: &[u8], place: &mut Place, xorb: &mut Xorb, chunks: &mut [Chunk]) -> u32;
    fn xet_records(
        shard: &[u8], files: &mut [ListedFile], segments: &mut [FileSegment], xorbs: &mut [ListedXorb],
        chunks: &mut [Chunk], counts: &mut Counts,
    ) -> u32;
    fn xet_find_files(
        shard: &[u8], hashes: &[Hash], files: &mut [ListedFile], segments: &mut [FileSegment], counts: &mut Counts,
    ) -> u32;
    fn xet_write(
        files: &[ListedFile], segments: &[FileSegment], xorbs: &[ListedXorb], chunks: &[Chunk], expiry: u64,
        version: u64, out: &mut [u8], written: &mut usize,
    ) -> u32;
    fn xet_check(shard: &[u8], findings: &mut [Finding], written: &mut usize) -> u32;
    fn xet_version() -> u32;
    fn xet_hash_from_hex(text: &[u8], hash: &mut Hash) -> u32;
    fn xet_parse_shard_name(name: &[u8], hash: &mut Hash) -> u32;
    fn xet_hash_bytes(key: &Hash, bytes: &[u8], hash: &mut Hash) -> u32;
    fn xet_hmac(key: &Hash, hash: &Hash, keyed: &mut Hash) -> u32;
}

/// The bytes of a shard, in a list of shards.
#[repr(C)]
#[derive(Clone, Copy)]
pub struct Bytes<'a> {
    bytes: *const u8,
    length: usize,
    lifetime: PhantomData<&'a [u8]>,
}

impl<'a> From<&'a [u8]> for Bytes<'a> {
    fn from(bytes: &'a [u8]) -> Bytes<'a> {
        Bytes { bytes: bytes.as_ptr(), length: bytes.len(), lifetime: PhantomData }
    }
}

#[repr(C)]
#[derive(Clone, Copy, Debug, Default)]
pub struct FileSegment {
    pub segment: Segment,
    pub verification: Hash,
}

#[repr(C)]
#[derive(Clone, Copy, Default)]
pub struct File {
    pub found: bool,
    pub has_verification: bool,
    pub has_sha256: bool,
    pub has_aux: bool,
    pub flags: u32,
    pub segments: usize,
    pub sha256: Hash,
    pub aux_hash: Hash,
    pub reserved: u64,
}

#[repr(C)]
#[derive(Clone, Copy, Default)]
pub struct MergeOptions {
    pub from: Hash,
    pub to: Hash,
    pub has_from: bool,
    pub has_to: bool,
    pub strict: bool,
    pub by_tables: bool,
}

#[repr(C)]
pub struct ExportOptions {
    pub key: Hash,
    pub now: u64,
    pub valid_seconds: u64,
    pub without_files: bool,
    pub without_aux_rows: bool,
    pub without_xorb_table: bool,
    pub without_chunk_table: bool,
}

#[repr(C)]
pub struct MinimalOptions {
    pub now: u64,
    pub verification: bool,
    pub without_aux_rows: bool,
}

#[repr(C)]
pub struct SubsetOptions {
    pub now: u64,
    pub expiry: u64,
    pub all: bool,
}

#[repr(C)]
#[derive(Clone, Default)]
pub struct Disagreement {
    pub hash: Hash,
    pub is_xorb: bool,
    pub first: usize,
    pub second: usize,
}

#[repr(C)]
#[derive(Clone, Default)]
pub struct Finding {
    pub kind: u32,
    pub part: u32,
    pub number: u64,
}

#[repr(C)]
#[derive(Default)]
pub struct Place {
    pub hash: Hash,
    pub flags: u32,
    pub next: u64,
}

#[repr(C)]
#[derive(Default)]
pub struct Xorb {
    pub found: bool,
    pub bytes: u32,
    pub bytes_on_disk: u32,
    pub chunks: usize,
}

#[repr(C)]
#[derive(Clone, Copy, Default)]
pub struct ListedFile {
    pub hash: Hash,
    pub sha256: Hash,
    pub aux_hash: Hash,
    pub flags: u32,
    pub segments: u32,
}

#[repr(C)]
#[derive(Clone, Copy, Default)]
pub struct ListedXorb {
    pub hash: Hash,
    pub flags: u32,
    pub chunks: u32,
    pub bytes: u32,
    pub bytes_on_disk: u32,
}

#[repr(C)]
#[derive(Default)]
pub struct Counts {
    pub files: usize,
    pub segments: usize,
    pub xorbs: usize,
    pub chunks: usize,
}
