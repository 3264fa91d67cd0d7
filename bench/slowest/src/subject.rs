//! The calls that are measured.

use crate::calls::{
    self, Bytes, Disagreement, File, FileSegment, Finding, MergeOptions, MinimalOptions, Place,
    SubsetOptions, Xorb,
};
use crate::inputs::{self, Input, Inputs};
use crate::kinds::export;
use crate::shard::{EMPTY, ROW};
use crate::{Chunk, Hash, Info, Segment};

/// A call of `xet.h`.
pub struct Subject {
    /// Its name there.
    pub name: &'static str,
    /// What it is made on.
    pub inputs: fn(usize) -> Inputs,
    /// Makes it, in one of its forms, and returns what it returns.
    pub call: fn(&Input, &mut Room) -> u32,
}

const fn subject(
    name: &'static str,
    inputs: fn(usize) -> Inputs,
    call: fn(&Input, &mut Room) -> u32,
) -> Subject {
    Subject { name, inputs, call }
}

/// All calls that read shards, some with several options, one after another.
pub const SUBJECTS: [Subject; 18] = [
    subject("xet_load", inputs::alone, |it, _| {
        calls::xet_load(it.first(), &mut Info::default())
    }),
    subject("xet_find_file", inputs::with_file, find_file),
    subject("xet_query_chunks", inputs::with_chunks, query_chunks),
    subject("xet_file_at", inputs::alone, file_at),
    subject("xet_xorb_at", inputs::alone, xorb_at),
    subject("xet_union", inputs::pairs, |it, room| {
        merge(it, room, false)
    }),
    subject("xet_difference", inputs::pairs, |it, room| {
        calls::xet_difference(it.first(), &it.shards[1], 3, &mut room.bytes, &mut 0)
    }),
    subject("xet_merge", inputs::lists, |it, room| {
        merge(it, room, false)
    }),
    subject("xet_find_disagreements", inputs::lists, |it, room| {
        calls::xet_find_disagreements(&it.list(), &mut room.disagreements, &mut 0)
    }),
    subject("xet_merge, strictly", inputs::lists, |it, room| {
        merge(it, room, true)
    }),
    subject("xet_export", inputs::alone, |it, room| {
        calls::xet_export(it.first(), &export(2), 3, &mut room.bytes, &mut 0)
    }),
    subject("xet_minimal", inputs::alone, |it, room| {
        minimal(it, room, false)
    }),
    subject("xet_minimal", inputs::alone, |it, room| {
        minimal(it, room, true)
    }),
    subject("xet_subset", inputs::with_xorbs, |it, room| {
        subset(it, room, false)
    }),
    subject("xet_subset", inputs::alone, |it, room| {
        subset(it, room, true)
    }),
    subject("xet_convert", inputs::alone, |it, room| {
        calls::xet_convert(it.first(), 2, &mut room.bytes, &mut 0)
    }),
    subject("xet_eligible", inputs::alone, |it, room| {
        calls::xet_eligible(it.first(), &mut room.hashes, &mut 0)
    }),
    subject("xet_check", inputs::alone, |it, room| {
        calls::xet_check(it.first(), &mut room.findings, &mut 0)
    }),
];

/// Room for what a call writes.
pub struct Room {
    bytes: Vec<u8>,
    segments: Vec<FileSegment>,
    chunks: Vec<Chunk>,
    hashes: Vec<Hash>,
    findings: Vec<Finding>,
    disagreements: Vec<Disagreement>,
}

impl Room {
    /// Room that is enough for what calls write of an input.
    pub fn of(input: &Input) -> Room {
        let bytes = input.bytes();
        // A row may be read twice, as one of either section, and be given a row of each table.
        let rows = bytes / ROW + 1;
        Room {
            bytes: vec![0; EMPTY + 3 * bytes],
            segments: vec![FileSegment::default(); rows],
            chunks: vec![Chunk::default(); rows],
            hashes: vec![Hash::default(); rows],
            findings: vec![Finding::default(); 16],
            disagreements: vec![Disagreement::default(); rows],
        }
    }
}

impl Input {
    fn first(&self) -> &[u8] {
        &self.shards[0]
    }

    fn list(&self) -> Vec<Bytes<'_>> {
        self.shards
            .iter()
            .map(|it| Bytes::from(it.as_slice()))
            .collect()
    }
}

fn find_file(input: &Input, room: &mut Room) -> u32 {
    calls::xet_find_file(
        input.first(),
        &input.hashes[0],
        &mut File::default(),
        &mut room.segments,
    )
}

fn query_chunks(input: &Input, _: &mut Room) -> u32 {
    calls::xet_query_chunks(
        input.first(),
        &input.hashes,
        &mut 0,
        &mut Segment::default(),
    )
}

fn file_at(input: &Input, room: &mut Room) -> u32 {
    let (mut place, mut file) = (Place::default(), File::default());
    calls::xet_file_at(input.first(), 0, &mut place, &mut file, &mut room.segments)
}

fn xorb_at(input: &Input, room: &mut Room) -> u32 {
    let (mut place, mut xorb) = (Place::default(), Xorb::default());
    calls::xet_xorb_at(input.first(), 0, &mut place, &mut xorb, &mut room.chunks)
}

fn merge(input: &Input, room: &mut Room, strict: bool) -> u32 {
    let options = MergeOptions {
        strict,
        ..MergeOptions::default()
    };
    let (mut differing, mut found) = (0, Disagreement::default());
    let out = &mut room.bytes;
    calls::xet_merge(
        &input.list(),
        &options,
        3,
        out,
        &mut 0,
        &mut differing,
        &mut found,
    )
}

fn minimal(input: &Input, room: &mut Room, verification: bool) -> u32 {
    let options = MinimalOptions {
        now: 0,
        verification,
        without_aux_rows: false,
    };
    calls::xet_minimal(input.first(), &options, 3, &mut room.bytes, &mut 0)
}

fn subset(input: &Input, room: &mut Room, all: bool) -> u32 {
    let options = SubsetOptions {
        now: 0,
        expiry: 0,
        all,
    };
    calls::xet_subset(
        input.first(),
        &options,
        &input.hashes,
        3,
        &mut room.bytes,
        &mut 0,
    )
}
