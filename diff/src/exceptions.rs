//! The differences that docs/DIFFERENCES.md lists, as far as these calls show them. Each is accepted
//! only if the bytes have its cause.

use crate::answer::{Answer, Call, Error, Export, Hash};
use crate::compare::{Comparison, compare};
use crate::original::{self, merkle};
use crate::sections::{
    AUX, Ends, Record, Section, Table, chunk_at, ends, file_at, row_offset, section, version,
    without_aux_rows, xorb_at,
};
use xet_core_structures::merklehash::MerkleHash;

#[derive(Clone, Copy, PartialEq, Eq, PartialOrd, Ord, Debug)]
pub enum Exception {
    /// A version other than 2 and 3 is `ShardVersion`.
    HeaderVersion,
    /// In version 2 a file with the flag of the auxiliary row is `InvalidShard`.
    AuxFlagInVersion2,
    /// In version 3 such a file has one row more. A call that leaves out these rows has to do what
    /// the original does without them; else anything may follow.
    AuxRow,
    /// A section past 4294967295 rows, or a record that announces them, is `InvalidShard`.
    TooManyRows,
    /// A table's end or a row's offset past 64 bits is `InvalidShard`.
    Past64Bits,
    /// The search of a table of more than 255 rows that do not ascend, or that the bytes do not
    /// have, probes other rows, and may find others.
    SearchOfUnsortedTable,
    /// The search of a table of more than 255 rows interpolates in whole numbers, not in `f64`. So it
    /// may come upon several rows with one key in another order, and a query answers at the first.
    SearchOrder,
    /// A query that is led past the chunks of a xorb, or to a bookend, is `InvalidShard`.
    QueryPastXorb,
    /// A run whose bytes do not fit 32 bits is `InvalidShard`.
    QuerySum,
    /// The original reads one chunk more after the last hash, and fails where the bytes end.
    QueryReadsOneMore,
    /// Equal keys are carried to a union or a difference.
    KeyCarried,
    /// Different ones are `InvalidArguments`.
    KeysDiffer,
    /// A union or a difference reads the first shard whole before it looks at the second; the original
    /// loads both, and then reads their sections side by side. So it tells the fault of the first.
    ReadInTurn,
    /// A section whose hashes do not ascend is `InvalidShard`.
    HashesDescend,
    /// Files that have to be combined, with different numbers of segments, are `InvalidShard`.
    SegmentCountsDiffer,
    /// A keyed shard is not exported again: `InvalidArguments`.
    KeyedAgain,
    /// An export without files leaves out whole records; the original reads their segments as
    /// headers. The port's has to be the original's of a shard without files.
    ExportWithoutFiles,
    /// An export's bookends have zero fields, and its header the footer size 200.
    ExportFraming,
    /// An expiry past 64 bits is `InvalidArguments`, before anything is read; the original panics.
    ExpiryPast64Bits,
}

use Exception::*;

impl Exception {
    pub const ALL: [Exception; 19] = [
        HeaderVersion,
        AuxFlagInVersion2,
        AuxRow,
        TooManyRows,
        Past64Bits,
        SearchOfUnsortedTable,
        SearchOrder,
        QueryPastXorb,
        QuerySum,
        QueryReadsOneMore,
        KeyCarried,
        KeysDiffer,
        ReadInTurn,
        HashesDescend,
        SegmentCountsDiffer,
        KeyedAgain,
        ExportWithoutFiles,
        ExportFraming,
        ExpiryPast64Bits,
    ];
}

/// Two answers that differ.
pub struct Difference<'a> {
    pub call: &'a Call,
    pub first: &'a [u8],
    pub second: &'a [u8],
    pub original: &'a Answer,
    pub port: &'a Answer,
}

impl Difference<'_> {
    /// The exception that it is, if any.
    pub fn exception(&self) -> Option<Exception> {
        let both = self.call.takes_both();
        if self.port_fails_by(Error::ShardVersion) {
            let is_other = |bytes| !matches!(version(bytes), Some(2 | 3));
            if is_other(self.first) || both && is_other(self.second) {
                return Some(HeaderVersion);
            }
            // The original may fail in the first shard, and the port, which reads it, in the second.
            if !both {
                return None;
            }
        }
        match self.call {
            Call::Load => None,
            Call::Find(hash) => self.in_find(hash),
            Call::Query(hashes) => self.in_query(hashes),
            Call::Union | Call::Difference | Call::FindDisagreement | Call::MergeAgreeing => {
                self.in_combination()
            }
            Call::Export(options) => self.in_export(options),
            Call::Minimal { .. } | Call::Subset(_) | Call::Eligible => self.in_stream(),
        }
    }

    fn port_fails_by(&self, error: Error) -> bool {
        *self.port == Answer::Error(error)
    }

    fn is_refused(&self) -> bool {
        self.port_fails_by(Error::InvalidShard)
    }

    fn in_find(&self, hash: &Hash) -> Option<Exception> {
        let ends = ends(self.first)?;
        let rows = ends.file_table.values(self.first, hash.words[0]);
        let offsets: Vec<_> = rows
            .iter()
            .map(|&(row, _)| row_offset(ends.file_info_offset, row.into()))
            .collect();
        let records: Vec<_> = offsets
            .iter()
            .filter_map(|&at| file_at(self.first, at?))
            .collect();
        let is_long = |record: &Record| record.rows > u32::MAX.into();
        if self.is_refused() && (ends.file_table.is_past_64_bits() || offsets.contains(&None)) {
            return Some(Past64Bits);
        }
        if let Some(aux) = self.aux(&records, ends.version) {
            return Some(aux);
        }
        if self.is_refused() && records.iter().any(is_long) {
            return Some(TooManyRows);
        }
        self.search(&ends.file_table)
    }

    fn search(&self, table: &Table) -> Option<Exception> {
        table
            .is_searched_unsorted(self.first)
            .then_some(SearchOfUnsortedTable)
    }

    /// Among these records is one with the flag of the auxiliary row.
    fn aux(&self, records: &[Record], version: u64) -> Option<Exception> {
        let has_aux = records.iter().any(|record| record.flags & AUX != 0);
        match version {
            2 => (has_aux && self.is_refused()).then_some(AuxFlagInVersion2),
            _ => has_aux.then_some(AuxRow),
        }
    }

    fn in_query(&self, hashes: &[Hash]) -> Option<Exception> {
        let ends = ends(self.first)?;
        let first = keyed(&ends, hashes.first()?);
        let locations = ends.chunk_table.values(self.first, first.words[0]);
        let offset = |row: u32| row_offset(ends.xorb_info_offset, row.into());
        if self.is_refused() {
            let is_past = |&(row, _): &(u32, u32)| offset(row).is_none();
            if ends.chunk_table.is_past_64_bits() || locations.iter().any(is_past) {
                return Some(Past64Bits);
            }
            let is_absent = |&(row, index): &(u32, u32)| {
                let xorb = offset(row).and_then(|at| xorb_at(self.first, at));
                xorb.is_some_and(|xorb| xorb.is_bookend() || xorb.entries <= index)
            };
            if locations.iter().any(is_absent) {
                return Some(QueryPastXorb);
            }
            if *self.original == Answer::Panic
                && locations.iter().any(|&at| self.sum_is_large(&ends, at))
            {
                return Some(QuerySum);
            }
        }
        let ends_after = |&at: &(u32, u32)| self.ends_after(&ends, at, hashes.len());
        if *self.original == Answer::Error(Error::Io) && locations.iter().any(ends_after) {
            return Some(QueryReadsOneMore);
        }
        if ends.chunk_table.rows > 255 && self.runs_begin_at(&ends, &locations) {
            return Some(SearchOrder);
        }
        self.search(&ends.chunk_table)
    }

    /// Both answers are runs, each of which begins at one of these locations.
    fn runs_begin_at(&self, ends: &Ends, locations: &[(u32, u32)]) -> bool {
        [self.original, self.port].iter().all(|answer| {
            let Answer::Run(Some((_, run))) = answer else {
                return false;
            };
            locations.iter().any(|&(row, index)| {
                let xorb = row_offset(ends.xorb_info_offset, row.into())
                    .and_then(|at| xorb_at(self.first, at));
                index == run.start && xorb.is_some_and(|xorb| xorb.hash == run.xorb)
            })
        })
    }

    /// The chunks of a xorb from an index on have more than 32 bits of bytes.
    fn sum_is_large(&self, ends: &Ends, (row, index): (u32, u32)) -> bool {
        let chunk = |number: u64| {
            let at = row_offset(
                ends.xorb_info_offset,
                1 + u64::from(row) + u64::from(index) + number,
            )?;
            Some(u64::from(chunk_at(self.first, at)?.1))
        };
        let bytes: u64 = (0..).map_while(chunk).take(64).sum();
        bytes > u32::MAX.into()
    }

    /// The port's run from a location has all hashes, and the bytes end before the next chunk does.
    fn ends_after(&self, ends: &Ends, (row, index): (u32, u32), length: usize) -> bool {
        let Answer::Run(Some((count, run))) = self.port else {
            return false;
        };
        let xorb =
            row_offset(ends.xorb_info_offset, row.into()).and_then(|at| xorb_at(self.first, at));
        let is_there = xorb.is_some_and(|xorb| xorb.hash == run.xorb && xorb.entries > run.end);
        let next = row_offset(
            ends.xorb_info_offset,
            1 + u64::from(row) + u64::from(run.end),
        );
        *count == length
            && run.start == index
            && is_there
            && next.is_some_and(|at| chunk_at(self.first, at).is_none())
    }

    fn in_combination(&self) -> Option<Exception> {
        let inputs: Vec<_> = [self.first, self.second]
            .into_iter()
            .filter_map(|bytes| Some((bytes, ends(bytes)?)))
            .collect();
        let keys_differ = matches!(&inputs[..], [(_, x), (_, y)] if x.key != y.key);
        if self.port_fails_by(Error::InvalidArguments) {
            return keys_differ.then_some(KeysDiffer);
        }
        let files: Vec<_> = inputs
            .iter()
            .map(|(bytes, ends)| section(bytes, ends.file_info_offset, file_at))
            .collect();
        let xorbs: Vec<_> = inputs
            .iter()
            .map(|(bytes, ends)| section(bytes, ends.xorb_info_offset, xorb_at))
            .collect();
        for (files, (_, ends)) in files.iter().zip(&inputs) {
            if let Some(aux) = self.aux(&files.records, ends.version) {
                return Some(aux);
            }
        }
        if self.is_of_first() {
            return Some(ReadInTurn);
        }
        if !self.is_refused() {
            return None;
        }
        let all: Vec<&Section> = files.iter().chain(&xorbs).collect();
        if all.iter().any(|section| section.descends()) {
            return Some(HashesDescend);
        }
        if all.iter().any(|section| section.is_too_long()) {
            return Some(TooManyRows);
        }
        let [first, second] = &files[..] else {
            return None;
        };
        let cannot_combine = |file: &Record| {
            second.has(|other| other.hash == file.hash && have_to_be_combined(file, other))
        };
        (*self.call == Call::Union && first.has(cannot_combine)).then_some(SegmentCountsDiffer)
    }

    /// Both refuse, and the port as the original refuses the first shard alone.
    fn is_of_first(&self) -> bool {
        matches!(self.call, Call::Union | Call::Difference)
            && matches!(self.port, Answer::Error(_))
            && matches!(self.original, Answer::Error(_) | Answer::Panic)
            && original::answer(self.call, self.first, self.first) == *self.port
    }

    fn in_export(&self, options: &Export) -> Option<Exception> {
        let ends = ends(self.first)?;
        if self.port_fails_by(Error::InvalidArguments) {
            if ends.key != [0; 4] {
                return Some(KeyedAgain);
            }
            let is_past = options.now.checked_add(options.valid_seconds).is_none();
            return is_past.then_some(ExpiryPast64Bits);
        }
        if let Some(exception) = self.in_stream() {
            return Some(exception);
        }
        let files = section(self.first, 48, file_at);
        let leaves_out = !options.files && files.has(|file| file.entries > 0);
        (leaves_out && self.is_export_without(options, files.bookend)).then_some(ExportWithoutFiles)
    }

    /// The port's export is the original's of the same shard without its files. Its footer is not
    /// looked at: the bookend that is read may be in it.
    fn is_export_without(&self, options: &Export, bookend: Option<u64>) -> bool {
        let Some(bookend) = bookend else {
            return self.port_fails_by(Error::Io);
        };
        let rest = &self.first[bookend as usize..];
        let shard = [&self.first[..48], rest].concat();
        self.is_like(&shard, &original::answer_of_stream(options, &shard))
    }

    /// The port's answer is the original's for these bytes, but for listed differences.
    fn is_answer_for(&self, first: &[u8]) -> bool {
        self.is_like(first, &original::answer(self.call, first, self.second))
    }

    /// The port's answer is this one of the original for these bytes, but for listed differences.
    fn is_like(&self, first: &[u8], original: &Answer) -> bool {
        if let Comparison::Same(_) = compare(self.call, first, original, self.port) {
            return true;
        }
        let difference = Difference {
            first,
            original,
            ..*self
        };
        difference.exception().is_some()
    }

    fn is_answer_without_aux_rows(&self) -> bool {
        let without = without_aux_rows(self.first);
        let files = section(&without, 48, file_at);
        if files.bookend.is_none() {
            return self.port_fails_by(Error::Io) || self.is_refused() && files.is_too_long();
        }
        self.is_answer_for(&without)
    }

    /// The call leaves out auxiliary rows, so it does what it does without them.
    fn leaves_out_aux_rows(&self) -> bool {
        match self.call {
            Call::Export(options) => !(options.files && options.aux_rows),
            Call::Minimal { aux_rows, .. } => !aux_rows,
            _ => true,
        }
    }

    /// In a call that reads the sections that follow the header.
    fn in_stream(&self) -> Option<Exception> {
        let files = section(self.first, 48, file_at);
        let xorbs = files
            .bookend
            .map(|bookend| section(self.first, bookend + 48, xorb_at));
        let is_long = files.is_too_long() || xorbs.is_some_and(|xorbs| xorbs.is_too_long());
        if self.is_refused() && is_long {
            return Some(TooManyRows);
        }
        let aux = self.aux(&files.records, version(self.first)?)?;
        let is_right = aux == AuxFlagInVersion2
            || !self.leaves_out_aux_rows()
            || self.is_answer_without_aux_rows();
        is_right.then_some(aux)
    }
}

/// Neither has all flags of the other, and their numbers of segments differ.
fn have_to_be_combined(file: &Record, other: &Record) -> bool {
    let common = file.flags & other.flags;
    common != file.flags && common != other.flags && file.entries != other.entries
}

fn keyed(ends: &Ends, hash: &Hash) -> Hash {
    if ends.key == [0; 4] {
        return *hash;
    }
    Hash {
        words: *merkle(hash).hmac(MerkleHash::from(ends.key)),
    }
}
