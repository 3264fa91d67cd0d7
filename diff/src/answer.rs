//! Calls on shards as bytes, and what they answer.

/// A hash, as the library for C has it.
#[repr(C)]
#[derive(Clone, Copy, PartialEq, Eq, PartialOrd, Ord, Debug)]
pub struct Hash {
    pub words: [u64; 4],
}

/// Chunks `start` to `end`, without `end`, of a xorb.
#[repr(C)]
#[derive(Clone, Copy, PartialEq, Eq, Debug, Default)]
pub struct Segment {
    pub xorb: [u64; 4],
    pub flags: u32,
    pub bytes: u32,
    pub start: u32,
    pub end: u32,
}

/// What header and footer say.
#[repr(C)]
#[derive(Clone, Copy, PartialEq, Eq, Debug, Default)]
pub struct Info {
    pub version: u64,
    pub files: u64,
    pub xorbs: u64,
    pub chunks: u64,
    pub key: [u64; 4],
    pub creation: u64,
    pub expiry: u64,
    pub stored_bytes_on_disk: u64,
    pub materialized_bytes: u64,
    pub stored_bytes: u64,
    pub file_section: u64,
    pub xorb_section: u64,
    pub file_table: u64,
    pub xorb_table: u64,
    pub chunk_table: u64,
    pub footer: u64,
    pub footer_size: u64,
    pub footer_version: u64,
    pub reserved: [u64; 6],
}

/// What an export is to have.
#[derive(Clone, Copy, PartialEq, Eq, Debug)]
pub struct Export {
    pub key: [u64; 4],
    pub now: u64,
    pub valid_seconds: u64,
    pub files: bool,
    pub aux_rows: bool,
    pub xorb_table: bool,
    pub chunk_table: bool,
}

/// A hash under which two shards have records that do not agree.
#[repr(C)]
#[derive(Clone, Copy, PartialEq, Eq, Debug, Default)]
pub struct Disagreement {
    pub hash: [u64; 4],
    pub is_xorb: bool,
    pub first: usize,
    pub second: usize,
}

/// What a subset is to have: a timestamp, and the xorbs with these hashes, or all.
#[derive(Clone, PartialEq, Eq, Debug)]
pub struct Subset {
    pub expiry: Option<u64>,
    pub xorbs: Option<Vec<Hash>>,
}

/// A call on two shards; most look at the first alone.
#[derive(Clone, PartialEq, Eq, Debug)]
pub enum Call {
    Load,
    Find(Hash),
    Query(Vec<Hash>),
    Union,
    Difference,
    FindDisagreement,
    MergeAgreeing,
    Export(Export),
    Minimal { verification: bool, aux_rows: bool },
    Subset(Subset),
    Eligible,
}

impl Call {
    pub fn name(&self) -> &'static str {
        match self {
            Call::Load => "load",
            Call::Find(_) => "find",
            Call::Query(_) => "query",
            Call::Union => "union",
            Call::Difference => "difference",
            Call::FindDisagreement => "find_disagreement",
            Call::MergeAgreeing => "merge_agreeing",
            Call::Export(_) => "export",
            Call::Minimal { .. } => "minimal",
            Call::Subset(_) => "subset",
            Call::Eligible => "eligible",
        }
    }

    /// Whether it reads both shards.
    pub fn takes_both(&self) -> bool {
        matches!(
            self,
            Call::Union | Call::Difference | Call::FindDisagreement | Call::MergeAgreeing
        )
    }
}

/// The timestamp that minimal shards and subsets get.
pub const NOW: u64 = 1_700_000_000;

/// A file's flags and reserved word, its segments, the hashes of its verification rows and its SHA-256.
#[derive(Clone, PartialEq, Eq, Debug)]
pub struct File {
    pub flags: u32,
    pub reserved: u64,
    pub segments: Vec<Segment>,
    pub verification: Option<Vec<[u64; 4]>>,
    pub sha256: Option<[u64; 4]>,
}

/// What a call answers.
#[derive(Clone, PartialEq, Eq)]
pub enum Answer {
    Info(Info),
    File(Option<File>),
    Run(Option<(usize, Segment)>),
    Shard(Vec<u8>),
    Hashes(Vec<Hash>),
    /// How many hashes have records that do not agree, and the first; none if all agree.
    Disagreement(Option<(usize, Disagreement)>),
    /// A record that no shard may have: its hash, and the number of its shard twice.
    Malformed(Disagreement),
    Error(Error),
    /// The original panicked.
    Panic,
}

/// The errors that both have, by the numbers of the library for C.
#[derive(Clone, Copy, PartialEq, Eq, Debug)]
#[repr(u32)]
pub enum Error {
    Io = 1,
    InternalError = 2,
    TruncatedHashCollision = 4,
    ShardVersion = 5,
    InvalidShard = 11,
    InvalidArguments = 13,
    Other = 0,
}

impl Error {
    pub fn of_number(number: u32) -> Error {
        [
            Error::Io,
            Error::InternalError,
            Error::TruncatedHashCollision,
            Error::ShardVersion,
            Error::InvalidShard,
            Error::InvalidArguments,
        ]
        .into_iter()
        .find(|&error| error as u32 == number)
        .unwrap_or(Error::Other)
    }
}

impl std::fmt::Debug for Answer {
    fn fmt(&self, f: &mut std::fmt::Formatter<'_>) -> std::fmt::Result {
        match self {
            Answer::Info(info) => info.fmt(f),
            Answer::File(file) => file.fmt(f),
            Answer::Run(run) => run.fmt(f),
            Answer::Shard(bytes) => write!(f, "a shard of {} bytes", bytes.len()),
            Answer::Hashes(hashes) => hashes.fmt(f),
            Answer::Disagreement(found) => found.fmt(f),
            Answer::Malformed(found) => write!(f, "malformed, {found:?}"),
            Answer::Error(error) => error.fmt(f),
            Answer::Panic => f.write_str("a panic"),
        }
    }
}
