//! What is measured.

/// An operation, by the number that the port's `bench_run` gives it.
#[derive(Clone, Copy, PartialEq, Eq, Debug)]
#[repr(u32)]
pub enum Operation {
    Load = 0,
    FindFiles = 1,
    SearchFiles = 2,
    QueryChunks = 3,
    Union = 4,
    Difference = 5,
    Export = 6,
    ReadMinimal = 7,
    WriteMinimal = 8,
    ReadFiles = 9,
    ReadXorbs = 10,
    Serialize = 11,
    AddFiles = 12,
    AddXorbs = 13,
    QueryInMemory = 14,
    UniteInMemory = 15,
    SubtractInMemory = 16,
    Hmac = 17,
    FindFilesInBytes = 18,
    CopyInMemory = 19,
}

impl Operation {
    /// Whether the original is measured with memory reserved for its output too. It writes to any
    /// writer, and the port's calls make a byte string of bytes and reserve it.
    pub fn is_written_to_room(self) -> bool {
        matches!(
            self,
            Operation::Union | Operation::Difference | Operation::Export | Operation::WriteMinimal
        )
    }
}

/// What the time of a row is divided by.
#[derive(Clone, Copy)]
pub enum Item {
    Call,
    Record,
    File,
    Chunk,
    Lookup,
    Query,
}

/// Which hashes an operation takes.
#[derive(Clone, Copy)]
pub enum Hashes {
    None,
    PresentFiles,
    AbsentFiles,
    Chunks,
    Key,
}

/// What is done before an operation that is repeated, and is not of it.
#[derive(Clone, Copy)]
pub enum Before {
    /// So little that it is not taken off.
    Nothing,
    /// Done once a call, however often the operation is repeated.
    Once,
    /// Done each time: this operation.
    Each(Operation),
}

/// A row of the table.
pub struct Row {
    pub name: &'static str,
    pub operation: Operation,
    pub item: Item,
    pub hashes: Hashes,
    pub before: Before,
}

const fn row(
    name: &'static str,
    operation: Operation,
    item: Item,
    hashes: Hashes,
    before: Before,
) -> Row {
    Row {
        name,
        operation,
        item,
        hashes,
        before,
    }
}

pub const ROWS: [Row; 21] = [
    row(
        "serialize_from",
        Operation::Serialize,
        Item::Record,
        Hashes::None,
        Before::Once,
    ),
    row(
        "file lookup, hit",
        Operation::FindFiles,
        Item::Lookup,
        Hashes::PresentFiles,
        Before::Nothing,
    ),
    row(
        "file lookup, miss",
        Operation::FindFiles,
        Item::Lookup,
        Hashes::AbsentFiles,
        Before::Nothing,
    ),
    row(
        "file lookup with load",
        Operation::FindFilesInBytes,
        Item::Lookup,
        Hashes::PresentFiles,
        Before::Nothing,
    ),
    row(
        "search alone",
        Operation::SearchFiles,
        Item::Lookup,
        Hashes::PresentFiles,
        Before::Nothing,
    ),
    row(
        "chunk query on bytes",
        Operation::QueryChunks,
        Item::Query,
        Hashes::Chunks,
        Before::Nothing,
    ),
    row(
        "chunk query in memory",
        Operation::QueryInMemory,
        Item::Query,
        Hashes::Chunks,
        Before::Once,
    ),
    row(
        "shard_set_union",
        Operation::Union,
        Item::Record,
        Hashes::None,
        Before::Nothing,
    ),
    row(
        "shard_set_difference",
        Operation::Difference,
        Item::Record,
        Hashes::None,
        Before::Nothing,
    ),
    row(
        "keyed export",
        Operation::Export,
        Item::Chunk,
        Hashes::Key,
        Before::Nothing,
    ),
    row(
        "minimal read",
        Operation::ReadMinimal,
        Item::Record,
        Hashes::None,
        Before::Nothing,
    ),
    row(
        "minimal shard",
        Operation::WriteMinimal,
        Item::Record,
        Hashes::None,
        Before::Nothing,
    ),
    row(
        "whole read of files",
        Operation::ReadFiles,
        Item::File,
        Hashes::None,
        Before::Nothing,
    ),
    row(
        "whole read of xorbs",
        Operation::ReadXorbs,
        Item::Chunk,
        Hashes::None,
        Before::Nothing,
    ),
    row(
        "load_from_reader",
        Operation::Load,
        Item::Call,
        Hashes::None,
        Before::Nothing,
    ),
    row(
        "memory: add files",
        Operation::AddFiles,
        Item::File,
        Hashes::None,
        Before::Each(Operation::ReadFiles),
    ),
    row(
        "memory: add xorbs",
        Operation::AddXorbs,
        Item::Chunk,
        Hashes::None,
        Before::Each(Operation::ReadXorbs),
    ),
    row(
        "memory: union",
        Operation::UniteInMemory,
        Item::Record,
        Hashes::None,
        Before::Once,
    ),
    row(
        "memory: difference",
        Operation::SubtractInMemory,
        Item::Record,
        Hashes::None,
        Before::Once,
    ),
    row(
        "memory: copy",
        Operation::CopyInMemory,
        Item::Record,
        Hashes::None,
        Before::Once,
    ),
    row(
        "hmac",
        Operation::Hmac,
        Item::Call,
        Hashes::Key,
        Before::Nothing,
    ),
];
