/// The version of the format in which a shard is written. Both are read.
#[derive(Clone, Copy, Debug, Default, PartialEq, Eq, PartialOrd, Ord, Hash)]
pub enum Version {
    /// Version 2, for readers that do not know version 3. No file has an auxiliary row.
    V2,
    /// Version 3.
    #[default]
    V3,
}

impl Version {
    /// Its number, as a shard has it.
    ///
    /// ```
    /// use xet_shards::Version;
    ///
    /// assert_eq!([Version::V2, Version::default()].map(Version::number), [2, 3]);
    /// ```
    #[must_use]
    pub const fn number(self) -> u64 {
        match self {
            Version::V2 => 2,
            Version::V3 => 3,
        }
    }
}
