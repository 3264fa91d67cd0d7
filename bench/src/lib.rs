//! What the programs that measure the port share.

pub mod clock;
pub mod combine;
pub mod compare;
pub mod shards;
