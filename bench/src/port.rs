//! The port, through the static library `crates/bench_calls`.

use crate::operation::Operation;
use shard_bench::shards::Hash;

unsafe extern "C" {
    // A slice is a pointer and a length.
    #[allow(clippy::too_many_arguments)]
    fn bench_run(
        operation: u32,
        first: *const u8,
        first_length: usize,
        second: *const u8,
        second_length: usize,
        hashes: *const Hash,
        hash_count: usize,
        times: u64,
        out: *mut u8,
        capacity: usize,
        written: *mut usize,
    ) -> u32;
}

/// Does an operation `times` times, and puts the answer into `out`, which has to have room for it.
/// Returns how many bytes it has.
pub fn run(
    operation: Operation,
    first: &[u8],
    second: &[u8],
    hashes: &[Hash],
    times: u64,
    out: &mut [u8],
) -> usize {
    let mut written = 0;
    // Each pointer is that of a slice with this length; no output overlaps another or an input.
    let result = unsafe {
        bench_run(
            operation as u32,
            first.as_ptr(),
            first.len(),
            second.as_ptr(),
            second.len(),
            hashes.as_ptr(),
            hashes.len(),
            times,
            out.as_mut_ptr(),
            out.len(),
            &mut written,
        )
    };
    assert_eq!(result, 0, "{operation:?} of the port failed");
    assert!(
        written <= out.len(),
        "{operation:?} of the port has an answer of {written} bytes"
    );
    written
}
