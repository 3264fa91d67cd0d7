//! The port, through the C library `libxet.a`, as `bindings/c/xet.h` declares it.

/// `struct xet_bytes`.
#[repr(C)]
struct Bytes {
    bytes: *const u8,
    length: usize,
}

/// `struct xet_disagreement`.
#[repr(C)]
#[derive(Default)]
struct Disagreement {
    hash: [u64; 4],
    is_xorb: bool,
    first: usize,
    second: usize,
}

/// `struct xet_merge_options`; all zero: the union of all records of any shards.
#[repr(C)]
#[derive(Default)]
struct Options {
    from: [u64; 4],
    to: [u64; 4],
    has_from: bool,
    has_to: bool,
    strict: bool,
    by_tables: bool,
}

unsafe extern "C" {
    fn xet_merge(
        shards: *const Bytes,
        count: usize,
        options: *const Options,
        version: u64,
        out: *mut u8,
        capacity: usize,
        written: *mut usize,
        differing: *mut usize,
        found: *mut Disagreement,
    ) -> u32;

    fn xet_find_disagreements(
        shards: *const Bytes,
        count: usize,
        out: *mut Disagreement,
        capacity: usize,
        written: *mut usize,
    ) -> u32;
}

fn list(shards: &[&[u8]]) -> Vec<Bytes> {
    shards
        .iter()
        .map(|shard| Bytes {
            bytes: shard.as_ptr(),
            length: shard.len(),
        })
        .collect()
}

/// The union of shards, made in one call.
pub fn merge(shards: &[&[u8]]) -> Vec<u8> {
    // The union has each record at most as often as all shards together, and one header and footer.
    let mut out = vec![0; shards.iter().map(|shard| shard.len()).sum()];
    let shards = list(shards);
    let (mut written, mut differing, mut found) = (0, 0, Disagreement::default());
    // Each pointer is that of a slice with this length; no output overlaps another or an input.
    let result = unsafe {
        xet_merge(
            shards.as_ptr(),
            shards.len(),
            &Options::default(),
            3,
            out.as_mut_ptr(),
            out.len(),
            &mut written,
            &mut differing,
            &mut found,
        )
    };
    assert_eq!(result, 0, "the port's merge failed");
    out.truncate(written);
    out
}

/// How many hashes have records in two of the shards that do not agree.
pub fn differing(shards: &[&[u8]]) -> usize {
    let shards = list(shards);
    let (mut written, mut found) = (0, Disagreement::default());
    // The pointer is that of a slice with this length; no output overlaps another or an input.
    let result = unsafe {
        xet_find_disagreements(shards.as_ptr(), shards.len(), &mut found, 1, &mut written)
    };
    assert!(result == 0 || written > 1, "the port's comparison failed");
    written
}
