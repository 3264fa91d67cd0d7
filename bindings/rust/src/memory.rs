//! Memory for outputs.
#![allow(unsafe_code)]

use crate::{Error, Result};
use std::alloc::{alloc_zeroed, Layout};

/// From this size on large pages are asked for. Memory of this size goes back to the system when it is freed, so that
/// no other memory is advised.
const LARGE: usize = 1 << 25;

/// So many zeros. Pages that no one writes to cost nothing.
pub fn zero_bytes(count: usize) -> Result<Vec<u8>> {
    if count == 0 {
        return Ok(Vec::new());
    }
    let layout = Layout::array::<u8>(count).ok().filter(|it| it.size() <= isize::MAX as usize);
    let layout = layout.ok_or(Error::OutOfMemory)?;
    // SAFETY: the layout is not of size 0, and it is that of the items of a `Vec` of this capacity, whose bytes are
    // zeros.
    unsafe {
        let start = alloc_zeroed(layout);
        if start.is_null() {
            return Err(Error::OutOfMemory);
        }
        let mut bytes = Vec::from_raw_parts(start, count, count);
        if count >= LARGE {
            advise_large_pages(&mut bytes);
        }
        Ok(bytes)
    }
}

/// Asks for large pages. Whether they are granted makes no difference but in time.
#[cfg(target_os = "linux")]
fn advise_large_pages(bytes: &mut [u8]) {
    use std::os::raw::{c_int, c_void};
    extern "C" {
        fn madvise(start: *mut c_void, length: usize, advice: c_int) -> c_int;
    }
    const PAGE: usize = 4096;
    const MADV_HUGEPAGE: c_int = 14;
    let before = bytes.as_ptr().align_offset(PAGE);
    if let Some(pages) = bytes.get_mut(before..) {
        // SAFETY: the slice has all of the pages, and the advice leaves their bytes as they are.
        unsafe { madvise(pages.as_mut_ptr().cast(), pages.len() / PAGE * PAGE, MADV_HUGEPAGE) };
    }
}

#[cfg(not(target_os = "linux"))]
fn advise_large_pages(_: &mut [u8]) {}

#[cfg(test)]
mod tests {
    use super::*;

    #[test]
    fn zeros_of_any_count() {
        for count in [0, 1, 5000, LARGE - 1, LARGE, LARGE + 5000] {
            let bytes = zero_bytes(count).expect("memory");
            assert_eq!((bytes.len(), bytes.capacity()), (count, count));
            assert!(bytes.iter().all(|&it| it == 0));
        }
        for count in [usize::MAX, isize::MAX as usize] {
            assert_eq!(zero_bytes(count), Err(Error::OutOfMemory));
        }
    }
}
