//! Room for what a call writes.

use crate::error::{check, Error, SHORT};
use crate::memory::zero_bytes;
use crate::{Hash, Result};

/// No items, with room for so many.
pub fn with_room<T>(count: usize) -> Result<Vec<T>> {
    let mut items = Vec::new();
    items.try_reserve_exact(count).map_err(|_| Error::OutOfMemory)?;
    Ok(items)
}

/// So many items, each of zeros. They are written before the call writes its own, which is little work next to it.
pub fn zeros<T: Clone + Default>(count: usize) -> Result<Vec<T>> {
    let mut items = with_room(count)?;
    items.resize(count, T::default());
    Ok(items)
}

/// A copy of items.
pub fn copied<T: Copy>(of: &[T]) -> Result<Vec<T>> {
    let mut items = with_room(of.len())?;
    items.extend_from_slice(of);
    Ok(items)
}

/// The items that a call writes to the front of what it is given. If there is no room for them it says how many they
/// are, and is called again.
pub fn filled<T: Clone + Default>(room: usize, call: impl FnMut(&mut [T], &mut usize) -> u32) -> Result<Vec<T>> {
    filled_in(zeros, room, call)
}

fn filled_in<T>(
    zeros: impl Fn(usize) -> Result<Vec<T>>,
    room: usize,
    mut call: impl FnMut(&mut [T], &mut usize) -> u32,
) -> Result<Vec<T>> {
    let (mut out, mut written) = (zeros(room)?, 0);
    let mut number = call(&mut out, &mut written);
    if number == SHORT {
        drop(out);
        out = zeros(written)?;
        number = call(&mut out, &mut written);
    }
    check(number)?;
    out.truncate(written);
    Ok(out)
}

/// The bytes that a call makes of inputs of so many bytes. Only tables that the inputs lack make them longer than the
/// first room for them.
pub fn bytes_of(inputs: usize, call: impl FnMut(&mut [u8], &mut usize) -> u32) -> Result<Vec<u8>> {
    filled_in(zero_bytes, inputs.saturating_add(400), call)
}

/// The hashes that a call lists.
pub fn hashes_of(call: impl FnMut(&mut [Hash], &mut usize) -> u32) -> Result<Vec<Hash>> {
    filled(64, call)
}
