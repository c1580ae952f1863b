//! Room for what the library reads and writes.

use crate::EncodeError;
use alloc::vec::Vec;

/// How many indices the library writes to the stack. Where there are more, a second call writes
/// them into just the memory that they take.
pub const FEW: usize = 128;

/// Returns `length` zeros, or `None` where the allocation fails.
pub fn zeros<T: Clone + Default>(length: usize) -> Option<Vec<T>> {
    let mut room = Vec::new();
    room.try_reserve_exact(length).ok()?;
    room.resize(length, T::default());
    Some(room)
}

/// Returns `count` indices, in just the memory that they take: the first of `few`, which a call has
/// written, or where they are more than that, what `fill` writes. `None` where the allocation
/// fails.
pub fn indices(few: &[u32; FEW], count: usize, fill: impl FnOnce(&mut [u32])) -> Option<Vec<u32>> {
    let mut indices = zeros(count)?;
    match few.get(..count) {
        Some(few) => indices.copy_from_slice(few),
        None => fill(&mut indices),
    }
    Some(indices)
}

/// Returns the first `length` bytes of a room. Where they are under half of it, they are copied
/// into just the memory that they take; where that allocation fails, they keep the whole room.
pub fn trimmed(mut room: Vec<u8>, length: usize) -> Vec<u8> {
    room.truncate(length);
    let mut exact = Vec::new();
    if 2 * length >= room.capacity() || exact.try_reserve_exact(length).is_err() {
        return room;
    }
    exact.extend_from_slice(&room);
    exact
}

/// Appends bytes to others.
pub fn append(room: &mut Vec<u8>, bytes: &[u8]) -> Result<(), EncodeError> {
    room.try_reserve(bytes.len())
        .map_err(|_| EncodeError::Memory)?;
    room.extend_from_slice(bytes);
    Ok(())
}
