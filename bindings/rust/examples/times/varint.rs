//! A varint by plain Rust.

/// Returns the number at the start of the input, and how many bytes it takes.
pub fn varint(input: &[u8]) -> Option<(u32, usize)> {
    let mut n = 0u64;
    for i in 0..5 {
        let b = *input.get(i)?;
        n |= u64::from(b & 127) << (7 * i);
        if b < 128 {
            if (b == 0 && i > 0) || n > u64::from(u32::MAX) {
                return None;
            }
            return Some((n as u32, i + 1));
        }
    }
    None
}
