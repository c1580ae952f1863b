//! Bytes in hexadecimal, as `Debug` prints them.

use crate::{Items, Pairs};
use core::fmt;

/// Bytes, printed as a text of two digits each.
pub struct Hex<'a>(pub &'a [u8]);

impl fmt::Debug for Hex<'_> {
    fn fmt(&self, f: &mut fmt::Formatter<'_>) -> fmt::Result {
        f.write_str("\"")?;
        for byte in self.0 {
            write!(f, "{byte:02x}")?;
        }
        f.write_str("\"")
    }
}

/// Items, printed as a list.
pub struct HexItems<'a>(pub Items<'a>);

impl fmt::Debug for HexItems<'_> {
    fn fmt(&self, f: &mut fmt::Formatter<'_>) -> fmt::Result {
        f.debug_list().entries(self.0.clone().map(Hex)).finish()
    }
}

/// Pairs, printed as a map.
pub struct HexPairs<'a>(pub Pairs<'a>);

impl fmt::Debug for HexPairs<'_> {
    fn fmt(&self, f: &mut fmt::Formatter<'_>) -> fmt::Result {
        let pairs = self.0.clone();
        let pairs = pairs.map(|(key, value)| (Hex(key), Hex(value)));
        f.debug_map().entries(pairs).finish()
    }
}
