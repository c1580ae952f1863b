//! Random inputs that are right, nearly right and wrong. The same in each run.

use super::naive::varint;
use commonware_proved::Member;

/// A generator of numbers (xorshift).
pub struct Random(pub u64);

impl Random {
    /// Returns a number of 64 bits.
    pub fn next(&mut self) -> u64 {
        self.0 ^= self.0 << 13;
        self.0 ^= self.0 >> 7;
        self.0 ^= self.0 << 17;
        self.0
    }

    /// Returns a number below `n`.
    pub fn below(&mut self, n: usize) -> usize {
        (self.next() >> 11) as usize % n
    }
}

/// Makes bytes wrong in one of several ways, or leaves them.
pub fn spoil(random: &mut Random, bytes: &mut Vec<u8>) {
    match random.below(8) {
        0 => bytes.truncate(random.below(bytes.len() + 1)),
        1 => {
            for _ in 0..random.below(40) {
                bytes.push(random.next() as u8);
            }
        }
        2 => {
            let at = random.below(bytes.len());
            bytes[at] = random.next() as u8;
        }
        // An overlong encoding of the first varint, where it has one byte.
        3 if bytes[0] < 128 => {
            bytes[0] |= 128;
            bytes.insert(1, 0);
        }
        4 => {
            let n = random.next();
            let count = varint(n >> random.below(64));
            bytes.splice(..1, count);
        }
        _ => {}
    }
}

/// Returns some keys that differ in their first byte, in the middle, at the end or nowhere.
pub fn some_keys(random: &mut Random) -> Vec<Member> {
    (0..random.below(9))
        .map(|_| {
            let mut member = [0; 32];
            member[[0, 7, 8, 16, 24, 31][random.below(6)]] = random.below(3) as u8;
            member[15] = [0, 1, 127, 128, 255][random.below(5)];
            member
        })
        .collect()
}

/// Returns a value, and signers of a committee of `members` that are nearly always in order, and
/// members.
pub fn some_parts(random: &mut Random, members: usize) -> (Vec<u8>, Vec<u32>) {
    let value = (0..random.below(3))
        .map(|_| random.below(2) as u8)
        .collect();
    let keep = 1 + random.below(8);
    let mut signers: Vec<u32> = (0..members as u32)
        .filter(|_| random.below(9) < keep + 2)
        .collect();
    if random.below(12) == 0 {
        signers.push((members + random.below(200)) as u32);
    }
    if random.below(40) == 0 {
        signers.push(signers.first().copied().unwrap_or(0));
    }
    if random.below(40) == 0 && signers.len() > 1 {
        let at = random.below(signers.len());
        let other = random.below(signers.len());
        signers.swap(at, other);
    }
    (value, signers)
}
