//! Sets of keys of several sizes: what is read and looked up in place, and what is written.

use crate::timing::compare;
use crate::varint::varint;
use commonware_proved::SetView;
use std::cmp::Ordering;
use std::hint::black_box;

/// Returns the bytes of the keys in place.
#[inline(never)]
fn plain_read(size: usize, input: &[u8]) -> Option<&[u8]> {
    let (count, start) = varint(input)?;
    let room = (count as usize).checked_mul(size)?;
    let keys = input[start..].get(..room)?;
    let mut each = keys.chunks_exact(size);
    if let Some(mut last) = each.next() {
        for key in each {
            if last >= key {
                return None;
            }
            last = key;
        }
    }
    Some(keys)
}

#[inline(never)]
fn plain_index(keys: &[u8], key: &[u8]) -> Option<usize> {
    let size = key.len();
    let (mut low, mut high) = (0, keys.len() / size);
    while low < high {
        let middle = low + (high - low) / 2;
        match keys[middle * size..(middle + 1) * size].cmp(key) {
            Ordering::Less => low = middle + 1,
            Ordering::Greater => high = middle,
            Ordering::Equal => return Some(middle),
        }
    }
    None
}

#[inline(never)]
fn plain_write(size: usize, keys: &[u8]) -> Vec<u8> {
    let mut each: Vec<&[u8]> = keys.chunks_exact(size).collect();
    each.sort();
    each.dedup();
    let mut n = each.len();
    let mut out = Vec::with_capacity(5 + size * n);
    while n >= 128 {
        out.push((n % 128 + 128) as u8);
        n /= 128;
    }
    out.push(n as u8);
    for key in each {
        out.extend_from_slice(key);
    }
    out
}

/// Returns `n` keys of `size` bytes, one after another, whose first `shared` bytes are the same and
/// whose others are random.
fn keys_of(seed: &mut u64, n: usize, size: usize, shared: usize) -> Vec<u8> {
    let mut next = || {
        *seed ^= *seed << 13;
        *seed ^= *seed >> 7;
        *seed ^= *seed << 17;
        (*seed >> 32) as u8
    };
    (0..n)
        .flat_map(|_| {
            (0..size)
                .map(|at| if at < shared { 7 } else { next() })
                .collect::<Vec<_>>()
        })
        .collect()
}

fn compare_keys(seed: &mut u64, n: usize, size: usize, shared: usize) {
    let keys = keys_of(seed, n, size, shared);
    let bytes = plain_write(size, &keys);
    assert_eq!(
        SetView::encode_dedup(size, &keys).as_deref(),
        Ok(&bytes[..])
    );
    let set = SetView::decode(size, &bytes).unwrap();
    let name = |call: &str| format!("{call} {n} of {size}, {shared} shared");
    let rounds = 1 + (8_000 / n) as u32;
    compare(
        &name("read"),
        rounds,
        || {
            black_box(SetView::read(size, black_box(&bytes), 0..=n)).unwrap();
        },
        || {
            black_box(plain_read(black_box(size), black_box(&bytes))).unwrap();
        },
    );
    let sought: Vec<&[u8]> = keys.chunks_exact(size).take(256).collect();
    compare(
        &name("index"),
        1 + rounds / 20,
        || {
            for key in &sought {
                black_box(set.position(black_box(key)));
            }
        },
        || {
            for key in &sought {
                black_box(plain_index(set.key_bytes(), black_box(key)));
            }
        },
    );
    if n < 100_000 {
        compare(
            &name("write"),
            1 + rounds / 40,
            || drop(black_box(SetView::encode_dedup(size, black_box(&keys))).unwrap()),
            || drop(black_box(plain_write(size, black_box(&keys)))),
        );
    }
}

/// Compares the calls for sizes that are in use, and for keys that share a prefix.
pub fn compare_all() {
    let mut seed = 1;
    for n in [4, 256, 100_000] {
        for size in [20, 32, 33, 48, 96] {
            for shared in [0, 16] {
                compare_keys(&mut seed, n, size, shared);
            }
        }
    }
}
