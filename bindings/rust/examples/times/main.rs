//! Nanoseconds a call, through the static library and by plain Rust that does the same checks. Hold
//! it to one core (taskset). With the word `keys` after it, those of sets of keys of several sizes;
//! with the word `weights`, those of certificates by weight.

use commonware_proved::{
    Certificate, Committee, FaultModel, Member, check_encoded, conflict_encoded,
    equivocation_encoded, slot_value,
};
use std::cmp::Ordering;
use std::env;
use std::hint::black_box;
use timing::compare;
use varint::varint;

mod keys;
#[allow(dead_code, reason = "the crate calls the rest")]
#[path = "../../src/raw.rs"]
mod raw;
mod timing;
mod varint;
mod weights;

/// Returns the members in place, and what follows them.
#[inline(never)]
fn plain_view(input: &[u8], least: usize, most: usize) -> Option<(&[Member], &[u8])> {
    let (count, start) = varint(input)?;
    let count = count as usize;
    if count < least || most < count {
        return None;
    }
    let rest = &input[start..];
    let size = count.checked_mul(32)?;
    if rest.len() < size {
        return None;
    }
    let (members, _) = rest[..size].as_chunks::<32>();
    if members.windows(2).any(|w| w[0] >= w[1]) {
        return None;
    }
    Some((members, &rest[size..]))
}

/// The same into a list, item by item.
#[inline(never)]
fn plain_list(input: &[u8], least: usize, most: usize) -> Option<(Vec<Member>, &[u8])> {
    let (count, start) = varint(input)?;
    let count = count as usize;
    if count < least || most < count {
        return None;
    }
    let mut rest = &input[start..];
    let mut members: Vec<Member> = Vec::with_capacity(count.min(rest.len() / 32));
    for _ in 0..count {
        let (member, more) = rest.split_first_chunk::<32>()?;
        members.push(*member);
        rest = more;
    }
    if members.windows(2).any(|w| w[0] >= w[1]) {
        return None;
    }
    Some((members, rest))
}

#[inline(never)]
fn plain_write(members: &[Member]) -> Vec<u8> {
    let mut items = members.to_vec();
    items.sort();
    items.dedup();
    let mut n = items.len();
    let mut out = Vec::with_capacity(5 + 32 * n);
    while n >= 128 {
        out.push((n % 128 + 128) as u8);
        n /= 128;
    }
    out.push(n as u8);
    out.extend(items.iter().flatten());
    out
}

#[inline(never)]
fn plain_index(members: &[Member], key: &Member) -> Option<usize> {
    members.binary_search(key).ok()
}

#[inline(never)]
fn plain_quorum(k: u32, n: u32) -> u32 {
    if k < 2 || n == 0 { 0 } else { n - (n - 1) / k }
}

/// Returns `n` random keys.
fn random_keys(seed: &mut u64, n: u32) -> Vec<Member> {
    let mut next = || {
        *seed ^= *seed << 13;
        *seed ^= *seed >> 7;
        *seed ^= *seed << 17;
        seed.to_le_bytes()
    };
    (0..n)
        .map(|_| {
            let mut key = [0; 32];
            for part in key.chunks_mut(8) {
                part.copy_from_slice(&next());
            }
            key
        })
        .collect()
}

fn main() {
    println!(
        "{:<34} {:>12} {:>12}  ratio (quartiles)",
        "", "library", "plain Rust"
    );
    match env::args().nth(1).as_deref() {
        Some("keys") => return keys::compare_all(),
        Some("weights") => return weights::compare_all(),
        _ => {}
    }
    compare(
        "quorum",
        10_000,
        || {
            black_box(FaultModel::N3F1.quorum(black_box(100)));
        },
        || {
            black_box(plain_quorum(black_box(3), black_box(100)));
        },
    );
    let mut seed = 1;
    for n in [4, 100, 256] {
        let keys = random_keys(&mut seed, n);
        let bytes = Committee::encode_dedup(&keys).unwrap();
        assert_eq!(bytes, plain_write(&keys));
        let rounds = 8_000 / n;
        let read = || {
            black_box(Committee::read(black_box(&bytes), 1..=256)).unwrap();
        };
        compare(&format!("read {n}, in place"), rounds, read, || {
            black_box(plain_view(black_box(&bytes), 1, 256)).unwrap();
        });
        compare(&format!("read {n}, into a list"), rounds, read, || {
            black_box(plain_list(black_box(&bytes), 1, 256)).unwrap();
        });
        let committee = Committee::try_from(&bytes[..]).unwrap();
        compare(
            &format!("index of each of {n}"),
            1 + rounds / 20,
            || {
                for key in &keys {
                    black_box(committee.position(black_box(key)));
                }
            },
            || {
                for key in &keys {
                    black_box(plain_index(committee.members(), black_box(key)));
                }
            },
        );
        compare(
            &format!("write {n} random keys"),
            1 + rounds / 40,
            || drop(black_box(Committee::encode_dedup(black_box(&keys))).unwrap()),
            || drop(black_box(plain_write(black_box(&keys)))),
        );
        conflicts(n, 1 + rounds / 4);
    }
}

/// Compares the conflict and the equivocation of two certificates that all of n members signed, the
/// check of one, and its reading.
fn conflicts(n: u32, rounds: u32) {
    let signers: Vec<u32> = (0..n).collect();
    let inputs = [b"a", b"b"].map(|decision| {
        let value = slot_value(b"view 7", decision).unwrap();
        Certificate::encode(&value, &signers).unwrap()
    });
    compare(
        &format!("certificate of {n}"),
        rounds,
        || drop(black_box(Certificate::try_from(black_box(&inputs[0][..]))).unwrap()),
        || drop(black_box(plain_certificate(black_box(&inputs[0]))).unwrap()),
    );
    compare(
        &format!("check of {n}"),
        rounds,
        || {
            black_box(check_encoded(FaultModel::N3F1, n, black_box(&inputs[0]))).unwrap();
        },
        || {
            black_box(plain_check(n, black_box(&inputs[0]))).unwrap();
        },
    );
    compare(
        &format!("equivocation of {n}"),
        rounds,
        || {
            drop(
                black_box(equivocation_encoded(
                    FaultModel::N3F1,
                    n,
                    &inputs[0],
                    &inputs[1],
                ))
                .unwrap(),
            )
        },
        || drop(black_box(plain_equivocation(n, &inputs[0], &inputs[1])).unwrap()),
    );
    compare(
        &format!("conflict of {n}"),
        rounds,
        || {
            drop(
                black_box(conflict_encoded(
                    FaultModel::N3F1,
                    n,
                    &inputs[0],
                    &inputs[1],
                ))
                .unwrap(),
            )
        },
        || drop(black_box(plain_conflict(n, &inputs[0], &inputs[1])).unwrap()),
    );
}

/// The signers of a certificate in its bytes: where they begin, how many there are, and the number
/// after the last.
struct Signers<'a> {
    bytes: &'a [u8],
    count: u32,
    past: u64,
}

impl Iterator for Signers<'_> {
    type Item = u32;

    fn next(&mut self) -> Option<u32> {
        self.count = self.count.checked_sub(1)?;
        let (signer, size) = varint(self.bytes)?;
        self.bytes = &self.bytes[size..];
        Some(signer)
    }
}

/// Returns the value and the signers of an input that is exactly one certificate, in place.
fn plain_parts(input: &[u8]) -> Option<(&[u8], Signers<'_>)> {
    let (length, start) = varint(input)?;
    let (value, rest) = input[start..].split_at_checked(length as usize)?;
    let (count, start) = varint(rest)?;
    let bytes = &rest[start..];
    let (mut rest, mut past, mut is_strict) = (bytes, 0, true);
    for _ in 0..count {
        let (signer, size) = varint(rest)?;
        is_strict &= past <= u64::from(signer);
        past = u64::from(signer) + 1;
        rest = &rest[size..];
    }
    let signers = Signers { bytes, count, past };
    (is_strict && rest.is_empty()).then_some((value, signers))
}

/// Returns the slot and the decision of a value.
fn plain_slot(value: &[u8]) -> Option<(&[u8], &[u8])> {
    let (length, start) = varint(value)?;
    value[start..].split_at_checked(length as usize)
}

/// A value, its slot and its decision, and how many signed it.
type Checked<'a> = (&'a [u8], Option<(&'a [u8], &'a [u8])>, u32);

#[inline(never)]
fn plain_check(n: u32, input: &[u8]) -> Option<Checked<'_>> {
    let (value, signers) = plain_parts(input)?;
    let is_quorum = signers.past <= u64::from(n) && signers.count >= plain_quorum(3, n);
    is_quorum.then_some((value, plain_slot(value), signers.count))
}

#[inline(never)]
fn plain_equivocation(n: u32, first: &[u8], second: &[u8]) -> Option<Vec<u32>> {
    let (x, one) = plain_parts(first)?;
    let (y, two) = plain_parts(second)?;
    let ((slot, decision), (other, contrary)) = (plain_slot(x)?, plain_slot(y)?);
    if slot != other || decision == contrary {
        return None;
    }
    plain_both(n, one, two)
}

#[inline(never)]
fn plain_certificate(input: &[u8]) -> Option<(&[u8], Vec<u32>)> {
    let (value, signers) = plain_parts(input)?;
    let mut list = vec![0; input.len()];
    let count = signers.count as usize;
    for (place, signer) in list.iter_mut().zip(signers) {
        *place = signer;
    }
    list.truncate(count);
    Some((value, list))
}

#[inline(never)]
fn plain_conflict(n: u32, first: &[u8], second: &[u8]) -> Option<Vec<u32>> {
    let (x, one) = plain_parts(first)?;
    let (y, two) = plain_parts(second)?;
    if x == y {
        return None;
    }
    plain_both(n, one, two)
}

/// Returns the signers of both, where each list is a quorum of n members.
fn plain_both(n: u32, mut one: Signers<'_>, mut two: Signers<'_>) -> Option<Vec<u32>> {
    let quorum = plain_quorum(3, n);
    let is_outside = one.past.max(two.past) > u64::from(n);
    if is_outside || one.count < quorum || two.count < quorum {
        return None;
    }
    let mut both = Vec::with_capacity(one.count.min(two.count) as usize);
    let (mut a, mut b) = (one.next(), two.next());
    while let (Some(i), Some(j)) = (a, b) {
        match i.cmp(&j) {
            Ordering::Less => a = one.next(),
            Ordering::Greater => b = two.next(),
            Ordering::Equal => {
                both.push(i);
                (a, b) = (one.next(), two.next());
            }
        }
    }
    Some(both)
}
