//! The check of a certificate by weight, which goes over the weights too.

use crate::raw;
use crate::timing::compare;
use crate::varint::varint;
use commonware_proved::{Certificate, slot_value};
use std::hint::black_box;

/// A value, its slot and its decision, how many signed it, and what they weigh.
type Weighed<'a> = (&'a [u8], Option<(&'a [u8], &'a [u8])>, u32, u64);

/// Returns what weights come to, where they are positive and their sum fits.
fn total(weights: &[u64]) -> Option<u64> {
    let mut total = 0u64;
    for weight in weights {
        if *weight == 0 {
            return None;
        }
        total = total.checked_add(*weight)?;
    }
    (total > 0).then_some(total)
}

/// Returns the value and the bytes of the signers, with their number.
fn parts(input: &[u8]) -> Option<(&[u8], &[u8], u32)> {
    let (length, start) = varint(input)?;
    let (value, rest) = input[start..].split_at_checked(length as usize)?;
    let (count, start) = varint(rest)?;
    Some((value, &rest[start..], count))
}

/// Returns the value, where there are members with these weights and no others that signed it, and
/// they weigh a quorum. The signers are decoded where they are.
#[inline(never)]
fn plain_in_place<'a>(k: u32, weights: &[u64], input: &'a [u8]) -> Option<Weighed<'a>> {
    let total = total(weights)?;
    let (value, mut rest, count) = parts(input)?;
    let (mut past, mut sum, mut is_strict, mut are_members) = (0, 0u64, true, true);
    for _ in 0..count {
        let (signer, size) = varint(rest)?;
        is_strict &= past <= u64::from(signer);
        past = u64::from(signer) + 1;
        rest = &rest[size..];
        // Until it is known that no signer comes twice, the sum may wrap.
        match weights.get(signer as usize) {
            Some(weight) => sum = sum.wrapping_add(*weight),
            None => are_members = false,
        }
    }
    weighed(
        k,
        total,
        value,
        is_strict && rest.is_empty() && are_members,
        (count, sum),
    )
}

/// The same, with the signers in a list first.
#[inline(never)]
fn plain_into_a_list<'a>(k: u32, weights: &[u64], input: &'a [u8]) -> Option<Weighed<'a>> {
    let total = total(weights)?;
    let (value, mut rest, count) = parts(input)?;
    let mut signers = Vec::with_capacity((count as usize).min(rest.len()));
    for _ in 0..count {
        let (signer, size) = varint(rest)?;
        signers.push(signer);
        rest = &rest[size..];
    }
    let is_strict = signers.windows(2).all(|pair| pair[0] < pair[1]);
    let are_members = signers
        .last()
        .is_none_or(|last| (*last as usize) < weights.len());
    if !is_strict || !rest.is_empty() || !are_members {
        return None;
    }
    let sum = signers.iter().map(|signer| weights[*signer as usize]).sum();
    weighed(k, total, value, true, (count, sum))
}

/// Returns the parts of a value, where its signers are right and weigh a quorum.
fn weighed(
    k: u32,
    total: u64,
    value: &[u8],
    are_right: bool,
    (count, sum): (u32, u64),
) -> Option<Weighed<'_>> {
    let quorum = total - (total - 1) / u64::from(k);
    let slot =
        varint(value).and_then(|(length, start)| value[start..].split_at_checked(length as usize));
    (are_right && sum >= quorum).then_some((value, slot, count, sum))
}

/// Calls the library as a program in C does.
#[inline(never)]
fn ours(k: u32, weights: &[u64], input: &[u8]) -> raw::WeightedCheckView {
    let (items, bytes) = (weights.as_ptr(), input.as_ptr());
    // SAFETY: each pointer and the length after it are those of one slice.
    unsafe { raw::commonware_weighted_check(k, items, weights.len(), bytes, input.len()) }
}

/// Compares the check of certificates that all of n members signed, who weigh different amounts.
pub fn compare_all() {
    for n in [4, 100, 10_000u32] {
        let weights: Vec<u64> = (0..u64::from(n)).map(|i| 1_000_000 + i * i % 997).collect();
        let signers: Vec<u32> = (0..n).collect();
        let value = slot_value(b"view 7", b"a block's digest of 32 bytes ...").unwrap();
        let input = Certificate::encode(&value, &signers).unwrap();
        let view = ours(3, &weights, &input);
        let plain = plain_in_place(3, &weights, &input).unwrap();
        assert_eq!(Some(plain), plain_into_a_list(3, &weights, &input));
        assert_eq!((view.status, view.signers), (0, plain.2));
        assert_eq!(view.weight, plain.3);
        let rounds = 1 + 40_000 / n;
        let check = || {
            black_box(ours(black_box(3), black_box(&weights), black_box(&input)));
        };
        compare(&format!("weights of {n}, in place"), rounds, check, || {
            black_box(plain_in_place(
                black_box(3),
                black_box(&weights),
                black_box(&input),
            ));
        });
        compare(
            &format!("weights of {n}, into a list"),
            rounds,
            check,
            || {
                black_box(plain_into_a_list(
                    black_box(3),
                    black_box(&weights),
                    black_box(&input),
                ));
            },
        );
    }
}
