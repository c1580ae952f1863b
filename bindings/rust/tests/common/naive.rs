//! The encodings and the results once more, in plain Rust and item by item: what the library is
//! compared with. It is written from `docs/FORMAT.md`.

use commonware_proved::{ConflictError, EncodeError, Member, Refusal, Which};
use std::collections::BTreeSet;

/// Returns the varint of a number: groups of seven bits, the lowest first.
pub fn varint(mut n: u64) -> Vec<u8> {
    let mut bytes = Vec::new();
    while n >= 128 {
        bytes.push((n % 128 + 128) as u8);
        n /= 128;
    }
    bytes.push(n as u8);
    bytes
}

/// Decodes the varint at the start of the input; returns what follows it.
pub fn read_varint(input: &[u8]) -> Result<(u32, &[u8]), Refusal> {
    let mut n = 0u64;
    for i in 0..5 {
        let Some(&b) = input.get(i) else {
            return Err(Refusal::EndOfInput);
        };
        n |= u64::from(b & 127) << (7 * i);
        if b < 128 {
            if (b == 0 && i > 0) || n > u64::from(u32::MAX) {
                return Err(Refusal::InvalidVarint);
            }
            return Ok((n as u32, &input[i + 1..]));
        }
    }
    Err(Refusal::InvalidVarint)
}

/// Decodes the committee of `least` to `most` members at the start of the input; returns what
/// follows it.
pub fn read_members(
    input: &[u8],
    least: usize,
    most: usize,
) -> Result<(Vec<Member>, &[u8]), Refusal> {
    let (count, mut rest) = read_varint(input)?;
    let count = count as usize;
    if count < least || most < count {
        return Err(Refusal::InvalidLength(count));
    }
    let mut members = Vec::new();
    for _ in 0..count {
        let Some((member, more)) = rest.split_first_chunk() else {
            return Err(Refusal::EndOfInput);
        };
        members.push(*member);
        rest = more;
    }
    if members.windows(2).any(|w| w[0] >= w[1]) {
        return Err(Refusal::NotStrict);
    }
    Ok((members, rest))
}

/// Returns the encoding of these members, in their order.
pub fn committee_bytes(members: &[Member]) -> Vec<u8> {
    let mut bytes = varint(members.len() as u64);
    bytes.extend(members.iter().flatten());
    bytes
}

type Parts<'a> = (&'a [u8], Vec<u32>, &'a [u8]);

/// Decodes the certificate at the start of the input into its value and signers; returns what
/// follows it.
pub fn read_parts(
    input: &[u8],
    most_bytes: usize,
    most_signers: usize,
) -> Result<Parts<'_>, Refusal> {
    let (length, rest) = read_varint(input)?;
    let length = length as usize;
    if most_bytes < length {
        return Err(Refusal::InvalidLength(length));
    }
    if rest.len() < length {
        return Err(Refusal::EndOfInput);
    }
    let (value, rest) = rest.split_at(length);
    let (count, mut rest) = read_varint(rest)?;
    if most_signers < count as usize {
        return Err(Refusal::InvalidLength(count as usize));
    }
    let mut signers = Vec::new();
    for _ in 0..count {
        let (signer, more) = read_varint(rest)?;
        signers.push(signer);
        rest = more;
    }
    if signers.windows(2).any(|w| w[0] >= w[1]) {
        return Err(Refusal::NotStrict);
    }
    Ok((value, signers, rest))
}

/// Returns the encoding of a value and of signers, whatever their order.
pub fn certificate_bytes(value: &[u8], signers: &[u32]) -> Vec<u8> {
    let mut bytes = varint(value.len() as u64);
    bytes.extend(value);
    bytes.extend(varint(signers.len() as u64));
    for signer in signers {
        bytes.extend(varint(u64::from(*signer)));
    }
    bytes
}

/// Returns the encoding of a certificate, or the first signer that is out of order.
pub fn encode_parts(value: &[u8], signers: &[u32]) -> Result<Vec<u8>, EncodeError> {
    match signers.windows(2).position(|w| w[0] >= w[1]) {
        Some(place) => Err(EncodeError::NotStrict(place + 1)),
        None => Ok(certificate_bytes(value, signers)),
    }
}

fn exactly_one(input: &[u8]) -> Result<(&[u8], Vec<u32>), Refusal> {
    let (value, signers, rest) = read_parts(input, usize::MAX, usize::MAX)?;
    if !rest.is_empty() {
        return Err(Refusal::LeftOver(rest.len()));
    }
    Ok((value, signers))
}

/// Returns the members that signed both of two certificates for different values.
pub fn accused(
    k: u32,
    members: u32,
    first: &[u8],
    second: &[u8],
) -> Result<Vec<u32>, ConflictError> {
    if members == 0 {
        return Err(ConflictError::NoMembers);
    }
    let (x, a) =
        exactly_one(first).map_err(|refusal| ConflictError::Input(Which::First, refusal))?;
    let (y, b) =
        exactly_one(second).map_err(|refusal| ConflictError::Input(Which::Second, refusal))?;
    if x == y {
        return Err(ConflictError::SameValue);
    }
    let both = [(Which::First, &a), (Which::Second, &b)];
    for (which, signers) in both {
        if signers.iter().any(|i| *i >= members) {
            return Err(ConflictError::Outside(which));
        }
    }
    let quorum = (members - (members - 1) / k) as usize;
    for (which, signers) in both {
        if signers.len() < quorum {
            return Err(ConflictError::TooFew(which));
        }
    }
    let b: BTreeSet<u32> = b.into_iter().collect();
    Ok(a.into_iter().filter(|i| b.contains(i)).collect())
}
