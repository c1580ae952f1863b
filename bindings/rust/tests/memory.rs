//! Each allocation fails in turn, with all after it: no block is lost, and all are freed.
//!
//! The three functions of the heap are defined here, in place of those of the archive.

use commonware_proved::{
    BiMapBuf, BiMapError, BiMapView, Certificate, CertificateBuf, CheckError, Committee,
    CommitteeBuf, ConflictError, EncodeError, EquivocationError, FaultModel, MapBuf, MapView,
    Refusal, Set, SetBuf, SetView, WeightedCheckError, WeightedConflictError,
    WeightedEquivocationError, Weights, WeightsError, check_encoded, conflict_encoded,
    equivocation_encoded, slot_value, weighted_check_encoded, weighted_conflict_encoded,
    weighted_equivocation_encoded,
};
use std::cell::Cell;
use std::ptr::NonNull;

unsafe extern "C" {
    fn malloc(size: usize) -> *mut u8;
    fn realloc(block: *mut u8, size: usize) -> *mut u8;
    fn free(block: *mut u8);
}

thread_local! {
    static REQUESTS: Cell<usize> = const { Cell::new(0) };
    static ALLOWED: Cell<usize> = const { Cell::new(usize::MAX) };
    static LIVE: Cell<usize> = const { Cell::new(0) };
}

#[repr(C)]
struct Tried {
    ok: bool,
    block: NonNull<u8>,
}

fn tried(block: *mut u8) -> Tried {
    match NonNull::new(block) {
        Some(block) => Tried { ok: true, block },
        None => Tried {
            ok: false,
            block: NonNull::dangling(),
        },
    }
}

/// Counts a request for memory; returns whether it is let through.
fn is_allowed() -> bool {
    let requests = REQUESTS.get();
    REQUESTS.set(requests + 1);
    requests < ALLOWED.get()
}

#[unsafe(no_mangle)]
extern "C" fn commonware_alloc(size: usize, align: usize) -> Tried {
    if !is_allowed() {
        return tried(std::ptr::null_mut());
    }
    LIVE.set(LIVE.get() + 1);
    // SAFETY: `malloc` takes any size.
    tried(unsafe { malloc(size.max(align)) })
}

/// # Safety
///
/// `block` came from one of these functions, and wasn't freed.
#[unsafe(no_mangle)]
unsafe extern "C" fn commonware_realloc(
    block: *mut u8,
    _kept: usize,
    size: usize,
    align: usize,
) -> Tried {
    if !is_allowed() {
        return tried(std::ptr::null_mut());
    }
    // SAFETY: as the caller promises.
    tried(unsafe { realloc(block, size.max(align)) })
}

/// # Safety
///
/// As for `commonware_realloc`.
#[unsafe(no_mangle)]
unsafe extern "C" fn commonware_dealloc(block: *mut u8) {
    LIVE.set(LIVE.get() - 1);
    // SAFETY: as the caller promises.
    unsafe { free(block) }
}

/// Makes the call with each request refused in turn, until one run has none refused; returns how
/// many requests there are.
fn refuse_each<T, E: PartialEq + std::fmt::Debug>(
    refused: &E,
    call: impl Fn() -> Result<T, E>,
) -> usize {
    for allowed in 0.. {
        REQUESTS.set(0);
        ALLOWED.set(allowed);
        let result = call();
        ALLOWED.set(usize::MAX);
        assert_eq!(LIVE.get(), 0, "a block is lost after {allowed} requests");
        match result {
            Ok(_) => {
                assert_eq!(REQUESTS.get(), allowed);
                return allowed;
            }
            Err(error) => assert_eq!(&error, refused, "after {allowed} requests"),
        }
    }
    unreachable!("some run has no request refused")
}

#[test]
fn reading_a_committee_allocates_nothing() {
    let bytes = Committee::encode_dedup(&[[2; 32], [1; 32]]).unwrap();
    let requests = refuse_each(&Refusal::Memory, || Committee::try_from(&bytes[..]));
    assert_eq!(requests, 0);
    let committee = Committee::try_from(&bytes[..]).unwrap();
    assert_eq!(
        refuse_each(&(), || committee.position(&[2; 32]).ok_or(())),
        0
    );
}

#[test]
fn reading_sets_and_maps_allocates_nothing() {
    let keys: Vec<u8> = (0..200u8).flat_map(|i| [i; 48]).collect();
    let set = [&[200, 1][..], &keys].concat();
    let map = [&set[..], &[200, 1], &[7; 200]].concat();
    let call = || SetView::decode(48, &set);
    assert_eq!(refuse_each(&Refusal::Memory, call), 0);
    assert_eq!(
        refuse_each(&(), || call().unwrap().position(&[77; 48]).ok_or(())),
        0
    );
    let call = || MapView::decode(48, 1, &map);
    assert_eq!(refuse_each(&Refusal::Memory, call), 0);
    assert_eq!(
        refuse_each(&(), || call().unwrap().get_value(&[77; 48]).ok_or(())),
        0
    );
    assert_eq!(
        refuse_each(&Refusal::Memory, || Set::<48>::try_from(&set[..])),
        0
    );
}

#[test]
fn reading_bimaps_allocates_nothing_in_the_library() {
    let lists: Vec<u8> = (0..100u8).flat_map(|i| [i; 48]).collect();
    let (half, values) = ([&[100][..], &lists].concat(), (0..100u8).rev());
    let mut bytes: Vec<u8> = half.iter().copied().chain([100]).chain(values).collect();
    let memory = BiMapError::Refused(Refusal::Memory);
    let requests = refuse_each(&memory, || BiMapView::decode(48, 1, &bytes).map(drop));
    assert_eq!(requests, 0);
    *bytes.last_mut().unwrap() = 99;
    let repeated = || BiMapView::decode(48, 1, &bytes).map(drop).err().ok_or(());
    assert_eq!(refuse_each(&(), repeated), 0);
}

#[test]
fn writing_a_committee_returns_each_allocation_failure() {
    let keys: Vec<_> = (0..200u8).rev().map(|i| [i; 32]).collect();
    let requests = refuse_each(&EncodeError::Memory, || Committee::encode_dedup(&keys));
    assert!(requests > 0);
}

#[test]
fn writing_a_set_returns_each_allocation_failure() {
    let keys: Vec<_> = (0..200u8).rev().map(|i| [i; 48]).collect();
    let requests = refuse_each(&EncodeError::Memory, || Set::encode_dedup(&keys));
    assert!(requests > 0);
    let risen: Vec<u8> = keys.iter().rev().flatten().copied().collect();
    let requests = refuse_each(&EncodeError::Memory, || SetView::encode_dedup(48, &risen));
    assert_eq!(requests, 0, "keys in order take no memory");
    let none = || SetView::encode_dedup(0, &risen).err().ok_or(());
    assert_eq!(refuse_each(&(), none), 0, "a size of 0 is seen first");
}

#[test]
fn writing_a_map_returns_each_allocation_failure() {
    let pairs: Vec<u8> = (0..200u8).rev().flat_map(|i| [i; 28]).collect();
    let requests = refuse_each(&EncodeError::Memory, || {
        MapView::encode_dedup(20, 8, &pairs)
    });
    assert!(requests > 0);
    let risen: Vec<u8> = (0..200u8).flat_map(|i| [i; 28]).collect();
    let requests = refuse_each(&EncodeError::Memory, || {
        MapView::encode_dedup(20, 8, &risen)
    });
    assert_eq!(requests, 0, "pairs of keys in order take no memory");
}

#[test]
fn writing_a_map_of_unique_keys_returns_each_allocation_failure() {
    let mut pairs: Vec<u8> = (0..200u8).rev().flat_map(|i| [i; 28]).collect();
    let encode = |pairs: &[u8]| MapView::encode(20, 8, pairs);
    assert!(refuse_each(&EncodeError::Memory, || encode(&pairs)) > 0);
    let risen: Vec<u8> = (0..200u8).flat_map(|i| [i; 28]).collect();
    assert_eq!(refuse_each(&EncodeError::Memory, || encode(&risen)), 0);
    pairs.extend([7; 28]);
    let find = || match encode(&pairs) {
        Err(EncodeError::RepeatedKey {
            first: 192,
            second: 200,
        }) => Ok(()),
        Err(error) => Err(error),
        Ok(_) => panic!("the last pair has the key of an earlier one"),
    };
    assert!(refuse_each(&EncodeError::Memory, find) > 0);
}

#[test]
fn owning_what_is_made_returns_each_allocation_failure() {
    let keys: Vec<_> = (0..200u8).rev().map(|i| [i; 32]).collect();
    let pairs = || keys.iter().map(|key| (key, [key[0]]));
    let memory = EncodeError::Memory;
    assert!(refuse_each(&memory, || CommitteeBuf::from_keys_dedup(&keys)) > 0);
    assert!(refuse_each(&memory, || SetBuf::from_keys_dedup(32, &keys)) > 0);
    assert!(refuse_each(&memory, || MapBuf::from_pairs(32, 1, pairs())) > 0);
    assert!(refuse_each(&memory, || BiMapBuf::from_pairs(32, 1, pairs())) > 0);
    let parts = || CertificateBuf::from_parts(b"x", &[1, 2]);
    assert_eq!(refuse_each(&memory, parts), 0);
}

#[test]
fn writing_a_certificate_allocates_nothing() {
    let signers: Vec<u32> = (0..200).collect();
    let requests = refuse_each(&EncodeError::Memory, || Certificate::encode(b"x", &signers));
    assert_eq!(requests, 0);
}

#[test]
fn reading_a_certificate_allocates_nothing() {
    let signers: Vec<u32> = (0..5_000).collect();
    let bytes = Certificate::encode(&[7; 100_000], &signers).unwrap();
    let requests = refuse_each(&Refusal::Memory, || Certificate::try_from(&bytes[..]));
    assert_eq!(requests, 0);
}

#[test]
fn a_conflict_allocates_nothing() {
    let signers: Vec<u32> = (0..5_000).collect();
    let inputs = [7, 8].map(|byte| Certificate::encode(&[byte; 100_000], &signers).unwrap());
    let call = || conflict_encoded(FaultModel::N3F1, 5_000, &inputs[0], &inputs[1]);
    assert_eq!(refuse_each(&ConflictError::Memory, call), 0);
}

#[test]
fn slots_are_written_and_judged_without_an_allocation() {
    let signers: Vec<u32> = (0..5_000).collect();
    let call = |decision: &[u8]| slot_value(&[7; 100_000], decision);
    assert_eq!(refuse_each(&EncodeError::Memory, || call(b"A")), 0);
    let inputs = [b"A", b"B"].map(|decision| call(decision).unwrap());
    let inputs = inputs.map(|value| Certificate::encode(&value, &signers).unwrap());
    let call = || equivocation_encoded(FaultModel::N3F1, 5_000, &inputs[0], &inputs[1]);
    assert_eq!(refuse_each(&EquivocationError::Memory, call), 0);
    let call = || check_encoded(FaultModel::N3F1, 5_000, &inputs[0]);
    assert_eq!(refuse_each(&CheckError::NoMembers, call), 0);
}

#[test]
fn weights_are_taken_and_judged_by_without_an_allocation() {
    let (items, model) = ([3; 5_000], FaultModel::N3F1);
    assert_eq!(
        refuse_each(&WeightsError::Empty, || Weights::new(&items)),
        0
    );
    let weights = Weights::new(&items).unwrap();
    let signers: Vec<u32> = (0..5_000).collect();
    let inputs = [b"A", b"B"].map(|decision| slot_value(b"7", decision).unwrap());
    let inputs = inputs.map(|value| Certificate::encode(&value, &signers).unwrap());
    let call = || weighted_check_encoded(model, &weights, &inputs[0]);
    assert_eq!(refuse_each(&WeightedCheckError::Outside, call), 0);
    let call = || weighted_conflict_encoded(model, &weights, &inputs[0], &inputs[1]);
    assert_eq!(refuse_each(&WeightedConflictError::Memory, call), 0);
    let call = || weighted_equivocation_encoded(model, &weights, &inputs[0], &inputs[1]);
    assert_eq!(refuse_each(&WeightedEquivocationError::Memory, call), 0);
}
