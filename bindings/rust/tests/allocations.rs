//! What the crate itself takes of memory, by an allocator that counts: how many bytes, and that
//! each allocation failure is an error.

use commonware_proved::{
    BiMapBuf, BiMapError, BiMapView, Certificate, CertificateBuf, CertificateLimits, Committee,
    CommitteeBuf, ConflictError, EncodeError, EquivocationError, FaultModel, MapBuf, MapView,
    Refusal, Set, SetBuf, SetView, WeightedConflictError, WeightedEquivocationError, Weights,
    Which, check, conflict, conflict_encoded, equivocation, equivocation_encoded, slot_value,
    weighted_check_encoded, weighted_conflict_encoded, weighted_equivocation_encoded,
};
use std::alloc::{GlobalAlloc, Layout, System};
use std::cell::Cell;
use std::ptr;

thread_local! {
    static BYTES: Cell<usize> = const { Cell::new(0) };
    static REQUESTS: Cell<usize> = const { Cell::new(0) };
    static ALLOWED: Cell<usize> = const { Cell::new(usize::MAX) };
}

/// The system's allocator, which counts what it is asked for and refuses what it has to.
struct Counting;

/// Counts a request for memory; returns whether it is let through.
fn is_allowed(bytes: usize) -> bool {
    BYTES.set(BYTES.get() + bytes);
    let requests = REQUESTS.get();
    REQUESTS.set(requests + 1);
    requests < ALLOWED.get()
}

// SAFETY: each call is the system's, or returns no block.
unsafe impl GlobalAlloc for Counting {
    unsafe fn alloc(&self, layout: Layout) -> *mut u8 {
        if !is_allowed(layout.size()) {
            return ptr::null_mut();
        }
        // SAFETY: as the caller promises.
        unsafe { System.alloc(layout) }
    }

    unsafe fn realloc(&self, block: *mut u8, layout: Layout, size: usize) -> *mut u8 {
        if !is_allowed(size) {
            return ptr::null_mut();
        }
        // SAFETY: as the caller promises.
        unsafe { System.realloc(block, layout, size) }
    }

    unsafe fn dealloc(&self, block: *mut u8, layout: Layout) {
        // SAFETY: as the caller promises.
        unsafe { System.dealloc(block, layout) }
    }
}

#[global_allocator]
static COUNTING: Counting = Counting;

/// Returns what a call returns, and how many bytes it asks for.
fn counted<T>(call: impl FnOnce() -> T) -> (T, usize) {
    BYTES.set(0);
    let result = call();
    (result, BYTES.get())
}

/// Makes the call with each request refused in turn, until one run has none refused; returns how
/// many requests there are.
fn refuse_each<T, E: PartialEq + std::fmt::Debug>(
    refused: &E,
    call: impl Fn() -> Result<T, E>,
) -> usize {
    for allowed in 0.. {
        REQUESTS.set(0);
        ALLOWED.set(allowed);
        let result = call();
        ALLOWED.set(usize::MAX);
        match result {
            Ok(_) => return allowed,
            Err(error) => assert_eq!(&error, refused, "after {allowed} requests"),
        }
    }
    unreachable!("some run has no request refused")
}

/// Returns the limits of these lengths.
fn limits(value_bytes: usize, signers: usize) -> CertificateLimits {
    CertificateLimits {
        value_bytes,
        signers,
    }
}

/// The input is refused so by each reader of a certificate, of which none asks for memory.
fn is_refused_for_nothing(input: Vec<u8>, refusal: Refusal) {
    let (result, bytes) = counted(|| Certificate::decode(&input).map(drop));
    assert_eq!((result, bytes), (Err(refusal), 0));
    if !matches!(refusal, Refusal::LeftOver(_)) {
        let read = || Certificate::read(&input, CertificateLimits::NONE).map(drop);
        assert_eq!(counted(read), (Err(refusal), 0));
    }
    let (result, bytes) = counted(|| CertificateBuf::decode(input).map(drop));
    assert_eq!((result, bytes), (Err(refusal), 0));
}

#[test]
fn a_refused_certificate_asks_for_no_memory() {
    is_refused_for_nothing(vec![0xff; 64 << 20], Refusal::InvalidVarint);
    is_refused_for_nothing(vec![], Refusal::EndOfInput);
    // The most signers that can be stated, and as many bytes as fit.
    let mut stated = vec![0, 255, 255, 255, 255, 15];
    stated.extend(vec![0; 1 << 20]);
    is_refused_for_nothing(stated, Refusal::EndOfInput);
    let signers: Vec<u32> = (0..300).collect();
    let whole = Certificate::encode(&[7; 1_000], &signers).expect("a certificate");
    for end in 0..whole.len() {
        is_refused_for_nothing(whole[..end].to_vec(), Refusal::EndOfInput);
    }
    let last = whole.len() - 1;
    let mut changed = whole.clone();
    changed[last] = 0;
    is_refused_for_nothing(changed, Refusal::InvalidVarint);
    let mut changed = whole.clone();
    changed.copy_within(last - 3..last - 1, last - 1);
    is_refused_for_nothing(changed, Refusal::NotStrict);
    let longer = [&whole[..], &[0; 9]].concat();
    is_refused_for_nothing(longer, Refusal::LeftOver(9));
    let read = || Certificate::read(&whole, limits(999, 300)).map(drop);
    assert_eq!(counted(read), (Err(Refusal::InvalidLength(1_000)), 0));
    let read = || Certificate::read(&whole, limits(1_000, 299)).map(drop);
    assert_eq!(counted(read), (Err(Refusal::InvalidLength(300)), 0));
}

#[test]
fn a_certificate_asks_for_its_indices_alone() {
    let bytes = Certificate::encode(&[7; 1 << 20], &[0, 5, 9]).expect("a certificate");
    let (certificate, asked) = counted(|| Certificate::decode(&bytes).expect("a certificate"));
    assert_eq!((certificate.signers(), asked), (&[0, 5, 9][..], 12));
    let longer = [&bytes[..], &[1; 1 << 20]].concat();
    let read = || Certificate::read(&longer, limits(1 << 20, 1_000_000)).expect("a certificate");
    let ((read, rest), asked) = counted(read);
    assert_eq!(
        (read == certificate, rest.len(), asked),
        (true, 1 << 20, 12)
    );
    let (owned, asked) = counted(|| CertificateBuf::decode(bytes.clone()).expect("one"));
    assert_eq!(asked - bytes.len(), 12);
    let (signers, asked) = counted(|| owned.as_view().signers().len());
    assert_eq!((signers, asked), (3, 0));
    let (slot, asked) = counted(|| certificate.slot().map(<[u8]>::len));
    assert_eq!((slot, asked), (Some(7), 0));
    let (decision, asked) = counted(|| certificate.decision().map(<[u8]>::len));
    assert_eq!((decision, asked), (Some((1 << 20) - 8), 0));
    let (signers, asked) = counted(|| certificate.into_signers());
    assert_eq!((signers, asked), (vec![0, 5, 9], 0));
    let (none, asked) = counted(|| Certificate::decode(&[1, 7, 0]).expect("a certificate"));
    assert_eq!((none.signers(), asked), (&[][..], 0));
}

#[test]
fn sets_and_maps_ask_for_nothing_and_bimaps_for_their_indices() {
    let pairs: Vec<_> = (0..200u8).map(|i| ([i; 32], [255 - i; 8])).collect();
    let owned = BiMapBuf::from_pairs(32, 8, pairs.iter().copied()).expect("a bimap");
    let map = owned.as_view().as_map();
    let (bytes, keys) = (map.as_bytes(), map.keys().as_bytes());
    assert_eq!(counted(|| Committee::decode(keys).map(drop)), (Ok(()), 0));
    assert_eq!(counted(|| Set::<32>::decode(keys).map(drop)), (Ok(()), 0));
    assert_eq!(counted(|| SetView::decode(32, keys).map(drop)), (Ok(()), 0));
    assert_eq!(
        counted(|| MapView::decode(32, 8, bytes).map(drop)),
        (Ok(()), 0)
    );
    assert_eq!(
        counted(|| BiMapView::decode(32, 8, bytes).map(drop)),
        (Ok(()), 800)
    );
    let shorter = &bytes[..bytes.len() - 1];
    let refused = Err(BiMapError::Refused(Refusal::EndOfInput));
    assert_eq!(
        counted(|| BiMapView::decode(32, 8, shorter).map(drop)),
        (refused, 0)
    );
    let (found, asked) = counted(|| owned.as_view().get_key(&[155; 8]).map(|key| key[0]));
    assert_eq!((found, asked), (Some(100), 0));
}

#[test]
fn those_named_ask_for_their_indices_alone() {
    let committee = CommitteeBuf::from_keys_dedup(&[0, 1, 2, 3].map(|i| [i; 32])).expect("members");
    let (committee, model) = (committee.as_view(), FaultModel::N3F1);
    let value = |decision: u8| slot_value(&[7; 1_000], &[decision]).expect("a value");
    let certificates = [(0, &[0, 1, 2][..]), (1, &[0, 1, 2, 3])];
    let certificates = certificates
        .map(|(decision, signers)| CertificateBuf::from_parts(&value(decision), signers));
    let [first, second] = certificates.map(|it| it.expect("a certificate"));
    let (first, second) = (first.as_view(), second.as_view());
    let call = || conflict(model, &committee, &first, &second).map(|named| named.len());
    assert_eq!(counted(call), (Ok(3), 12));
    let call = || equivocation(model, &committee, &first, &second).map(|named| named.len());
    assert_eq!(counted(call), (Ok(3), 12));
    let call = || check(model, &committee, &first).map(|checked| checked.signer_count());
    assert_eq!(counted(call), (Ok(3), 0));
    let (one, two) = (first.as_bytes(), second.as_bytes());
    let call = || conflict_encoded(model, 4, one, two).map(|named| named.len());
    assert_eq!(counted(call), (Ok(3), 12));
    let call = || equivocation_encoded(model, 4, one, two).map(|named| named.len());
    assert_eq!(counted(call), (Ok(3), 12));
}

#[test]
fn those_named_are_the_same_about_the_number_that_one_call_finds() {
    for count in [1, 127, 128, 129, 300, 5_000] {
        // At a k of 2 a quorum of 2c + 3 members is c + 2, and these two share c.
        let members = 2 * count + 3;
        let signers = [0..count + 2, 2..members].map(Vec::from_iter);
        let inputs = [(b"A", &signers[0]), (b"B", &signers[1])];
        let inputs = inputs.map(|(decision, signers)| {
            Certificate::encode(&slot_value(b"7", decision).expect("a value"), signers)
        });
        let [one, two] = inputs.map(|input| input.expect("a certificate"));
        let model = FaultModel::new(2).expect("a model");
        let both: Vec<u32> = (2..count + 2).collect();
        let asked = 4 * both.len();
        let call = || conflict_encoded(model, members, &one, &two);
        assert_eq!(counted(call), (Ok(both.clone()), asked), "{count}");
        let call = || equivocation_encoded(model, members, &one, &two);
        assert_eq!(counted(call), (Ok(both), asked), "{count}");
    }
}

/// The inputs name no one in a committee of a number of members, and no call asks for memory.
fn name_no_one_for_nothing(members: u32, inputs: [&[u8]; 2], expected: ConflictError) {
    let [one, two] = inputs;
    let model = FaultModel::N3F1;
    let call = || conflict_encoded(model, members, one, two);
    assert_eq!(counted(call), (Err(expected), 0));
    let (result, asked) = counted(|| equivocation_encoded(model, members, one, two).map(drop));
    assert_eq!((result.is_err(), asked), (true, 0), "{expected}");
}

#[test]
fn inputs_that_name_no_one_ask_for_no_memory() {
    let garbage = vec![0xff; 64 << 20];
    let varint = Refusal::InvalidVarint;
    let first = ConflictError::Input(Which::First, varint);
    name_no_one_for_nothing(u32::MAX, [&garbage, &garbage], first);
    let signers: Vec<u32> = (0..70_000).collect();
    let [one, two] = [b"A", b"B"].map(|decision| {
        let value = slot_value(b"7", decision).expect("a value");
        Certificate::encode(&value, &signers).expect("a certificate")
    });
    let second = ConflictError::Input(Which::Second, varint);
    name_no_one_for_nothing(u32::MAX, [&one, &garbage], second);
    name_no_one_for_nothing(70_000, [&one, &one], ConflictError::SameValue);
    let outside = ConflictError::Outside(Which::First);
    name_no_one_for_nothing(69_999, [&one, &two], outside);
    let few = ConflictError::TooFew(Which::First);
    name_no_one_for_nothing(u32::MAX, [&one, &two], few);
    name_no_one_for_nothing(0, [&one, &two], ConflictError::NoMembers);
}

#[test]
fn those_named_by_weight_ask_for_their_indices_alone() {
    for count in [1, 127, 128, 129, 300, 5_000u32] {
        let items = vec![7; count as usize];
        let (weights, asked) = counted(|| Weights::new(&items).expect("weights"));
        assert_eq!(asked, 0);
        let signers: Vec<u32> = (0..count).collect();
        let [one, two] = [b"A", b"B"].map(|decision| {
            let value = slot_value(b"7", decision).expect("a value");
            Certificate::encode(&value, &signers).expect("a certificate")
        });
        let model = FaultModel::N3F1;
        let call = || weighted_check_encoded(model, &weights, &one).map(|it| it.weight());
        assert_eq!(counted(call), (Ok(weights.total()), 0), "{count}");
        let wanted = (Ok(signers.clone()), 4 * signers.len());
        let call = || weighted_conflict_encoded(model, &weights, &one, &two).map(|it| it.members);
        assert_eq!(counted(call), wanted, "{count}");
        let wanted = (Ok(signers.clone()), 4 * signers.len());
        let call =
            || weighted_equivocation_encoded(model, &weights, &one, &two).map(|it| it.members);
        assert_eq!(counted(call), wanted, "{count}");
        let same = || weighted_conflict_encoded(model, &weights, &one, &one).map(drop);
        assert_eq!(counted(same), (Err(WeightedConflictError::SameValue), 0));
        let shorter = Weights::new(&items[..1]).expect("weights");
        let outside = || weighted_equivocation_encoded(model, &shorter, &one, &two).map(drop);
        if count > 1 {
            let refused = WeightedEquivocationError::Outside(Which::First);
            assert_eq!(counted(outside), (Err(refused), 0));
        }
    }
}

/// A result has no more than twice the memory that it takes.
fn is_trimmed(what: &str, result: Result<Vec<u8>, EncodeError>) {
    let bytes = result.expect("it is written");
    let most = 2 * bytes.len();
    assert!(
        bytes.capacity() <= most,
        "{what}: {} of {}",
        bytes.len(),
        bytes.capacity()
    );
}

#[test]
fn results_keep_no_more_than_twice_their_memory() {
    for count in [0, 1, 2, 3, 100, 70_000usize] {
        let keys = vec![[7; 32]; count];
        is_trimmed("committee", Committee::encode_dedup(&keys));
        is_trimmed(
            "committee",
            CommitteeBuf::from_keys_dedup(&keys).map(CommitteeBuf::into_bytes),
        );
        is_trimmed("set", Set::encode_dedup(&keys));
        is_trimmed("set", SetView::encode_dedup(32, keys.as_flattened()));
        is_trimmed(
            "set",
            SetBuf::from_keys_dedup(32, &keys).map(SetBuf::into_bytes),
        );
        is_trimmed("map", MapView::encode_dedup(31, 1, keys.as_flattened()));
        let signers: Vec<u32> = (0..count as u32).collect();
        is_trimmed("certificate", Certificate::encode(b"x", &signers));
        let owned = CertificateBuf::from_parts(b"", &signers);
        is_trimmed("certificate", owned.map(CertificateBuf::into_bytes));
        is_trimmed("value", slot_value(&vec![7; count], b""));
    }
    is_trimmed("map", MapView::encode(1, 1, &[]));
    let none: [([u8; 1], [u8; 1]); 0] = [];
    is_trimmed(
        "map",
        MapBuf::from_pairs(1, 1, none).map(MapBuf::into_bytes),
    );
    is_trimmed(
        "bimap",
        BiMapBuf::from_pairs(1, 1, none).map(BiMapBuf::into_bytes),
    );
}

#[test]
fn a_result_keeps_its_room_where_there_is_no_memory_for_less() {
    let signers: Vec<u32> = (0..100).collect();
    REQUESTS.set(0);
    ALLOWED.set(1);
    let result = Certificate::encode(b"x", &signers);
    ALLOWED.set(usize::MAX);
    let bytes = result.expect("it is written");
    // The length of the value, its byte, the number of signers, and one byte for each.
    assert_eq!((bytes.len(), bytes.capacity()), (103, 10 + 1 + 500));
    assert_eq!(bytes[..4], [1, b'x', 100, 0]);
}

#[test]
fn each_allocation_failure_of_a_reader_is_an_error() {
    let certificate = Certificate::encode(b"x", &[1, 2]).expect("a certificate");
    let decode = || Certificate::decode(&certificate);
    assert_eq!(refuse_each(&Refusal::Memory, decode), 1);
    let read = || Certificate::read(&certificate, limits(9, 9));
    assert_eq!(refuse_each(&Refusal::Memory, read), 1);
    let bimap = [2, 5, 7, 2, 0, 1];
    let memory = BiMapError::Refused(Refusal::Memory);
    assert_eq!(refuse_each(&memory, || BiMapView::decode(1, 1, &bimap)), 1);
}

#[test]
fn each_allocation_failure_of_a_writer_is_an_error() {
    let (memory, keys) = (EncodeError::Memory, [[7; 32], [5; 32]]);
    let refused = |call: &dyn Fn() -> Result<(), EncodeError>| refuse_each(&memory, call);
    assert_eq!(refused(&|| Committee::encode_dedup(&keys).map(drop)), 1);
    assert_eq!(refused(&|| Set::encode_dedup(&keys).map(drop)), 1);
    assert_eq!(
        refused(&|| MapView::encode_dedup(1, 1, &[1, 2]).map(drop)),
        1
    );
    let unique = || MapView::encode(1, 1, &[1, 2]).map(drop);
    assert_eq!(refused(&unique), 1);
    assert_eq!(refused(&|| Certificate::encode(b"x", &[1]).map(drop)), 1);
    assert_eq!(refused(&|| slot_value(b"x", b"y").map(drop)), 1);
    assert!(refused(&|| CommitteeBuf::from_keys_dedup(&keys).map(drop)) > 0);
    assert!(refused(&|| SetBuf::from_keys_dedup(32, keys).map(drop)) > 1);
    let pairs = [(b"b", b"xx"), (b"a", b"yy")];
    assert!(refused(&|| MapBuf::from_pairs(1, 2, pairs).map(drop)) > 1);
    assert!(refused(&|| BiMapBuf::from_pairs(1, 2, pairs).map(drop)) > 2);
    assert!(refused(&|| CertificateBuf::from_parts(b"x", &[1]).map(drop)) > 1);
}

#[test]
fn each_allocation_failure_of_those_named_is_an_error() {
    let value = |decision| slot_value(b"7", decision).expect("a value");
    let inputs = [&value(b"A"), &value(b"B")].map(|value| Certificate::encode(value, &[0]));
    let [one, two] = inputs.map(|input| input.expect("a certificate"));
    let model = FaultModel::N3F1;
    let call = || conflict_encoded(model, 1, &one, &two);
    assert_eq!(refuse_each(&ConflictError::Memory, call), 1);
    let call = || equivocation_encoded(model, 1, &one, &two);
    assert_eq!(refuse_each(&EquivocationError::Memory, call), 1);
    let committee = CommitteeBuf::from_keys_dedup(&[[0; 32]]).expect("a committee");
    let [first, second] = [&one, &two].map(|it| Certificate::decode(it).expect("one"));
    let call = || conflict(model, &committee.as_view(), &first, &second);
    assert_eq!(refuse_each(&ConflictError::Memory, call), 1);
    let call = || equivocation(model, &committee.as_view(), &first, &second);
    assert_eq!(refuse_each(&EquivocationError::Memory, call), 1);
    let weights = Weights::new(&[5]).expect("weights");
    let call = || weighted_conflict_encoded(model, &weights, &one, &two);
    assert_eq!(refuse_each(&WeightedConflictError::Memory, call), 1);
    let call = || weighted_equivocation_encoded(model, &weights, &one, &two);
    assert_eq!(refuse_each(&WeightedEquivocationError::Memory, call), 1);
}
