//! What decides stands at each position: the byte in which two items differ, the neighbours that
//! are out of order, the gap where a key isn't; and limits at their edges.

#[allow(dead_code, reason = "the other tests use the rest")]
mod common;
#[allow(dead_code, reason = "the crate calls the rest")]
#[path = "../src/raw.rs"]
mod raw;

use common::naive::varint;
use commonware_proved::{
    BiMapError, BiMapView, Certificate, CertificateLimits, Committee, EncodeError, MEMBER_SIZE,
    MapView, Refusal, Set, SetView,
};

/// Statuses of the library.
const OK: u32 = 0;
const ABSENT: u32 = 12;
const REPEATED_VALUE: u32 = 18;

/// Sizes of items: one word or several, and some bytes more.
const SIZES: [usize; 8] = [8, 16, 20, 24, 32, 33, 48, 96];

/// How many neighbours share their first eight bytes, or their first four where they have eight:
/// none, three, or all.
const RUNS: [usize; 3] = [1, 3, usize::MAX];

/// Numbers of items that are tried.
const COUNTS: [usize; 8] = [2, 3, 16, 17, 127, 128, 129, 300];

/// Bytes before an input, so that its words stand at no multiple of eight.
const PREFIX: [u8; 3] = [0xee; 3];

/// Returns the item that has the number of its run first and this number last.
fn item(size: usize, run: usize, index: usize, number: usize) -> Vec<u8> {
    let mut item = vec![0x5a; size];
    item[..4].copy_from_slice(&((index / run) as u32).to_be_bytes());
    item[size - 4..].copy_from_slice(&(number as u32).to_be_bytes());
    item
}

/// Returns this number of items in order, one after another, which have odd numbers.
fn items(size: usize, run: usize, count: usize) -> Vec<u8> {
    (0..count)
        .flat_map(|i| item(size, run, i, 2 * i + 1))
        .collect()
}

/// An encoded map behind a prefix, whose values are numbers of four bytes.
struct Input {
    bytes: Vec<u8>,
    size: usize,
    start: usize,
}

impl Input {
    fn new(size: usize, keys: &[u8]) -> Input {
        let count = keys.len() / size;
        let head = varint(count as u64);
        let values: Vec<u8> = (0..count as u32).flat_map(u32::to_be_bytes).collect();
        let bytes = [&PREFIX, &head[..], keys, &head, &values].concat();
        let start = PREFIX.len() + head.len();
        Input { bytes, size, start }
    }

    /// Swaps the keys before and at an index.
    fn swap(&mut self, index: usize) {
        let pair = self.start + (index - 1) * self.size;
        let (before, from) = self.bytes[pair..].split_at_mut(self.size);
        before.swap_with_slice(&mut from[..self.size]);
    }

    /// Returns what the readers of sets, of maps and of bimaps say in a range, each how many items
    /// there are.
    fn read(&self, least: usize, most: usize) -> [Result<usize, Refusal>; 3] {
        let (size, input) = (self.size, &self.bytes[PREFIX.len()..]);
        let set = SetView::read(size, input, least..=most).map(|(set, _)| set.len());
        if size == 32 {
            let committee = Committee::read(input, least..=most).map(|(it, _)| it.len());
            assert_eq!(committee, set);
            let typed = Set::<32>::read(input, least..=most).map(|(it, _)| it.len());
            assert_eq!(typed, set);
        }
        let map = MapView::read(size, 4, input, least..=most).map(|(map, _)| map.len());
        let bimap = match BiMapView::read(size, 4, input, least..=most) {
            Ok((bimap, _)) => Ok(bimap.len()),
            Err(BiMapError::Refused(refusal)) => Err(refusal),
            Err(repeated) => panic!("{repeated}"),
        };
        [set, map, bimap]
    }

    fn read_all(&self) -> [Result<usize, Refusal>; 3] {
        self.read(0, usize::MAX)
    }
}

/// The keys are read, but not where two neighbours at one of these indices are swapped or the same.
fn order_is_tested(size: usize, run: usize, count: usize, indices: impl Iterator<Item = usize>) {
    let mut input = Input::new(size, &items(size, run, count));
    let refused = [Err(Refusal::NotStrict); 3];
    assert_eq!(input.read_all(), [Ok(count); 3], "{size} {run} {count}");
    for index in indices {
        input.swap(index);
        assert_eq!(input.read_all(), refused, "{size} {run} {count} {index}");
        input.swap(index);
        let at = input.start + index * size;
        let kept = input.bytes[at..][..size].to_vec();
        input.bytes.copy_within(at - size..at, at);
        assert_eq!(input.read_all(), refused, "{size} {run} {count} {index}");
        input.bytes[at..][..size].copy_from_slice(&kept);
    }
    assert_eq!(input.read_all(), [Ok(count); 3], "{size} {run} {count}");
}

#[test]
fn neighbours_out_of_order_are_seen_at_each_index() {
    for size in SIZES {
        for run in RUNS {
            for count in COUNTS {
                order_is_tested(size, run, count, 1..count);
            }
        }
    }
    let indices = [1, 255, 256, 257, 65_535, 65_536, 65_537, 69_998, 69_999];
    for (size, run) in [(8, 1), (20, 3), (32, usize::MAX), (48, 3), (96, 1)] {
        order_is_tested(size, run, 70_000, indices.into_iter());
    }
}

/// Returns the status and the index of a key.
fn set_position(keys: &[u8], key: &[u8]) -> (u32, usize) {
    // SAFETY: each pointer and the length after it are those of one slice.
    let view =
        unsafe { raw::commonware_set_position(keys.as_ptr(), keys.len(), key.as_ptr(), key.len()) };
    if key.len() == MEMBER_SIZE && keys.len().is_multiple_of(MEMBER_SIZE) {
        let members = keys.len() / MEMBER_SIZE;
        // SAFETY: the members are as many as the length says, and the key is one.
        let same =
            unsafe { raw::commonware_committee_position(keys.as_ptr(), members, key.as_ptr()) };
        assert_eq!((same.status, same.index), (view.status, view.index));
    }
    (view.status, view.index)
}

/// Each key is found, and the gap before and after each.
fn gaps_are_told(size: usize, run: usize, count: usize) {
    let buffer = [&PREFIX[..], &items(size, run, count)].concat();
    let keys = &buffer[PREFIX.len()..];
    for (index, key) in keys.chunks(size).enumerate() {
        let case = (size, run, count, index);
        assert_eq!(set_position(keys, key), (OK, index), "{case:?}");
        for (number, gap) in [(2 * index, index), (2 * index + 2, index + 1)] {
            let other = item(size, run, index, number);
            assert_eq!(set_position(keys, &other), (ABSENT, gap), "{case:?}");
        }
    }
}

#[test]
fn the_gap_of_a_key_is_told_at_each_index() {
    for size in SIZES {
        for run in RUNS {
            for count in COUNTS {
                gaps_are_told(size, run, count);
            }
        }
    }
    for count in [65_535, 65_536, 65_537, 70_000] {
        gaps_are_told(20, 3, count);
        gaps_are_told(32, usize::MAX, count);
        gaps_are_told(48, 1, count);
    }
}

/// Calls with the size, an item, and one that is greater by the byte at a position, whatever
/// follows it.
fn for_each_position(call: impl Fn(usize, &[u8], &[u8])) {
    for size in (1..=50).chain([63, 64, 65, 95, 96, 97]) {
        for at in 0..size {
            for bytes in [(0, 1), (0, 255), (127, 128), (254, 255)] {
                for after in [(0x5a, 0x5a), (255, 0), (0, 255)] {
                    let (mut less, mut greater) = (vec![0x5a; size], vec![0x5a; size]);
                    (less[at], greater[at]) = bytes;
                    less[at + 1..].fill(after.0);
                    greater[at + 1..].fill(after.1);
                    call(size, &less, &greater);
                }
            }
        }
    }
}

/// Returns the status, the repeat and the room of a bimap of the keys 5 and 7 to these values.
fn read_values(size: usize, values: [&[u8]; 2]) -> (u32, (usize, usize), [u32; 2]) {
    let input = [&[2, 5, 7, 2], values[0], values[1]].concat();
    let mut room = [9; 2];
    // SAFETY: each pointer and the length after it are those of one slice; the room is a new one.
    let view = unsafe {
        let (from, length) = (input.as_ptr(), input.len());
        raw::commonware_bimap_read(1, size, from, length, 0, 9, room.as_mut_ptr(), room.len())
    };
    (view.status, (view.first, view.second), room)
}

#[test]
fn each_byte_of_a_value_makes_it_another() {
    for_each_position(|size, less, greater| {
        assert_eq!(read_values(size, [less, greater]), (OK, (0, 0), [0, 1]));
        assert_eq!(read_values(size, [greater, less]), (OK, (0, 0), [1, 0]));
        let repeated = (REPEATED_VALUE, (0, 1), [0, 1]);
        assert_eq!(read_values(size, [less, less]), repeated);
        let input = [&[2, 5, 7, 2], greater, less].concat();
        let bimap = BiMapView::decode(1, size, &input).expect("a bimap");
        assert_eq!(bimap.get_key(greater), Some(&[5][..]));
        assert_eq!(bimap.get_key(less), Some(&[7][..]));
    });
}

#[test]
fn each_byte_of_a_key_makes_it_another() {
    for_each_position(|size, less, greater| {
        let set = [&[2], less, greater].concat();
        let one = [&[1], less].concat();
        for (first, second) in [(less, greater), (greater, less)] {
            let keys = [first, second].concat();
            assert_eq!(SetView::encode_dedup(size, &keys), Ok(set.clone()));
            let values = if first == less { [2, 3, 4] } else { [2, 4, 3] };
            let pairs = [first, &[3], second, &[4]].concat();
            let map = [&set[..], &values].concat();
            assert_eq!(MapView::encode_dedup(size, 1, &pairs), Ok(map.clone()));
            assert_eq!(MapView::encode(size, 1, &pairs), Ok(map));
        }
        assert_eq!(
            SetView::encode_dedup(size, &[less, less].concat()),
            Ok(one.clone())
        );
        let pairs = [less, &[3], less, &[4]].concat();
        let map = [&one[..], &[1, 3]].concat();
        assert_eq!(MapView::encode_dedup(size, 1, &pairs), Ok(map));
        let repeated = Err(EncodeError::RepeatedKey {
            first: 0,
            second: 1,
        });
        assert_eq!(MapView::encode(size, 1, &pairs), repeated);
    });
}

/// Two items that differ in their last byte alone are written, read and found.
fn large_items_are_told_apart(size: usize) {
    let (mut less, mut greater) = (vec![0x5a; size], vec![0x5a; size]);
    (less[size - 1], greater[size - 1]) = (1, 2);
    let (less, greater) = (&less[..], &greater[..]);
    let set = [&[2], less, greater].concat();
    let written = SetView::encode_dedup(size, &[greater, less, greater].concat());
    assert!(written.as_ref() == Ok(&set), "{size}");
    let keys = SetView::decode(size, &set).expect("a set");
    let places = [less, greater].map(|key| keys.position(key));
    assert_eq!(places, [Some(0), Some(1)], "{size}");
    let wrong = [&[2], greater, less].concat();
    let refused = SetView::decode(size, &wrong).err();
    assert_eq!(refused, Some(Refusal::NotStrict), "{size}");

    let pairs = [greater, less, less, greater].concat();
    let map = [&set[..], &[2], greater, less].concat();
    let encoders = [MapView::encode_dedup, MapView::encode];
    for written in encoders.map(|encode| encode(size, size, &pairs)) {
        assert!(written.as_ref() == Ok(&map), "{size}");
    }
    let bimap = BiMapView::decode(size, size, &map).expect("a bimap");
    for (key, value) in [(less, greater), (greater, less)] {
        assert!(bimap.get_value(key) == Some(value), "{size}");
        assert!(bimap.get_key(value) == Some(key), "{size}");
    }
    let twice = MapView::encode(size, 0, &[less, less].concat());
    assert_eq!(
        twice.err(),
        Some(EncodeError::RepeatedKey {
            first: 0,
            second: 1
        }),
        "{size}"
    );
}

#[test]
fn items_past_every_buffer_are_told_apart() {
    for size in [
        1_000, 4_095, 4_096, 4_097, 65_535, 65_536, 65_537, 1_000_003,
    ] {
        large_items_are_told_apart(size);
    }
}

#[test]
fn limits_hold_at_their_edges() {
    for count in [
        0, 1, 2, 127, 128, 255, 256, 257, 300, 65_535, 65_536, 70_000,
    ] {
        let input = Input::new(32, &items(32, 3, count));
        // A limit that is cut to 32 bits lets others through.
        let wraps = 1 << 32;
        let limits = [
            0,
            count.saturating_sub(1),
            count,
            count + 1,
            wraps,
            wraps + count,
            usize::MAX,
        ];
        for least in limits {
            for most in limits {
                let result = match (least..=most).contains(&count) {
                    true => Ok(count),
                    false => Err(Refusal::InvalidLength(count)),
                };
                assert_eq!(
                    input.read(least, most),
                    [result; 3],
                    "{count} {least} {most}"
                );
            }
        }
    }
}

#[test]
fn limits_of_a_certificate_hold_at_their_edges() {
    let bytes = Certificate::encode(&[7; 300], &[0, 5, 9]).expect("a certificate");
    let wraps = 1 << 32;
    for most_bytes in [0, 299, 300, 301, wraps, wraps + 299, usize::MAX] {
        for most_signers in [0, 2, 3, 4, wraps, wraps + 2, usize::MAX] {
            let result = match (most_bytes < 300, most_signers < 3) {
                (true, _) => Err(Refusal::InvalidLength(300)),
                (_, true) => Err(Refusal::InvalidLength(3)),
                _ => Ok(3),
            };
            let limits = CertificateLimits {
                value_bytes: most_bytes,
                signers: most_signers,
            };
            let read = Certificate::read(&bytes, limits);
            let read = read.map(|(certificate, _)| certificate.signers().len());
            assert_eq!(read, result, "{most_bytes} {most_signers}");
        }
    }
}
