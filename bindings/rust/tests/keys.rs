//! Sets and maps of keys of any size beside a naive implementation, and the library's own calls
//! beside both: 1,000,000 random cases of each, or as many as COMMONWARE_CASES says.

#[allow(dead_code, reason = "the other tests use the rest")]
mod common;
#[allow(dead_code, reason = "the crate calls the rest")]
#[path = "../src/raw.rs"]
mod raw;

use common::cases;
use common::naive::{read_varint, varint};
use common::random::{Random, spoil};
use common::seen::{Seen, name};
use commonware_proved::{Committee, MapView, Member, Refusal, Set, SetView};

/// Sizes that are in use beside those from 0 to 20.
const SIZES: [usize; 4] = [32, 33, 48, 96];

/// Statuses of the library.
const OK: u32 = 0;
const ABSENT: u32 = 12;
const NO_SIZE: u32 = 16;
const NOT_WHOLE: u32 = 17;

/// Returns a size, which is seldom a hostile one.
fn some_size(random: &mut Random) -> usize {
    match random.below(30) {
        at @ 0..=20 => at,
        at @ 21..=28 => SIZES[at % 4],
        _ => some_large(random),
    }
}

/// Returns a size of which few items have 2^64 bytes or more, about a small number where that
/// wraps.
fn some_large(random: &mut Random) -> usize {
    match random.below(3) {
        0 => (usize::MAX / (1 + random.below(300))).wrapping_add(random.below(3)),
        1 => random.below(34) + (1 << (60 + random.below(4))),
        _ => (random.next() >> random.below(32)) as usize,
    }
}

/// Returns up to eight keys of a size that differ in a byte about the ends of words, or nowhere.
fn some_keys(random: &mut Random, size: usize) -> Vec<Vec<u8>> {
    let ends = [0, 7, 8, 15, 16, 23, 24, 31, 47, 95];
    let key = |random: &mut Random| {
        let mut key = vec![0x5a; size];
        for _ in 0..random.below(3).min(size) {
            let at = if random.below(4) > 0 {
                ends[random.below(10)].min(size - 1)
            } else {
                random.below(size)
            };
            key[at] = [0, 1, 0x59, 0x5b, 127, 128, 255][random.below(7)];
        }
        key
    };
    (0..random.below(9)).map(|_| key(random)).collect()
}

/// Returns such keys, which are nearly always in order and each once.
fn some_set(random: &mut Random, size: usize) -> Vec<Vec<u8>> {
    let mut keys = some_keys(random, size);
    let way = random.below(8);
    if way > 0 {
        keys.sort();
    }
    if way > 1 {
        keys.dedup();
    }
    if way == 2 && keys.len() > 1 {
        let at = random.below(keys.len() - 1);
        keys.swap(at, at + 1);
    }
    keys
}

/// Returns the encoding of a list of items, after a number in the place of theirs.
fn list_bytes(count: usize, items: &[Vec<u8>]) -> Vec<u8> {
    let mut bytes = varint(count as u64);
    bytes.extend(items.iter().flatten());
    bytes
}

/// Makes bytes wrong in one of several ways, or flips a bit, or leaves them.
fn spoil_or_flip(random: &mut Random, bytes: &mut Vec<u8>) {
    match random.below(3) {
        0 => spoil(random, bytes),
        1 if random.below(4) == 0 => {
            let at = random.below(bytes.len());
            bytes[at] ^= 1 << random.below(8);
        }
        _ => {}
    }
}

/// Returns a range of lengths that mostly lets all through.
fn some_limits(random: &mut Random) -> (usize, usize) {
    match random.below(4) {
        0 => (random.below(9), random.below(9)),
        1 => (0, 8),
        _ => (0, usize::MAX),
    }
}

/// Returns the bytes behind up to 40 others, and how many those are.
fn behind_some(random: &mut Random, bytes: &[u8]) -> (Vec<u8>, usize) {
    let start = random.below(41);
    let mut buffer = vec![0xee; start];
    buffer.extend(bytes);
    (buffer, start)
}

type Items<'a> = Vec<&'a [u8]>;

/// Takes items one by one.
fn take(size: usize, count: usize, mut rest: &[u8]) -> Result<(Items<'_>, &[u8]), Refusal> {
    let mut items = Vec::new();
    for _ in 0..count {
        let Some((item, more)) = rest.split_at_checked(size) else {
            return Err(Refusal::EndOfInput);
        };
        items.push(item);
        rest = more;
    }
    Ok((items, rest))
}

fn read_count(input: &[u8], least: usize, most: usize) -> Result<(usize, &[u8]), Refusal> {
    let (count, rest) = read_varint(input)?;
    let count = count as usize;
    if count < least || most < count {
        return Err(Refusal::InvalidLength(count));
    }
    Ok((count, rest))
}

/// Decodes the set at the start of the input.
fn read_set(
    size: usize,
    input: &[u8],
    least: usize,
    most: usize,
) -> Result<(Items<'_>, &[u8]), Refusal> {
    let (count, rest) = read_count(input, least, most)?;
    // Of keys of no bytes the first two are the same.
    let count = if size == 0 { count.min(2) } else { count };
    let (keys, rest) = take(size, count, rest)?;
    if keys.windows(2).any(|pair| pair[0] >= pair[1]) {
        return Err(Refusal::NotStrict);
    }
    Ok((keys, rest))
}

type Columns<'a> = (Items<'a>, Items<'a>, &'a [u8]);

/// Decodes the map at the start of the input.
fn read_map(
    sizes: (usize, usize),
    input: &[u8],
    least: usize,
    most: usize,
) -> Result<Columns<'_>, Refusal> {
    let (keys, rest) = read_set(sizes.0, input, least, most)?;
    let (count, rest) = read_count(rest, keys.len(), keys.len())?;
    let (values, rest) = take(sizes.1, count, rest)?;
    Ok((keys, values, rest))
}

/// Returns the status and the number of a refusal.
fn status_of(refusal: &Refusal) -> (u32, usize) {
    match refusal {
        Refusal::EndOfInput => (1, 0),
        Refusal::InvalidVarint => (2, 0),
        Refusal::InvalidLength(length) => (3, *length),
        Refusal::NotStrict => (4, 0),
        _ => panic!("{refusal:?}"),
    }
}

fn set_position(keys: &[u8], key: &[u8]) -> (u32, usize) {
    // SAFETY: each pointer and the length after it are those of one slice.
    let view =
        unsafe { raw::commonware_set_position(keys.as_ptr(), keys.len(), key.as_ptr(), key.len()) };
    (view.status, view.index)
}

/// Reads a set by the library, by the crate and by the naive reader; returns what came of it.
fn try_set(size: usize, input: &[u8], least: usize, most: usize) -> &'static str {
    let case = || format!("{size} {least}..={most} {input:02x?}");
    // SAFETY: the pointer and the length are those of one slice.
    let view = unsafe { raw::commonware_set_read(size, input.as_ptr(), input.len(), least, most) };
    let view = (
        view.status,
        view.count as usize,
        view.number,
        view.start,
        view.left,
    );
    let ours = SetView::read(size, input, least..=most);
    let naive = read_set(size, input, least, most);
    match (&ours, &naive) {
        (Ok((set, rest)), Ok((keys, left))) => {
            let start = input.len() - left.len() - size * keys.len();
            assert_eq!(view, (OK, keys.len(), 0, start, left.len()), "{}", case());
            assert!(set.iter().eq(keys.iter().copied()), "{}", case());
            assert_eq!((set.len(), rest), (keys.len(), left));
            assert_eq!(set.key_size(), size, "{}", case());
            let whole = input.len() - left.len();
            assert_eq!(set.as_bytes(), &input[..whole], "{}", case());
            assert_eq!(set.key_bytes(), &input[start..whole], "{}", case());
            "ok"
        }
        (Err(ours), Err(naive)) => {
            let (status, number) = status_of(naive);
            assert_eq!(view, (status, 0, number, 0, 0), "{}", case());
            assert_eq!(ours, naive, "{}", case());
            name(ours)
        }
        _ => panic!("{ours:?} {naive:?} {}", case()),
    }
}

/// Reads a map by the library, by the crate and by the naive reader; returns what came of it.
fn try_map(sizes: (usize, usize), input: &[u8], least: usize, most: usize) -> &'static str {
    let case = || format!("{sizes:?} {least}..={most} {input:02x?}");
    // SAFETY: the pointer and the length are those of one slice.
    let view = unsafe {
        raw::commonware_map_read(sizes.0, sizes.1, input.as_ptr(), input.len(), least, most)
    };
    let places = (view.keys, view.values, view.left);
    let view = (view.status, view.count as usize, view.number, places);
    let ours = MapView::read(sizes.0, sizes.1, input, least..=most);
    let naive = read_map(sizes, input, least, most);
    match (&ours, &naive) {
        (Ok((map, rest)), Ok((keys, values, left))) => {
            let at_values = input.len() - left.len() - sizes.1 * keys.len();
            let at_keys = varint(keys.len() as u64).len();
            let places = (at_keys, at_values, left.len());
            assert_eq!(view, (OK, keys.len(), 0, places), "{}", case());
            let pairs = keys.iter().copied().zip(values.iter().copied());
            assert!(map.iter().eq(pairs), "{}", case());
            assert_eq!((map.len(), rest), (keys.len(), left));
            assert_eq!((map.key_size(), map.value_size()), sizes, "{}", case());
            let (whole, set) = (input.len() - left.len(), at_keys + sizes.0 * keys.len());
            assert_eq!(map.as_bytes(), &input[..whole], "{}", case());
            assert_eq!(map.keys().as_bytes(), &input[..set], "{}", case());
            "ok"
        }
        (Err(ours), Err(naive)) => {
            let (status, number) = status_of(naive);
            assert_eq!(view, (status, 0, number, (0, 0, 0)), "{}", case());
            assert_eq!(ours, naive, "{}", case());
            name(ours)
        }
        _ => panic!("{ours:?} {naive:?} {}", case()),
    }
}

#[test]
fn sets_are_read_as_by_the_naive_reader() {
    let mut random = Random(0x5E7);
    let mut seen = Seen::default();
    for _ in 0..cases() {
        let size = random.below(30);
        let size = if size > 20 { SIZES[size % 4] } else { size };
        let keys = some_set(&mut random, size);
        let mut bytes = list_bytes(keys.len(), &keys);
        spoil_or_flip(&mut random, &mut bytes);
        let (least, most) = some_limits(&mut random);
        let (buffer, start) = behind_some(&mut random, &bytes);
        // Some bytes are read at another size, too.
        let other = some_size(&mut random);
        let size = if random.below(8) == 0 { other } else { size };
        seen.note(try_set(size, &buffer[start..], least, most));
    }
    seen.assert_each(5, cases() / 100);
}

#[test]
fn maps_are_read_as_by_the_naive_reader() {
    let mut random = Random(0x3A9);
    let mut seen = Seen::default();
    for _ in 0..cases() {
        let size = random.below(30);
        let size = if size > 20 { SIZES[size % 4] } else { size };
        let value_size = random.below(10);
        let keys = some_set(&mut random, size);
        let mut value = || (0..value_size).map(|_| random.next() as u8).collect();
        let values: Vec<Vec<u8>> = keys.iter().map(|_| value()).collect();
        let count = match random.below(24) {
            0 => random.below(9),
            1 => (random.next() >> random.below(64)) as usize % (1 << 33),
            _ => values.len(),
        };
        let mut bytes = list_bytes(keys.len(), &keys);
        let mut after = list_bytes(count, &values);
        // Each of the two lists is spoiled.
        spoil_or_flip(&mut random, &mut after);
        if random.below(3) == 0 {
            spoil_or_flip(&mut random, &mut bytes);
        }
        bytes.extend(after);
        let (least, most) = some_limits(&mut random);
        let (buffer, start) = behind_some(&mut random, &bytes);
        let sizes = match random.below(16) {
            0 => (some_size(&mut random), value_size),
            1 => (size, some_size(&mut random)),
            _ => (size, value_size),
        };
        seen.note(try_map(sizes, &buffer[start..], least, most));
    }
    seen.assert_each(5, cases() / 100);
}

/// Returns a key that is sought among some: one of them, one that differs in a byte, or another.
fn some_sought(random: &mut Random, size: usize, keys: &[Vec<u8>]) -> Vec<u8> {
    let other = some_keys(random, size).pop().unwrap_or_default();
    if keys.is_empty() || random.below(4) == 0 {
        return other;
    }
    let mut key = keys[random.below(keys.len())].clone();
    if size > 0 && random.below(2) == 0 {
        let at = random.below(size);
        key[at] = key[at].wrapping_add([1, 255, 128][random.below(3)]);
    }
    key
}

#[test]
fn keys_are_found_as_by_a_walk() {
    let mut random = Random(0xF00D);
    let mut seen = Seen::default();
    for _ in 0..cases() / 4 {
        let size = random.below(25);
        let size = if size > 20 { SIZES[size % 4] } else { size };
        let mut keys = some_keys(&mut random, size);
        keys.extend(some_keys(&mut random, size));
        keys.sort();
        keys.dedup();
        let (buffer, start) = behind_some(&mut random, &list_bytes(keys.len(), &keys));
        let set = SetView::decode(size, &buffer[start..]).expect("it is a set");
        for _ in 0..4 {
            let key = some_sought(&mut random, size, &keys);
            let walked = keys.iter().position(|it| *it == key);
            assert_eq!(set.position(&key), walked, "{keys:02x?} {key:02x?}");
            assert_eq!(set.contains(&key), walked.is_some());
            let place = set_position(set.key_bytes(), &key);
            if key.len() != size {
                seen.note("another size");
            } else if size == 0 {
                assert_eq!(place, (NO_SIZE, 0));
                seen.note("no size");
            } else if let Some(index) = walked {
                assert_eq!(place, (OK, index), "{keys:02x?} {key:02x?}");
                seen.note("found");
            } else {
                let gap = keys.partition_point(|it| *it < key);
                assert_eq!(place, (ABSENT, gap), "{keys:02x?} {key:02x?}");
                seen.note("absent");
            }
        }
    }
    seen.assert_each(4, cases() / 200);
}

#[test]
fn any_bytes_have_an_index_a_gap_or_a_reason() {
    let mut random = Random(0xB17E5);
    let mut seen = Seen::default();
    for _ in 0..cases() {
        let size = random.below(25);
        let size = if size > 20 { SIZES[size % 4] } else { size };
        let keys = some_keys(&mut random, size);
        let key = some_sought(&mut random, size, &keys);
        let mut bytes: Vec<u8> = keys.iter().flatten().copied().collect();
        if random.below(4) == 0 {
            bytes.truncate(random.below(bytes.len() + 1));
        }
        let (buffer, start) = behind_some(&mut random, &bytes);
        let (status, index) = set_position(&buffer[start..], &key);
        let case = || format!("{bytes:02x?} {key:02x?}");
        if key.is_empty() {
            assert_eq!((status, index), (NO_SIZE, 0), "{}", case());
            seen.note("no size");
            continue;
        }
        let items: Vec<&[u8]> = bytes.chunks(key.len()).collect();
        if !bytes.len().is_multiple_of(key.len()) {
            assert_eq!((status, index), (NOT_WHOLE, 0), "{}", case());
            seen.note("not whole");
        } else if status == OK {
            assert_eq!(items[index], key, "{}", case());
            seen.note("found");
        } else {
            assert_eq!(status, ABSENT, "{}", case());
            let (before, after) = items.split_at(index);
            assert!(before.last().is_none_or(|it| **it < key[..]), "{}", case());
            assert!(after.first().is_none_or(|it| **it > key[..]), "{}", case());
            if items.is_sorted() {
                assert!(!items.contains(&&key[..]), "{}", case());
            }
            seen.note("absent");
        }
    }
    seen.assert_each(4, cases() / 100);
}

#[test]
fn sizes_near_the_limits_have_a_result() {
    let mut seen = Seen::default();
    let counts = [
        0,
        1,
        2,
        3,
        4,
        7,
        8,
        9,
        16,
        64,
        127,
        128,
        1 << 16,
        1 << 31,
        u64::from(u32::MAX),
    ];
    for bits in [1, 3, 8, 31, 32, 33, 59, 60, 61, 62, 63, 64] {
        let power = if bits == 64 { 0 } else { 1usize << bits };
        for size in [2, 1, 0]
            .map(|less| power.wrapping_sub(less))
            .into_iter()
            .chain([
                power.wrapping_add(1),
                power.wrapping_add(2),
                power.wrapping_add(20),
            ])
        {
            for count in counts {
                for length in [0, 1, 2, 8, 15, 16, 17, 160, 161, 162, 163] {
                    let mut input = varint(count);
                    input.extend((1..=length).collect::<Vec<u8>>());
                    seen.note(try_set(size, &input, 0, usize::MAX));
                    seen.note(try_map((size, size), &input, 0, usize::MAX));
                    seen.note(try_map((1, size), &input, 0, usize::MAX));
                    // One value, of this size.
                    let input = [&[1, 7, 1][..], &input].concat();
                    seen.note(try_map((1, size), &input, 0, usize::MAX));
                }
            }
        }
    }
    seen.assert_each(5, 100);
}

/// Returns two keys of which the first is less, by one byte alone or whatever follows it.
fn two_keys(size: usize, at: usize, bytes: (u8, u8), after: (u8, u8)) -> [Vec<u8>; 2] {
    let mut keys = [vec![0x5a; size], vec![0x5a; size]];
    keys[0][at] = bytes.0;
    keys[1][at] = bytes.1;
    keys[0][at + 1..].fill(after.0);
    keys[1][at + 1..].fill(after.1);
    keys
}

#[test]
fn each_byte_decides_which_key_is_less() {
    let sizes = (1..=50).chain([63, 64, 65, 95, 96, 97, 127, 128, 129, 300]);
    for size in sizes {
        for at in 0..size {
            for bytes in [(0, 1), (0, 255), (1, 2), (127, 128), (254, 255)] {
                for after in [(0x5a, 0x5a), (255, 0), (0, 255)] {
                    let [less, greater] = two_keys(size, at, bytes, after);
                    let encoded = |a: &Vec<u8>, b: &Vec<u8>| [&[2][..], a, b].concat();
                    let right = encoded(&less, &greater);
                    assert_eq!(try_set(size, &right, 0, 9), "ok", "{size} {at}");
                    let set = SetView::decode(size, &right).expect("it is a set");
                    assert_eq!(set.position(&less), Some(0), "{size} {at}");
                    assert_eq!(set.position(&greater), Some(1), "{size} {at}");
                    let one = encoded(&less, &less);
                    assert_eq!(try_set(size, &one, 0, 9), "strict", "{size} {at}");
                    let wrong = encoded(&greater, &less);
                    assert_eq!(try_set(size, &wrong, 0, 9), "strict", "{size} {at}");
                    let mut map = wrong;
                    map.extend([2, 7, 7]);
                    assert_eq!(try_map((size, 1), &map, 0, 9), "strict", "{size} {at}");
                    let alone = set_position(&less, &greater);
                    assert_eq!(alone, (ABSENT, 1), "{size} {at}");
                    assert_eq!(set_position(&greater, &less), (ABSENT, 0), "{size} {at}");
                }
            }
        }
    }
}

/// Returns this number of keys in order, which have it in the last bytes or in the first ones.
fn counted_keys(size: usize, count: usize, is_last: bool) -> Vec<Vec<u8>> {
    let key = |number: usize| {
        let number = &(number as u64).to_be_bytes()[8 - size.min(8)..];
        let mut key = vec![0xa5; size];
        let at = if is_last { size - number.len() } else { 0 };
        key[at..][..number.len()].copy_from_slice(number);
        key
    };
    (0..count).map(key).collect()
}

/// The set and the map of these keys are read behind a prefix and before other bytes, and each
/// key is found.
fn goes_both_ways(size: usize, count: usize, is_last: bool) {
    let case = (size, count, is_last);
    let keys = counted_keys(size, count, is_last);
    let value_size = count % 10;
    let values: Vec<Vec<u8>> = (0..count).map(|i| vec![i as u8; value_size]).collect();
    let prefix = [0xee; 5];
    let set_bytes = list_bytes(count, &keys);
    let input = [&prefix, &set_bytes[..], &prefix].concat();
    let (set, rest) = SetView::read(size, &input[5..], count..=count).expect("it is a set");
    assert!(set.iter().eq(keys.iter().map(|key| &key[..])), "{case:?}");
    assert_eq!(rest, prefix, "{case:?}");
    let input = [
        &prefix,
        &set_bytes[..],
        &list_bytes(count, &values),
        &prefix,
    ]
    .concat();
    let (map, rest) = MapView::read(size, value_size, &input[5..], 0..=count).expect("it is a map");
    assert_eq!(rest, prefix, "{case:?}");
    assert!(
        map.values().eq(values.iter().map(|value| &value[..])),
        "{case:?}"
    );
    for (index, key) in keys.iter().enumerate() {
        assert_eq!(set.position(key), Some(index), "{case:?}");
        assert_eq!(map.get_value(key), Some(&values[index][..]), "{case:?}");
        assert_eq!(map.value(index), Some(&values[index][..]), "{case:?}");
        assert_eq!(map.get(index), Some(&key[..]), "{case:?}");
        assert_eq!(map.position(key), Some(index), "{case:?}");
        assert_eq!(set.get(index), Some(&key[..]), "{case:?}");
    }
    let next = &counted_keys(size, count + 1, is_last)[count];
    assert_eq!(set.position(next), None, "{case:?}");
    assert_eq!((map.position(next), map.get_value(next)), (None, None));
    assert_eq!(map.contains(next), set.contains(next), "{case:?}");
    assert_eq!(set.get(count), None, "{case:?}");
    assert_eq!((map.get(count), map.value(count)), (None, None));
    let shorter = &input[5..input.len() - 6];
    if count > 0 && value_size > 0 {
        let refused = MapView::read(size, value_size, shorter, 0..=count);
        assert_eq!(refused, Err(Refusal::EndOfInput), "{case:?}");
    }
}

#[test]
fn each_number_of_keys_goes_both_ways() {
    for is_last in [true, false] {
        for count in 0..=300 {
            for size in [2, 7, 8, 9, 16, 20, 32, 33, 48, 96] {
                goes_both_ways(size, count, is_last);
            }
        }
        // One of each byte is the most that keys of one byte have.
        for count in [0, 1, 127, 128, 255] {
            goes_both_ways(1, count, is_last);
        }
        for count in [16_383, 16_384, 16_385] {
            for size in [2, 3, 8, 20, 32, 33, 48, 96] {
                goes_both_ways(size, count, is_last);
            }
        }
    }
    goes_both_ways(20, 70_000, true);
    goes_both_ways(48, 2_097_152, false);
}

/// The typed set is the untyped one at this size.
fn is_typed<const N: usize>(random: &mut Random) {
    let mut keys = some_set(random, N);
    keys.truncate(if N == 0 { random.below(3) } else { 8 });
    let mut bytes = list_bytes(keys.len(), &keys);
    spoil_or_flip(random, &mut bytes);
    let (least, most) = some_limits(random);
    let typed = Set::<N>::read(&bytes, least..=most);
    let view = SetView::read(N, &bytes, least..=most);
    match (&typed, &view) {
        (Ok((set, rest)), Ok((view, left))) => {
            assert_eq!(
                (set.len(), set.as_bytes(), rest),
                (view.len(), view.as_bytes(), left)
            );
            assert!(set.iter().map(|key| &key[..]).eq(view), "{bytes:02x?}");
            assert_eq!(set.is_empty(), view.is_empty());
            assert_eq!(set.key_bytes(), view.key_bytes());
            for (index, key) in set.into_iter().enumerate() {
                assert_eq!(
                    (set.get(index), set.position(key)),
                    (Some(key), Some(index))
                );
                assert_eq!(
                    (view.get(index), view.position(key)),
                    (Some(&key[..]), Some(index))
                );
            }
            let other = [0x5b; N];
            assert_eq!(set.position(&other), view.position(&other));
            assert_eq!(set.contains(&other), view.contains(&other));
            assert_eq!(set.get(set.len()), None);
        }
        _ => assert_eq!(typed.err(), view.err(), "{bytes:02x?}"),
    }
    let whole = Set::<N>::try_from(&bytes[..]).map(|set| set.len());
    assert_eq!(whole, SetView::decode(N, &bytes).map(|view| view.len()));
}

#[test]
fn typed_sets_are_those_of_their_size() {
    let mut random = Random(0x7E1D);
    for _ in 0..cases() / 10 {
        is_typed::<0>(&mut random);
        is_typed::<1>(&mut random);
        is_typed::<20>(&mut random);
        is_typed::<32>(&mut random);
        is_typed::<33>(&mut random);
        is_typed::<48>(&mut random);
        is_typed::<96>(&mut random);
    }
}

#[test]
fn a_committee_is_a_set_of_keys_of_its_size() {
    let mut random = Random(0xC0);
    for _ in 0..cases() / 10 {
        let keys = some_set(&mut random, 32);
        let mut bytes = list_bytes(keys.len(), &keys);
        spoil_or_flip(&mut random, &mut bytes);
        let committee = Committee::try_from(&bytes[..]).map(|it| it.members());
        assert_eq!(
            committee,
            Set::<32>::try_from(&bytes[..]).map(|it| it.keys())
        );
        let read = Committee::read(&bytes, 1..=4).map(|(it, rest)| (it.members(), rest));
        let set = Set::<32>::read(&bytes, 1..=4).map(|(it, rest)| (it.keys(), rest));
        assert_eq!(read, set, "{bytes:02x?}");
        for key in committee.unwrap_or_default() {
            let member: &Member = key;
            let found = Committee::try_from(&bytes[..]).map(|it| it.position(member));
            assert_eq!(
                found,
                Set::<32>::try_from(&bytes[..]).map(|it| it.position(member))
            );
        }
    }
}

/// The iterators walk as one over a list does, from both ends and by steps.
#[test]
fn iterators_walk_from_both_ends() {
    let mut random = Random(0x17E8);
    for _ in 0..cases() / 10 {
        let size = random.below(5);
        let count = random.below(9).min(if size == 0 { 1 } else { 8 });
        let mut keys = counted_keys(size.max(1), count, true);
        keys.iter_mut().for_each(|key| key.truncate(size));
        let value_size = random.below(3);
        let values: Vec<Vec<u8>> = (1..=count).map(|i| vec![i as u8; value_size]).collect();
        let bytes = [list_bytes(count, &keys), list_bytes(count, &values)].concat();
        let map = MapView::decode(size, value_size, &bytes).expect("it is a map");
        let listed = (keys.iter()).zip(&values);
        let mut walked = listed.map(|(key, value)| (&key[..], &value[..]));
        let (mut items, mut pairs) = (map.keys().into_iter(), map.into_iter());
        let mut each_value = map.values();
        for _ in 0..12 {
            let n = random.below(3);
            let (wanted, item, pair, value) = match random.below(4) {
                0 => (walked.next(), items.next(), pairs.next(), each_value.next()),
                1 => (
                    walked.next_back(),
                    items.next_back(),
                    pairs.next_back(),
                    each_value.next_back(),
                ),
                2 => (walked.nth(n), items.nth(n), pairs.nth(n), each_value.nth(n)),
                _ => (
                    walked.nth_back(n),
                    items.nth_back(n),
                    pairs.nth_back(n),
                    each_value.nth_back(n),
                ),
            };
            assert_eq!(item, wanted.map(|(key, _)| key));
            assert_eq!(pair, wanted);
            assert_eq!(value, wanted.map(|(_, value)| value));
            assert_eq!(items.len(), walked.len());
            assert_eq!(
                (pairs.len(), each_value.len()),
                (walked.len(), walked.len())
            );
        }
        assert_eq!(map.keys().to_owned_keys(), keys);
        let copies: (Vec<Vec<u8>>, Vec<Vec<u8>>) = map.to_owned_pairs().into_iter().unzip();
        assert_eq!(copies, (keys, values));
    }
}

#[test]
fn eight_threads_read_and_look_up_at_once() {
    let (keys, values) = (counted_keys(48, 100, true), vec![vec![7]; 100]);
    let bytes = [list_bytes(100, &keys), list_bytes(100, &values)].concat();
    std::thread::scope(|scope| {
        for _ in 0..8 {
            scope.spawn(|| {
                for index in (0..100).cycle().take(2_000) {
                    let map = MapView::decode(48, 1, &bytes).expect("it is a map");
                    assert_eq!(map.keys().position(&keys[index]), Some(index));
                    let (set, rest) = SetView::read(48, &bytes, 100..=100).expect("it is a set");
                    assert_eq!((set, rest.len()), (map.keys(), 101));
                }
            });
        }
    });
}

#[test]
fn keys_of_no_bytes_are_one_at_most() {
    let [none, one] = [&[0][..], &[1]].map(|bytes| SetView::decode(0, bytes).expect("a set"));
    assert_eq!((none.position(&[]), one.position(&[])), (None, Some(0)));
    assert_eq!(
        (none.get(0), one.get(0), one.get(1)),
        (None, Some(&[][..]), None)
    );
    assert_eq!((one.position(&[0]), one.iter().len()), (None, 1));
    assert_eq!(SetView::decode(0, &[2]), Err(Refusal::NotStrict));
    let most = [255, 255, 255, 255, 15];
    assert_eq!(SetView::decode(0, &most), Err(Refusal::NotStrict));
    assert_eq!(MapView::decode(0, 0, &most), Err(Refusal::NotStrict));
    let map = MapView::decode(0, 2, &[1, 1, 7, 8]).expect("a map");
    let values = (map.get_value(&[]), map.get_value(&[1]));
    assert_eq!(values, (Some(&[7, 8][..]), None));
    let typed = [&[0][..], &[1]].map(|bytes| Set::<0>::try_from(bytes).expect("a set"));
    assert_eq!(typed.map(|set| set.position(&[])), [None, Some(0)]);
}

#[test]
fn no_number_is_in_a_range_that_is_reversed() {
    #[allow(clippy::reversed_empty_ranges)]
    let range = 2..=1;
    let refused = Some(Refusal::InvalidLength(0));
    assert_eq!(SetView::read(20, &[0], range.clone()).err(), refused);
    assert_eq!(Set::<20>::read(&[0], range.clone()).err(), refused);
    assert_eq!(MapView::read(20, 8, &[0, 0], range).err(), refused);
}
