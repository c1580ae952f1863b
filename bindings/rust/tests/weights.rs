//! Weights beside the definition, by all subsets, and beside plain sums of 128 bits.

#[allow(dead_code, reason = "the other tests use the rest")]
mod common;

use common::random::Random;
use common::seen::Seen;
use commonware_proved::{FaultModel, Weights, WeightsError};

const CASES: usize = 100_000;

fn model(k: u32) -> FaultModel {
    FaultModel::new(k).expect("a model")
}

/// What each subset weighs: bit i of an index is whether participant i is in it.
fn subsets(weights: &[u64]) -> Vec<u64> {
    let mut sums = vec![0];
    for weight in weights {
        let with: Vec<u64> = sums.iter().map(|sum| sum + weight).collect();
        sums.extend(with);
    }
    sums
}

/// The least that two subsets share of which one weighs at least `one`, and the other `other`.
fn least_shared(sums: &[u64], one: u64, other: u64) -> Option<u64> {
    let weigh = |least: u64| (0..sums.len()).filter(move |set| sums[*set] >= least);
    let pairs = weigh(one).flat_map(|a| weigh(other).map(move |b| sums[a & b]));
    pairs.min()
}

/// Whether f is safe for weights: any two subsets that weigh all but f share at least (k - 2)f + 1.
fn is_safe(k: u32, sums: &[u64], f: u64) -> bool {
    let total = sums[sums.len() - 1];
    let quorum = total.saturating_sub(f);
    let shared = least_shared(sums, quorum, quorum).expect("all are a quorum");
    u128::from(shared) > u128::from(k - 2) * u128::from(f)
}

/// All lists of positive weights of a total, in falling order.
fn lists_of(total: u64, most: u64) -> Vec<Vec<u64>> {
    if total == 0 {
        return vec![vec![]];
    }
    let firsts = 1..=most.min(total);
    let lists = firsts.flat_map(|first| {
        let rests = lists_of(total - first, first).into_iter();
        rests.map(move |rest| [&[first][..], &rest].concat())
    });
    lists.collect()
}

#[test]
fn the_numbers_of_small_totals_are_those_of_the_definition() {
    for total in 1..=9 {
        let lists = lists_of(total, total);
        let sums: Vec<Vec<u64>> = lists.iter().map(|list| subsets(list)).collect();
        for k in 2..=7 {
            let are_safe = |f: &u64| sums.iter().all(|sums| is_safe(k, sums, *f));
            let greatest = (0..=total).rfind(are_safe).expect("0 is safe");
            for (list, sums) in lists.iter().zip(&sums) {
                let weights = Weights::new(list).expect("weights");
                assert_eq!(
                    weights.max_faulty_weight(model(k)),
                    greatest,
                    "{k} {list:?}"
                );
                let quorum = weights.quorum_weight(model(k));
                assert_eq!(quorum, total - greatest, "{k} {list:?}");
                let smaller = weights.smaller_quorum_weight(model(k));
                let shared = least_shared(sums, smaller, quorum);
                assert!(shared.is_none_or(|it| it > greatest), "{k} {list:?}");
            }
            // A smaller one shares too little, for some weights of the total.
            let smaller = 2 * greatest;
            let short = |sums: &Vec<u64>| {
                least_shared(sums, smaller, total - greatest).is_some_and(|it| it <= greatest)
            };
            assert!(sums.iter().any(short), "{k} {total}");
        }
    }
}

/// Draws positive weights of few participants, of few bits or of many, whose sum fits.
fn some_weights(random: &mut Random) -> Vec<u64> {
    // Few lists are long, as the number of pairs of subsets is.
    let most = if random.below(40) == 0 { 10 } else { 6 };
    let count = 1 + random.below(most);
    let bits = [1, 2, 3, 8, 32, 53, 60][random.below(7)];
    (0..count)
        .map(|_| 1 + (random.next() >> (64 - bits)))
        .collect()
}

/// Weights of a total for which `f` isn't safe: two overlapping subsets that leave out f each, or
/// two that share no one. `None` where three don't have the total.
fn refutation(total: u64, f: u64) -> Option<[u64; 3]> {
    let outside = f.min(total - 1);
    let quorum = total - outside;
    (total >= 3).then(|| match quorum.checked_sub(outside) {
        Some(shared) if shared > 0 => [outside, shared, outside],
        _ => [quorum, 1, outside - 1],
    })
}

#[test]
fn quorums_of_random_weights_share_what_the_theorem_says() {
    let mut random = Random(0x3E1647);
    let mut seen = Seen::default();
    for case in 0..CASES {
        let items = some_weights(&mut random);
        let weights = Weights::new(&items).expect("weights");
        let (total, sums) = (weights.total(), subsets(&items));
        for k in [2, 3, 4, 5, 7] {
            let f = weights.max_faulty_weight(model(k));
            let quorum = weights.quorum_weight(model(k));
            assert_eq!((f, quorum), ((total - 1) / u64::from(k), total - f));
            assert!(is_safe(k, &sums, f), "{k} {items:?}");
            let smaller = weights.smaller_quorum_weight(model(k));
            let shared = least_shared(&sums, smaller, quorum);
            assert!(shared.is_none_or(|it| it > f), "{k} {items:?}");
            // One more isn't safe for all weights of the total.
            match refutation(total, f + 1) {
                Some(refuted) => {
                    let others = Weights::new(&refuted).expect("weights");
                    assert_eq!(others.max_faulty_weight(model(k)), f, "{case} {refuted:?}");
                    assert!(!is_safe(k, &subsets(&refuted), f + 1), "{k} {refuted:?}");
                    seen.note("refuted");
                }
                None => seen.note("two at most"),
            }
            seen.note(if is_safe(k, &sums, f + 1) {
                "safe for these"
            } else {
                "not for these"
            });
        }
    }
    seen.assert_each(4, 1_000);
}

/// Draws numbers of which some are 0, and whose sum is often about 2^64.
fn some_numbers(random: &mut Random) -> Vec<u64> {
    let count = random.below(9);
    let bits = [1, 2, 32, 61, 62, 63, 64][random.below(7)];
    let mut numbers: Vec<u64> = (0..count)
        .map(|_| (random.next() >> (64 - bits)).max(1))
        .collect();
    if count > 0 && random.below(4) == 0 {
        numbers[random.below(count)] = 0;
    }
    if count > 1 && random.below(3) == 0 {
        // The sum of all is 2^64 - 1, or one more, where the others fit.
        let last = count - 1;
        let others: u128 = numbers[..last].iter().map(|it| u128::from(*it)).sum();
        let rest = (1u128 << 64).saturating_sub(others) - u128::from(random.below(2) == 0);
        numbers[last] = u64::try_from(rest).unwrap_or(u64::MAX);
    }
    numbers
}

/// The total of numbers, or why they aren't weights, by sums of 128 bits.
fn plain_total(numbers: &[u64]) -> Result<u64, WeightsError> {
    let mut sum = 0u128;
    for (index, number) in numbers.iter().enumerate() {
        sum += u128::from(*number);
        if *number == 0 {
            return Err(WeightsError::Zero(index));
        }
        if sum >= 1 << 64 {
            return Err(WeightsError::Overflow(index));
        }
    }
    match u64::try_from(sum).expect("it is below 2^64") {
        0 => Err(WeightsError::Empty),
        total => Ok(total),
    }
}

#[test]
fn numbers_are_weights_as_by_plain_sums() {
    let mut random = Random(0x5075);
    let mut seen = Seen::default();
    for _ in 0..CASES {
        let numbers = some_numbers(&mut random);
        let ours = Weights::new(&numbers);
        let plain = plain_total(&numbers);
        assert_eq!(ours.map(|it| it.total()), plain, "{numbers:?}");
        if let Ok(weights) = ours {
            let k = 2 + (random.next() >> random.below(64)) as u32 % (u32::MAX - 1);
            let f = (weights.total() - 1) / u64::from(k);
            assert_eq!(weights.max_faulty_weight(model(k)), f);
            assert_eq!(weights.quorum_weight(model(k)), weights.total() - f);
            assert_eq!(weights.smaller_quorum_weight(model(k)), 2 * f + 1);
            assert_eq!(
                (weights.as_slice(), weights.len()),
                (&numbers[..], numbers.len())
            );
            assert!(weights.iter().eq(numbers.iter().copied()));
        }
        seen.note(match plain {
            Ok(u64::MAX) => "all of 64 bits",
            Ok(_) => "fits",
            Err(WeightsError::Empty) => "empty",
            Err(WeightsError::Zero(_)) => "zero",
            Err(WeightsError::Overflow(_)) => "overflow",
            Err(error) => panic!("{error}"),
        });
    }
    seen.assert_each(5, 1_000);
}

#[test]
fn sums_at_the_edges_of_64_bits() {
    let half = 1 << 63;
    let rows: [(&[u64], Result<u64, WeightsError>); 4] = [
        (&[], Err(WeightsError::Empty)),
        (&[5, 0, 0], Err(WeightsError::Zero(1))),
        (&[half, half - 1], Ok(u64::MAX)),
        (&[half, half - 1, 1], Err(WeightsError::Overflow(2))),
    ];
    for (items, wanted) in rows {
        assert_eq!(
            Weights::new(items).map(|it| it.total()),
            wanted,
            "{items:?}"
        );
        let index = match wanted {
            Err(WeightsError::Zero(index) | WeightsError::Overflow(index)) => Some(index),
            _ => None,
        };
        assert_eq!(Weights::new(items).err().and_then(|it| it.index()), index);
    }
}

#[test]
fn numbers_of_totals_at_the_edges_of_words() {
    // Each total with the greatest f for which kf + 1 is at most that, at a k of 2, 3 and 2^32 - 1.
    let rows: [(u64, [u64; 3]); 12] = [
        (1, [0, 0, 0]),
        (2, [0, 0, 0]),
        (3, [1, 0, 0]),
        (4, [1, 1, 0]),
        (4294967295, [2147483647, 1431655764, 0]),
        (4294967296, [2147483647, 1431655765, 1]),
        (
            9007199254740992,
            [4503599627370495, 3002399751580330, 2097152],
        ),
        (
            9007199254740993,
            [4503599627370496, 3002399751580330, 2097152],
        ),
        (
            9223372036854775807,
            [4611686018427387903, 3074457345618258602, 2147483648],
        ),
        (
            9223372036854775808,
            [4611686018427387903, 3074457345618258602, 2147483648],
        ),
        (
            9223372036854775809,
            [4611686018427387904, 3074457345618258602, 2147483648],
        ),
        (
            18446744073709551615,
            [9223372036854775807, 6148914691236517204, 4294967296],
        ),
    ];
    for (total, faulty) in rows {
        for (k, f) in [2, 3, u32::MAX].into_iter().zip(faulty) {
            let items = [total];
            let weights = Weights::new(&items).expect("weights");
            let numbers = (
                weights.max_faulty_weight(model(k)),
                weights.quorum_weight(model(k)),
                weights.smaller_quorum_weight(model(k)),
            );
            assert_eq!(numbers, (f, total - f, 2 * f + 1), "{k} {total}");
        }
    }
}

#[test]
fn seventy_thousand_weights() {
    let mut items: Vec<u64> = (1..=70_000).collect();
    let weights = Weights::new(&items).expect("weights");
    assert_eq!((weights.len(), weights.total()), (70_000, 2_450_035_000));
    assert_eq!(weights.quorum_weight(FaultModel::N3F1), 1_633_356_667);
    assert_eq!(
        (weights.get(65_536), weights.get(69_999)),
        (Some(65_537), Some(70_000))
    );
    assert_eq!(weights.get(70_000), None);
    for index in [0, 1, 255, 256, 65_535, 65_536, 69_999] {
        let was = std::mem::take(&mut items[index]);
        assert_eq!(Weights::new(&items), Err(WeightsError::Zero(index)));
        // 2,450,035,000 are all, so this is 2^64 with those that come before it.
        let before = (index * (index + 1) / 2) as u64;
        items[index] = (u64::MAX - before).wrapping_add(1);
        if index > 0 {
            assert_eq!(Weights::new(&items), Err(WeightsError::Overflow(index)));
        }
        items[index] = was;
    }
    let equal = vec![1u64 << 48; 70_000];
    assert_eq!(Weights::new(&equal), Err(WeightsError::Overflow(65_535)));
    assert_eq!(
        Weights::new(&equal[..65_535]).map(|it| it.len()),
        Ok(65_535)
    );
}
