//! The vectors of certificates, of weights, and of sets, maps and bimaps of items of one size.
//! Their results were worked out by hand. Python writes them out as lines.

use commonware_proved::{
    BiMapError, BiMapView, Certificate, CertificateLimits, FaultModel, MapView, Named, Refusal,
    SetView, WeightedCheckError, WeightedConflictError, WeightedEquivocationError, Weights,
    WeightsError, weighted_check_encoded, weighted_conflict_encoded, weighted_equivocation_encoded,
};
use std::path::Path;
use std::process::Command;

/// Returns the lines of the `questions` or the `answers` of a file of vectors.
fn lines(what: &str, file: &str) -> Vec<String> {
    let folder = Path::new(env!("CARGO_MANIFEST_DIR")).join("../../vectors/reference");
    let mut python = Command::new("python3");
    let run = python
        .args(["-B", "lines.py", what, file])
        .current_dir(folder);
    let run = run.output().expect("python3 writes the vectors out");
    let told = String::from_utf8_lossy(&run.stderr);
    assert!(run.status.success(), "{told}");
    let text = String::from_utf8(run.stdout).expect("lines");
    let lines = text.lines().filter(|line| !line.starts_with('#'));
    lines.map(str::to_string).collect()
}

/// Returns the greatest number of a range without a lower bound: `..`, `..N` or `..=N`.
fn most(range: &str) -> Option<usize> {
    let end = range.strip_prefix("..")?;
    match end.strip_prefix('=') {
        Some(most) => most.parse().ok(),
        None if end.is_empty() => Some(usize::MAX),
        None => end.parse::<usize>().ok()?.checked_sub(1),
    }
}

fn bytes(digits: &str) -> Vec<u8> {
    let digits = digits.trim_matches('-').as_bytes();
    let byte = |pair: &[u8]| {
        let pair = str::from_utf8(pair).expect("digits");
        u8::from_str_radix(pair, 16).expect("digits")
    };
    digits.chunks(2).map(byte).collect()
}

/// Returns the least and the greatest number of a range.
fn limits(range: &str) -> (usize, usize) {
    let (least, end) = range.split_once("..").expect("a range");
    let least = match least {
        "" => 0,
        least => least.parse().expect("a number"),
    };
    match most(&format!("..{end}")) {
        Some(most) => (least, most),
        None => (1, 0),
    }
}

/// Returns the answer of the vectors to a result, of how many items and which bytes left over.
fn answer(result: Result<(usize, &[u8]), Refusal>) -> String {
    match result {
        Ok((count, rest)) => format!("accepted {count} {}", rest.len()),
        Err(Refusal::EndOfInput) => "EndOfBuffer".to_string(),
        Err(Refusal::InvalidVarint) => "InvalidVarint".to_string(),
        Err(Refusal::InvalidLength(length)) => format!("InvalidLength {length}"),
        Err(Refusal::NotStrict) => "Invalid Set: items must be sorted and unique".to_string(),
        Err(Refusal::LeftOver(count)) => format!("LeftOver {count}"),
        Err(other) => other.to_string(),
    }
}

/// Returns the questions about a type or of a verb that can be read, each as its words after that,
/// and the answers to them.
fn asked(kind: &str) -> Vec<(Vec<String>, String)> {
    let file = kind.replace(['<', ',', '-'], "_").replace('>', "");
    let questions = lines("questions", &file).into_iter();
    let asked = questions.zip(lines("answers", &file));
    let asked = asked.filter(|(_, answer)| !answer.starts_with("unreadable"));
    let asked = asked.filter_map(|(question, answer)| {
        let mut words = question.split(' ').map(str::to_string);
        (words.next()? == kind).then(|| (words.collect(), answer))
    });
    asked.collect()
}

/// Compares the answers to the questions about a type with one range, of which there are more than
/// `least`.
fn are_answered(kind: &str, least: usize, ask: impl Fn(&[u8], usize, usize) -> String) {
    let asked = asked(kind);
    for (words, expected) in &asked {
        let [range, input] = &words[..] else {
            panic!("{kind} {words:?}");
        };
        let (from, to) = limits(range);
        let answer = ask(&bytes(input), from, to);
        assert_eq!(answer, *expected, "{kind} {words:?}");
    }
    assert!(asked.len() > least, "{kind}: {}", asked.len());
}

#[test]
fn sets_are_decoded_as_the_vectors_say() {
    let kinds = [
        ("set<u8>", 1, 60),
        ("set<u32>", 4, 60),
        ("set<member>", 32, 80),
        ("set<bytes20>", 20, 80),
        ("set<bytes33>", 33, 80),
        ("set<bytes48>", 48, 80),
        ("set<bytes96>", 96, 100),
    ];
    for (kind, size, least) in kinds {
        are_answered(kind, least, |input, from, to| {
            let result = SetView::read(size, input, from..=to);
            answer(result.map(|(set, rest)| (set.len(), rest)))
        });
    }
}

#[test]
fn maps_are_decoded_as_the_vectors_say() {
    let kinds = [
        ("map<u8,u8>", 1, 1),
        ("map<member,u8>", 32, 1),
        ("map<member,u64>", 32, 8),
    ];
    for (kind, key_size, value_size) in kinds {
        are_answered(kind, 60, |input, from, to| {
            let result = MapView::read(key_size, value_size, input, from..=to);
            answer(result.map(|(map, rest)| (map.len(), rest)))
        });
    }
}

#[test]
fn bimaps_are_decoded_as_the_vectors_say() {
    for (kind, size) in [("bimap<u8,u8>", 1), ("bimap<member,member>", 32)] {
        are_answered(kind, 60, |input, from, to| {
            match BiMapView::read(size, size, input, from..=to) {
                Ok((bimap, rest)) => answer(Ok((bimap.len(), rest))),
                Err(BiMapError::Refused(refusal)) => answer(Err(refusal)),
                Err(_) => {
                    "Invalid BiMap: duplicate value detected during deserialization".to_string()
                }
            }
        });
    }
}

#[test]
fn certificates_are_decoded_as_the_vectors_say() {
    let mut tried = 0;
    for (words, expected) in asked("certificate") {
        let [value, signers, input] = &words[..] else {
            panic!("{words:?}");
        };
        // The call takes no lower bounds.
        if let (Some(most_bytes), Some(most_signers)) = (most(value), most(signers)) {
            let input = bytes(input);
            let limits = CertificateLimits {
                value_bytes: most_bytes,
                signers: most_signers,
            };
            let result = Certificate::read(&input, limits);
            let result = result.map(|(it, rest)| (it.signers().len(), rest));
            assert_eq!(answer(result), expected, "{words:?}");
            tried += 1;
        }
    }
    assert!(tried > 20, "{tried}");
}

/// Returns the words for bytes: their digits, or a dash for none.
fn digits(bytes: &[u8]) -> String {
    let digits: String = bytes.iter().map(|byte| format!("{byte:02x}")).collect();
    if digits.is_empty() {
        "-".to_string()
    } else {
        digits
    }
}

fn model(word: &str) -> FaultModel {
    let k = match word {
        "n3f1" => 3,
        "n5f1" => 5,
        word => word["k=".len()..].parse().expect("a number"),
    };
    FaultModel::new(k).expect("a k of 2 or more")
}

/// Returns the number that the bytes begin with as a varint, in the fewest bytes, and what follows.
fn varint(bytes: &[u8]) -> Option<(usize, &[u8])> {
    let last = bytes.iter().position(|byte| *byte < 128)?;
    if last > 4 || last > 0 && bytes[last] == 0 {
        return None;
    }
    let number = bytes[..=last]
        .iter()
        .rev()
        .fold(0, |number, byte| number << 7 | usize::from(byte & 127));
    Some((number, &bytes[last + 1..]))
}

/// Returns the weights that some bytes list, or `None` where they list none.
fn weights(input: &[u8]) -> Option<Vec<u64>> {
    let (count, rest) = varint(input)?;
    let items = rest.chunks(8).map(|item| item.try_into().ok());
    let items: Vec<u64> = items
        .map(|item| item.map(u64::from_be_bytes))
        .collect::<Option<_>>()?;
    (items.len() == count).then_some(items)
}

fn weights_error(error: WeightsError) -> String {
    match error {
        WeightsError::Empty => "NoWeights".to_string(),
        WeightsError::Zero(index) => format!("ZeroWeight {index}"),
        WeightsError::Overflow(index) => format!("WeightOverflow {index}"),
        other => other.to_string(),
    }
}

/// Compares the answers to the questions of a verb with weights, of which more than `least` list
/// weights.
fn are_weighed(
    verb: &str,
    least: usize,
    ask: impl Fn(FaultModel, &Weights<'_>, &[Vec<u8>]) -> String,
) {
    let mut tried = 0;
    for (words, expected) in asked(verb) {
        let inputs: Vec<Vec<u8>> = words[1..].iter().map(|it| bytes(it)).collect();
        let Some(listed) = weights(&inputs[0]) else {
            continue;
        };
        let answer = match Weights::new(&listed) {
            Ok(weights) => ask(model(&words[0]), &weights, &inputs[1..]),
            Err(error) => weights_error(error),
        };
        assert_eq!(answer, expected, "{verb} {words:?}");
        tried += 1;
    }
    assert!(tried > least, "{verb}: {tried}");
}

fn members(named: &Named) -> String {
    let mut bytes = Vec::new();
    let numbers = named.members.iter().copied();
    for number in std::iter::once(u32::try_from(named.members.len()).expect("few")).chain(numbers) {
        let mut left = number;
        while left > 127 {
            bytes.push(u8::try_from(left & 127).expect("seven bits") | 128);
            left >>= 7;
        }
        bytes.push(u8::try_from(left).expect("seven bits"));
    }
    format!("members {} weight {}", digits(&bytes), named.weight)
}

fn refused(refusal: Refusal) -> String {
    answer(Err(refusal))
}

#[test]
fn weights_come_to_what_the_vectors_say() {
    are_weighed("weights", 80, |model, weights, _| {
        let (total, tolerated) = (weights.total(), weights.max_faulty_weight(model));
        let (quorum, smaller) = (
            weights.quorum_weight(model),
            weights.smaller_quorum_weight(model),
        );
        format!("total {total} tolerated {tolerated} quorum {quorum} m-quorum {smaller}")
    });
}

#[test]
fn certificates_weigh_what_the_vectors_say() {
    are_weighed(
        "weighted-quorum",
        80,
        |model, weights, inputs| match weighted_check_encoded(model, weights, &inputs[0]) {
            Ok(checked) => {
                let parts = match (checked.slot(), checked.decision()) {
                    (Some(slot), Some(decision)) => {
                        format!("slot {} decision {}", digits(slot), digits(decision))
                    }
                    _ => "no slot".to_string(),
                };
                let (signers, weight) = (checked.signer_count(), checked.weight());
                format!("quorum {signers} weight {weight} {parts}")
            }
            Err(WeightedCheckError::Input(refusal)) => refused(refusal),
            Err(WeightedCheckError::Outside) => "Outside".to_string(),
            Err(WeightedCheckError::TooLight) => "TooLight".to_string(),
            Err(other) => other.to_string(),
        },
    );
}

#[test]
fn conflicts_by_weight_are_what_the_vectors_say() {
    are_weighed(
        "weighted-conflict",
        60,
        |model, weights, inputs| match weighted_conflict_encoded(
            model, weights, &inputs[0], &inputs[1],
        ) {
            Ok(named) => members(&named),
            Err(WeightedConflictError::Input(_, refusal)) => refused(refusal),
            Err(WeightedConflictError::SameValue) => "EqualValues".to_string(),
            Err(WeightedConflictError::Outside(_)) => "Outside".to_string(),
            Err(WeightedConflictError::TooLight(_)) => "TooLight".to_string(),
            Err(other) => other.to_string(),
        },
    );
}

#[test]
fn equivocations_by_weight_are_what_the_vectors_say() {
    are_weighed("weighted-equivocation", 60, |model, weights, inputs| {
        match weighted_equivocation_encoded(model, weights, &inputs[0], &inputs[1]) {
            Ok(named) => members(&named),
            Err(WeightedEquivocationError::Input(_, refusal)) => refused(refusal),
            Err(WeightedEquivocationError::NoSlot(_)) => "NoSlot".to_string(),
            Err(WeightedEquivocationError::OtherSlot) => "OtherSlot".to_string(),
            Err(WeightedEquivocationError::SameDecision) => "SameDecision".to_string(),
            Err(WeightedEquivocationError::Outside(_)) => "Outside".to_string(),
            Err(WeightedEquivocationError::TooLight(_)) => "TooLight".to_string(),
            Err(other) => other.to_string(),
        }
    });
}
