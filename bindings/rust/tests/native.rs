//! The vectors of native calls (`vectors/native`), as Python writes them out as lines: each call is
//! compared in every field of its view, in what it writes, and in what it leaves of its room.

#[rustfmt::skip]
#[path = "common/calls.rs"]
mod calls;
#[allow(dead_code, reason = "the crate calls the rest")]
#[path = "../src/raw.rs"]
mod raw;

// The crate links the library.
use commonware_proved as _;
use std::collections::HashMap;
use std::path::Path;
use std::process::Command;

/// The arguments of a test by their names, its room, and what is expected.
#[derive(Default)]
struct Given {
    id: String,
    numbers: HashMap<String, u64>,
    bytes: HashMap<String, Vec<u8>>,
    indices: HashMap<String, Vec<u32>>,
    weights: HashMap<String, Vec<u64>>,
    room: usize,
    room_bytes: Vec<u8>,
    room_indices: Vec<u32>,
    fields: Vec<(String, u64)>,
    written_bytes: Vec<u8>,
    written_indices: Vec<u32>,
}

impl Given {
    fn number(&self, name: &str) -> u64 {
        self.numbers[name]
    }

    fn bytes(&self, name: &str) -> &[u8] {
        &self.bytes[name]
    }

    fn indices(&self, name: &str) -> &[u32] {
        &self.indices[name]
    }

    fn weights(&self, name: &str) -> &[u64] {
        &self.weights[name]
    }

    /// Takes a line of a test; returns whether it is the last one.
    fn take(&mut self, line: &str) -> bool {
        let (word, rest) = line.split_once(' ').unwrap_or((line, ""));
        let (name, value) = rest.split_once(' ').unwrap_or((rest, ""));
        match word {
            "test" => self.id = rest.to_string(),
            "number" => drop(self.numbers.insert(name.to_string(), number(value))),
            "bytes" => drop(self.bytes.insert(name.to_string(), bytes(value))),
            "numbers" => {
                let weights = numbers(value);
                let indices = weights.iter().map(|it| *it as u32).collect();
                self.indices.insert(name.to_string(), indices);
                self.weights.insert(name.to_string(), weights);
            }
            "room" => self.room = number(rest) as usize,
            "field" => self.fields.push((name.to_string(), number(value))),
            "written-bytes" => self.written_bytes = bytes(rest),
            "written-numbers" => {
                self.written_indices = numbers(rest).iter().map(|it| *it as u32).collect();
            }
            other => return other == "end",
        }
        false
    }

    /// Makes the rooms what they are before a call.
    fn fill(&mut self) {
        self.room_bytes = vec![0xee; self.room];
        self.room_indices = vec![0xeeee_eeee; self.room];
    }

    /// Tells whether the rooms begin with what is expected, and are as they were after that.
    fn is_room(&self) -> bool {
        is_written(&self.room_bytes, &self.written_bytes, 0xee)
            && is_written(&self.room_indices, &self.written_indices, 0xeeee_eeee)
    }
}

fn is_written<T: PartialEq>(room: &[T], written: &[T], before: T) -> bool {
    let rest = room.strip_prefix(written);
    rest.is_some_and(|rest| rest.iter().all(|it| *it == before))
}

fn number(word: &str) -> u64 {
    word.parse().expect("a number")
}

fn numbers(words: &str) -> Vec<u64> {
    words.split_whitespace().map(number).collect()
}

fn bytes(digits: &str) -> Vec<u8> {
    let digits = digits.trim_matches('-').as_bytes();
    let byte = |pair: &[u8]| {
        let pair = str::from_utf8(pair).expect("digits");
        u8::from_str_radix(pair, 16).expect("digits")
    };
    digits.chunks(2).map(byte).collect()
}

/// Returns the lines of the vectors of a call.
fn lines(name: &str) -> String {
    let folder = Path::new(env!("CARGO_MANIFEST_DIR")).join("../../vectors/reference");
    let mut python = Command::new("python3");
    let run = python.args(["-B", "native_lines.py", name]);
    let run = run.current_dir(folder).output().expect("python3");
    let told = String::from_utf8_lossy(&run.stderr);
    assert!(run.status.success(), "{told}");
    String::from_utf8(run.stdout).expect("lines")
}

/// Tries the vectors of a call; returns how many there are.
fn tried(name: &str) -> usize {
    let (mut given, mut tried) = (Given::default(), 0);
    for line in lines(name).lines() {
        if given.take(line) {
            given.fill();
            let said = calls::call(name, &mut given);
            let expected = given.fields.iter();
            let expected: Vec<_> = expected.map(|(name, it)| (name.as_str(), *it)).collect();
            assert_eq!(said, expected, "{}", given.id);
            assert!(given.is_room(), "{}: what is written", given.id);
            given = Given::default();
            tried += 1;
        }
    }
    tried
}

#[test]
fn each_call_answers_as_its_vectors_say() {
    for name in calls::CALLS {
        assert!(tried(name) > 0, "{name} has no vectors");
    }
}
