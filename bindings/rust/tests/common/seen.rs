//! Which outcomes a test has seen.

use commonware_proved::Refusal;
use std::collections::BTreeMap;

/// How often each outcome was seen, so that a test can require that it saw all.
#[derive(Default)]
pub struct Seen(BTreeMap<&'static str, usize>);

impl Seen {
    /// Counts an outcome.
    pub fn note(&mut self, outcome: &'static str) {
        *self.0.entry(outcome).or_default() += 1;
    }

    /// Requires that there are as many outcomes, and that each was seen as often as this or more.
    pub fn assert_each(&self, outcomes: usize, least: usize) {
        assert_eq!(self.0.len(), outcomes, "{:?}", self.0);
        assert!(self.0.values().all(|count| *count >= least), "{:?}", self.0);
    }
}

/// Returns the name of a refusal, without its number.
pub fn name(refusal: &Refusal) -> &'static str {
    match refusal {
        Refusal::EndOfInput => "end",
        Refusal::InvalidVarint => "varint",
        Refusal::InvalidLength(_) => "length",
        Refusal::NotStrict => "strict",
        Refusal::LeftOver(_) => "left over",
        Refusal::Memory => "memory",
        _ => panic!("{refusal:?}"),
    }
}
