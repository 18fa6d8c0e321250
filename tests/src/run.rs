//! Runs a check on the inputs of many seeds, and sees that no outcome is missing.

use crate::generate::Random;
use std::collections::BTreeMap;

/// Runs `check` on so many seeds, the same on every run; a failing one is printed.
pub fn for_seeds(count: u64, mut check: impl FnMut(&mut Random)) {
    for seed in 0..count {
        let _printed = Case(seed);
        check(&mut Random::new(seed));
    }
}

struct Case(u64);

impl Drop for Case {
    fn drop(&mut self) {
        if std::thread::panicking() {
            eprintln!("failing seed: {}", self.0);
        }
    }
}

/// How often each outcome was reached.
#[derive(Debug, Default)]
pub struct Outcomes(BTreeMap<String, u64>);

impl Outcomes {
    pub fn count(&mut self, outcome: impl ToString) {
        *self.0.entry(outcome.to_string()).or_default() += 1;
    }

    /// A test that never reaches an outcome could not fail on it.
    pub fn assert_often(&self, outcomes: &[impl ToString], least: u64) {
        for outcome in outcomes {
            let outcome = outcome.to_string();
            let reached = self.0.get(&outcome).copied().unwrap_or_default();
            assert!(reached >= least, "{outcome} only {reached} times: {self:?}");
        }
    }
}

/// The shortest input, by leaving out parts, that still `fails`.
pub fn shortest<T: Clone>(input: &[T], fails: impl Fn(&[T]) -> bool) -> Vec<T> {
    let mut input = input.to_vec();
    let mut size = input.len();
    while size > 0 {
        let mut at = 0;
        while at + size <= input.len() {
            let shorter = [&input[..at], &input[at + size..]].concat();
            if fails(&shorter) {
                input = shorter;
            } else {
                at += 1;
            }
        }
        size /= 2;
    }
    input
}

/// Panics with the shortest of the inputs on which two programs disagree.
pub fn assert_agree(input: &[u8], agree: impl Fn(&[u8]) -> bool) {
    if !agree(input) {
        let input = shortest(input, |input| !agree(input));
        panic!("they disagree on {input:02X?}");
    }
}
