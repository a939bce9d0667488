// The comparison of one function's answers with the reference's, with counts of each outcome and kind of input.
// A test that never saw some refusal has not tested it, so the counts are asserted at the end.

use std::fmt::Debug;
use xc9500_reference::Answer;

/// The least count of each outcome that a function can have, and of each kind of input.
pub const ENOUGH: u64 = 100;

/// What one function answered so far, by refusal number; 0 is acceptance.
pub struct Tally {
    function: &'static str,
    seen: [u64; 256],
}

impl Tally {
    pub fn new(function: &'static str) -> Tally {
        Tally {
            function,
            seen: [0; 256],
        }
    }

    /// Counts the function's answer and panics, naming the call, unless it is the reference's.
    pub fn compare(&mut self, call: impl Debug, answer: Answer<u64>, reference: Answer<u64>) {
        assert_eq!(
            answer, reference,
            "{}, {call:?}: its answer left, the reference's right",
            self.function
        );
        let number = match answer {
            Ok(_) => 0,
            Err(refusal) => refusal.number,
        };
        self.seen[number as usize] += 1;
    }

    /// Panics, naming the call and the first byte, unless a slice is as the reference leaves it.
    pub fn compare_bytes(&self, call: impl Debug, slice: &str, bytes: &[u8], reference: &[u8]) {
        if bytes != reference {
            let mut pairs = bytes.iter().zip(reference);
            let first = pairs.position(|(byte, expected)| byte != expected);
            panic!(
                "{}, {call:?}: the {slice} is not the reference's, first at {first:?}",
                self.function
            );
        }
    }

    /// How often an outcome occurred; 0 is acceptance.
    pub fn seen(&self, number: u32) -> u64 {
        self.seen[number as usize]
    }

    /// Panics unless each of the refusals occurred often enough, acceptance too, and no other did.
    pub fn assert_refusals(&self, refusals: &[u32]) {
        for (number, seen) in (0..).zip(self.seen) {
            if number == 0 || refusals.contains(&number) {
                println!("{}: outcome {number} seen {seen} times", self.function);
                assert!(
                    seen >= ENOUGH,
                    "{}: outcome {number} seen only {seen} times",
                    self.function
                );
            } else {
                assert_eq!(
                    seen, 0,
                    "{}: outcome {number} is not one of its",
                    self.function
                );
            }
        }
    }
}

/// How many inputs of each kind a function was given and answered as they must be answered.
pub struct KindTally {
    function: &'static str,
    seen: Vec<(&'static str, u64)>,
}

impl KindTally {
    /// The kinds are named beforehand, so that one of which there is no input is missed too.
    pub fn new(function: &'static str, kinds: &[&'static str]) -> KindTally {
        KindTally {
            function,
            seen: kinds.iter().map(|kind| (*kind, 0)).collect(),
        }
    }

    /// Counts an input of a kind and panics unless its answer is the one that it must get.
    pub fn compare(&mut self, kind: &str, answer: Answer<u64>, expected: Answer<u64>) {
        assert_eq!(
            answer, expected,
            "{}, {kind}: its answer left, the one that it must get right",
            self.function
        );
        let place = self.seen.iter().position(|(name, _)| *name == kind);
        self.seen[place.expect("the kind is known")].1 += 1;
    }

    /// Panics unless there were enough inputs of each kind.
    pub fn assert_enough(&self) {
        for (kind, seen) in &self.seen {
            println!("{}: {kind}: {seen} times", self.function);
            assert!(
                *seen >= ENOUGH,
                "{}: {kind}: only {seen} times",
                self.function
            );
        }
    }
}
