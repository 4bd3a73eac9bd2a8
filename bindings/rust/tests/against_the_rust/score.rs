//! What was called and what differed.

use std::cell::Cell;
use std::fmt::Debug;
use std::hint::black_box;

/// A story ends at its first difference, told in words: what comes after would differ too.
pub type Outcome = Result<(), String>;

/// The numbers of documents 01 and 02, and 0.
const NUMBERS: usize = 21;

thread_local! {
    static CALLS: Cell<u64> = const { Cell::new(0) };
    static NUMBERED: Cell<[u64; NUMBERS]> = const { Cell::new([0; NUMBERS]) };
}

pub fn calls() -> u64 {
    CALLS.get()
}

/// Counts a call of ours, and hands its answer on.
pub fn called<R>(answer: R) -> R {
    CALLS.set(CALLS.get() + 1);
    answer
}

#[derive(Default)]
pub struct Score {
    pub differences: u64,
}

impl Score {
    pub fn count(&mut self, story: &str, outcome: Outcome) {
        if let Err(what) = outcome {
            self.differences += 1;
            println!("{story}, by call {}: {what}", calls());
        }
    }
}

/// `what` came out as `ours`, and `right` was expected.
pub fn same<T: PartialEq + Debug>(what: &str, ours: T, right: T) -> Outcome {
    if ours == right {
        return Ok(());
    }
    Err(format!("{what} is {ours:?}, expected {right:?}"))
}

/// The same for the numbers that calls are refused by; how often each came is counted.
pub fn same_number(what: &str, ours: u64, right: u64) -> Outcome {
    let mut numbered = NUMBERED.get();
    if let Some(count) = numbered.get_mut(ours as usize) {
        *count += 1;
    }
    NUMBERED.set(numbered);
    same(what, ours, right)
}

/// How often each number came, in words.
pub fn refusals() -> String {
    let numbered = NUMBERED.get();
    let each: Vec<String> = (1..NUMBERS)
        .map(|number| format!("{number}: {}", numbered[number]))
        .collect();
    format!("refused by {}", each.join(", "))
}

/// The same for bytes, of which only the first that differs is told.
pub fn same_bytes(what: &str, ours: &[u8], right: &[u8]) -> Outcome {
    same_each("byte", what, ours, right)
}

/// The same for many of a kind.
pub fn same_each<T: PartialEq + Debug>(kind: &str, what: &str, ours: &[T], right: &[T]) -> Outcome {
    if ours == right {
        return Ok(());
    }
    same(&format!("length of {what}"), ours.len(), right.len())?;
    let at = ours.iter().zip(right).position(|(a, b)| a != b).expect("they differ");
    same(&format!("{kind} {at} of {what}"), &ours[at], &right[at])
}

/// What was lent to be read only is as it was before the call. It is looked at again: the compiler could take it for that.
pub fn unchanged<T: PartialEq + Debug>(what: &str, lent: &[T], before: &[T]) -> Outcome {
    same_each("part", what, black_box(lent), before)
}

/// The same for one of a kind.
pub fn unchanged_one<T: PartialEq + Debug>(what: &str, lent: &T, before: &T) -> Outcome {
    same(what, black_box(lent), before)
}

/// The number of an answer of the wrapper's, 0 if it was accepted.
pub fn number<R>(answer: &Result<R, microscope::Error>) -> u64 {
    answer.as_ref().err().map_or(0, microscope::Error::number)
}
