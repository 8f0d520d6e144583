//! 01, "Refusal numbers and their order", with 12 of request g of 02, 17 of
//! request l and 18 of request m.

use crate::expand::Rule;
use crate::noise::Entry;
use crate::schemes::{scheme, Scheme};

#[derive(Clone, Copy, Debug, PartialEq, Eq)]
pub struct Refusal {
    pub number: u32,
    pub place: usize,
}

pub fn refusal(number: u32, place: usize) -> Refusal {
    Refusal { number, place }
}

/// 1: the scheme is not 0 to 5.
pub fn no_scheme(number: u64) -> Result<&'static Scheme, Refusal> {
    scheme(number).ok_or(refusal(1, 0))
}

/// 12: the rule is not 14 or 16. Directly after 1.
pub fn no_rule(number: u32) -> Result<Rule, Refusal> {
    Rule::of(number).ok_or(refusal(12, 0))
}

/// 2: an input's length is not the fixed one.
pub fn wrong_length(given: usize, fixed: usize) -> Result<(), Refusal> {
    if given == fixed {
        Ok(())
    } else {
        Err(refusal(2, 0))
    }
}

/// 2: a stream or a hash's input is over the longest.
pub fn too_long(given: usize, longest: usize) -> Result<(), Refusal> {
    if given > longest {
        Err(refusal(2, 0))
    } else {
        Ok(())
    }
}

/// 3: an output buffer is shorter than the answer.
pub fn short_output(room: usize, answer: usize) -> Result<(), Refusal> {
    if room < answer {
        Err(refusal(3, 0))
    } else {
        Ok(())
    }
}

/// 18: a table is not strictly ascending; the first entry that is not above its
/// forerunner. After 3 and before 4.
pub fn not_ascending(table: &[Entry]) -> Result<(), Refusal> {
    let falls = |&k: &usize| table[k] <= table[k - 1];
    match (1..table.len()).find(falls) {
        Some(place) => Err(refusal(18, place)),
        None => Ok(()),
    }
}

/// 4: a lent public number is q or more.
pub fn large_public(scheme: &Scheme, a: &[u32]) -> Result<(), Refusal> {
    first(a, 4, |&number| i128::from(number) >= scheme.q)
}

/// 5: an unpacked message number is q or more.
pub fn large_in_message(scheme: &Scheme, numbers: &[u32]) -> Result<(), Refusal> {
    first(numbers, 5, |&number| i128::from(number) >= scheme.q)
}

/// 17: every byte of a message's packed part is zero. After 5 and before 6 for a
/// part received, after 6 for one about to be sent.
pub fn blank_part(packed: &[u8]) -> Result<(), Refusal> {
    if packed.iter().all(|&byte| byte == 0) {
        Err(refusal(17, 0))
    } else {
        Ok(())
    }
}

/// 6: a secret or noise value lies beyond the largest noise.
pub fn beyond_noise(scheme: &Scheme, values: &[i32]) -> Result<(), Refusal> {
    let beyond = |&value: &i32| i128::from(value).abs() > scheme.largest_noise;
    first(values, 6, beyond)
}

/// The refusal whose place is the index of the first bad entry, if any is.
fn first<T>(entries: &[T], number: u32, bad: impl Fn(&T) -> bool) -> Result<(), Refusal> {
    match entries.iter().position(bad) {
        Some(place) => Err(refusal(number, place)),
        None => Ok(()),
    }
}
