//! docs/VECTORS.md, "A line".

use super::good::{Call, Good};
use super::run::Answer;
use crate::reconcile::Slack;

/// The line of a call's case with this name. Its scheme is the one whose cases
/// these are, also where the call is lent another.
pub fn line(good: &Good, name: &str, answer: &Answer) -> String {
    let (number, place) = match answer.refusal {
        None => (0, 0),
        Some(refusal) => (refusal.number, refusal.place),
    };
    let (call, outputs) = names(good.call);
    let mut words = vec![call.to_string()];
    if let Some(scheme) = good.scheme {
        words.push(format!("scheme={}", scheme.number));
    }
    if let Call::Expand { rule } | Call::Grow { rule } = good.call {
        words.push(format!("rule={rule}"));
    }
    words.push(format!("case={name} refusal={number} place={place}"));
    for (output, written) in outputs.iter().zip(&answer.written) {
        // Only where there are several is it said which.
        let whose = match outputs.len() {
            1 => String::new(),
            _ => format!("{output}_"),
        };
        words.push(format!("{whose}written={written}"));
    }
    if good.call == Call::Bench {
        words.push(format!("differ={}", answer.differ));
    }
    if let Call::Finish | Call::Bench = good.call {
        let Slack { largest, index } = answer.slack;
        words.push(format!("slack={largest} slack_index={index}"));
    }
    for (output, entries) in outputs.iter().zip(&answer.outputs) {
        words.push(format!("{output}={}", checksum(entries)));
    }
    words.join(" ")
}

/// A call's name and those of its outputs.
fn names(call: Call) -> (&'static str, &'static [&'static str]) {
    match call {
        Call::Offer => ("offer", &["message"]),
        Call::Reply => ("reply", &["message", "key", "digest"]),
        Call::Finish => ("finish", &["key", "digest"]),
        Call::Bench => ("bench", &[]),
        Call::Noise => ("noise", &["values"]),
        Call::Expand { .. } => ("expand", &["numbers"]),
        Call::Grow { .. } => ("grow", &["numbers"]),
        Call::Shake128 => ("shake128", &["bytes"]),
        Call::Sha3256 => ("sha3_256", &["bytes"]),
    }
}

/// H, over all entries. A negative value counts as itself plus 2^32.
pub fn checksum(entries: &[i64]) -> u64 {
    let mut h = 1;
    for &entry in entries {
        let x = if entry < 0 { entry + (1 << 32) } else { entry };
        h = (65599 * h + x as u64) % 4294967291;
    }
    h
}
