//! 02, request f: the program that reads a recorded trace.

use crate::line::decimal;
use std::collections::BTreeMap;

/// The most lines that a trace has.
const LINES: usize = 4096;

/// What a trace tells of one scheme.
#[derive(Default)]
struct Seen {
    exchanges: u64,
    sum: u64,
    largest: u64,
}

/// The whole output for the whole input.
pub fn trace(input: &[u8]) -> Vec<u8> {
    let Some(exchanges) = exchanges(input) else {
        return b"refusal=8\n".to_vec();
    };
    // By scheme, lowest first.
    let mut schemes = BTreeMap::<u64, Seen>::new();
    for (scheme, slack) in exchanges {
        let seen = schemes.entry(scheme).or_default();
        seen.exchanges += 1;
        seen.sum += slack;
        seen.largest = seen.largest.max(slack);
    }
    let told = schemes.iter().map(|(scheme, seen)| {
        let Seen {
            exchanges,
            sum,
            largest,
        } = seen;
        format!("scheme={scheme}\nexchanges={exchanges}\nsum={sum}\nlargest={largest}\n")
    });
    told.collect::<String>().into_bytes()
}

/// Scheme and slack of each exchange; none for other text, a missing slack line
/// or too many lines.
fn exchanges(input: &[u8]) -> Option<Vec<(u64, u64)>> {
    let lines: Vec<&[u8]> = input.split_inclusive(|&byte| byte == b'\n').collect();
    if lines.len() > LINES {
        return None;
    }
    lines.chunks(2).map(exchange).collect()
}

/// The line of the scheme, 0 to 5, and the line of the slack.
fn exchange(lines: &[&[u8]]) -> Option<(u64, u64)> {
    let [scheme, slack] = lines else { return None };
    let scheme = number(scheme, "scheme=").filter(|&scheme| scheme <= 5)?;
    Some((scheme, number(slack, "slack=")?))
}

/// The number of an LF-ended line with this name.
pub fn number(line: &[u8], name: &str) -> Option<u64> {
    let digits = line.strip_prefix(name.as_bytes())?.strip_suffix(b"\n")?;
    decimal(digits)
}
