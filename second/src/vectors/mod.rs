//! docs/VECTORS.md: every call in every scheme on a good input and with one fault
//! after the other, a line for each case. The lists and the lines are those of the
//! long list.

pub mod draw;

use crate::long::cases::Case;
use crate::long::exchange;
use crate::long::good::{Call, Good, Lists};
use crate::long::input::{Input, Kind};
use crate::long::lines::line;
use crate::long::noise;
use crate::long::run::{self, run};
use crate::noise::bytes_a_value;
use crate::schemes::{Family, Scheme, SIX};
use draw::{drawn, Entries};
use std::thread;

/// A number that no scheme has, and one that no rule has.
const NO_SCHEME: u64 = 6;
const NO_RULE: u32 = 15;

/// Beyond every bound, and 0 modulo q in all schemes but BCNS.
const BEYOND: i64 = 32768 * 12289;

/// All lines in the page's order. The schemes run side by side.
pub fn vectors() -> Vec<String> {
    thread::scope(|scope| {
        let schemes = SIX
            .each_ref()
            .map(|scheme| scope.spawn(|| of_scheme(scheme)));
        let lines = schemes.into_iter().flat_map(|lines| lines.join().unwrap());
        lines.chain(of_no_scheme()).collect()
    })
}

/// The ten cases of each call, then case 10 of each.
pub fn of_scheme(scheme: &'static Scheme) -> Vec<String> {
    let narrow = exchange(&Lists::drawn(scheme)).into_iter();
    let mut lines: Vec<String> = narrow.flat_map(ten).collect();
    lines.extend((0..10).map(|c| of_noise(scheme, scheme.noise_count(), c)));
    let wide = exchange(&Lists::wide(scheme)).into_iter();
    lines.extend(wide.map(|good| line(&good, "10", &run(&good, &good.case()))));
    lines.push(of_noise(scheme, scheme.last_noise_count(), 10));
    lines
}

/// The ten cases of a call of the exchange.
fn ten(mut good: Good) -> Vec<String> {
    let mut lines = vec![];
    for c in 0..10 {
        add_fault(&mut good, c);
        let mut case = Case {
            rooms: good.answers.iter().map(|&r| room(r, c)).collect(),
            ..good.case()
        };
        case.lengths.iter_mut().for_each(|n| *n = length(*n, c));
        if c == 9 {
            case.scheme = NO_SCHEME;
        }
        lines.push(line(&good, &c.to_string(), &run(&good, &case)));
    }
    lines
}

/// The fault of case c that lies in the lists.
fn add_fault(good: &mut Good, c: usize) {
    let q = good.scheme.expect("the exchange has a scheme").q as i64;
    // s, e, s', e', e'' are the lists 0 to 4.
    let mut list = if good.call == Call::Reply { 2 } else { 0 };
    for input in &mut good.inputs {
        match (c, input.kind) {
            (2, Kind::SecretsOrNoise) | (4, Kind::Message { .. }) => input.zero(),
            (3, Kind::SecretsOrNoise) => {
                input.entries[40 - 10 * list] = BEYOND;
                input.entries[50] = BEYOND;
                list += 1;
            }
            (
                5,
                Kind::Message {
                    start,
                    width,
                    count,
                },
            ) => {
                let middle = start + width * count / 16;
                input.entries[middle..middle + 4].fill(255);
            }
            (6, Kind::PublicNumbers) => {
                input.entries[input.n / 2] = q;
                input.entries[input.n - 1] = q;
            }
            _ => {}
        }
    }
}

/// How long an input is in case c.
fn length(n: usize, c: usize) -> usize {
    match c {
        8 | 9 => n + 1,
        _ => n,
    }
}

/// How much room case c has for an answer of r.
fn room(r: usize, c: usize) -> usize {
    match c {
        0 | 10 => r,
        1..=6 => r + 32,
        _ => r - 1,
    }
}

/// A case of Noise for so many values.
fn of_noise(scheme: &'static Scheme, values: usize, c: usize) -> String {
    let words = match scheme.family {
        Family::Bcns => 153,
        Family::NewHope | Family::Frodo => 0,
    };
    let word = |i: usize| match i / 3 {
        entry @ 25.. if (6..10).contains(&c) => (entry as u64) << 58,
        entry => (entry as u64 + 1) << 58,
    };
    let count = length(bytes_a_value(scheme) * values, c);
    let bytes = drawn(100 * scheme.number + 3, Entries::Bytes, count);
    let case = noise::Case {
        scheme: if c == 9 { NO_SCHEME } else { scheme.number },
        bytes: bytes.into_iter().map(|byte| byte as u8).collect(),
        table: (0..length(words, c)).map(word).collect(),
        room: room(values, c),
    };
    let good = on(Call::Noise, Some(scheme), vec![]);
    line(&good, &c.to_string(), &run::noise(&case))
}

/// The ten cases of each call without a scheme.
pub fn of_no_scheme() -> Vec<String> {
    let bytes = drawn(901, Entries::Bytes, 65537);
    let mut lines = vec![];
    for rule in [14, 16] {
        let expand = |rule| Call::Expand { rule };
        let length = |c| match c {
            0 | 1 => 4096,
            8 | 9 => 65537,
            _ => 2000,
        };
        lines.extend(on_bytes(
            &bytes,
            expand(rule),
            expand(NO_RULE),
            length,
            1024,
        ));
    }
    for rule in [14, 16] {
        let grow = |rule| Call::Grow { rule };
        lines.extend(on_bytes(
            &bytes,
            grow(rule),
            grow(NO_RULE),
            |c| length(32, c),
            1024,
        ));
    }
    for hash in [Call::Shake128, Call::Sha3256] {
        let length = |c| if c < 8 { 200 } else { 65537 };
        lines.extend(on_bytes(&bytes, hash, hash, length, 32));
    }
    lines
}

/// The ten cases of a call on bytes, of which the last is another call's.
fn on_bytes(
    bytes: &[i64],
    call: Call,
    other: Call,
    length: impl Fn(usize) -> usize,
    answer: usize,
) -> Vec<String> {
    let of = |c| {
        let case = Case {
            lengths: vec![length(c)],
            rooms: vec![room(answer, c)],
            ..on(call, None, vec![]).case()
        };
        let made = on(if c == 9 { other } else { call }, None, bytes.to_vec());
        line(&on(call, None, vec![]), &c.to_string(), &run(&made, &case))
    };
    (0..10).map(of).collect()
}

/// A call on one input of bytes.
fn on(call: Call, scheme: Option<&'static Scheme>, entries: Vec<i64>) -> Good {
    let input = Input {
        kind: Kind::Bytes,
        n: entries.len(),
        entries,
    };
    Good {
        call,
        scheme,
        inputs: vec![input],
        answers: vec![],
    }
}
