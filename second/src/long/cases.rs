//! The cases of each call, in order.

use super::good::{Call, Good, COINS_OF_BENCH, E_OF_BENCH};
use super::input::{Input, Kind};
use crate::schemes::Scheme;
use crate::vectors::draw::{drawn, Entries};

/// How a call is made: with which scheme, which length of each input and room
/// of each output, which inputs zero, and which numbers and hints then made
/// others.
#[derive(Clone)]
pub struct Case {
    pub scheme: u64,
    pub lengths: Vec<usize>,
    pub rooms: Vec<usize>,
    pub zeros: Vec<usize>,
    pub changes: Vec<Change>,
    pub hints: Option<OtherHints>,
}

#[derive(Clone, Copy)]
pub struct Change {
    pub input: usize,
    pub index: usize,
    pub value: i64,
}

/// Every byte of a reply's hints, from what it was.
pub type OtherHints = fn(i64) -> i64;

/// A number that no scheme has.
const NO_SCHEME: u64 = 6;

/// The cases of Offer, Reply, Finish or Bench.
pub fn of_exchange(good: &Good) -> Vec<Case> {
    let scheme = good.scheme.expect("the exchange has a scheme");
    let cases = [
        vec![good.case()],
        lengths(good),
        rooms(good),
        values(scheme, good),
        SEVEN.map(|faults| faults.case(scheme, good)).to_vec(),
        match good.call {
            Call::Bench => vec![eighth(scheme, good)],
            _ => vec![],
        },
    ];
    cases.concat()
}

/// The blank cases of Offer, Reply, Finish or Bench.
pub fn of_blank(good: &Good) -> Vec<Case> {
    let fixed = good.scheme.expect("the exchange has a scheme");
    let (q, beyond) = (fixed.q as i64, fixed.largest_noise as i64 + 1);
    let zero = |zeros: &[usize]| Case {
        zeros: zeros.to_vec(),
        ..good.case()
    };
    // Of an input's n entries the first, the middle or the last is the value.
    let with = |zeros: &[usize], input: usize, at: fn(usize) -> usize, value| {
        let mut case = zero(zeros);
        let index = at(good.inputs[input].n);
        case.changes.push(Change {
            input,
            index,
            value,
        });
        case
    };
    let [first, middle, last]: [fn(usize) -> usize; 3] = [|_| 0, |n| n / 2, |n| n - 1];
    match good.call {
        Call::Offer => {
            let [a, s, e] = [0, 1, 2];
            vec![
                zero(&[s]),
                zero(&[e]),
                zero(&[s, e]),
                with(&[s, e], a, middle, q),
                with(&[s, e], e, last, beyond),
            ]
        }
        Call::Reply => {
            let [opening, a, s1, e1, e2] = [0, 1, 2, 3, 4];
            let mut cases = vec![zero(&[opening])];
            cases.extend(one_byte(good));
            cases.extend([
                with(&[opening], s1, first, beyond),
                with(&[opening], a, middle, q),
                zero(&[s1]),
                zero(&[e1]),
                zero(&[s1, e1]),
                with(&[s1, e1], e2, last, beyond),
                zero(&[s1, e1, opening]),
            ]);
            cases
        }
        Call::Finish => {
            let [reply, s] = [0, 1];
            let mut longer = zero(&[reply]);
            longer.lengths[reply] += 1;
            let mut cases = vec![zero(&[reply])];
            cases.extend(one_byte(good));
            cases.extend([with(&[reply], s, first, beyond), longer]);
            cases
        }
        Call::Bench => {
            let [s, e, s1, e1] = [1, 2, 4, 5];
            vec![
                zero(&[s, e]),
                zero(&[s1, e1]),
                zero(&[s, s1]),
                with(&[s, e], s1, first, beyond),
            ]
        }
        _ => panic!("a call without blank cases"),
    }
}

/// Finish's three cases of the slack: hints that the replier did not send.
pub fn of_slack(good: &Good) -> Vec<Case> {
    let other: [OtherHints; 3] = [|byte| 255 - byte, |_| 0, |_| 255];
    let case = |hints| Case {
        hints: Some(hints),
        ..good.case()
    };
    other.map(case).to_vec()
}

/// The message, the first input, zero but for one byte of its packed part.
fn one_byte(good: &Good) -> [Case; 3] {
    let Kind::Message { width, count, .. } = good.inputs[0].kind else {
        panic!("the first input is a message");
    };
    let m = width * count / 8;
    [0, m / 2, m - 1].map(|byte| {
        // The lowest bit of the byte, in the number that holds it.
        let (index, bit) = (8 * byte / width, 8 * byte % width);
        let mut case = good.case();
        case.zeros.push(0);
        case.changes.push(Change {
            input: 0,
            index,
            value: 1 << bit,
        });
        case
    })
}

/// Lengths or rooms other than the right one.
fn others(right: usize) -> Vec<usize> {
    match right {
        0 => vec![1, 32],
        _ => vec![0, right - 1, right + 1, right + 32],
    }
}

/// Each input in order with each other length.
fn lengths(good: &Good) -> Vec<Case> {
    let mut cases = vec![];
    for (at, input) in good.inputs.iter().enumerate() {
        for length in others(input.n) {
            let mut case = good.case();
            case.lengths[at] = length;
            cases.push(case);
        }
    }
    cases
}

/// Each output in order with each other room.
fn rooms(good: &Good) -> Vec<Case> {
    let mut cases = vec![];
    for (at, &answer) in good.answers.iter().enumerate() {
        for room in others(answer) {
            let mut case = good.case();
            case.rooms[at] = room;
            cases.push(case);
        }
    }
    cases
}

/// Each input of numbers or values in order, at each of three indices, with
/// each value at and beyond its bounds.
fn values(scheme: &Scheme, good: &Good) -> Vec<Case> {
    let mut cases = vec![];
    for (input, lent) in good.inputs.iter().enumerate() {
        let Some(n) = lent.count() else { continue };
        for index in [0, n / 2, n - 1] {
            for value in around_the_bounds(scheme, lent.kind) {
                let mut case = good.case();
                case.changes.push(Change {
                    input,
                    index,
                    value,
                });
                cases.push(case);
            }
        }
    }
    cases
}

fn around_the_bounds(scheme: &Scheme, kind: Kind) -> Vec<i64> {
    let q = scheme.q as i64;
    let b = scheme.largest_noise as i64;
    match kind {
        Kind::PublicNumbers => vec![q - 1, q, 4294967295],
        Kind::Message { width, .. } => vec![q - 1, q.min(all_ones(width)), all_ones(width)],
        Kind::SecretsOrNoise => vec![b, -b, b + 1, -b - 1, 2147483647, -2147483648],
        Kind::Bytes => vec![],
    }
}

/// The largest number of so many bits.
fn all_ones(width: usize) -> i64 {
    (1 << width) - 1
}

/// Several faults at once.
struct Faults {
    scheme: bool,
    lengths: bool,
    rooms: bool,
    /// So many of these are good after all: a, the message, the first input
    /// of secrets.
    good: usize,
}

const SEVEN: [Faults; 7] = [
    faults(true, true, true, 0),
    faults(false, true, true, 0),
    faults(false, false, true, 0),
    faults(false, false, false, 0),
    faults(false, false, false, 1),
    faults(false, false, false, 2),
    faults(false, false, false, 3),
];

const fn faults(scheme: bool, lengths: bool, rooms: bool, good: usize) -> Faults {
    Faults {
        scheme,
        lengths,
        rooms,
        good,
    }
}

impl Faults {
    fn case(&self, scheme: &Scheme, good: &Good) -> Case {
        let mut case = good.case();
        if self.scheme {
            case.scheme = NO_SCHEME;
        }
        if self.lengths {
            case.lengths.iter_mut().for_each(|length| *length += 1);
        }
        if self.rooms {
            case.rooms.fill(0);
        }
        case.changes = self.values(scheme, good);
        case
    }

    /// Two faulty values in each input that is not good after all.
    fn values(&self, scheme: &Scheme, good: &Good) -> Vec<Change> {
        let mut changes = vec![];
        let mut j = 0;
        for (input, lent) in good.inputs.iter().enumerate() {
            let Some(n) = lent.count() else { continue };
            let (turn, first, value) = match lent.kind {
                Kind::PublicNumbers => (0, n / 2, scheme.q as i64),
                Kind::Message { width, .. } => (1, n / 2, all_ones(width)),
                Kind::SecretsOrNoise => (2 + j, j, scheme.largest_noise as i64 + 1),
                Kind::Bytes => continue,
            };
            if let Kind::SecretsOrNoise = lent.kind {
                j += 1;
            }
            if turn >= self.good {
                changes.extend([first, n - 1].map(|index| Change {
                    input,
                    index,
                    value,
                }));
            }
        }
        changes
    }
}

/// Bench's case of a fault at each end. Offer's value comes before Reply's
/// length, although lengths come before values within a call.
fn eighth(scheme: &Scheme, good: &Good) -> Case {
    let mut case = good.case();
    case.lengths[COINS_OF_BENCH] += 1;
    case.changes.push(Change {
        input: E_OF_BENCH,
        index: 1,
        value: scheme.largest_noise as i64 + 1,
    });
    case
}

/// The cases of Expand: by each rule its streams, then by numbers that no rule
/// has.
pub fn of_expand() -> Vec<(Good, Vec<Case>)> {
    let mut cases = vec![];
    for rule in [14, 16] {
        let expand = Call::Expand { rule };
        cases.push(on_bytes(expand, drawn_stream(), &drawn_cases()));
        for word in WORDS {
            let lengths = [2046, 2047, 2048, 2049].map(|length| (length, 1024));
            cases.push(on_bytes(expand, again_and_again(word), &lengths));
        }
    }
    for rule in NO_RULES {
        let faults = [(4096, 1024), (65537, 0)];
        cases.push(on_bytes(Call::Expand { rule }, drawn_stream(), &faults));
    }
    cases
}

/// Numbers that no rule has.
const NO_RULES: [u32; 6] = [0, 1, 13, 15, 17, 4294967295];

/// Words at the bounds of both rules.
const WORDS: [u16; 8] = [12288, 12289, 16383, 16384, 61440, 61444, 61445, 65535];

fn drawn_stream() -> Vec<i64> {
    drawn(901, Entries::Bytes, 65600)
}

/// Lengths and rooms on the drawn stream.
fn drawn_cases() -> Vec<(usize, usize)> {
    let lengths = [
        0, 1, 2, 100, 2047, 2048, 2174, 2175, 2176, 2600, 2668, 2669, 2670, 3000, 4096, 65535,
        65536, 65537, 65600,
    ];
    [
        lengths.map(|length| (length, 1024)).to_vec(),
        [0, 1023, 1025, 1056].map(|room| (4096, room)).to_vec(),
        vec![(65537, 0), (100, 1023), (100, 1056)],
    ]
    .concat()
}

/// The stream of one word, its low byte first, as long as any case has it.
fn again_and_again(word: u16) -> Vec<i64> {
    word.to_le_bytes().map(i64::from).repeat(1025)
}

/// The cases of Grow: by each rule its seeds, then by numbers that no rule has.
pub fn of_grow() -> Vec<(Good, Vec<Case>)> {
    let mut cases = vec![];
    for rule in [14, 16] {
        let grow = Call::Grow { rule };
        for seed in 902..=909 {
            cases.push(on_bytes(
                grow,
                drawn(seed, Entries::Bytes, 32),
                &[(32, 1024)],
            ));
        }
        let faults = [
            [0, 31, 33, 64].map(|length| (length, 1024)).to_vec(),
            [0, 1023, 1025, 1056].map(|room| (32, room)).to_vec(),
            vec![(33, 0)],
        ];
        cases.push(on_bytes(grow, first_seed(), &faults.concat()));
    }
    for rule in NO_RULES {
        let faults = [(32, 1024), (33, 0)];
        cases.push(on_bytes(Call::Grow { rule }, first_seed(), &faults));
    }
    cases
}

/// The first of the seeds, as long as any case has it.
fn first_seed() -> Vec<i64> {
    drawn(902, Entries::Bytes, 64)
}

/// The cases of SHAKE-128, whose room is its answer.
pub fn of_shake128() -> Vec<(Good, Vec<Case>)> {
    let inputs = [
        0, 1, 135, 136, 137, 167, 168, 169, 335, 336, 337, 1000, 65535, 65536, 65537,
    ];
    let outputs = [0, 1, 32, 167, 168, 169, 336, 337, 4032];
    let cases = [
        inputs.map(|length| (length, 200)).to_vec(),
        outputs.map(|room| (32, room)).to_vec(),
    ];
    vec![on_bytes(Call::Shake128, hashed(), &cases.concat())]
}

/// The cases of SHA3-256.
pub fn of_sha3_256() -> Vec<(Good, Vec<Case>)> {
    let inputs = [
        0, 1, 135, 136, 137, 167, 168, 271, 272, 273, 1000, 65535, 65536, 65537,
    ];
    let cases = [
        inputs.map(|length| (length, 32)).to_vec(),
        [0, 31, 33, 64].map(|room| (32, room)).to_vec(),
        vec![(65537, 0)],
    ];
    vec![on_bytes(Call::Sha3256, hashed(), &cases.concat())]
}

/// The input of the hashes, as long as any case has it.
fn hashed() -> Vec<i64> {
    drawn(911, Entries::Bytes, 65537)
}

/// A call without a scheme on one input of bytes, by length and room.
fn on_bytes(call: Call, bytes: Vec<i64>, cases: &[(usize, usize)]) -> (Good, Vec<Case>) {
    let good = Good {
        call,
        scheme: None,
        inputs: vec![Input {
            kind: Kind::Bytes,
            n: bytes.len(),
            entries: bytes,
        }],
        answers: vec![],
    };
    let case = |&(length, room)| Case {
        lengths: vec![length],
        rooms: vec![room],
        ..good.case()
    };
    let cases = cases.iter().map(case).collect();
    (good, cases)
}
