//! Whole runs by rows and damaged states, to hold another program to: one list in
//! every run.

use super::lent::{lay, state_count};
use super::{Call, Carried, Seen, State};
use crate::calls;
use crate::hash::DIGEST;
use crate::schemes::Scheme;
use crate::vectors::draw::{drawn, Entries, Stream};

#[derive(Clone, Copy, Debug, PartialEq, Eq)]
pub enum Which {
    Offer,
    Reply,
}

/// How the rows are cut into parts.
#[derive(Clone, Copy, Debug, PartialEq, Eq)]
pub enum Cut {
    Rows,
    Ones,
    /// All but the last number of a row, then that one.
    AllButOne,
    /// Anywhere, with empty parts among them.
    AtRandom,
}

/// What one end of an exchange lends: its public numbers and its begin.
struct Lent {
    a: Vec<u32>,
    begin: Call,
    /// The outputs of the whole-matrix call, each just as long as its answer.
    whole: Vec<Vec<u8>>,
}

impl Lent {
    fn drawn(scheme: &'static Scheme, which: Which, seed: u64) -> Lent {
        let first = 1000 * seed + 100 * scheme.number;
        let (q, largest) = (scheme.q as i64, scheme.largest_noise as i64);
        let list = |own, entries, count| drawn(first + own, entries, count);
        let values = |own, count| -> Vec<i32> {
            let list = list(own, Entries::ValuesOfAtMost(largest), count);
            list.iter().map(|&value| value as i32).collect()
        };
        let bytes = |own, count| -> Vec<u8> {
            let list = list(own, Entries::Bytes, count);
            list.iter().map(|&byte| byte as u8).collect()
        };
        let a = list(1, Entries::PublicNumbers { q }, scheme.public_count());
        let a: Vec<u32> = a.iter().map(|&number| number as u32).collect();
        let (n, counts) = (scheme.number, scheme.secret_count());
        let (begin, whole) = match which {
            Which::Offer => {
                let (s, e) = (values(2, counts), values(3, counts));
                let seed = bytes(4, scheme.seed_bytes());
                let mut opening = vec![0; scheme.opening_bytes()];
                calls::offer(n, &a, &s, &e, &seed, &mut opening).expect("a good Offer");
                let scheme = n;
                (Call::OfferBegin { scheme, s, e, seed }, vec![opening])
            }
            Which::Reply => {
                let opening = bytes(5, scheme.opening_bytes());
                let (s1, e1) = (values(6, counts), values(7, counts));
                let e2 = values(8, scheme.last_noise_count());
                let [mut m, mut k, mut d] =
                    [scheme.reply_bytes(), scheme.key_bytes, DIGEST].map(|room| vec![0; room]);
                calls::reply(n, &opening, &a, &s1, &e1, &e2, &[], &mut m, &mut k, &mut d)
                    .expect("a good Reply");
                let begin = Call::ReplyBegin {
                    scheme: n,
                    opening,
                    s1,
                    e1,
                    e2,
                };
                (begin, vec![m, k, d])
            }
        };
        Lent { a, begin, whole }
    }
}

/// A good begin.
pub fn begin(scheme: &'static Scheme, which: Which, seed: u64) -> Call {
    Lent::drawn(scheme, which, seed).begin
}

/// A run from begin to end; each call with what its caller sees and the state after
/// it. Where `mixed`, calls that are refused come before some of the parts. Gives the
/// outputs of the end, and those of the whole-matrix call.
pub fn run(
    scheme: &'static Scheme,
    which: Which,
    cut: Cut,
    mixed: bool,
    seed: u64,
    each: &mut impl FnMut(&Call, &Seen, &[u32]),
) -> (Vec<Vec<u8>>, Vec<Vec<u8>>) {
    let lent = Lent::drawn(scheme, which, seed);
    let mut stream = Stream::new(1000 * seed + 9);
    let mut state = vec![0xA5A5A5A5; state_count(scheme)];
    let mut make = |call: &Call| {
        let seen = call.run(&mut state);
        each(call, &seen, &state);
        seen
    };
    make(&lent.begin);
    for (row, numbers) in lent.a.chunks(scheme.n).enumerate() {
        let mut rest = numbers;
        for length in parts(&mut stream, cut, scheme.n) {
            let (part, behind) = rest.split_at(length);
            // Some of the points at which to go wrong: always in the first row and in the
            // last of each sixteen.
            let often = row == 0 || row % 16 == 15 || stream.below(64) == 0;
            // Behind the last number an end is good.
            let over = row + 1 == scheme.n && rest.is_empty();
            if mixed && often && !over && stream.below(4) == 0 {
                for wrong in wrong(&mut stream, scheme, which, part, rest.len()) {
                    make(&wrong);
                }
            }
            make(&part_of(which, part.to_vec()));
            rest = behind;
        }
    }
    if mixed {
        // All rows are there: one number more, an empty part, too little room.
        make(&part_of(which, vec![0]));
        make(&part_of(which, vec![]));
        for at in 0..lent.whole.len() {
            make(&end_of(scheme, which, Some(at)));
        }
        make(&end_of(scheme, other(which), None));
    }
    let end = make(&end_of(scheme, which, None));
    if mixed {
        // The state is zero: there is no begin.
        make(&end_of(scheme, which, None));
        make(&part_of(which, vec![]));
    }
    (end.outputs, lent.whole)
}

/// The lengths of a row's parts.
fn parts(stream: &mut Stream, cut: Cut, n: usize) -> Vec<usize> {
    match cut {
        Cut::Rows => vec![n],
        Cut::Ones => vec![1; n],
        Cut::AllButOne => vec![n - 1, 1],
        Cut::AtRandom => {
            let mut lengths = vec![];
            let mut left = n;
            while left > 0 {
                // Now and then none, seldom all.
                let most = [0, 1, 7, n / 4, n][stream.below(5) as usize];
                let length = stream.below(1 << 20) as usize % (most + 1);
                lengths.push(length.min(left));
                left -= length.min(left);
            }
            lengths.push(0);
            lengths
        }
    }
}

/// Calls that are refused while a part is due and so many numbers are left in the
/// row.
fn wrong(
    stream: &mut Stream,
    scheme: &'static Scheme,
    which: Which,
    part: &[u32],
    left: usize,
) -> Vec<Call> {
    let mut calls = vec![
        part_of(other(which), part.to_vec()),
        end_of(scheme, which, None),
        end_of(scheme, other(which), None),
    ];
    // Past the row, with a number that is too large as well: 11 comes first.
    let mut past = part.to_vec();
    past.resize(left + 1, u32::MAX);
    calls.push(part_of(which, past));
    if let Some(last) = part.len().checked_sub(1) {
        let mut large = part.to_vec();
        large[last] = scheme.q as u32;
        calls.push(part_of(which, large.clone()));
        large[stream.below(1 << 20) as usize % part.len()] = u32::MAX;
        calls.push(part_of(which, large));
    }
    calls
}

fn other(which: Which) -> Which {
    match which {
        Which::Offer => Which::Reply,
        Which::Reply => Which::Offer,
    }
}

fn part_of(which: Which, part: Vec<u32>) -> Call {
    match which {
        Which::Offer => Call::OfferPart(part),
        Which::Reply => Call::ReplyPart(part),
    }
}

/// An end with just the room of its answers; one of the outputs may be short.
fn end_of(scheme: &Scheme, which: Which, short: Option<usize>) -> Call {
    let room = |at, answer: usize| {
        if short == Some(at) {
            answer - 1
        } else {
            answer
        }
    };
    match which {
        Which::Offer => Call::OfferEnd {
            message: room(0, scheme.opening_bytes()),
        },
        Which::Reply => Call::ReplyEnd {
            message: room(0, scheme.reply_bytes()),
            key: room(1, scheme.key_bytes),
            digest: room(2, DIGEST),
        },
    }
}

/// A state in range with any numbers in it from 67 on, behind those held back as
/// well, of which so many numbers of A have come.
pub fn any_state(scheme: &'static Scheme, which: Which, come: usize, seed: u64) -> Vec<u32> {
    let mut stream = Stream::new(1000 * seed + 17);
    // Draws don't reach all of 32 bits at once.
    let mut number = || (stream.below(1 << 16) << 16 | stream.below(1 << 16)) as u32;
    let q = scheme.q as u32;
    let carried = match which {
        Which::Offer => Carried::Seed((0..16).map(|_| number() as u8).collect()),
        Which::Reply => Carried::V((0..64).map(|_| number() % q).collect()),
    };
    let count = scheme.secret_count();
    lay(&State {
        scheme,
        carried,
        come,
        secret: (0..count).map(|_| number() as u16).collect(),
        sums: (0..count).map(|_| number() as u16).collect(),
        held: (0..16 * scheme.n).map(|_| number() as u16).collect(),
    })
}

/// States that are out of range, of another length, or just within range, each a
/// change of one number of a good one.
pub fn damaged(scheme: &'static Scheme, which: Which, come: usize, seed: u64) -> Vec<Vec<u32>> {
    let good = any_state(scheme, which, come, seed);
    let (n, q) = (scheme.n as u32, scheme.q as u32);
    let mut states = vec![good.clone()];
    let mut with = |at: usize, numbers: &[u32]| {
        for &number in numbers {
            let mut state = good.clone();
            state[at] = number;
            states.push(state);
        }
    };
    with(0, &[0, 1, 2, 3, 4, 5, 259, 260, u32::MAX]);
    with(1, &[0, 1, 2, 3, 4, 5, 6, 258, u32::MAX]);
    with(
        2,
        &[
            0,
            1,
            n - 1,
            n,
            8 * n - 1,
            16 * n - 1,
            16 * n,
            n * n - n,
            n * n - 1,
            n * n,
            n * n + 1,
            u32::MAX,
        ],
    );
    for at in [3, 18, 19, 66] {
        with(at, &[0, 1, 255, 256, q - 1, q, u32::MAX]);
    }
    // The first and the last of the secret, of the sums and of the rows held back, and
    // where the next number of A comes to stand: either of the two words there.
    let (secret, sums, held) = (67, 67 + 4 * scheme.n, 67 + 8 * scheme.n);
    for at in [secret, sums - 1, sums, held - 1, held, good.len() - 1] {
        with(at, &[0, 1, q, 65535, 65536, 1 << 31, u32::MAX]);
    }
    let next = held + come % (16 * scheme.n) / 2;
    with(next, &[0, 65535, u32::MAX - 65535, u32::MAX]);
    let mut longer = good.clone();
    longer.push(0);
    states.push(longer);
    for length in [0, 1, 2, 3, 66, 67, good.len() - 1] {
        states.push(good[..length].to_vec());
    }
    states.push(vec![0; good.len()]);
    states.push(vec![u32::MAX; good.len()]);
    states
}
