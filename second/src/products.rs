//! 02, request j: the fixed numbers of a product; and products to hold another
//! program to, good and refused, the same in every run.

use crate::calls::product;
use crate::refusal::Refusal;
use crate::schemes::BCNS;
use crate::vectors::draw::Stream;

/// The lengths of factors: 32 times a power of two up to 1024.
pub const LENGTHS: [usize; 6] = [32, 64, 128, 256, 512, 1024];

/// The least scratch for factors of this length.
pub fn scratch_count(length: usize) -> usize {
    6 * length
}

/// Both factors, and how many numbers the output and the scratch have.
#[derive(Clone, Debug)]
pub struct Case {
    pub a: Vec<u32>,
    pub b: Vec<u32>,
    pub room: usize,
    pub scratch: usize,
}

/// What the call tells and all of the output. The scratch is zero.
#[derive(Clone, Debug, PartialEq, Eq)]
pub struct Expected {
    pub told: Result<usize, Refusal>,
    pub out: Vec<u32>,
}

impl Case {
    /// Just the room that the first factor asks.
    fn of(a: Vec<u32>, b: Vec<u32>) -> Case {
        let room = a.len();
        Case {
            a,
            b,
            room,
            scratch: scratch_count(room),
        }
    }

    pub fn expected(&self) -> Expected {
        let mut out = vec![1; self.room];
        let told = product(&self.a, &self.b, &mut out, &mut vec![1; self.scratch]);
        Expected { told, out }
    }
}

/// The number that is the modulus; no larger one has 32 bits.
const Q: u32 = BCNS.q as u32;

/// All cases; another seed has other random factors.
pub fn cases(seed: u64) -> Vec<Case> {
    let mut stream = Stream::new(seed);
    let mut cases = vec![];
    for length in LENGTHS {
        cases.extend(good(&mut stream, length));
        cases.extend(rooms(&mut stream, length));
        cases.extend(numbers(&mut stream, length));
        cases.extend(several(&mut stream, length));
    }
    cases.extend(lengths(&mut stream));
    cases
}

fn random(stream: &mut Stream, length: usize) -> Vec<u32> {
    let number = |_| stream.below(BCNS.q as u64) as u32;
    (0..length).map(number).collect()
}

/// X^power times a number.
fn power(length: usize, power: usize, number: u32) -> Vec<u32> {
    let mut answer = vec![0; length];
    answer[power] = number;
    answer
}

fn good(stream: &mut Stream, length: usize) -> Vec<Case> {
    let last = length - 1;
    let [zero, largest] = [0, Q - 1].map(|number| vec![number; length]);
    let one = |at| power(length, at, 1);
    let mut cases = vec![
        Case::of(zero.clone(), zero.clone()),
        Case::of(zero.clone(), largest.clone()),
        Case::of(largest.clone(), zero),
        Case::of(largest.clone(), largest.clone()),
        Case::of(one(last), one(1)),
        Case::of(one(1), one(last)),
        Case::of(one(last), one(last)),
        Case::of(one(length / 2), one(length / 2)),
        Case::of(one(length / 2 - 1), one(length / 2)),
        Case::of(power(length, last, Q - 1), power(length, last, Q - 1)),
        Case::of(random(stream, length), one(0)),
        Case::of(one(last), random(stream, length)),
        Case::of(largest.clone(), random(stream, length)),
        Case::of(random(stream, length), largest),
    ];
    for _ in 0..8 {
        cases.push(Case::of(random(stream, length), random(stream, length)));
    }
    // Mostly 0, 1 and q - 1.
    for _ in 0..4 {
        let few = [0; 2].map(|_| {
            let number = |x: u32| [0, 0, 0, 1, Q - 1][x as usize % 5];
            random(stream, length).into_iter().map(number).collect()
        });
        let [a, b] = few;
        cases.push(Case::of(a, b));
    }
    cases
}

/// The output's and the scratch's, too short or longer than asked.
fn rooms(stream: &mut Stream, length: usize) -> Vec<Case> {
    let case = Case::of(random(stream, length), random(stream, length));
    let asked = scratch_count(length);
    let mut cases = vec![];
    for room in [0, 1, length - 1, length, length + 1, length + 32] {
        for scratch in [0, length, asked - 1, asked, asked + 1, 2 * asked] {
            cases.push(Case {
                room,
                scratch,
                ..case.clone()
            });
        }
    }
    cases
}

/// A factor's number of q, at the first, a middle and the last index, alone or
/// with others.
fn numbers(stream: &mut Stream, length: usize) -> Vec<Case> {
    let mut cases = vec![];
    for place in [0, 1, length / 2, length - 1] {
        let good = Case::of(random(stream, length), random(stream, length));
        let [mut in_a, mut in_b, mut in_both] = [0; 3].map(|_| good.clone());
        in_a.a[place] = Q;
        in_b.b[place] = Q;
        in_both.a[place] = Q;
        in_both.b[0] = Q;
        let mut again = in_b.clone();
        again.b[length - 1] = Q;
        cases.extend([in_a, in_b, in_both, again]);
    }
    cases
}

/// Lengths before rooms, rooms before numbers.
fn several(stream: &mut Stream, length: usize) -> Vec<Case> {
    let mut all = Case::of(random(stream, length), random(stream, length));
    (all.a[3], all.b[2]) = (Q, Q);
    let short = Case {
        room: length - 1,
        scratch: 0,
        ..all.clone()
    };
    let mut unequal = short.clone();
    unequal.b.pop();
    vec![all, short, unequal]
}

/// Every other length that is near a good one, and factors of unequal lengths.
fn lengths(stream: &mut Stream) -> Vec<Case> {
    let others = [
        0, 1, 2, 4, 8, 16, 31, 33, 48, 63, 65, 96, 127, 129, 160, 255, 257, 384, 511, 513, 768,
        1023, 1025, 2048, 4096,
    ];
    let mut cases = vec![];
    for length in others {
        let a = random(stream, length);
        let b = random(stream, length);
        cases.push(Case {
            room: 4096,
            scratch: 6 * 4096,
            ..Case::of(a.clone(), b.clone())
        });
        cases.push(Case::of(a, b));
    }
    for a in LENGTHS {
        for b in [0, 1, a - 1, a + 1, 2 * a, a / 2, 1024, 32] {
            if a != b {
                let (a, b) = (random(stream, a), random(stream, b));
                cases.push(Case {
                    room: 2048,
                    scratch: 6 * 2048,
                    ..Case::of(a, b)
                });
            }
        }
    }
    cases
}
