//! 01, "Reconciliation", under "NewHope", as amended by request d of 02
//! (docs/RULES.md).

use crate::schemes::NEWHOPE;
use crate::signed::{distance, remainder};

const Q: i128 = NEWHOPE.q;

/// How many groups there are: group i is entries i, i+256, i+512, i+768.
const GROUPS: usize = NEWHOPE.n / 4;

/// The hints of v, hint j of group i at index i + 256j.
pub fn hints(v: &[i128], coins: &[u32]) -> Vec<u32> {
    let mut answer = vec![0; 4 * GROUPS];
    for i in 0..GROUPS {
        let hint = hint(group(v, i), coins[i]);
        for j in 0..4 {
            answer[i + GROUPS * j] = hint[j];
        }
    }
    answer
}

/// The key bits of v or w, one for each group.
pub fn keys(x: &[i128], hints: &[u32]) -> Vec<u32> {
    let bit = |i| key(group(x, i), group(hints, i));
    (0..GROUPS).map(bit).collect()
}

fn group<T: Copy>(entries: &[T], i: usize) -> [T; 4] {
    [0, 1, 2, 3].map(|j| entries[i + GROUPS * j])
}

/// The hint of one group, with its coin bit.
pub fn hint(x: [i128; 4], coin: u32) -> [u32; 4] {
    let doubled = x.map(|x| 2 * x + i128::from(coin));
    let p = doubled.map(|x| (4 * x + Q) / (2 * Q));
    let q = doubled.map(|x| 2 * x / Q);
    let away: i128 = (0..4).map(|j| (2 * doubled[j] - Q * p[j]).abs()).sum();
    let (k, p) = if away < Q { (0, p) } else { (1, q) };
    let answer = [p[0] - p[3], p[1] - p[3], p[2] - p[3], k + 2 * p[3]];
    answer.map(|h| remainder(h, 4) as u32)
}

/// The key bit of one group at either end: 1 is near, 0 is far.
pub fn key(x: [i128; 4], hint: [u32; 4]) -> u32 {
    let h = hint.map(i128::from);
    let points = [
        8 * x[0] - Q * (2 * h[0] + h[3]),
        8 * x[1] - Q * (2 * h[1] + h[3]),
        8 * x[2] - Q * (2 * h[2] + h[3]),
        8 * x[3] - Q * h[3],
    ];
    let sum: i128 = points.iter().map(|&point| distance(point, 8 * Q)).sum();
    if sum <= 8 * Q {
        1
    } else {
        0
    }
}
