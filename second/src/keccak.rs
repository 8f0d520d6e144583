//! FIPS 202, section 3: the permutation KECCAK-p[1600, 24] on a state array of
//! bits, step by step as the standard has them.

/// Section 3.1: bits of the state, bits of a lane, and the binary logarithm of
/// the latter.
pub const B: usize = 1600;
const W: usize = 64;
const L: usize = 6;

/// Bit A[x, y, z] stands at `[x][y][z]`.
type State = [[[bool; W]; 5]; 5];

/// The state array whose bits are given by x, y and z.
fn each(bit: impl Fn(usize, usize, usize) -> bool) -> State {
    let mut state = [[[false; W]; 5]; 5];
    for (x, sheet) in state.iter_mut().enumerate() {
        for (y, lane) in sheet.iter_mut().enumerate() {
            for (z, place) in lane.iter_mut().enumerate() {
                *place = bit(x, y, z);
            }
        }
    }
    state
}

/// Algorithm 1.
fn theta(a: &State) -> State {
    let c = |x: usize, z: usize| a[x].iter().fold(false, |sum, lane| sum ^ lane[z]);
    let mut d = [[false; W]; 5];
    for (x, plane) in d.iter_mut().enumerate() {
        for (z, bit) in plane.iter_mut().enumerate() {
            *bit = c((x + 4) % 5, z) ^ c((x + 1) % 5, (z + W - 1) % W);
        }
    }
    each(|x, y, z| a[x][y][z] ^ d[x][z])
}

/// Algorithm 2.
fn rho(a: &State) -> State {
    let mut moved = *a;
    let (mut x, mut y) = (1, 0);
    for t in 0..24 {
        let offset = (t + 1) * (t + 2) / 2;
        for z in 0..W {
            moved[x][y][(z + offset) % W] = a[x][y][z];
        }
        (x, y) = (y, (2 * x + 3 * y) % 5);
    }
    moved
}

/// Algorithm 3.
fn pi(a: &State) -> State {
    each(|x, y, z| a[(x + 3 * y) % 5][x][z])
}

/// Algorithm 4.
fn chi(a: &State) -> State {
    each(|x, y, z| a[x][y][z] ^ (!a[(x + 1) % 5][y][z] & a[(x + 2) % 5][y][z]))
}

/// Algorithm 5: rc(t).
fn rc(t: usize) -> bool {
    let mut r = [true, false, false, false, false, false, false, false];
    for _ in 0..t % 255 {
        // 0 || R has nine bits; the last is cut off again.
        let [r0, r1, r2, r3, r4, r5, r6, last] = r;
        r = [last, r0, r1, r2, r3 ^ last, r4 ^ last, r5 ^ last, r6];
    }
    r[0]
}

/// Algorithm 6, in the round with this index.
fn iota(a: &State, round: usize) -> State {
    let mut sum = *a;
    for j in 0..=L {
        sum[0][0][(1 << j) - 1] ^= rc(j + 7 * round);
    }
    sum
}

/// Algorithm 7 with 24 rounds, on a string of 1600 bits: section 3.1.2 has bit
/// A[x, y, z] at 64(5y + x) + z.
pub fn keccak_p(string: &[bool]) -> Vec<bool> {
    assert_eq!(string.len(), B);
    let mut a = each(|x, y, z| string[W * (5 * y + x) + z]);
    for round in 0..24 {
        a = iota(&chi(&pi(&rho(&theta(&a)))), round);
    }
    let bit = |at: usize| a[at / W % 5][at / W / 5][at % W];
    (0..B).map(bit).collect()
}
