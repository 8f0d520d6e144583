//! SHAKE-128 and SHA3-256 by FIPS 202, the state in one array: each round reads
//! it once and writes it once.

const CONSTANTS: [u64; 24] = [
    0x0000000000000001, 0x0000000000008082, 0x800000000000808a, 0x8000000080008000, 0x000000000000808b, 0x0000000080000001,
    0x8000000080008081, 0x8000000000008009, 0x000000000000008a, 0x0000000000000088, 0x0000000080008009, 0x000000008000000a,
    0x000000008000808b, 0x800000000000008b, 0x8000000000008089, 0x8000000000008003, 0x8000000000008002, 0x8000000000000080,
    0x000000000000800a, 0x800000008000000a, 0x8000000080008081, 0x8000000000008080, 0x0000000080000001, 0x8000000080008008,
];

/// For each lane of row 0, 1, .. after a turn: the lane that it is, and by how
/// many bits it is turned.
const FROM: [[(usize, u32); 5]; 5] = [
    [(0, 0), (6, 44), (12, 43), (18, 21), (24, 14)],
    [(3, 28), (9, 20), (10, 3), (16, 45), (22, 61)],
    [(1, 1), (7, 6), (13, 25), (19, 8), (20, 18)],
    [(4, 27), (5, 36), (11, 10), (17, 15), (23, 56)],
    [(2, 62), (8, 55), (14, 39), (15, 41), (21, 2)],
];

fn permute(a: &mut [u64; 25]) {
    for constant in CONSTANTS {
        let c: [u64; 5] = std::array::from_fn(|x| a[x] ^ a[x + 5] ^ a[x + 10] ^ a[x + 15] ^ a[x + 20]);
        let d: [u64; 5] = std::array::from_fn(|x| c[(x + 4) % 5] ^ c[(x + 1) % 5].rotate_left(1));
        let before = *a;
        for (row, from) in a.chunks_exact_mut(5).zip(&FROM) {
            let b: [u64; 5] = std::array::from_fn(|x| (before[from[x].0] ^ d[from[x].0 % 5]).rotate_left(from[x].1));
            row.iter_mut().enumerate().for_each(|(x, lane)| *lane = b[x] ^ (!b[(x + 1) % 5] & b[(x + 2) % 5]));
        }
        a[0] ^= constant;
    }
}

/// The block, of whole lanes, into the state.
fn absorb(a: &mut [u64; 25], block: &[u8]) {
    for (lane, bytes) in a.iter_mut().zip(block.chunks_exact(8)) {
        *lane ^= u64::from_le_bytes(bytes.try_into().expect("eight bytes"));
    }
    permute(a);
}

fn sponge<const RATE: usize>(suffix: u8, input: &[u8], out: &mut [u8]) {
    let (mut a, blocks) = ([0; 25], input.chunks_exact(RATE));
    let mut last = [0; RATE];
    let rest = blocks.remainder();
    last[..rest.len()].copy_from_slice(rest);
    last[rest.len()] = suffix;
    last[RATE - 1] |= 0x80;
    blocks.for_each(|block| absorb(&mut a, block));
    absorb(&mut a, &last);
    for (k, block) in out.chunks_mut(RATE).enumerate() {
        if k > 0 {
            permute(&mut a);
        }
        for (bytes, lane) in block.chunks_mut(8).zip(&a) {
            bytes.copy_from_slice(&lane.to_le_bytes()[..bytes.len()]);
        }
    }
}

pub fn shake128(input: &[u8], out: &mut [u8]) {
    sponge::<168>(0x1f, input, out);
}

pub fn sha3_256(input: &[u8], out: &mut [u8]) {
    sponge::<136>(0x06, input, out);
}
