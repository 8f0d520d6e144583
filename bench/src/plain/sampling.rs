//! Noise and Expand.

use second::expand::Rule;
use second::schemes::{Family, Scheme};

/// The scheme's noise of the bytes, BCNS's by the table.
pub fn noise(scheme: &Scheme, bytes: &[u8], table: &[u64], out: &mut [i32]) {
    match scheme.family {
        Family::Bcns => bcns(bytes, table, out),
        Family::NewHope => newhope(bytes, out),
        Family::Frodo => frodo(scheme, bytes, out),
    }
}

/// A value of 25 bytes: the number that 24 of them are, in words, and the sign.
fn number(piece: &[u8]) -> ([u64; 3], i32) {
    let word = |k: usize| u64::from_be_bytes(piece[8 * k..8 * k + 8].try_into().expect("eight bytes"));
    ([word(0), word(1), word(2)], -i32::from(piece[24] & 1))
}

/// How many entries are at most v, and a sign: every entry is looked at, each by
/// the borrow of a subtraction over its three words.
pub fn bcns(bytes: &[u8], table: &[u64], out: &mut [i32]) {
    for (piece, value) in bytes.chunks_exact(25).zip(out) {
        let (v, minus) = number(piece);
        let mut size = 0;
        for entry in table.chunks_exact(3) {
            let low = v[2].overflowing_sub(entry[2]).1;
            let (middle, one) = v[1].overflowing_sub(entry[1]);
            let two = middle.overflowing_sub(u64::from(low)).1;
            let (high, one_more) = v[0].overflowing_sub(entry[0]);
            let less = one_more | high.overflowing_sub(u64::from(one | two)).1;
            size += i32::from(!less);
        }
        *value = (size ^ minus) - minus;
    }
}

/// The same by a search that ends at the first entry above v, as a plain program
/// has it: how long it takes tells how large the value is.
pub fn bcns_early(bytes: &[u8], table: &[u64], out: &mut [i32]) {
    for (piece, value) in bytes.chunks_exact(25).zip(out) {
        let (v, minus) = number(piece);
        let above = table.chunks_exact(3).position(|entry| entry > &v[..]);
        let size = above.unwrap_or(table.len() / 3) as i32;
        *value = (size ^ minus) - minus;
    }
}

/// The ones in the first word less those in the second, counted in all four
/// bytes at once.
fn newhope(bytes: &[u8], out: &mut [i32]) {
    for (piece, value) in bytes.chunks_exact(4).zip(out) {
        let t = u32::from_le_bytes([piece[0], piece[1], piece[2], piece[3]]);
        let ones: u32 = (0..8).map(|j| t >> j & 0x01010101).sum();
        let first = (ones & 255) + (ones >> 8 & 255);
        let second = (ones >> 16 & 255) + (ones >> 24);
        *value = first as i32 - second as i32;
    }
}

/// The table of schemes 2 to 5: the bits of t, and the thresholds.
fn frodo(scheme: &Scheme, bytes: &[u8], out: &mut [i32]) {
    match scheme.number {
        2 => by_table(7, &[44, 105, 125], bytes, out),
        3 => by_table(11, &[785, 1775, 2023, 2047], bytes, out),
        4 => by_table(11, &[603, 1522, 1928, 2032, 2047], bytes, out),
        _ => by_table(15, &[9652, 24353, 30843, 32502, 32747, 32767], bytes, out),
    }
}

/// How many thresholds are at most t, and a sign.
fn by_table<const K: usize>(bits: u32, thresholds: &[u16; K], bytes: &[u8], out: &mut [i32]) {
    for (piece, value) in bytes.chunks_exact(2).zip(out) {
        let word = u16::from_le_bytes([piece[0], piece[1]]);
        let t = word >> 1 & ((1 << bits) - 1);
        let size: i32 = thresholds.iter().map(|&at| i32::from(at <= t)).sum();
        let minus = -i32::from(word & 1);
        *value = (size ^ minus) - minus;
    }
}

/// How many numbers were taken. Each rule has a loop of its own.
pub fn expand(rule: Rule, stream: &[u8], out: &mut [u32]) -> usize {
    match rule {
        Rule::LowBits => first(stream, out, |word| Some(word & 0x3fff).filter(|&low| low < 12289)),
        Rule::WholeWord => first(stream, out, |word| (word < 61445).then_some(word % 12289)),
    }
}

fn first(stream: &[u8], out: &mut [u32], number: impl Fn(u16) -> Option<u16>) -> usize {
    let mut taken = 0;
    for pair in stream.chunks_exact(2) {
        if let Some(number) = number(u16::from_le_bytes([pair[0], pair[1]])) {
            out[taken] = u32::from(number);
            taken += 1;
            if taken == out.len() {
                break;
            }
        }
    }
    taken
}
