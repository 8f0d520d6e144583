//! 01, "Noise", with request m of 02.

use crate::schemes::{Family, Scheme};
use crate::table::{ENTRIES, WORDS};

const D1: [u32; 3] = [44, 105, 125];
const D2: [u32; 4] = [785, 1775, 2023, 2047];
const D3: [u32; 5] = [603, 1522, 1928, 2032, 2047];
const D4: [u32; 6] = [9652, 24353, 30843, 32502, 32747, 32767];

/// The fixed lengths of random bytes.
pub fn lengths(scheme: &Scheme) -> Vec<usize> {
    match scheme.family {
        Family::Bcns => vec![25600],
        Family::NewHope => vec![4096],
        Family::Frodo => vec![16 * scheme.n, 128],
    }
}

/// The fixed length of the table in words: empty but in BCNS.
pub fn table_words(scheme: &Scheme) -> usize {
    match scheme.family {
        Family::Bcns => WORDS * ENTRIES,
        Family::NewHope | Family::Frodo => 0,
    }
}

/// Bytes that make one value.
pub fn bytes_a_value(scheme: &Scheme) -> usize {
    match scheme.family {
        Family::Bcns => 25,
        Family::NewHope => 4,
        Family::Frodo => 2,
    }
}

/// The values of the random bytes, in BCNS by the table.
pub fn values(scheme: &Scheme, bytes: &[u8], table: &[u64]) -> Vec<i32> {
    let pieces = bytes.chunks_exact(bytes_a_value(scheme));
    match scheme.family {
        Family::Bcns => {
            let entries = entries(table);
            pieces.map(|piece| bcns(piece, &entries)).collect()
        }
        Family::NewHope => pieces.map(newhope).collect(),
        Family::Frodo => pieces.map(|piece| frodo(scheme, word(piece))).collect(),
    }
}

/// A number of 192 bits, its highest byte first: two such compare as their bytes
/// do, from the first on.
pub type Entry = [u8; 24];

/// The entries of a table, three words each, the highest first.
pub fn entries(table: &[u64]) -> Vec<Entry> {
    let entry = |words: &[u64]| {
        let bytes: Vec<u8> = words.iter().flat_map(|word| word.to_be_bytes()).collect();
        bytes.try_into().expect("three words")
    };
    table.chunks_exact(WORDS).map(entry).collect()
}

/// 25 bytes: 24 big-endian make v, and the low bit of the last is the sign, 1
/// for minus. The size is how many entries are at most v.
pub fn bcns(piece: &[u8], entries: &[Entry]) -> i32 {
    let v: Entry = piece[..24].try_into().expect("24 bytes");
    let size = entries.iter().filter(|&&entry| entry <= v).count() as i32;
    if piece[24] % 2 == 1 {
        -size
    } else {
        size
    }
}

/// Four bytes: the ones in the first word less the ones in the second.
pub fn newhope(piece: &[u8]) -> i32 {
    ones(word(&piece[..2])) - ones(word(&piece[2..]))
}

/// A 16-bit word: the sign, then t; its size counts thresholds at most t.
pub fn frodo(scheme: &Scheme, word: u32) -> i32 {
    let (bits, thresholds) = distribution(scheme);
    let t = (word >> 1) % (1 << bits);
    let size = thresholds.iter().filter(|&&at| at <= t).count() as i32;
    if word % 2 == 1 {
        -size
    } else {
        size
    }
}

/// How many bits t has, and the thresholds.
fn distribution(scheme: &Scheme) -> (u32, &'static [u32]) {
    match scheme.number {
        2 => (7, &D1),
        3 => (11, &D2),
        4 => (11, &D3),
        5 => (15, &D4),
        _ => panic!("not a Frodo scheme"),
    }
}

/// Two bytes, little-endian.
fn word(bytes: &[u8]) -> u32 {
    u32::from(bytes[0]) + 256 * u32::from(bytes[1])
}

fn ones(word: u32) -> i32 {
    (0..16).filter(|bit| word >> bit & 1 == 1).count() as i32
}
