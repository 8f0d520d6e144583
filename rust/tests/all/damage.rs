//! Ways in which an input or an output's room goes wrong.

use crate::generator::Generator;
use std::ops::Range;

fn one_of<T: Copy>(g: &mut Generator, ways: &[T]) -> T {
    ways[g.below(ways.len() as u64) as usize]
}

fn index(g: &mut Generator, length: usize) -> usize {
    g.below(length as u64) as usize
}

/// Another length than the input has.
pub fn length<T: Copy + Default>(g: &mut Generator, input: &mut Vec<T>) {
    let n = input.len();
    let other = [0, n.saturating_sub(1), n + 1, n / 2, n + 13];
    input.resize(one_of(g, &other), T::default());
}

/// A public number of q or more.
pub fn public(g: &mut Generator, a: &mut [u32], q: u32) {
    if !a.is_empty() {
        let at = index(g, a.len());
        a[at] = one_of(g, &[q, q.saturating_add(1), u32::MAX]);
    }
}

/// A value beyond the largest noise.
pub fn secret(g: &mut Generator, s: &mut [i32], largest: i32) {
    if !s.is_empty() {
        let at = index(g, s.len());
        s[at] = one_of(g, &[largest + 1, -largest - 1, i32::MAX, i32::MIN]);
    }
}

/// Some bytes of a message changed, or a number of it as large as can be.
pub fn message(g: &mut Generator, bytes: &mut [u8]) {
    if bytes.is_empty() {
        return;
    }
    if g.below(2) == 0 {
        for _ in 0..=g.below(4) {
            let at = index(g, bytes.len());
            bytes[at] = g.byte();
        }
    } else {
        let at = index(g, bytes.len()) / 4 * 4;
        let end = bytes.len().min(at + 4);
        bytes[at..end].fill(0xFF);
    }
}

/// The packed part of a message zero, or zero but for one byte.
pub fn blank(g: &mut Generator, bytes: &mut [u8], packed: Range<usize>) {
    let end = packed.end.min(bytes.len());
    if packed.start < end {
        let part = &mut bytes[packed.start..end];
        part.fill(0);
        let at = index(g, part.len());
        part[at] = one_of(g, &[0, 0, 1, 128]);
    }
}

/// A secret and its noise zero, or zero but for one value.
pub fn zero(g: &mut Generator, s: &mut [i32], e: &mut [i32]) {
    s.fill(0);
    e.fill(0);
    let one = if g.below(4) == 0 { s } else { e };
    if !one.is_empty() {
        let at = index(g, one.len());
        one[at] = one_of(g, &[0, 0, 1, -1]);
    }
}

/// An entry of a table equal to its forerunner, just above or below it, or any
/// word changed.
pub fn table(g: &mut Generator, table: &mut [u64]) {
    if table.len() < 6 {
        return;
    }
    let at = 3 + index(g, table.len() / 3 - 1) * 3;
    if g.below(4) == 0 {
        table[at] = g.next();
        return;
    }
    table.copy_within(at - 3..at, at);
    table[at + 2] = table[at + 2].wrapping_add(one_of(g, &[0, 1, u64::MAX]));
}

/// Less room than the answer takes, just enough, or more.
pub fn room(g: &mut Generator, answer: usize) -> usize {
    let rooms = [0, answer - 1, answer, answer + 1, answer + 77];
    one_of(g, &rooms)
}

/// A number that names no rule, or any other.
pub fn rule(g: &mut Generator) -> u32 {
    one_of(g, &[14, 16, 0, 1, 13, 15, 17, 1 << 31, u32::MAX])
}

/// A number that names no scheme, or any other.
pub fn scheme(g: &mut Generator) -> u32 {
    one_of(g, &[0, 1, 2, 3, 4, 5, 6, 7, 255, 256, 1 << 31, u32::MAX])
}
