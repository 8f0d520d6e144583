//! The kernels against plain code.

use super::Rows;
use crate::draw::Draw;
use crate::kernels;
use crate::plain::{matrix, packing, polynomial, transform};
use std::hint::black_box;

fn narrow(xs: &[u32]) -> Vec<u16> {
    xs.iter().map(|&x| x as u16).collect()
}

fn wrapped(xs: &[i32]) -> Vec<u16> {
    xs.iter().map(|&x| x as u16).collect()
}

fn newhope(rows: &mut dyn Rows) {
    let mut draw = Draw::new(1);
    let mut numbers = || -> [u32; 1024] { draw.numbers(1024, 12289).try_into().expect("1,024 numbers") };
    let tables = transform::Tables::default();
    let (a, b) = (numbers(), numbers());
    let reversed = |x: &[u32; 1024]| {
        let mut short: [u16; 1024] = narrow(x).try_into().expect("1,024 numbers");
        transform::bit_reverse(&mut short);
        short
    };
    let (mut x, mut y) = (a, b);
    let (mut p, mut r) = (reversed(&a), reversed(&b));
    kernels::transform_product(&mut x, &mut y);
    tables.product(&mut p, &mut r);
    assert!(x.iter().zip(&p).all(|(&x, &p)| x == u32::from(p) % 12289), "the two give one product");

    let method = "Montgomery, Gentleman-Sande";
    rows.row("NewHope, transform", method, &mut || kernels::transform_forward(black_box(&mut x)), &mut || tables.forward(black_box(&mut p)));
    rows.row("NewHope, inverse", method, &mut || kernels::transform_inverse(black_box(&mut x)), &mut || tables.inverse(black_box(&mut p)));
    let mut product = || kernels::transform_product(black_box(&mut x), black_box(&mut y));
    rows.row("NewHope, product", method, &mut product, &mut || tables.product(black_box(&mut p), black_box(&mut r)));
    rows.row("NewHope, product", "one plain transform", &mut product, &mut || tables.forward(black_box(&mut p)));
}

fn bcns(rows: &mut dyn Rows) {
    let q = u32::MAX;
    let mut draw = Draw::new(2);
    let (a, s, e) = (draw.numbers(1024, q), draw.secrets(1024, 51), draw.secrets(1024, 51));
    let (mut x, mut y, mut z, mut h) = ([0; 1024], [0; 1024], [0; 1024], [0; 1024]);
    kernels::polynomial_mix(&a, &s, &e, &mut x);
    polynomial::mix(q, &a, &s, &e, &mut y);
    polynomial::mix_by_windows(q, &a, &s, &e, &mut z);
    polynomial::mix_by_halves(q, &a, &s, &e, &mut h);
    assert!(x == y && x == z && x == h, "all four give one product");

    let mut mix = || kernels::polynomial_mix(black_box(&a), &s, &e, &mut x);
    rows.row("BCNS, as + e", "plain rule", &mut mix, &mut || polynomial::mix(q, black_box(&a), &s, &e, &mut y));
    rows.row("BCNS, as + e", "whole windows, a division an entry", &mut mix, &mut || polynomial::mix_by_windows(q, black_box(&a), &s, &e, &mut z));
    rows.row("BCNS, as + e", "the same halves", &mut mix, &mut || polynomial::mix_by_halves(q, black_box(&a), &s, &e, &mut h));

}

fn remainders(rows: &mut dyn Rows) {
    let q = black_box(u64::from(u32::MAX));
    let mut draw = Draw::new(2);
    let (high, low) = (draw.numbers(1024, u32::MAX), draw.numbers(1024, u32::MAX));
    let numbers: Vec<u64> = high.iter().zip(&low).map(|(&h, &l)| u64::from(h) << 32 | u64::from(l)).collect();
    assert!(numbers.iter().all(|&x| kernels::fold(x) == x % q), "the two give one remainder");

    let (mut x, mut y) = ([0; 1024], [0; 1024]);
    let mut fold = || numbers.iter().zip(&mut x).for_each(|(&n, x)| *x = kernels::fold(n));
    rows.row("BCNS, 1024 remainders", "a division each", &mut fold, &mut || {
        numbers.iter().zip(&mut y).for_each(|(&n, y)| *y = polynomial::remainder(n, q));
    });
}

fn frodo(rows: &mut dyn Rows, n: usize, q: u32, largest: u32) {
    let mask = (q - 1) as u16;
    let mut draw = Draw::new(3);
    let (a, s, e) = (draw.numbers(n * n, q), draw.secrets(8 * n, largest), draw.secrets(8 * n, largest));
    let (a16, s16, e16) = (narrow(&a), wrapped(&s), wrapped(&e));
    let (mut x, mut y) = (vec![0; 8 * n], vec![0; 8 * n]);
    kernels::matrix_right(q, n, &a, &s, &e, &mut x);
    matrix::mix_right(mask, n, &a16, &s16, &e16, &mut y);
    assert_eq!(narrow(&x), y, "the two give one A S + E");
    kernels::matrix_left(q, n, &s, &a, &e, &mut x);
    matrix::mix_left(mask, n, n, &s16, &a16, &e16, &mut y);
    assert_eq!(narrow(&x), y, "the two give one S' A + E'");

    let loops = "16-bit loops";
    let mut right = || kernels::matrix_right(q, n, black_box(&a), &s, &e, &mut x);
    rows.row(&format!("Frodo {n}, A S + E"), loops, &mut right, &mut || matrix::mix_right(mask, n, black_box(&a16), &s16, &e16, &mut y));
    let mut left = || kernels::matrix_left(q, n, &s, black_box(&a), &e, &mut x);
    rows.row(&format!("Frodo {n}, S' A + E'"), loops, &mut left, &mut || matrix::mix_left(mask, n, n, &s16, black_box(&a16), &e16, &mut y));
}

fn packed(rows: &mut dyn Rows, w: u32, count: usize) {
    let xs = Draw::new(4).numbers(count, if w == 32 { u32::MAX } else { 1 << w });
    let bytes = w as usize * count / 8;
    let (mut x, mut y) = (vec![0; bytes], vec![0; bytes]);
    let (mut back, mut again) = (vec![0; count], vec![0u32; count]);
    kernels::pack(w, &xs, &mut x);
    packing::pack(w, &xs, &mut y);
    assert_eq!(x, y, "the two give the same bytes");
    let given = x.clone();

    let word = "a 64-bit accumulator";
    let mut pack = || kernels::pack(w, black_box(&xs), &mut x);
    rows.row(&format!("pack {count} numbers of {w} bits"), word, &mut pack, &mut || packing::pack(w, black_box(&xs), &mut y));
    let mut unpack = || kernels::unpack(w, black_box(&given), &mut back);
    rows.row(&format!("unpack {count} numbers of {w} bits"), word, &mut unpack, &mut || packing::unpack(w, black_box(&given), &mut again));
}

pub fn rows(rows: &mut dyn Rows) {
    newhope(rows);
    bcns(rows);
    remainders(rows);
    frodo(rows, 352, 2048, 3);
    frodo(rows, 864, 32768, 6);
    packed(rows, 14, 1024);
    packed(rows, 32, 1024);
    packed(rows, 15, 6912);
}
