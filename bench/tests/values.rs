//! The kernels' values against the second program's plain rules, on drawn
//! inputs and on the largest ones.

use bench::draw::Draw;
use bench::kernels;
use bench::plain::products;
use second::{matrix, packing, polynomial, transform};

fn wide(xs: &[u32]) -> Vec<i128> {
    xs.iter().map(|&x| x.into()).collect()
}

fn signed(xs: &[i32]) -> Vec<i128> {
    xs.iter().map(|&x| x.into()).collect()
}

fn plus(product: Vec<i128>, e: &[i32], q: i128) -> Vec<i128> {
    product.iter().zip(e).map(|(x, &e)| (x + i128::from(e)).rem_euclid(q)).collect()
}

fn whole(xs: Vec<u32>) -> [u32; 1024] {
    xs.try_into().expect("1,024 numbers")
}

/// X to the k-th.
fn monomial(k: usize) -> [u32; 1024] {
    std::array::from_fn(|i| u32::from(i == k))
}

#[test]
fn transform_of_1_is_all_ones() {
    let mut g = monomial(0);
    kernels::transform_forward(&mut g);
    assert_eq!(g, [1; 1024]);
}

#[test]
fn transform_of_x_begins_7_343() {
    let mut g = monomial(1);
    kernels::transform_forward(&mut g);
    assert_eq!(g[..4], [7, 343, 4518, 180]);
    assert_eq!(wide(&g), transform::transform(&wide(&monomial(1))));
}

#[test]
fn x_to_the_1023_times_x_is_minus_1() {
    let minus_1 = |q: u32| std::array::from_fn::<u32, 1024, _>(|i| if i == 0 { q - 1 } else { 0 });
    let mut a = monomial(1023);
    kernels::transform_product(&mut a, &mut monomial(1));
    assert_eq!(a, minus_1(12289));

    let x: [i32; 1024] = std::array::from_fn(|i| i32::from(i == 1));
    let mut out = [9; 1024];
    kernels::polynomial_multiply(&monomial(1023), &x, &mut out);
    assert_eq!(out, minus_1(u32::MAX));
}

fn newhope(a: [u32; 1024], b: [u32; 1024]) {
    let (f, g) = (wide(&a), wide(&b));
    let (mut x, mut y) = (a, b);
    kernels::transform_forward(&mut x);
    let through = transform::transform(&f);
    assert_eq!(wide(&x), through);
    kernels::transform_inverse(&mut x);
    assert_eq!(x, a);
    kernels::transform_product(&mut x, &mut y);
    assert_eq!(wide(&x), polynomial::product(&f, &g, 12289));
    assert_eq!(wide(&y), transform::transform(&g));
}

#[test]
fn newhope_products() {
    newhope([12288; 1024], [12288; 1024]);
    for seed in 0..10 {
        let mut draw = Draw::new(seed);
        newhope(whole(draw.numbers(1024, 12289)), whole(draw.numbers(1024, 12289)));
    }
}

#[test]
fn remainders_by_folding() {
    let q = u64::from(u32::MAX);
    let near = |x: u64| [x.wrapping_sub(1), x, x.wrapping_add(1)];
    let ends = [0, q, q + 1, 2 * q, q * q, u64::MAX - q, 1 << 63].into_iter().flat_map(near);
    let mut draw = Draw::new(8);
    let (high, low) = (draw.numbers(1024, u32::MAX), draw.numbers(1024, u32::MAX));
    let drawn = high.iter().zip(&low).map(|(&h, &l)| u64::from(h) << 32 | u64::from(l));
    ends.chain(drawn).for_each(|x| assert_eq!(kernels::fold(x), x % q, "{x}"));
}

fn ring(a: &[u32], s: &[i32], e: &[i32]) {
    let q = u32::MAX.into();
    let product = polynomial::product(&wide(a), &signed(s), q);
    let mut out = vec![9; a.len()];
    kernels::polynomial_multiply(a, s, &mut out);
    assert_eq!(wide(&out), product);
    kernels::polynomial_mix(a, s, e, &mut out);
    assert_eq!(wide(&out), plus(product, e, q));
}

#[test]
fn bcns_products() {
    let q = u32::MAX;
    for side in [-51, 51] {
        ring(&[q - 1; 1024], &[side; 1024], &[side; 1024]);
        ring(&[q / 2; 1024], &[side; 1024], &[-side; 1024]);
    }
    for seed in 0..10 {
        let mut draw = Draw::new(seed);
        ring(&draw.numbers(1024, q), &draw.secrets(1024, 51), &draw.secrets(1024, 51));
    }
}

#[test]
fn products_of_other_lengths() {
    let q = u32::MAX;
    for n in [1, 2, 3, 7, 64, 65, 66, 128, 130, 255, 1000] {
        ring(&vec![q - 1; n], &vec![51; n], &vec![-51; n]);
        for seed in 0..7 {
            let mut draw = Draw::new(seed);
            ring(&draw.numbers(n, q), &draw.secrets(n, 51), &draw.secrets(n, 51));
        }
    }
}

fn frodo(n: usize, q: u32, a: &[u32], s: &[i32], e: &[i32]) {
    let m = q.into();
    let mut out = vec![9; 8 * n];
    kernels::matrix_right(q, n, a, s, e, &mut out);
    assert_eq!(wide(&out), plus(matrix::a_s(&wide(a), &signed(s), n, m), e, m));

    kernels::matrix_left(q, n, s, a, e, &mut out);
    assert_eq!(wide(&out), plus(matrix::s1_a(&signed(s), &wide(a), n, m), e, m));

    let mut few = [9; 64];
    kernels::matrix_multiply(q, n, &out, s, &mut few);
    assert_eq!(wide(&few), matrix::b1_s(&wide(&out), &signed(s), n, m));
}

#[test]
fn frodo_products() {
    for (n, q) in [(352, 2048), (592, 4096), (752, 32768), (864, 32768), (8, 8), (9, 32768), (10, 2), (11, 1), (15, 16384)] {
        let mut draw = Draw::new(n as u32);
        frodo(n, q, &draw.numbers(n * n, q), &draw.secrets(8 * n, 6), &draw.secrets(8 * n, 6));
    }
    for side in [-6, 6] {
        frodo(864, 32768, &vec![32767; 864 * 864], &[side; 6912], &[side; 6912]);
    }
}

#[test]
fn packed_numbers() {
    for w in 1..=32 {
        for count in [8, 64, 1024] {
            let most = if w == 32 { u32::MAX } else { 1 << w };
            let xs = Draw::new(w).numbers(count, most);
            let mut bytes = vec![9; w as usize * count / 8];
            kernels::pack(w, &xs, &mut bytes);
            assert_eq!(bytes, packing::pack(&xs, w as usize));
            let mut back = vec![9; count];
            kernels::unpack(w, &bytes, &mut back);
            assert_eq!(back, xs);
        }
    }
}

/// The plain code that products by halves are measured against.
#[test]
fn plain_products() {
    for length in second::products::LENGTHS {
        let mut draw = Draw::new(12);
        let drawn = (draw.numbers(length, u32::MAX), draw.numbers(length, u32::MAX));
        for (a, b) in [drawn, (vec![u32::MAX - 1; length], vec![u32::MAX - 1; length]), (vec![0; length], vec![1; length])] {
            let expected = polynomial::product(&wide(&a), &wide(&b), u32::MAX.into());
            for product in [products::by_terms, products::by_sums] {
                let mut out = vec![7; length];
                product(&a, &b, &mut out);
                assert_eq!(wide(&out), expected);
            }
        }
    }
}
