use crate::generator::Generator;
use second::polynomial::{product, sum};
use second::schemes::SIX;
use second::signed::remainder;

fn unit(n: usize, power: usize) -> Vec<i128> {
    let mut answer = vec![0; n];
    answer[power] = 1;
    answer
}

fn random(generator: &mut Generator, n: usize, q: i128) -> Vec<i128> {
    let entry = |_| i128::from(generator.below(q as u64));
    (0..n).map(entry).collect()
}

/// The product of twice the length first, the upper half taken off after.
fn long_way(f: &[i128], g: &[i128], q: i128) -> Vec<i128> {
    let n = f.len();
    let mut long = vec![0; 2 * n];
    for i in 0..n {
        for j in 0..n {
            long[i + j] = remainder(long[i + j] + f[i] * g[j], q);
        }
    }
    (0..n)
        .map(|i| remainder(long[i] - long[i + n], q))
        .collect()
}

#[test]
fn x_1023_times_x_is_minus_one() {
    for s in &SIX[..2] {
        let mut minus_one = vec![0; 1024];
        minus_one[0] = s.q - 1;
        let (high, x) = (unit(1024, 1023), unit(1024, 1));
        assert_eq!(product(&high, &x, s.q), minus_one);
        assert_eq!(product(&x, &high, s.q), minus_one);
    }
}

#[test]
fn all_products_of_two_powers() {
    let (n, q) = (8, 17);
    for i in 0..n {
        for j in 0..n {
            let mut answer = vec![0; n];
            answer[(i + j) % n] = if i + j < n { 1 } else { q - 1 };
            assert_eq!(product(&unit(n, i), &unit(n, j), q), answer);
        }
    }
}

#[test]
fn a_product_by_hand() {
    // (1 + 2X)(3 + 4X) = 3 + 10X + 8X^2, and X^2 is -1.
    assert_eq!(product(&[1, 2], &[3, 4], 17), [12, 10]);
    assert_eq!(product(&[1, 2], &[-3, 4], 17), [6, 15]);
}

#[test]
fn agrees_with_the_long_way() {
    let mut generator = Generator::new(3);
    for s in &SIX[..2] {
        let f = random(&mut generator, 1024, s.q);
        let g = random(&mut generator, 1024, s.q);
        let answer = product(&f, &g, s.q);
        assert_eq!(answer, long_way(&f, &g, s.q));
        assert_eq!(answer, product(&g, &f, s.q));
    }
}

#[test]
fn one_and_zero() {
    let mut generator = Generator::new(4);
    let f = random(&mut generator, 1024, 12289);
    assert_eq!(product(&f, &unit(1024, 0), 12289), f);
    assert_eq!(product(&f, &vec![0; 1024], 12289), vec![0; 1024]);
    assert_eq!(sum(&f, &vec![0; 1024], 12289), f);
}

#[test]
fn distributes() {
    let mut generator = Generator::new(5);
    let q = 4294967295;
    let [f, g, h] = [0; 3].map(|_| random(&mut generator, 32, q));
    let left = product(&f, &sum(&g, &h, q), q);
    let right = sum(&product(&f, &g, q), &product(&f, &h, q), q);
    assert_eq!(left, right);
}

#[test]
fn a_sum_is_reduced() {
    assert_eq!(sum(&[16, 0, 5], &[1, -1, 5], 17), [0, 16, 10]);
}
