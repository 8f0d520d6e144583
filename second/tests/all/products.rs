//! 02, request j: the product of two factors, by the plain rule.

use crate::generator::Generator;
use crate::inputs::{numbers, Inputs};
use second::calls::product;
use second::products::{cases, scratch_count, LENGTHS};
use second::refusal::{refusal, Refusal};
use second::schemes::{BCNS, SIX};
use std::collections::BTreeMap;

const Q: u32 = 4294967295;

/// The product; no refusal expected, and the scratch and what lies behind the
/// answer zero.
fn answer(a: &[u32], b: &[u32]) -> Vec<u32> {
    let length = a.len();
    let mut out = vec![0xA5A5A5A5; length + 3];
    let mut scratch = vec![0xA5A5A5A5; 6 * length + 2];
    assert_eq!(product(a, b, &mut out, &mut scratch), Ok(length));
    assert_eq!(scratch, vec![0; scratch.len()]);
    assert_eq!(out[length..], [0; 3]);
    out.truncate(length);
    out
}

/// It refuses so, and zeroes output and scratch.
fn refuses(a: &[u32], b: &[u32], room: usize, scratch: usize, expected: Refusal) {
    let mut out = vec![0xA5A5A5A5; room];
    let mut lent = vec![0xA5A5A5A5; scratch];
    assert_eq!(product(a, b, &mut out, &mut lent), Err(expected));
    assert_eq!(out, vec![0; room]);
    assert_eq!(lent, vec![0; scratch]);
}

/// A factor that begins so, with zeros behind.
fn begins<const N: usize>(length: usize, with: [u32; N]) -> Vec<u32> {
    let mut factor = vec![0; length];
    factor[..N].copy_from_slice(&with);
    factor
}

fn power(length: usize, power: usize) -> Vec<u32> {
    let mut factor = vec![0; length];
    factor[power] = 1;
    factor
}

fn random(generator: &mut Generator, length: usize) -> Vec<u32> {
    numbers(generator, length, BCNS.q)
}

#[test]
fn by_hand() {
    for length in LENGTHS {
        // (1 + 2X)(3 + 4X) = 3 + 10X + 8X^2
        let (a, b) = (begins(length, [1, 2]), begins(length, [3, 4]));
        assert_eq!(answer(&a, &b), begins(length, [3, 10, 8]));
        // (1 - X)(1 + X) = 1 - X^2
        let (a, b) = (begins(length, [1, Q - 1]), begins(length, [1, 1]));
        assert_eq!(answer(&a, &b), begins(length, [1, 0, Q - 1]));
        // (1 - X)(1 + X + .. + X^(L-1)) = 1 - X^L, and X^L is -1.
        assert_eq!(answer(&a, &vec![1; length]), begins(length, [2]));
        // 65535 times 65537 is q.
        let (a, b) = (begins(length, [65535]), begins(length, [65537, 1]));
        assert_eq!(answer(&a, &b), begins(length, [0, 65535]));
        // 2^31 times 2 is q + 1.
        let (a, b) = (begins(length, [1 << 31]), begins(length, [2]));
        assert_eq!(answer(&a, &b), begins(length, [1]));
    }
}

#[test]
fn all_products_of_two_powers() {
    for i in 0..32 {
        for j in 0..32 {
            let mut expected = vec![0; 32];
            expected[(i + j) % 32] = if i + j < 32 { 1 } else { Q - 1 };
            assert_eq!(answer(&power(32, i), &power(32, j)), expected);
        }
    }
}

#[test]
fn the_largest_factors() {
    // Every number is -1. Entry k has k + 1 products below X^L and L - 1 - k
    // beyond.
    for length in LENGTHS {
        let largest = vec![Q - 1; length];
        let entry = |k: i64| (2 * k + 2 - length as i64).rem_euclid(i64::from(Q)) as u32;
        let expected: Vec<u32> = (0..length as i64).map(entry).collect();
        assert_eq!(answer(&largest, &largest), expected);
        // X^(L-1) times X is -1.
        let high = answer(&power(length, length - 1), &power(length, 1));
        assert_eq!(high, begins(length, [Q - 1]));
    }
}

#[test]
fn at_random() {
    let mut generator = Generator::new(140);
    for length in LENGTHS {
        let [a, b] = [0; 2].map(|_| random(&mut generator, length));
        let ab = answer(&a, &b);
        assert_eq!(ab, answer(&b, &a));
        assert!(ab.iter().all(|&number| number < Q));
        assert_eq!(answer(&a, &power(length, 0)), a);
        assert_eq!(answer(&a, &vec![0; length]), vec![0; length]);
        // Times X: all move up by one, the last one around with a minus.
        let mut moved = a.clone();
        moved.rotate_right(1);
        moved[0] = if moved[0] == 0 { 0 } else { Q - moved[0] };
        assert_eq!(answer(&a, &power(length, 1)), moved);
    }
    let [a, b, c] = [0; 3].map(|_| random(&mut generator, 64));
    assert_eq!(answer(&answer(&a, &b), &c), answer(&a, &answer(&b, &c)));
}

#[test]
fn it_is_bcns_own_product() {
    // Offer with e = 0 sends as.
    let mut inputs = Inputs::random(&SIX[0], &mut Generator::new(141));
    inputs.e.fill(0);
    let s: Vec<u32> = inputs
        .s
        .iter()
        .map(|&value| i64::from(value).rem_euclid(i64::from(Q)) as u32)
        .collect();
    let sent: Vec<u8> = answer(&inputs.a, &s)
        .iter()
        .flat_map(|number| number.to_le_bytes())
        .collect();
    assert_eq!(inputs.opening(), sent);
}

#[test]
fn number_2() {
    let all = [vec![0; 4096], vec![Q; 4096]];
    for length in 0..=2100 {
        if LENGTHS.contains(&length) {
            continue;
        }
        for factor in &all {
            let factor = &factor[..length];
            refuses(factor, factor, 2100, 6 * 2100, refusal(2, 0));
            refuses(factor, factor, 0, 0, refusal(2, 0));
        }
    }
    for a in LENGTHS {
        for b in (0..=70).chain([127, 128, 256, 512, 1023, 1024, 1025, 2048]) {
            if a != b {
                refuses(&vec![0; a], &vec![0; b], 2048, 12288, refusal(2, 0));
            }
        }
    }
}

#[test]
fn number_3() {
    for length in LENGTHS {
        assert_eq!(scratch_count(length), 6 * length);
        let factor = vec![Q; length];
        for room in [0, 1, length - 1] {
            refuses(&factor, &factor, room, 6 * length, refusal(3, 0));
        }
        for scratch in [0, 1, length, 6 * length - 1] {
            refuses(&factor, &factor, length, scratch, refusal(3, 0));
            refuses(&factor, &factor, length + 32, scratch, refusal(3, 0));
        }
        let (mut out, mut scratch) = (vec![7; length], vec![7; 6 * length]);
        let ones = vec![1; length];
        assert_eq!(
            product(&ones, &ones, &mut out, &mut scratch),
            Ok(length),
            "just enough"
        );
        assert_eq!(scratch, vec![0; 6 * length]);
    }
}

#[test]
fn number_4() {
    for length in LENGTHS {
        for place in [0, 1, length / 2, length - 1] {
            let (good, mut bad) = (vec![Q - 1; length], vec![Q - 1; length]);
            bad[place] = Q;
            bad[length - 1] = Q;
            let refused = |a: &[u32], b: &[u32], at| {
                refuses(a, b, length + 1, 6 * length + 1, refusal(4, at));
            };
            refused(&bad, &good, place);
            refused(&good, &bad, place);
            // a comes first, wherever b's is.
            let mut first = good.clone();
            first[0] = Q;
            refused(&bad, &first, place);
            refused(&first, &bad, 0);
        }
    }
}

#[test]
fn what_the_cases_have() {
    let all = cases(1);
    let mut seen = BTreeMap::new();
    for case in &all {
        let expected = case.expected();
        assert_eq!(expected.out.len(), case.room);
        match expected.told {
            Ok(count) => {
                assert_eq!(count, case.a.len());
                assert_eq!(expected.out[..count], answer(&case.a, &case.b));
                assert!(expected.out[count..].iter().all(|&number| number == 0));
            }
            Err(_) => assert_eq!(expected.out, vec![0; case.room]),
        }
        let number = expected.told.map_or_else(|refused| refused.number, |_| 0);
        *seen.entry((number, case.a.len())).or_insert(0) += 1;
    }
    for length in LENGTHS {
        for number in [0, 2, 3, 4] {
            assert!(seen[&(number, length)] >= 3, "{number} {length}");
        }
    }
    assert!(all.len() > 400);
    // Equal seeds draw equal factors, and another seed draws others.
    let factors = |seed| cases(seed)[20].a.clone();
    assert_eq!(factors(5), factors(5));
    assert_ne!(factors(5), factors(6));
}
