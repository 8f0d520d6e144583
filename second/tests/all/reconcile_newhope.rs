use crate::generator::Generator;
use second::reconcile::newhope::{hint, hints, key, keys};
use second::signed::remainder;

const Q: i128 = 12289;

fn group(generator: &mut Generator) -> [i128; 4] {
    [0; 4].map(|_| i128::from(generator.below(12289)))
}

#[test]
fn the_centre_and_the_corner() {
    for coin in [0, 1] {
        assert_eq!(hint([0; 4], coin), [0; 4]);
        assert_eq!(key([0; 4], [0; 4]), 1);
    }
    assert_eq!(hint([6144; 4], 0), [0; 4]);
    assert_eq!(key([6144; 4], [0; 4]), 0);
    assert_eq!(hint([1536; 4], 0), [0, 0, 0, 1]);
    assert_eq!(key([1536; 4], [0, 0, 0, 1]), 1);
}

#[test]
fn near_is_1_up_to_8q() {
    // At hint 0 the distances are 8x each: 3072 + 3072 + 3072 + 3073 is q.
    assert_eq!(key([3072, 3072, 3072, 3073], [0; 4]), 1);
    assert_eq!(key([3072, 3072, 3073, 3073], [0; 4]), 0);
    assert_eq!(key([Q - 3072, 3072, Q - 3072, 3073], [0; 4]), 1);
    assert_eq!(key([Q - 3073, 3072, Q - 3072, 3073], [0; 4]), 0);
}

#[test]
fn a_sum_of_exactly_q_is_not_below_q() {
    // |2X - qP| is 6141, 6144, 4, 0 at P = (1, 0, 0, 0): q in all, so k = 1.
    assert_eq!(hint([1537, 1536, 1, 0], 0), [0, 0, 0, 1]);
    // 6137, 6144, 4, 0 is below: k = 0.
    assert_eq!(hint([1538, 1536, 1, 0], 0), [1, 0, 0, 0]);
}

#[test]
fn hints_have_two_bits() {
    let mut generator = Generator::new(22);
    for _ in 0..10000 {
        let coin = generator.below(2) as u32;
        let h = hint(group(&mut generator), coin);
        assert!(h.iter().all(|&h| h < 4));
    }
}

#[test]
fn hint_j_of_group_i_stands_at_i_plus_256_j() {
    let mut generator = Generator::new(23);
    let v: Vec<i128> = (0..1024)
        .map(|_| i128::from(generator.below(12289)))
        .collect();
    let coins: Vec<u32> = (0..256).map(|_| generator.below(2) as u32).collect();
    let all = hints(&v, &coins);
    let bits = keys(&v, &all);
    for i in 0..256 {
        let x = [v[i], v[i + 256], v[i + 512], v[i + 768]];
        let h = [all[i], all[i + 256], all[i + 512], all[i + 768]];
        assert_eq!(h, hint(x, coins[i]));
        assert_eq!(bits[i], key(x, h));
    }
}

/// Four distances that sum to exactly the given one.
fn split(generator: &mut Generator, total: i128) -> [i128; 4] {
    let mut cuts = [0; 3].map(|_| i128::from(generator.below(total as u64 + 1)));
    cuts.sort();
    let [a, b, c] = cuts;
    [a, b - a, c - b, total - c]
}

/// v, and w farther by the given distances to either side.
fn moved(generator: &mut Generator, v: [i128; 4], by: [i128; 4]) -> [i128; 4] {
    [0, 1, 2, 3].map(|j| {
        let d = if generator.below(2) == 0 {
            by[j]
        } else {
            -by[j]
        };
        remainder(v[j] - d, Q)
    })
}

#[test]
fn both_ends_agree_up_to_9214() {
    let mut generator = Generator::new(24);
    for round in 0..200000 {
        let v = group(&mut generator);
        let total = if round % 2 == 0 { 9214 } else { 9000 };
        let parts = split(&mut generator, total);
        if parts.iter().any(|&part| 2 * part >= Q) {
            continue;
        }
        let w = moved(&mut generator, v, parts);
        for coin in [0, 1] {
            let h = hint(v, coin);
            assert_eq!(key(v, h), key(w, h));
        }
    }
}

#[test]
fn far_beyond_they_differ_somewhere() {
    let mut generator = Generator::new(25);
    let mut differing = 0;
    for _ in 0..1000 {
        let v = group(&mut generator);
        let w = moved(&mut generator, v, [3072; 4]);
        let h = hint(v, 0);
        differing += (key(v, h) != key(w, h)) as u32;
    }
    assert!(differing > 0);
}

#[test]
fn a_coin_of_1_adds_to_the_doubled_value() {
    // X is 3072 or 3073; the change of P lies between them.
    assert_eq!(hint([1536, 0, 0, 0], 0), [0, 0, 0, 0]);
    assert_eq!(hint([1536, 0, 0, 0], 1), [1, 0, 0, 0]);
    assert_eq!(hint([0, 0, 1536, 0], 1), [0, 0, 1, 0]);
    // In the last place the others are less by it, and it counts twice.
    assert_eq!(hint([0, 0, 0, 1536], 0), [0, 0, 0, 0]);
    assert_eq!(hint([0, 0, 0, 1536], 1), [3, 3, 3, 2]);
}
