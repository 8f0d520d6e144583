//! How likely an exchange fails: small cases by trying everything, the real ones
//! by a plain convolution in floats.

use crate::generator::Generator;
use crate::margins::wide;
use second::failure::exact::{is_prime, primes, Big, Chance, Field};
use second::failure::failure;
use second::failure::frodo::{differing, Set};
use second::failure::newhope::{chances, turned};
use second::polynomial::product;
use second::reconcile::frodo::Rule;
use second::schemes::SIX;
use second::signed::{distance, remainder};
use std::collections::BTreeMap;

#[test]
fn fields() {
    let mut generator = Generator::new(20);
    for field in primes(300) {
        let p = field.p;
        assert!(is_prime(p) && p % (1 << 20) == 1 && p > 1 << 61);
        for _ in 0..100 {
            let (x, y) = (generator.next() % p, generator.next() % p);
            let [a, b] = [x, y].map(|n| field.of(n));
            let product = u128::from(x) * u128::from(y) % u128::from(p);
            assert_eq!(u128::from(field.number(field.times(a, b))), product);
            assert_eq!(field.number(field.plus(a, b)), (x + y) % p);
            assert_eq!(field.plus(field.minus(a, b), b), a);
            assert_eq!(field.times(field.inverse(a), a), field.of(1));
        }
        let all = [1, 2, 3, 5, p - 1].map(|n| field.of(n));
        assert_eq!(field.inverses(&all), all.map(|x| field.inverse(x)));
        let root = field.root(32768);
        assert_eq!(field.number(field.power(root, 16384)), p - 1);
    }
    let small = (0..200).filter(|&p| is_prime(p)).count();
    assert_eq!(small, 46);
    // Products of two primes, and numbers that pass the test for some bases.
    for other in [3215031751, 3825123056546413051, 4294967291 * 4294967279] {
        assert!(!is_prime(other));
    }
    assert!(is_prime(4294967291) && is_prime(18446744073709551557));
}

#[test]
fn whole_numbers_from_remainders() {
    let fields = primes(150);
    for number in [0u128, 1, u128::from(fields[0].p), u128::MAX, 1 << 100] {
        let remainders: Vec<u64> = fields
            .iter()
            .map(|field: &Field| (number % u128::from(field.p)) as u64)
            .collect();
        let mut limbs = Big::from_remainders(&fields, &remainders).0;
        limbs.resize(2, 0);
        assert_eq!(limbs, [number as u64, (number >> 64) as u64]);
    }
    let third = Chance {
        over: Big(vec![0, 0, 1 << 20]),
        bits: 150,
    };
    assert_eq!(third.minus_log(0), "2.00");
    assert_eq!(third.minus_log(1), "1.00");
}

/// All ways in which d of one entry comes out, from every choice of 4n + 1 values:
/// s', e, e', s, n of each in turn, and e''.
fn every_d(set: &Set) -> BTreeMap<i64, u128> {
    let most = set.frequencies.len() as i64 - 1;
    let values: Vec<(i64, u128)> = (-most..=most)
        .map(|value| {
            let often = set.frequencies[value.unsigned_abs() as usize];
            (value, u128::from(often))
        })
        .collect();
    let count = 4 * set.n + 1;
    let mut found = BTreeMap::new();
    for mut choice in 0..values.len().pow(count as u32) {
        let mut drawn = vec![];
        let mut ways = 1;
        for _ in 0..count {
            let (value, often) = values[choice % values.len()];
            drawn.push(value);
            ways *= often;
            choice /= values.len();
        }
        let n = set.n;
        let sum: i64 = (0..n)
            .map(|k| drawn[k] * drawn[n + k] - drawn[2 * n + k] * drawn[3 * n + k])
            .sum();
        *found.entry(sum + drawn[4 * n]).or_default() += ways;
    }
    found
}

/// The chances by trying all values and all v, with 01's rule in its own words.
fn tried(set: &Set) -> [u128; 2] {
    let q = i128::from(set.q);
    let b = (set.q / set.interval).ilog2() as usize;
    let rule = Rule { q, b };
    let (mut beyond, mut differ) = (0, 0);
    for (d, ways) in every_d(set) {
        let d = i128::from(d);
        if distance(d, q) > i128::from(set.interval / 4) {
            beyond += ways;
        }
        let fails = |&v: &i128| rule.peer(remainder(v - d, q), rule.hint(v)) != rule.key(v);
        differ += ways * (0..q).filter(fails).count() as u128;
    }
    [beyond, differ]
}

#[test]
fn small_sets_by_trying_everything() {
    for (n, q, interval, frequencies, bits) in [
        (1, 16, 8, vec![2, 1], 2),
        (2, 16, 8, vec![2, 1], 2),
        (2, 16, 4, vec![4, 2], 3),
        (1, 32, 8, vec![2, 2, 1], 3),
        (1, 64, 16, vec![6, 3, 2], 4),
        (1, 32, 16, vec![4, 3, 2, 1], 4),
        (1, 32, 4, vec![0, 3, 2, 3], 4),
    ] {
        let all: u64 = 2 * frequencies.iter().skip(1).sum::<u64>() + frequencies[0];
        assert_eq!(all, 1 << bits);
        let set = Set {
            n,
            q,
            interval,
            frequencies,
            bits,
        };
        let chance = set.chance();
        let [beyond, differ] = tried(&set);
        let number = |big: &Big| {
            big.0
                .iter()
                .rev()
                .fold(0, |n, &limb| n << 64 | u128::from(limb))
        };
        assert_eq!(chance.beyond.bits, bits * (4 * n as u32 + 1));
        assert_eq!(number(&chance.beyond.over), beyond);
        // v was tried over all q, and counts over half an interval
        let halves = u128::from(q / (interval / 2));
        assert_eq!(number(&chance.differ.over) * halves, differ);
        assert!(beyond > 0);
    }
}

/// How many v fail at a distance, by 01's rule in its own words.
#[test]
fn keys_differ_as_often_as_the_distance_says() {
    for (q, b) in [(16, 1), (32, 1), (32, 2), (64, 3), (128, 4)] {
        let rule = Rule { q, b };
        let interval = rule.interval() as u64;
        for d in 0..q {
            let fails = |&v: &i128| rule.peer(remainder(v - d, q), rule.hint(v)) != rule.key(v);
            let found = (0..q).filter(fails).count() as u64;
            let halves = 2 * q as u64 / interval;
            let t = distance(d, q) as u64;
            assert_eq!(found, halves * differing(interval, t), "{q} {b} {d}");
        }
    }
}

/// The frequencies are those of document 001, table 1, and of 02 for D4.
#[test]
fn frequencies() {
    let expected: [&[u64]; 4] = [
        &[88, 61, 20, 3],
        &[1570, 990, 248, 24, 1],
        &[1206, 919, 406, 104, 15, 1],
        &[19304, 14701, 6490, 1659, 245, 20, 1],
    ];
    for (scheme, frequencies) in SIX[2..].iter().zip(expected) {
        assert_eq!(Set::of(scheme).frequencies, frequencies);
    }
}

/// A plain convolution in floats: how likely each d is, modulo q.
fn in_floats(set: &Set) -> [f64; 2] {
    let q = set.q as usize;
    let all = 2f64.powi(set.bits as i32);
    let most = set.frequencies.len() as i64 - 1;
    let chance = |value: i64| set.frequencies[value.unsigned_abs() as usize] as f64 / all;
    let mut product = BTreeMap::new();
    for x in -most..=most {
        for y in -most..=most {
            *product.entry(x * y).or_insert(0.0) += chance(x) * chance(y);
        }
    }
    let mut d = vec![0.0; q];
    for value in -most..=most {
        d[value.rem_euclid(q as i64) as usize] = chance(value);
    }
    for _ in 0..2 * set.n {
        let mut next = vec![0.0; q];
        for (&value, &p) in &product {
            let by = value.rem_euclid(q as i64) as usize;
            for (x, &before) in d.iter().enumerate() {
                next[(x + by) % q] += p * before;
            }
        }
        d = next;
    }
    let away = |x: usize| x.min(q - x) as u64;
    let sum = |weight: &dyn Fn(u64) -> f64| -> f64 {
        d.iter().enumerate().map(|(x, p)| p * weight(away(x))).sum()
    };
    let half = set.interval as f64 / 2.0;
    [
        sum(&|t| f64::from(t > set.interval / 4)),
        sum(&|t| differing(set.interval, t) as f64 / half),
    ]
}

#[test]
fn challenge_and_classical_in_floats() {
    for scheme in &SIX[2..4] {
        let set = Set::of(scheme);
        let chance = set.chance();
        for (exact, float) in [chance.beyond, chance.differ].iter().zip(in_floats(&set)) {
            let log = exact.over.log() - f64::from(exact.bits);
            assert!((log - float.log2()).abs() < 1e-3, "{log} {}", float.log2());
        }
    }
}

/// Where table 2 of document 001 and its own noise agree, and where they do not.
#[test]
fn the_lines() {
    let lines = failure();
    let schemes: Vec<&str> = lines.iter().map(|line| &line[..16]).collect();
    let expected = ["1", "2", "3", "4", "5"].map(|number| format!("failure scheme={number}"));
    assert_eq!(schemes, expected);
    let under = |line: &str, name: &str| {
        let mut words = line.split(' ').filter_map(|word| word.split_once('='));
        words.find(|word| word.0 == name).unwrap().1.to_string()
    };
    assert_eq!(under(&lines[0], "exchange_beyond"), "2^-98.99");
    let computed: Vec<String> = lines[1..]
        .iter()
        .map(|line| under(line, "exchange_differ"))
        .collect();
    assert_eq!(computed, ["2^-41.80", "2^-37.23", "2^-40.94", "2^-35.81"]);
    let printed: Vec<String> = lines[1..]
        .iter()
        .map(|line| under(line, "printed"))
        .collect();
    assert_eq!(printed, ["2^-41.8", "2^-37.2", "2^-36.5", "2^-35.8"]);
}

// ---- NewHope's bound

/// The sum of four entries of a product with signs is a sum of s M e over the
/// classes modulo n/4, whichever entry and signs: here n is 16.
#[test]
fn four_entries_are_a_sum_over_classes() {
    let mut generator = Generator::new(21);
    let (n, groups) = (16, 4);
    for round in 0..200 {
        let mut draw = || {
            (0..n)
                .map(|_| generator.below(33) as i32 - 16)
                .collect::<Vec<_>>()
        };
        let (s, e) = (draw(), draw());
        // far from 0 modulo q nothing is lost
        let q = 1 << 40;
        let whole = product(&wide(&s), &wide(&e), q);
        let entry = |k: usize| second::signed::nearest_to_zero(whole[k], q);
        let i = round % groups;
        for choice in 0..16 {
            let signs = [0, 1, 2, 3].map(|j| 1 - 2 * (choice >> j & 1));
            let sum: i128 = (0..4)
                .map(|j| i128::from(signs[j]) * entry(i + groups * j))
                .sum();
            let mut classes = 0;
            for r in 0..groups {
                // behind i the two indices sum to one group more, and the signs turn
                let (other, signs) = match r <= i {
                    true => (i - r, signs),
                    false => (i + groups - r, [signs[1], signs[2], signs[3], -signs[0]]),
                };
                let part = |list: &[i32], r: usize| [0, 1, 2, 3].map(|a| list[r + groups * a]);
                let turned = turned(part(&s, r), signs);
                let own = part(&e, other);
                classes += (0..4).map(|b| turned[b] * own[b]).sum::<i32>();
            }
            assert_eq!(sum, i128::from(classes));
        }
    }
}

/// Whichever the signs, the four sums have the same sizes equally often: so the
/// mean over e is the same, since noise has either sign equally often.
#[test]
fn the_law_is_the_same_for_all_signs() {
    let counted = |signs: [i32; 4]| {
        let mut counts: BTreeMap<[i32; 4], u64> = BTreeMap::new();
        for k in 0..7i32.pow(4) {
            let s = [0, 1, 2, 3].map(|a| k / 7i32.pow(a) % 7 - 3);
            let mut sizes = turned(s, signs).map(i32::abs);
            sizes.sort_unstable();
            // a law of s that knows sizes alone
            let weight: i32 = s.iter().map(|x| 10 - x * x).product();
            *counts.entry(sizes).or_default() += weight as u64;
        }
        counts
    };
    let first = counted([1; 4]);
    for choice in 1..16 {
        assert_eq!(
            counted([0, 1, 2, 3].map(|j| 1 - 2 * (choice >> j & 1))),
            first
        );
    }
}

/// All pairs of words, counted by how many ones each has.
#[test]
fn chances_are_the_samplers() {
    let mut ones = [0u64; 17];
    (0..=u16::MAX).for_each(|word| ones[word.count_ones() as usize] += 1);
    let mut pairs = [0u64; 33];
    for (i, x) in ones.iter().enumerate() {
        for (j, y) in ones.iter().enumerate() {
            pairs[16 + i - j] += x * y;
        }
    }
    for (chance, pairs) in chances().iter().zip(pairs) {
        assert_eq!(chance.low.nearly(), pairs as f64 / 2f64.powi(32));
    }
}
