//! docs/AGREEMENT.md, "Worked runs": each run stands where the page says, by
//! d = s'e + e'' - e's, and is lent only values that no call refuses.

use second::margins::{margins, runs, Run};
use second::matrix;
use second::polynomial::product;
use second::schemes::{Family, Scheme};
use second::signed::nearest_to_zero;

/// The run of a scheme by its name.
fn run(number: u64, name: &str) -> Run {
    let named = |run: &Run| run.scheme.number == number && run.name == name;
    runs().into_iter().find(named).unwrap()
}

pub fn wide(values: &[i32]) -> Vec<i128> {
    values.iter().map(|&value| i128::from(value)).collect()
}

/// Each entry of d from the nearest multiple of q, with its sign: of s, e, s',
/// e' and e''.
pub fn d(scheme: &Scheme, lists: &[Vec<i128>; 5]) -> Vec<i128> {
    let (q, n) = (scheme.q, scheme.n);
    let [s, e, s1, e1, e2] = lists;
    let (s1_e, e1_s) = match scheme.family {
        Family::Bcns | Family::NewHope => (product(s1, e, q), product(e1, s, q)),
        Family::Frodo => (
            matrix::product(s1, e, (8, n, 8), q),
            matrix::product(e1, s, (8, n, 8), q),
        ),
    };
    let entry = |i: usize| nearest_to_zero(s1_e[i] + e2[i] - e1_s[i], q);
    (0..e2.len()).map(entry).collect()
}

fn d_of(run: &Run) -> Vec<i128> {
    let lists = [&run.s, &run.e, &run.s1, &run.e1, &run.e2].map(|list| wide(list));
    d(run.scheme, &lists)
}

/// The distances of each group of NewHope, summed.
fn groups(d: &[i128]) -> Vec<i128> {
    let group = |i: usize| (0..4).map(|j| d[i + 256 * j].abs()).sum();
    (0..256).map(group).collect()
}

#[test]
fn the_lines() {
    let mut expected = vec!["bench scheme=0 run=largest agree".to_string()];
    for scheme in 1..6 {
        expected.push(format!("bench scheme={scheme} run=at agree"));
        expected.push(format!("bench scheme={scheme} run=beyond differ=0"));
    }
    assert_eq!(margins(), expected);
}

#[test]
fn all_values_are_within_the_bounds() {
    for run in runs() {
        let scheme = run.scheme;
        assert!(run.a.iter().all(|&number| i128::from(number) < scheme.q));
        for list in [&run.s, &run.e, &run.s1, &run.e1, &run.e2] {
            assert!(wide(list).iter().all(|x| x.abs() <= scheme.largest_noise));
        }
    }
}

#[test]
fn seeds_and_coins() {
    for run in runs() {
        let coin = if run.scheme.number == 0 { 0 } else { 255 };
        assert_eq!(run.coins, vec![coin; run.scheme.coin_bytes()]);
        assert_eq!(run.seed, vec![0; run.scheme.seed_bytes()]);
    }
}

#[test]
fn bcns_is_the_largest_there_is() {
    let d = d_of(&run(0, "largest"));
    let largest = 2 * 1024 * 51 * 51 + 51;
    assert_eq!((d[1023], largest), (5326899, 5326899));
    assert!(d.iter().all(|entry| entry.abs() <= largest));
}

#[test]
fn newhope_sums_to_the_bound_and_one_beyond() {
    for (name, sum) in [("at", 9214), ("beyond", 9215)] {
        let sums = groups(&d_of(&run(1, name)));
        assert_eq!(sums[0], sum);
        assert_eq!(sums[1..].iter().max(), Some(&8905));
    }
}

#[test]
fn frodo_stands_at_the_bound_and_one_beyond() {
    for (number, bound) in [(2, 256), (3, 256), (4, 512), (5, 512)] {
        for (name, t) in [("at", bound), ("beyond", bound + 1)] {
            let mut expected = vec![0; 64];
            expected[0] = t;
            assert_eq!(d_of(&run(number, name)), expected);
        }
    }
}

#[test]
fn frodos_public_numbers_and_noise() {
    for run in runs() {
        if run.scheme.family == Family::Frodo {
            let q = run.scheme.q as usize;
            assert_eq!(run.a[..3], [1, 8, 15]);
            assert_eq!(run.a[q / 8] as usize, (7 * (q / 8) + 1) % q);
            assert!(run.e.iter().all(|&entry| entry == 1));
            assert!(run.s1.iter().chain(&run.e2).all(|&entry| entry == 0));
            assert!(run.e1[run.scheme.n..].iter().all(|&entry| entry == 0));
            assert!((0..run.s.len()).all(|i| i % 8 == 0 || run.s[i] == 0));
        }
    }
}
