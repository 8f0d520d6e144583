use second::schemes::SIX;
use second::signed::{distance, nearest_to_zero, negation, remainder};

/// What defines the two remainders, for one x and q.
fn holds(x: i128, q: i128) {
    let r = remainder(x, q);
    assert!(0 <= r && r < q);
    assert_eq!((x - r) % q, 0);

    let near = nearest_to_zero(x, q);
    assert!(-q <= 2 * near && 2 * near < q);
    assert_eq!((x - near) % q, 0);

    let minus = negation(x, q);
    assert!(-q <= 2 * minus && 2 * minus < q);
    assert_eq!((x + minus) % q, 0);
}

/// The distance, by walking to the nearest multiple on either side.
fn walked(x: i128, q: i128) -> i128 {
    (0..=q)
        .find(|step| (x - step) % q == 0 || (x + step) % q == 0)
        .unwrap()
}

#[test]
fn all_small_numbers() {
    for q in 1..=40 {
        for x in -4 * q - 3..=4 * q + 3 {
            holds(x, q);
            assert_eq!(distance(x, q), walked(x, q));
        }
    }
}

#[test]
fn an_even_q_ties_on_the_minus_side() {
    for q in [2, 4, 6, 2048, 4096, 32768] {
        let half = q / 2;
        assert_eq!(nearest_to_zero(half, q), -half);
        assert_eq!(nearest_to_zero(-half, q), -half);
        assert_eq!(nearest_to_zero(half - 1, q), half - 1);
        assert_eq!(nearest_to_zero(half + 1, q), 1 - half);
        assert_eq!(negation(half, q), -half);
        assert_eq!(negation(-half, q), -half);
        assert_eq!(negation(half - 1, q), 1 - half);
        assert_eq!(distance(half, q), half);
        assert_eq!(distance(-half, q), half);
    }
}

#[test]
fn an_odd_q_has_no_tie() {
    for q in [3, 5, 12289, 4294967295] {
        let half = (q - 1) / 2;
        assert_eq!(nearest_to_zero(half, q), half);
        assert_eq!(nearest_to_zero(half + 1, q), -half);
        assert_eq!(negation(half, q), -half);
        assert_eq!(negation(-half, q), half);
        assert_eq!(distance(half, q), half);
        assert_eq!(distance(half + 1, q), half);
    }
}

#[test]
fn edges_of_every_scheme() {
    for s in &SIX {
        for q in [s.q, 2 * s.q, 8 * s.q] {
            for base in [-2 * q, -q, -q / 2, 0, q / 2, q, 2 * q] {
                for x in base - 3..=base + 3 {
                    holds(x, q);
                    assert_eq!(distance(x, q), distance(-x, q));
                    assert!(2 * distance(x, q) <= q);
                }
            }
        }
    }
}

#[test]
fn negation_undoes_itself_except_at_the_tie() {
    for q in 1..=40 {
        for x in -2 * q..=2 * q {
            assert_eq!(negation(negation(x, q), q), nearest_to_zero(x, q));
            assert_eq!(
                negation(x, q) == -nearest_to_zero(x, q),
                2 * nearest_to_zero(x, q) != -q
            );
        }
    }
}

#[test]
fn a_negative_difference_is_not_cut_toward_zero() {
    let twice_q = 2 * 4294967295;
    let (v, c) = (0, 1);
    assert_eq!(remainder(2 * v - c, twice_q), 8589934589);
    assert_eq!(remainder(-1, 12289), 12288);
    assert_eq!(remainder(-12289, 12289), 0);
    assert_eq!(remainder(-12290, 12289), 12288);
}
