use crate::generator::Generator;
use second::reconcile::bcns::Rule;
use second::schemes::SIX;
use second::signed::distance;

fn whole() -> Rule {
    Rule::of(&SIX[0])
}

/// The initiator's bit, by looking at every z.
fn looked_up(rule: &Rule, w: i128, hint: u32) -> u32 {
    let near = (0..2 * rule.q)
        .filter(|&z| rule.hint(z) == hint && rule.key(z) == 0)
        .any(|z| distance(2 * w - z, 2 * rule.q) <= rule.reach);
    !near as u32
}

#[test]
fn coins() {
    let rule = whole();
    for v in [1, 1000, 1073741824, 4294967294] {
        assert_eq!(rule.z(v, 0), 2 * v);
        assert_eq!(rule.z(v, 1), 2 * v);
        assert_eq!(rule.z(v, 2), 2 * v - 1);
        assert_eq!(rule.z(v, 3), 2 * v + 1);
    }
    assert_eq!(rule.z(0, 2), 8589934589);
    assert_eq!(rule.z(0, 3), 1);
}

#[test]
fn runs_of_small_moduli_hold_what_they_say() {
    for q in (3..=101).step_by(2) {
        let rule = Rule { q, reach: q / 4 };
        let mut next = 0;
        for run in rule.runs() {
            assert_eq!(run.first, next);
            assert!(run.first <= run.last);
            for z in run.first..=run.last {
                assert_eq!((rule.hint(z), rule.key(z)), (run.hint, run.key));
            }
            next = run.last + 1;
        }
        assert_eq!(next, 2 * q);
    }
}

#[test]
fn small_moduli_by_looking_at_every_z() {
    for q in (3..=67).step_by(2) {
        for reach in 0..q {
            let rule = Rule { q, reach };
            for w in 0..q {
                for hint in [0, 1] {
                    assert_eq!(rule.peer(w, hint), looked_up(&rule, w, hint));
                }
            }
        }
    }
}

#[test]
fn runs_of_the_whole_modulus() {
    let rule = whole();
    let runs = rule.runs();
    assert_eq!(runs[0].first, 0);
    assert_eq!(runs.last().unwrap().last, 2 * rule.q - 1);
    for (run, next) in runs.iter().zip(&runs[1..]) {
        assert_eq!(run.last + 1, next.first);
        assert_ne!((run.hint, run.key), (next.hint, next.key));
    }
    for run in &runs {
        for z in [run.first, (run.first + run.last) / 2, run.last] {
            assert_eq!((rule.hint(z), rule.key(z)), (run.hint, run.key));
        }
    }
    let kinds: Vec<(u32, u32)> = runs.iter().map(|run| (run.hint, run.key)).collect();
    assert_eq!(kinds, [(0, 0), (1, 1), (0, 1), (1, 0)]);
}

#[test]
fn the_edge_lies_at_twice_w() {
    let rule = whole();
    assert_eq!(rule.peer(1610612735, 0), 0);
    assert_eq!(rule.peer(1610612736, 0), 1);
    assert_eq!(rule.peer(0, 0), 0);
    assert_eq!(rule.peer(0, 1), 0);
    assert_eq!(rule.peer(rule.q / 2, 0), 1);
    assert_eq!(rule.peer(rule.q / 2, 1), 1);
}

/// The largest entry that d can have in BCNS: 1024 times two products of noise
/// and one value more.
const FARTHEST: i128 = 1024 * 2 * 51 * 51 + 51;

#[test]
fn both_ends_agree_at_any_noise() {
    let rule = whole();
    let mut generator = Generator::new(20);
    let mut around: Vec<i128> = (0..500)
        .map(|_| i128::from(generator.below(4294967295)))
        .collect();
    for run in rule.runs() {
        for edge in [run.first / 2, run.last / 2] {
            around.extend(edge - 2..=edge + 2);
        }
    }
    let offsets = [-FARTHEST, 1 - FARTHEST, -1, 0, 1, FARTHEST - 1, FARTHEST];
    for v in around {
        let v = v.rem_euclid(rule.q);
        for coin in 0..4 {
            let z = rule.z(v, coin);
            for d in offsets {
                let w = (v - d).rem_euclid(rule.q);
                assert_eq!(rule.peer(w, rule.hint(z)), rule.key(z));
            }
        }
    }
}
