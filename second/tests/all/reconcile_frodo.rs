use crate::generator::Generator;
use second::reconcile::frodo::Rule;
use second::schemes::SIX;

fn rules() -> [Rule; 4] {
    [2, 3, 4, 5].map(|scheme| Rule::of(&SIX[scheme]))
}

#[test]
fn intervals() {
    assert_eq!(
        rules().map(|rule| rule.interval()),
        [1024, 1024, 2048, 2048]
    );
    for rule in rules() {
        assert_eq!(rule.interval() / 2 % 2, 0);
    }
}

#[test]
fn hints_and_keys_change_where_they_must() {
    for rule in rules() {
        let half = rule.interval() / 2;
        for v in 0..rule.q {
            // Hints change at each half interval, keys at every odd one.
            assert_eq!(i128::from(rule.hint(v)), v / half % 2);
            let key = (v / half + 1) / 2 % (1 << rule.b);
            assert_eq!(i128::from(rule.key(v)), key);
        }
    }
}

#[test]
fn every_w_of_the_small_moduli() {
    for rule in &rules()[..2] {
        agrees_within_a_quarter(rule, 0..rule.q);
    }
}

#[test]
fn some_w_of_the_large_modulus() {
    let rule = &rules()[2];
    let quarter = rule.interval() / 4;
    let edges = (0..rule.q).step_by(quarter as usize);
    agrees_within_a_quarter(rule, edges.flat_map(|w| w - 1..=w + 1));
    let mut generator = Generator::new(21);
    let random = (0..100).map(|_| i128::from(generator.below(32768)));
    agrees_within_a_quarter(rule, random);
}

/// Each v at most a quarter of an interval from w has the key that w gives
/// with v's hint.
fn agrees_within_a_quarter(rule: &Rule, all_w: impl Iterator<Item = i128>) {
    let quarter = rule.interval() / 4;
    for w in all_w {
        let w = w.rem_euclid(rule.q);
        let peers = [rule.peer(w, 0), rule.peer(w, 1)];
        for d in -quarter..=quarter {
            let v = (w + d).rem_euclid(rule.q);
            assert_eq!(peers[rule.hint(v) as usize], rule.key(v));
        }
    }
}

#[test]
fn beyond_a_quarter_they_may_differ() {
    let rule = &rules()[2];
    assert_eq!(rule.peer(1023 + 512, rule.hint(1023)), rule.key(1023));
    assert_ne!(rule.peer(1023 + 513, rule.hint(1023)), rule.key(1023));
}

#[test]
fn around_the_circle() {
    let rule = &rules()[2];
    assert_eq!((rule.hint(32767), rule.key(32767)), (1, 0));
    assert_eq!(rule.peer(0, 1), 0);
    assert_eq!(rule.peer(511, 1), 0);
    assert_eq!(rule.peer(512, 1), 1);
    assert_eq!(rule.peer(32767, 0), 0);
}

#[test]
fn a_w_with_the_given_hint_has_its_own_key() {
    for rule in rules() {
        for w in (0..rule.q).step_by(97) {
            assert_eq!(rule.peer(w, rule.hint(w)), rule.key(w));
        }
    }
}
