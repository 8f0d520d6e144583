//! 02, request f: the slack of an entry, the largest, and what Finish and Bench
//! tell of it.

use crate::generator::Generator;
use crate::inputs::Inputs;
use crate::margins::{d, wide};
use second::calls::{bench, finish, Bench};
use second::margins::runs;
use second::reconcile::{bcns, frodo, largest, slack, Slack};
use second::schemes::{Family, Scheme, SIX};
use second::signed::{distance, remainder};

fn frodos() -> [frodo::Rule; 4] {
    [2, 3, 4, 5].map(|scheme| frodo::Rule::of(&SIX[scheme]))
}

fn in_bcns() -> bcns::Rule {
    bcns::Rule::of(&SIX[0])
}

/// How far one has to go from w, either way round, to meet the hint.
fn walked(rule: &frodo::Rule, w: i128, hint: u32) -> i128 {
    let met = |&away: &i128| {
        let both = [w - away, w + away].map(|z| remainder(z, rule.q));
        both.iter().any(|&z| rule.hint(z) == hint)
    };
    (0..rule.q).find(met).unwrap()
}

/// The closed form: t is how far w lies behind the start of a stretch with the
/// hint, and stretches with it come once an interval.
fn closed(rule: &frodo::Rule, w: i128, hint: u32) -> i128 {
    let i = rule.interval();
    let t = remainder(w - i128::from(hint) * i / 2, i);
    if t < i / 2 {
        0
    } else {
        (t - i / 2 + 1).min(i - t)
    }
}

#[test]
fn frodo_by_walking_and_in_closed_form() {
    for rule in frodos() {
        for hint in [0, 1] {
            let having = rule.having(hint);
            // 32,768 searches through 16,384 values are too many for a test.
            let step = if rule.q > 4096 { 61 } else { 1 };
            for w in (0..rule.q).step_by(step) {
                let slack = rule.slack(w, &having);
                assert_eq!(slack, walked(&rule, w, hint));
                assert_eq!(slack, closed(&rule, w, hint));
                assert_eq!(slack == 0, rule.hint(w) == hint);
            }
        }
    }
}

#[test]
fn frodo_reaches_a_quarter_and_no_more() {
    for rule in frodos() {
        let quarter = rule.interval() / 4;
        for hint in [0, 1] {
            let most = (0..rule.q).map(|w| walked(&rule, w, hint)).max();
            assert_eq!(most, Some(quarter));
        }
    }
}

#[test]
fn frodo_around_the_circle() {
    // Scheme 4: stretches of 1,024; the last value, 32,767, has hint 1.
    let rule = &frodos()[2];
    let slack = |w, hint| rule.slack(w, &rule.having(hint));
    assert_eq!(slack(0, 1), 1);
    assert_eq!(slack(510, 1), 511);
    assert_eq!(slack(511, 1), 512);
    assert_eq!(slack(512, 1), 512);
    assert_eq!(slack(513, 1), 511);
    assert_eq!(slack(32767, 0), 1);
    // 01's card: v = 1023 has hint 0.
    assert_eq!((slack(1535, 0), slack(1536, 0)), (512, 512));
}

#[test]
fn bcns_by_looking_at_every_z() {
    for q in (3..=67).step_by(2) {
        let rule = bcns::Rule { q, reach: q / 4 };
        for w in 0..q {
            for hint in [0, 1] {
                let having = (0..2 * q).filter(|&z| rule.hint(z) == hint);
                let least = having.map(|z| distance(2 * w - z, 2 * q)).min();
                assert_eq!(Some(rule.slack(w, hint)), least);
            }
        }
    }
}

#[test]
fn bcns_at_twice_w_around_twice_q() {
    let rule = in_bcns();
    // The stretches start at 0, 2^31, 2^32 - 1 and 3 * 2^31 - 1.
    let starts: Vec<i128> = rule.runs().iter().map(|run| run.first).collect();
    assert_eq!(starts, [0, 1 << 31, (1 << 32) - 1, 3 * (1 << 31) - 1]);
    assert_eq!(rule.slack(0, 1), 1);
    assert_eq!(rule.slack(1, 1), 3);
    assert_eq!(rule.slack(rule.q - 1, 0), 2);
    // Half of 2^30 is farthest from hint 1, and no w is farther from a hint.
    assert_eq!(rule.slack((1 << 29) - 1, 1), 1073741823);
    assert_eq!(rule.slack(1 << 29, 1), 1073741824);
    assert_eq!(rule.slack((1 << 29) + 1, 1), 1073741822);
    let mut generator = Generator::new(70);
    for k in 0..16 {
        for w in (k << 28) - 9..(k << 28) + 9 {
            let w = remainder(w, rule.q);
            assert!([0, 1].iter().all(|&hint| rule.slack(w, hint) <= 1 << 30));
        }
    }
    for _ in 0..1000 {
        let w = i128::from(generator.below(4294967295));
        let own = rule.hint(2 * w);
        assert_eq!(rule.slack(w, own), 0);
        assert!((1..=1 << 30).contains(&rule.slack(w, 1 - own)));
    }
}

#[test]
fn the_largest_and_its_first_index() {
    let told = |largest, index| Slack { largest, index };
    assert_eq!(largest(&[0, 0, 0]), told(0, 0));
    assert_eq!(largest(&[0, 7, 3, 7]), told(7, 1));
    assert_eq!(largest(&[9, 7, 9]), told(9, 0));
    assert_eq!(largest(&[1, 2, 3]), told(3, 2));
}

#[test]
fn newhope_has_none() {
    let hints = [1; 1024];
    assert_eq!(slack(&SIX[1], &[6000; 1024], &hints), Slack::default());
    let inputs = Inputs::random(&SIX[1], &mut Generator::new(71));
    assert_eq!(inputs.bench_with_slack().unwrap().1, Slack::default());
}

/// The largest distance that demand 3 measures; in BCNS twice it and one.
fn bound(inputs: &Inputs) -> u64 {
    let i = inputs;
    let lists = [&i.s, &i.e, &i.s1, &i.e1, &i.e2].map(|list| wide(list));
    let most = d(i.scheme, &lists).iter().map(|d| d.abs()).max().unwrap();
    match i.scheme.family {
        Family::Bcns => 2 * most as u64 + 1,
        Family::NewHope | Family::Frodo => most as u64,
    }
}

fn told_by_both(scheme: &'static Scheme, generator: &mut Generator) -> Slack {
    let inputs = Inputs::random(scheme, generator);
    let (reply, _) = inputs.reply_and_key(&inputs.opening());
    let used = inputs.slack(&reply);
    assert_eq!(inputs.bench_with_slack(), Ok((Bench::Agree, used)));
    assert!(used.largest <= bound(&inputs));
    used
}

#[test]
fn finish_and_bench_tell_one_slack_within_the_bound() {
    for scheme in [&SIX[0], &SIX[2], &SIX[3], &SIX[4]] {
        let mut generator = Generator::new(72 + scheme.number);
        let used = told_by_both(scheme, &mut generator);
        // In BCNS stretches are so long that most exchanges use none.
        if scheme.family == Family::Frodo {
            assert_ne!(used.largest, 0);
        }
    }
}

#[test]
fn the_worked_runs() {
    // Frodo: v is 0 and has hint 0; w is -t and has hint 1. A quarter interval from
    // v it is as far from the hint; one more, and it is nearer to the stretch with
    // hint 0 on the other side.
    for run in runs() {
        let (_, used) = run.bench().unwrap();
        match run.scheme.b {
            Some(b) => {
                let quarter = (run.scheme.q >> b) as u64 / 4;
                assert_eq!((used.largest, used.index), (quarter, 0));
            }
            None if run.scheme.family == Family::NewHope => assert_eq!(used, Slack::default()),
            None => assert!(used.largest <= 2 * 5326899 + 1),
        }
    }
}

#[test]
fn bench_tells_it_where_keys_differ() {
    let differ = runs().into_iter().filter(|run| run.name == "beyond");
    let frodo = differ.filter(|run| run.scheme.family == Family::Frodo);
    for run in frodo {
        let (compared, used) = run.bench().unwrap();
        assert_eq!(compared, Bench::Differ(0));
        assert_ne!(used.largest, 0);
    }
}

#[test]
fn refused_calls_tell_none() {
    let i = Inputs::sparse(&SIX[2]);
    assert!(finish(2, &[0; 3880], &i.s, &mut [0; 8], &mut [0; 32]).is_err());
    let answer = bench(6, &i.a, &i.s, &i.e, &i.seed, &i.s1, &i.e1, &i.e2, &i.coins);
    assert!(answer.is_err());
}
